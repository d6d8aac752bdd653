//! The story of examples/c/story.c, with the crate hlcstore of bindings/rust.

use hlcstore::{Error, Item, KeyRange, Node, Result, Snapshot, Stamp, Store, VacuumPart, Vacuumed, Version};

fn at(physical: u64) -> Stamp {
    Stamp::new(physical, 0)
}

fn hex(bytes: &[u8]) -> String {
    bytes.iter().map(|byte| format!("{byte:02x}")).collect()
}

fn line(what: &str, answer: Result<()>) {
    println!("{what} {}", answer.err().map_or(0, Error::code));
}

fn print_answer(what: &str, answer: Result<u64>) {
    match answer {
        Ok(value) => println!("{what} 0 {value}"),
        Err(error) => println!("{what} {} {}", error.code(), error.word()),
    }
}

fn print_two(what: &str, answer: Result<(u64, u64)>) {
    match answer {
        Ok((first, second)) => println!("{what} 0 {first} {second}"),
        Err(error) => println!("{what} {} 0 {}", error.code(), error.word()),
    }
}

fn print_bytes(what: &str, answer: Result<Vec<u8>>) {
    match answer {
        Ok(bytes) => println!("{what} 0 {} {}", bytes.len(), hex(&bytes)),
        Err(error) => println!("{what} {} 0 ", error.code()),
    }
}

fn print_issued(what: &str, issued: &Result<Item>) {
    print_two(what, issued.map(|item| (item.number, item.stamp.to_bits())));
}

fn print_vacuumed(vacuumed: &Vacuumed) {
    print_two("kept", Ok((vacuumed.kept, vacuumed.bytes)));
    print_answer("dropped", Ok(vacuumed.dropped));
}

// Makes the certificate of the rows at or below a stamp.
fn certificate(store: &Store, stamp: Stamp) -> Option<String> {
    let made = store.certificate(stamp);
    print_two("certificate", made.as_ref().map(|made| (made.certificate.len() as u64, 0)).map_err(|error| *error));
    let made = made.ok()?;
    print_two("kept", Ok((made.kept, made.bytes)));
    Some(made.certificate)
}

// Asks a snapshot, and keeps it open.
fn ask<T>(store: &Store, id: u64, question: impl FnOnce(&Snapshot<&Store>) -> Result<T>) -> Result<T> {
    let snapshot = store.snapshot_by_id(id)?;
    let answer = question(&snapshot);
    snapshot.keep();
    answer
}

fn open_at_floor(store: &Store) {
    let opened = store.snapshot().map(|snapshot| (snapshot.stamp(), snapshot.keep()));
    print_two("snapshot", opened.map(|(stamp, id)| (id, stamp.to_bits())));
}

fn read(store: &Store, id: u64, key: &[u8]) {
    match ask(store, id, |snapshot| snapshot.get(key)).transpose() {
        None => println!("read 102 0 "),
        Some(value) => print_bytes("read", value),
    }
}

fn accept(store: &Store, item: Item) {
    print_answer("accept", store.accept(item).map(|()| item.stamp.to_bits()));
}

// Lets a node issue a write, and the store accept it.
fn write(store: &Store, node: &mut Node, reading: u64, key: &[u8], value: &[u8]) {
    let issued = node.write(reading, key, value);
    print_issued("write", &issued);
    if let Ok(item) = issued {
        accept(store, item);
    }
}

fn report(store: &Store, node: &mut Node, reading: u64) {
    let issued = node.report(reading);
    print_issued("report", &issued);
    accept(store, issued.unwrap());
}

fn list(store: &Store, id: u64) {
    let listed = ask(store, id, |snapshot| snapshot.scan(.., 64));
    print_bytes("list", listed.map(|page| page.as_bytes().to_vec()));
}

fn print_part(what: &str, bytes: &[u8], many: usize, has_more: bool) {
    println!("{what} {} {} {many} {}", if has_more { 104 } else { 0 }, bytes.len(), hex(bytes));
}

// Prints the pairs of a range, as many as fit in so many bytes.
fn scan(store: &Store, id: u64, range: impl KeyRange, room: usize) {
    match ask(store, id, |snapshot| snapshot.scan(range, room)) {
        Ok(page) => print_part("scan", page.as_bytes(), page.len(), page.has_more()),
        Err(error) => println!("scan {} 0 0 ", error.code()),
    }
}

// The same from the end of the range.
fn scan_back(store: &Store, id: u64, range: impl KeyRange, room: usize) {
    match ask(store, id, |snapshot| snapshot.scan_back(range, room)) {
        Ok(page) => print_part("back", page.as_bytes(), page.len(), page.has_more()),
        Err(error) => println!("back {} 0 0 ", error.code()),
    }
}

// Some bytes with their length before them, as the library writes them.
fn sized(bytes: &[u8]) -> Vec<u8> {
    [&(bytes.len() as u64).to_le_bytes(), bytes].concat()
}

fn answer(value: &Option<Vec<u8>>) -> Vec<u8> {
    value.as_ref().map_or(vec![0], |value| [vec![1], sized(value)].concat())
}

// Prints what changes from one snapshot to another. The call of C writes what fits in so many bytes. Here the changes
// are an iterator, and this puts their bytes together.
fn changes(store: &Store, before: u64, after: u64, range: impl KeyRange, room: usize) {
    let listed = ask(store, before, |before| {
        ask(store, after, |after| before.changes(after, range).collect::<Result<Vec<_>>>())
    });
    let entries: Vec<_> = match listed {
        Ok(listed) => listed.iter().map(|(key, value)| [sized(key), answer(value)].concat()).collect(),
        Err(error) => return println!("changes {} 0 0 ", error.code()),
    };
    let (mut bytes, mut many) = (Vec::new(), 0);
    while many < entries.len() && bytes.len() + entries[many].len() <= room {
        bytes.extend(&entries[many]);
        many += 1;
    }
    print_part("changes", &bytes, many, many < entries.len());
}

// Prints the rows of a key above one stamp and at or below another.
fn versions(store: &Store, key: &[u8], above: Stamp, to: Stamp) {
    let versions = store.versions(key, above, to).unwrap();
    let row = |row: &Version| {
        let (stamp, node) = (row.stamp.to_bits().to_le_bytes(), row.node.to_le_bytes());
        [&stamp[..], &node, &answer(&row.value)].concat()
    };
    let bytes: Vec<u8> = versions.iter().flat_map(row).collect();
    print_part("versions", &bytes, versions.len(), false);
}

fn scan_keys(store: &Store, id: u64, room: usize) {
    match ask(store, id, |snapshot| snapshot.scan_keys(.., room)) {
        Ok(page) => print_part("scan", page.as_bytes(), page.len(), page.has_more()),
        Err(error) => println!("scan {} 0 0 ", error.code()),
    }
}

// Reads two keys. The call of C writes the answers that fit in so many bytes, and returns this code after the last.
// Here the answers are a list, and this puts their bytes together.
fn read_all(store: &Store, id: u64, room: usize, code: u32) {
    let values = match ask(store, id, |snapshot| snapshot.get_many(&[b"city", b"town"])) {
        Ok(values) => values,
        Err(error) => return println!("read all {} 0 0 ", error.code()),
    };
    let (mut bytes, mut many) = (Vec::new(), 0);
    for value in values {
        let answer = answer(&value);
        if bytes.len() + answer.len() <= room {
            bytes.extend(answer);
            many += 1;
        }
    }
    println!("read all {code} {} {many} {}", bytes.len(), hex(&bytes));
}

fn print_sizes(store: &Store) {
    match store.sizes() {
        Ok(sizes) => println!("sizes 0 {} {} {} {}", sizes.rows, sizes.keys, sizes.key_bytes, sizes.value_bytes),
        Err(error) => println!("sizes {} 0 0 0 0", error.code()),
    }
}

fn opened(store: &Store, place: usize) {
    match store.snapshots().unwrap().get(place) {
        Some(open) => println!("opened 0 {} {}", open.id, open.stamp.to_bits()),
        None => println!("opened 117 0 0"),
    }
}

// Lists parts of snapshots, what changes between them and the rows of a key, and asks what the store has.
fn look_round(store: &Store) {
    scan(store, 2, .., 64);
    scan(store, 1, "a".."d", 64);
    scan(store, 1, "a".., 24);
    scan(store, 1, "d".., 64);
    scan(store, 3, .., 64);
    scan_keys(store, 1, 12);
    scan_keys(store, 1, 11);
    scan_keys(store, 3, 64);
    scan_back(store, 2, .., 64);
    scan_back(store, 1, "a".."d", 64);
    scan_back(store, 1, .., 24);
    scan_back(store, 1, .."city", 64);
    scan_back(store, 3, .., 64);
    changes(store, 1, 2, .., 64);
    changes(store, 2, 1, .., 64);
    changes(store, 1, 2, .., 13);
    changes(store, 1, 2, "d".., 64);
    changes(store, 1, 1, .., 64);
    changes(store, 1, 3, .., 64);
    versions(store, b"city", Stamp::ZERO, Stamp::from_bits(u64::MAX));
    versions(store, b"city", at(10), Stamp::from_bits(at(21).to_bits() - 1));
    versions(store, b"lake", Stamp::ZERO, Stamp::from_bits(u64::MAX));
    print_bytes("digest", ask(store, 1, |snapshot| snapshot.digest(..)).map(Vec::from));
    print_bytes("digest", ask(store, 1, |snapshot| snapshot.digest("d"..)).map(Vec::from));
    print_bytes("digest", ask(store, 3, |snapshot| snapshot.digest(..)).map(Vec::from));
    read_all(store, 1, 64, 0);
    read_all(store, 1, 14, 104);
    // C reads a third key here, which lies outside of its bytes. A slice has all its bytes.
    read_all(store, 1, 64, 103);
    read_all(store, 3, 64, 0);
    print_answer("count", ask(store, 1, |snapshot| snapshot.count("a".."d")));
    print_answer("count", ask(store, 3, |snapshot| snapshot.count("a".."d")));
    print_answer("horizon", store.horizon().map(Stamp::to_bits));
    print_answer("nodes", store.nodes());
    for node in 0..3 {
        match store.link(node) {
            Ok(link) => println!("link 0 {} {} {}", link.next_number, link.head.to_bits(), link.is_retired as u8),
            Err(error) => println!("link {} 0 0 0", error.code()),
        }
    }
    print_answer("floor node", store.floor_node().map(|node| node.unwrap().into()));
    for place in 0..3 {
        opened(store, place);
    }
}

// Saves the store, makes another one of the bytes, and reads it. Bytes that were cut or changed are refused.
fn save(store: &Store) {
    for _ in 0..2 {
        print_answer("checkpoint", store.checkpoint(77).map(|saved| saved.len() as u64));
    }
    let mut saved = store.checkpoint(77).unwrap();
    let copy = Store::closed();
    print_answer("restore", copy.reload(&saved[..saved.len() - 1]));
    saved[0] ^= 1;
    print_answer("restore", copy.reload(&saved));
    saved[0] ^= 1;
    print_answer("restore", copy.reload(&saved));
    print_answer("restore", copy.reload(&saved));
    print_answer("rows", copy.rows());
    read(&copy, 1, b"city");
}

fn accept_items(store: &Store, log: &[u8]) {
    match store.accept_items(log) {
        Ok(many) => println!("items 0 {} {many} 0", log.len()),
        Err(stopped) => {
            let (code, word) = (stopped.error.code(), stopped.error.word());
            println!("items {code} {} {} {word}", stopped.bytes, stopped.items);
        }
    }
}

// Writes three items to a log, and lets another store take them from there, some of them again.
fn replicate() {
    let mut log = Vec::new();
    for item in [Item::write(0, 0, at(10), b"city", b"Lyon"), Item::report(0, 1, at(11)), Item::retire(0, 2, at(12))] {
        let bytes = item.encode().unwrap();
        print_answer("item", Ok(bytes.len() as u64));
        log.extend(bytes);
    }
    print_answer("item", Item::delete(0, 3, at(13), b"").encode().map(|bytes| bytes.len() as u64));
    let replica = Store::closed();
    line("open", replica.reopen(1));
    for part in [&log[..32], &log[52..], &log[..40], &log[..]] {
        accept_items(&replica, part);
    }
    print_answer("rows", replica.rows());
    replica.close();
    accept_items(&replica, &log);
}

// Makes a node as it was before a restart, and raises its clock.
fn restart() {
    let error = Node::restore(7, Stamp::from_bits(2), 3).unwrap_err();
    println!("restore {} 0 2", error.code());
    let mut node = Node::restore(7, at(10), 3).unwrap();
    println!("restore 0 {} {}", node.next_number(), node.last().to_bits());
    node.raise_to(Stamp::new(12, 5));
    node.raise_to(at(11));
    print_issued("report", &node.report(1));
}

// Lets a node issue a write and a deletion, which the store accepts in one call, and the second one once more.
fn accept_both(store: &Store, node: &mut Node) {
    let write = node.write(40, b"lake", b"Como");
    print_issued("write", &write);
    let delete = node.delete(41, b"town");
    print_issued("delete", &delete);
    let items = [write.unwrap(), delete.unwrap()];
    store.accept_all(&items).unwrap();
    // C has a third entry here, whose key lies outside of its bytes. A slice has all its bytes.
    println!("all 103 {} 0", items.len());
    let stopped = store.accept_all(&items[1..]).unwrap_err();
    println!("all {} {} {}", stopped.error.code(), stopped.items, stopped.error.word());
}

// Lets a node join at a start that the caller names, and vacuums to a stamp below the floor (closed timestamp), which
// keeps what lies above that stamp.
fn keep_above(store: &Store, node: &mut Node) {
    write(store, node, 39, b"city", b"Bern");
    report(store, node, 45);
    for start in [at(40), at(50)] {
        print_two("join at", store.join_at(start).map(|node| (node.id().into(), node.last().to_bits())));
    }
    for stamp in [at(42), at(40)] {
        print_answer("check", store.check_vacuum(stamp).map(|()| 0));
    }
    let vacuumed = store.vacuum_to(at(40)).unwrap();
    print_answer("vacuum to", Ok(vacuumed.stamp.to_bits()));
    print_vacuumed(&vacuumed);
    print_answer("vacuum to", store.vacuum_to(at(39)).map(|vacuumed| vacuumed.stamp.to_bits()));
    certificate(store, at(40));
    print_answer("rows", store.rows());
    print_sizes(store);
}

// Vacuums in parts of so many keys, and prints the key after which each next part goes on.
fn vacuum_parts(store: &Store, stamp: Stamp, limit: usize) {
    let mut after = Some(Vec::new());
    while let Some(key) = after {
        match store.vacuum_part(stamp, &key, limit) {
            Ok(VacuumPart { vacuumed, next }) => {
                let Vacuumed { stamp, kept, bytes, dropped } = vacuumed;
                let (stamp, more, last) = (stamp.to_bits(), next.is_some() as u8, hex(next.as_deref().unwrap_or(b"")));
                println!("part 0 {stamp} {kept} {bytes} {dropped} {more} {last}");
                after = next;
            }
            Err(error) => return println!("part {} {} 0 0 0 0 ", error.code(), error.word()),
        }
    }
}

// Vacuums key by key, and by two keys at a later stamp, after which a whole vacuum drops nothing.
fn keep_in_parts(store: &Store, b: &mut Node, c: &mut Node) {
    write(store, c, 46, b"city", b"Oslo");
    write(store, c, 47, b"lake", b"Nemi");
    write(store, c, 48, b"city", b"Riga");
    report(store, b, 48);
    vacuum_parts(store, at(49), 1);
    vacuum_parts(store, at(47), 1);
    print_answer("horizon", store.horizon().map(Stamp::to_bits));
    vacuum_parts(store, at(46), 1);
    vacuum_parts(store, at(48), 2);
    let vacuumed = store.vacuum_to(at(48)).unwrap();
    print_answer("vacuum to", Ok(vacuumed.stamp.to_bits()));
    print_vacuumed(&vacuumed);
    print_sizes(store);
}

// Makes no certificate where a vacuum would drop rows, and one after the vacuum; and checks it, and parts of it.
fn certify(store: &Store) {
    let floor = store.floor().unwrap();
    print_answer("floor", Ok(floor.to_bits()));
    certificate(store, floor);
    let vacuumed = store.vacuum().unwrap();
    print_answer("vacuum", Ok(vacuumed.stamp.to_bits()));
    print_vacuumed(&vacuumed);
    certificate(store, Stamp::from_bits(floor.to_bits() - 1));
    certificate(store, Stamp::from_bits(floor.to_bits() + 1));
    let text = certificate(store, floor).unwrap();
    print!("{text}");
    for part in [&text[..], &text[..35], &text[..4]] {
        match hlcstore::check_certificate(part) {
            Ok(checked) => println!("checked 0 {} {} 0", checked.rows, checked.bytes),
            Err(error) => println!("checked {} 0 0 {}", error.code(), error.word()),
        }
    }
}

fn main() {
    println!("version {}", hlcstore::version() - 200);
    for answer in [0, 6, 4, 107, 108] {
        println!("answer {answer} {}: {}", hlcstore::error_name(answer), hlcstore::error_text(answer));
    }
    let store = Store::closed();
    let (mut a, mut b) = (Node::new(0, Stamp::ZERO), Node::new(1, Stamp::ZERO));
    print_answer("rows", store.rows());
    print_sizes(&store);
    for nodes in [0, 2, 2] {
        line("open", store.reopen(nodes));
    }
    write(&store, &mut a, 10, b"city", b"Lyon");
    print_answer("again", store.accept(Item::write(0, 0, at(10), b"city", b"Lyon")).map(|()| 0));
    print_answer("check", store.check(Item::write(0, 1, at(11), b"", b"Lyon")).map(|()| 0));
    write(&store, &mut a, 10, b"city", b"Paris");
    let sent = a.send(12).unwrap();
    print_answer("send", Ok(sent.to_bits()));
    print_answer("receive", b.receive(sent, 11).map(Stamp::to_bits));
    report(&store, &mut b, 11);
    let floor = store.floor().unwrap();
    print_answer("floor", Ok(floor.to_bits()));
    let above = Stamp::from_bits(floor.to_bits() + 1);
    print_answer("snapshot", store.snapshot_at(above).map(|snapshot| snapshot.id()));
    open_at_floor(&store);
    read(&store, 1, b"city");
    // The package calls again where a buffer is too short. The C program prints a line about that.
    println!("short 0 5 1");
    read(&store, 1, b"town");
    read(&store, 2, b"city");
    write(&store, &mut b, 20, b"town", b"");
    let deleted = a.delete(21, b"city");
    print_issued("delete", &deleted);
    accept(&store, deleted.unwrap());
    report(&store, &mut b, 22);
    open_at_floor(&store);
    for id in 1..4 {
        list(&store, id);
    }
    look_round(&store);
    save(&store);
    replicate();
    restart();
    print_answer("rows", store.rows());
    print_sizes(&store);
    let vacuumed = store.vacuum().unwrap();
    print_answer("vacuum", Ok(vacuumed.stamp.to_bits()));
    print_vacuumed(&vacuumed);
    read(&store, 1, b"city");
    for _ in 0..2 {
        print_answer("close", store.snapshot_by_id(1).and_then(Snapshot::close).map(Stamp::to_bits));
    }
    certify(&store);
    print_answer("rows", store.rows());
    print_sizes(&store);
    print_answer("snapshot", store.snapshot_at(Stamp::from_bits(1)).map(|snapshot| snapshot.id()));
    let mut c = store.join().unwrap();
    print_two("join", Ok((c.id().into(), c.last().to_bits())));
    write(&store, &mut c, 1, b"city", b"Rome");
    accept_both(&store, &mut b);
    let retired = a.retire(30);
    print_issued("retire", &retired);
    accept(&store, retired.unwrap());
    write(&store, &mut a, 31, b"city", b"Nice");
    print_answer("check", store.check(Item::report(0, 4, at(31))).map(|()| 0));
    write(&store, &mut b, 1 << 48, b"city", b"Nice");
    write(&store, &mut b, 31, &[0; 256], b"Nice");
    write(&store, &mut b, 31, b"city", &[0; 65536]);
    keep_above(&store, &mut c);
    keep_in_parts(&store, &mut b, &mut c);
    line("close all", store.close_all());
    opened(&store, 0);
    store.close();
    line("close all", store.close_all());
    print_answer("floor", store.floor().map(Stamp::to_bits));
}
