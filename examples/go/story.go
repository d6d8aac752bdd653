// The story of examples/c/story.c, with the package hlcstore.
//
// The package has no buffers of its caller, and opens no store twice. So what the C program prints about the room of a
// buffer is computed here, and three of its answers are only printed.
package main

import (
	"bytes"
	"encoding/binary"
	"errors"
	"fmt"

	"hlcstore"
)

const (
	isOpen  = 101
	outside = 103
	more    = 104
)

// refused returns the number of a refusal and its word, or zeros.
func refused(err error) (uint32, uint64) {
	if err == nil {
		return 0, 0
	}
	var refusal *hlcstore.Error
	if !errors.As(err, &refusal) {
		panic(err)
	}
	return uint32(refusal.Code), refusal.Word
}

// must returns what a call does that is never refused here.
func must[T any](result T, err error) T {
	if err != nil {
		panic(err)
	}
	return result
}

func at(physical uint64) hlcstore.Stamp { return hlcstore.MustStamp(physical, 0) }

func text(word string) []byte { return []byte(word) }

func line(what string, err error) {
	code, _ := refused(err)
	fmt.Println(what, code)
}

// printAnswer prints the code of an answer, and its number or the refusal's word.
func printAnswer[T ~uint64](what string, number T, err error) {
	code, word := refused(err)
	if code != 0 {
		number = T(word)
	}
	fmt.Println(what, code, uint64(number))
}

func printTwo[S, T ~uint16 | ~uint64 | ~int](what string, first S, second T, err error) {
	code, word := refused(err)
	if code != 0 {
		first, second = 0, T(word)
	}
	fmt.Printf("%s %d %d %d\n", what, code, first, second)
}

func printBytes(what string, out []byte, err error) {
	code, _ := refused(err)
	if code != 0 {
		out = nil
	}
	fmt.Printf("%s %d %d %x\n", what, code, len(out), out)
}

func printItem(what string, item hlcstore.Item, err error) {
	printTwo(what, item.Number, item.Stamp, err)
}

func accept(store *hlcstore.Store, item hlcstore.Item) {
	printAnswer("accept", item.Stamp, store.Accept(item))
}

// write lets a node issue a write, and the store accept it.
func write(store *hlcstore.Store, node *hlcstore.Node, reading uint64, key, value []byte) {
	item, err := node.Write(reading, key, value)
	printItem("write", item, err)
	if err == nil {
		accept(store, item)
	}
}

func report(store *hlcstore.Store, node *hlcstore.Node, reading uint64) {
	item, err := node.Report(reading)
	printItem("report", item, err)
	accept(store, item)
}

func openSnapshot(store *hlcstore.Store) *hlcstore.Snapshot {
	snapshot := must(store.Snapshot())
	printTwo("snapshot", snapshot.ID(), snapshot.Stamp(), nil)
	return snapshot
}

// closedSnapshot returns a snapshot that is not open.
func closedSnapshot() *hlcstore.Snapshot {
	snapshot := must(must(hlcstore.Open(1)).Snapshot())
	snapshot.Close()
	return snapshot
}

// sized returns some bytes with their length before them, as hlc_snapshot_list writes them.
func sized(part []byte) []byte {
	return append(binary.LittleEndian.AppendUint64(nil, uint64(len(part))), part...)
}

// answer returns the bytes of an answer, as hlc_snapshot_read_all writes them.
func answer(value []byte) []byte {
	if value == nil {
		return []byte{0}
	}
	return append([]byte{1}, sized(value)...)
}

func pair(entries *hlcstore.Iterator) []byte {
	return append(sized(entries.Key()), sized(entries.Value())...)
}

func keyAlone(entries *hlcstore.Iterator) []byte { return sized(entries.Key()) }

func change(entries *hlcstore.Iterator) []byte {
	return append(sized(entries.Key()), answer(entries.Value())...)
}

// printFitting prints as many of some parts as have room. If all of them have, the code is this one.
func printFitting(what string, parts [][]byte, room int, code uint32) {
	var fitting []byte
	many := 0
	for many < len(parts) && len(fitting)+len(parts[many]) <= room {
		fitting = append(fitting, parts[many]...)
		many++
	}
	if many < len(parts) {
		code = more
	}
	fmt.Printf("%s %d %d %d %x\n", what, code, len(fitting), many, fitting)
}

// printEntries prints as many entries as have room, each in this form.
func printEntries(what string, entries *hlcstore.Iterator, form func(*hlcstore.Iterator) []byte, room int) {
	var parts [][]byte
	for entries.Next() {
		parts = append(parts, form(entries))
	}
	code, _ := refused(entries.Close())
	printFitting(what, parts, room, code)
}

func scan(snapshot *hlcstore.Snapshot, from, to string, room int) {
	printEntries("scan", snapshot.Range(text(from), text(to)), pair, room)
}

func scanBack(snapshot *hlcstore.Snapshot, from, to string, room int) {
	printEntries("back", snapshot.RangeBack(text(from), text(to)), pair, room)
}

func scanKeys(snapshot *hlcstore.Snapshot, room int) {
	printEntries("scan", snapshot.Keys(nil, nil), keyAlone, room)
}

func changes(before, after *hlcstore.Snapshot, from string, room int) {
	printEntries("changes", before.Changes(after, text(from), nil), change, room)
}

func list(snapshot *hlcstore.Snapshot) {
	pairs, err := snapshot.List()
	var out []byte
	for _, pair := range pairs {
		out = append(append(out, sized(pair.Key)...), sized(pair.Value)...)
	}
	printBytes("list", out, err)
}

// versions prints the rows of a key above one stamp and at or below another.
func versions(store *hlcstore.Store, key string, above, to hlcstore.Stamp) {
	var parts [][]byte
	for _, row := range must(store.Versions(text(key), above, to)) {
		part := binary.LittleEndian.AppendUint64(nil, uint64(row.Stamp))
		part = binary.LittleEndian.AppendUint16(part, row.Node)
		parts = append(parts, append(part, answer(row.Value)...))
	}
	printFitting("versions", parts, 64, 0)
}

func digest(snapshot *hlcstore.Snapshot, from string) {
	sum, err := snapshot.Digest(text(from), nil)
	printBytes("digest", sum[:], err)
}

// readAll reads two keys. The C program reads a third one, whose place is outside the bytes, where it gets the code.
func readAll(snapshot *hlcstore.Snapshot, room int, code uint32) {
	values, err := snapshot.GetMany([][]byte{text("city"), text("town")})
	if err != nil {
		code, _ = refused(err)
	}
	var parts [][]byte
	for _, value := range values {
		parts = append(parts, answer(value))
	}
	printFitting("read all", parts, room, code)
}

func count(snapshot *hlcstore.Snapshot) {
	many, err := snapshot.Count(text("a"), text("d"))
	printAnswer("count", many, err)
}

func printLink(store *hlcstore.Store, node uint16) {
	link, err := store.Link(node)
	code, _ := refused(err)
	retired := 0
	if link.Retired {
		retired = 1
	}
	fmt.Println("link", code, link.Next, uint64(link.Head), retired)
}

func printSizes(store *hlcstore.Store) {
	sizes, err := store.Sizes()
	code, _ := refused(err)
	fmt.Println("sizes", code, sizes.Rows, sizes.Keys, sizes.KeyBytes, sizes.ValueBytes)
}

func printRows(store *hlcstore.Store) {
	rows, err := store.Rows()
	printAnswer("rows", rows, err)
}

func printFloor(store *hlcstore.Store) hlcstore.Stamp {
	floor, err := store.Floor()
	printAnswer("floor", floor, err)
	return floor
}

func printHorizon(store *hlcstore.Store) {
	horizon, err := store.Horizon()
	printAnswer("horizon", horizon, err)
}

func printOpened(store *hlcstore.Store) {
	for _, open := range must(store.Snapshots()) {
		printTwo("opened", open.ID, open.Stamp, nil)
	}
	fmt.Println("opened 117 0 0")
}

func get(snapshot *hlcstore.Snapshot, key string) {
	value, err := snapshot.Get(text(key))
	printBytes("read", value, err)
}

// lookRound lists parts of snapshots, what changes between them and the rows of a key, and asks what the store has.
func lookRound(store *hlcstore.Store, first, second, closed *hlcstore.Snapshot) {
	scan(second, "", "", 64)
	scan(first, "a", "d", 64)
	scan(first, "a", "", 24)
	scan(first, "d", "", 64)
	scan(closed, "", "", 64)
	scanKeys(first, 12)
	scanKeys(first, 11)
	scanKeys(closed, 64)
	scanBack(second, "", "", 64)
	scanBack(first, "a", "d", 64)
	scanBack(first, "", "", 24)
	scanBack(first, "", "city", 64)
	scanBack(closed, "", "", 64)
	changes(first, second, "", 64)
	changes(second, first, "", 64)
	changes(first, second, "", 13)
	changes(first, second, "d", 64)
	changes(first, first, "", 64)
	changes(first, closed, "", 64)
	versions(store, "city", 0, hlcstore.MaxStamp)
	versions(store, "city", at(10), at(21)-1)
	versions(store, "lake", 0, hlcstore.MaxStamp)
	digest(first, "")
	digest(first, "d")
	digest(closed, "")
	readAll(first, 64, 0)
	readAll(first, 14, 0)
	readAll(first, 64, outside)
	readAll(closed, 64, 0)
	count(first)
	count(closed)
	printHorizon(store)
	nodes, err := store.Nodes()
	printAnswer("nodes", nodes, err)
	for node := uint16(0); node < 3; node++ {
		printLink(store, node)
	}
	node, err := store.FloorNode()
	printAnswer("floor node", uint64(node), err)
	printOpened(store)
}

func checkpoint(store *hlcstore.Store) []byte {
	var saved bytes.Buffer
	written, err := store.Checkpoint(&saved, 77)
	printAnswer("checkpoint", uint64(written), err)
	return saved.Bytes()
}

// save saves the store, makes another one of the bytes, and reads it. Bytes that were cut or changed are refused.
func save(store *hlcstore.Store) {
	checkpoint(store)
	saved := checkpoint(store)
	_, tag, err := hlcstore.RestoreBytes(saved[:len(saved)-1])
	printAnswer("restore", tag, err)
	saved[0] ^= 1
	_, tag, err = hlcstore.Restore(bytes.NewReader(saved))
	printAnswer("restore", tag, err)
	saved[0] ^= 1
	replica, tag, err := hlcstore.Restore(bytes.NewReader(saved))
	printAnswer("restore", tag, err)
	fmt.Println("restore", isOpen, 0)
	printRows(replica)
	get(must(replica.SnapshotByID(1)), "city")
	replica.Close()
}

func acceptItems(store *hlcstore.Store, log []byte) {
	applied, err := store.AcceptItems(log)
	code, word := refused(err)
	fmt.Println("items", code, applied.Bytes, applied.Records, word)
}

// encode appends an item to a log, and prints how many bytes it has.
func encode(log []byte, item hlcstore.Item) []byte {
	longer, err := item.AppendTo(log)
	printAnswer("item", uint64(len(longer)-len(log)), err)
	return longer
}

// replicate writes three items to a log, and lets another store take them from there, some of them again.
func replicate() {
	log := encode(nil, hlcstore.Item{Stamp: at(10), Key: "city", Value: "Lyon"})
	log = encode(log, hlcstore.Item{Kind: hlcstore.Report, Number: 1, Stamp: at(11)})
	log = encode(log, hlcstore.Item{Kind: hlcstore.Retire, Number: 2, Stamp: at(12)})
	log = encode(log, hlcstore.Item{Kind: hlcstore.Delete, Number: 3, Stamp: at(13)})
	replica, err := hlcstore.Open(1)
	line("open", err)
	acceptItems(replica, log[:32])
	acceptItems(replica, log[52:72])
	acceptItems(replica, log[:40])
	acceptItems(replica, log)
	printRows(replica)
	replica.Close()
	acceptItems(replica, log)
}

// restart makes a node as it was before a restart, and raises its clock.
func restart() {
	_, err := hlcstore.RestoreNode(7, 2, 3)
	code, _ := refused(err)
	fmt.Println("restore", code, 0, 2)
	node, err := hlcstore.RestoreNode(7, at(10), 3)
	printTwo("restore", node.Next(), node.Last(), err)
	node.RaiseTo(hlcstore.MustStamp(12, 5))
	node.RaiseTo(at(11))
	item, err := node.Report(1)
	printItem("report", item, err)
}

// acceptThree lets a node issue a write and a deletion, and passes them to the store in one call. The C program adds an
// entry whose key is not there, and gets its code.
func acceptThree(store *hlcstore.Store, node *hlcstore.Node) {
	write, err := node.Write(40, text("lake"), text("Como"))
	printItem("write", write, err)
	deletion, err := node.Delete(41, text("town"))
	printItem("delete", deletion, err)
	accepted := must(store.AcceptAll([]hlcstore.Item{write, deletion}))
	fmt.Println("all", outside, accepted, 0)
	accepted, err = store.AcceptAll([]hlcstore.Item{deletion})
	printTwo("all", accepted, 0, err)
}

func printVacuum(what string, vacuumed hlcstore.Vacuumed, err error) {
	printAnswer(what, vacuumed.Stamp, err)
	if err == nil {
		printTwo("kept", vacuumed.Kept, vacuumed.Bytes, nil)
		printAnswer("dropped", vacuumed.Dropped, nil)
	}
}

// certify makes the certificate of the rows at or below a stamp.
func certify(store *hlcstore.Store, stamp hlcstore.Stamp) []byte {
	var certificate bytes.Buffer
	certified, err := store.Certificate(&certificate, stamp)
	printTwo("certificate", certificate.Len(), 0, err)
	if err == nil {
		printTwo("kept", certified.Rows, certified.Bytes, nil)
	}
	return certificate.Bytes()
}

func check(certificate []byte) {
	checked, err := hlcstore.CheckCertificate(certificate)
	code, word := refused(err)
	fmt.Println("checked", code, checked.Rows, checked.Bytes, word)
}

func joinAt(store *hlcstore.Store, start hlcstore.Stamp) {
	node, err := store.JoinAt(start)
	if err != nil {
		node = &hlcstore.Node{}
	}
	printTwo("join at", node.ID(), node.Last(), err)
}

// keepAbove lets a node join at a start that the caller names, and vacuums to a stamp below the floor (closed
// timestamp), which keeps what lies above that stamp.
func keepAbove(store *hlcstore.Store, node *hlcstore.Node) {
	write(store, node, 39, text("city"), text("Bern"))
	report(store, node, 45)
	joinAt(store, at(40))
	joinAt(store, at(50))
	printAnswer("check", uint64(0), store.CheckVacuum(at(42)))
	printAnswer("check", uint64(0), store.CheckVacuum(at(40)))
	vacuumed, err := store.VacuumTo(at(40))
	printVacuum("vacuum to", vacuumed, err)
	vacuumed, err = store.VacuumTo(at(39))
	printVacuum("vacuum to", vacuumed, err)
	certify(store, at(40))
	printRows(store)
	printSizes(store)
}

// vacuumParts vacuums in parts of so many keys, and prints the key after which each next part goes on.
func vacuumParts(store *hlcstore.Store, stamp hlcstore.Stamp, keys int) {
	part := hlcstore.VacuumPart{More: true}
	for part.More {
		var err error
		part, err = store.VacuumPart(stamp, part.Last, keys)
		code, word := refused(err)
		goesOn := 0
		if part.More {
			goesOn = 1
		}
		if err == nil {
			word = uint64(part.Stamp)
		}
		fmt.Printf("part %d %d %d %d %d %d %x\n", code, word, part.Kept, part.Bytes, part.Dropped, goesOn, part.Last)
	}
}

// keepInParts vacuums key by key, and by two keys at a later stamp, after which a whole vacuum drops nothing.
func keepInParts(store *hlcstore.Store, b, c *hlcstore.Node) {
	write(store, c, 46, text("city"), text("Oslo"))
	write(store, c, 47, text("lake"), text("Nemi"))
	write(store, c, 48, text("city"), text("Riga"))
	report(store, b, 48)
	vacuumParts(store, at(49), 1)
	vacuumParts(store, at(47), 1)
	printHorizon(store)
	vacuumParts(store, at(46), 1)
	vacuumParts(store, at(48), 2)
	vacuumed, err := store.VacuumTo(at(48))
	printVacuum("vacuum to", vacuumed, err)
	printSizes(store)
}

// begin opens the store of the story, as late as the C program does.
func begin() *hlcstore.Store {
	fmt.Println("version", hlcstore.LibraryVersion()-200)
	for _, code := range []hlcstore.Code{0, 6, 4, 107, 108} {
		fmt.Printf("answer %d %s: %s\n", uint32(code), code.Name(), code.Text())
	}
	var closed hlcstore.Store
	printRows(&closed)
	printSizes(&closed)
	_, err := hlcstore.Open(0)
	line("open", err)
	store, err := hlcstore.Open(2)
	line("open", err)
	fmt.Println("open", isOpen)
	return store
}

// writeAndRead lets two nodes write, and returns two snapshots.
func writeAndRead(
	store *hlcstore.Store, a, b *hlcstore.Node, closed *hlcstore.Snapshot,
) (first, second *hlcstore.Snapshot) {
	write(store, a, 10, text("city"), text("Lyon"))
	again := hlcstore.Item{Stamp: at(10), Key: "city", Value: "Lyon"}
	printAnswer("again", uint64(0), store.Accept(again))
	printAnswer("check", uint64(0), store.Check(hlcstore.Item{Number: 1, Stamp: at(11), Value: "Lyon"}))
	write(store, a, 10, text("city"), text("Paris"))
	sent, err := a.Send(12)
	printAnswer("send", sent, err)
	received, err := b.Receive(sent, 11)
	printAnswer("receive", received, err)
	report(store, b, 11)
	floor := printFloor(store)
	_, err = store.SnapshotAt(floor + 1)
	printAnswer("snapshot", uint64(0), err)
	first = openSnapshot(store)
	get(first, "city")
	fmt.Println("short", 0, len(must(first.Get(text("city")))), 1)
	get(first, "town")
	get(closed, "city")
	write(store, b, 20, text("town"), text(""))
	deletion, err := a.Delete(21, text("city"))
	printItem("delete", deletion, err)
	accept(store, deletion)
	report(store, b, 22)
	return first, openSnapshot(store)
}

func vacuum(store *hlcstore.Store, first *hlcstore.Snapshot) {
	printRows(store)
	printSizes(store)
	vacuumed, err := store.Vacuum()
	printVacuum("vacuum", vacuumed, err)
	get(first, "city")
	for i := 0; i < 2; i++ {
		stamp, err := store.CloseSnapshot(first.ID())
		printAnswer("close", stamp, err)
	}
	floor := printFloor(store)
	certify(store, floor)
	vacuumed, err = store.Vacuum()
	printVacuum("vacuum", vacuumed, err)
	certify(store, floor-1)
	certify(store, floor+1)
	certificate := certify(store, floor)
	fmt.Printf("%s", certificate)
	check(certificate)
	check(certificate[:35])
	check(certificate[:4])
	printRows(store)
	printSizes(store)
	_, err = store.SnapshotAt(1)
	printAnswer("snapshot", uint64(0), err)
}

func joinAndRetire(store *hlcstore.Store, a, b *hlcstore.Node) {
	c, err := store.Join()
	printTwo("join", c.ID(), c.Last(), err)
	write(store, c, 1, text("city"), text("Rome"))
	acceptThree(store, b)
	last, err := a.Retire(30)
	printItem("retire", last, err)
	accept(store, last)
	write(store, a, 31, text("city"), text("Nice"))
	late := hlcstore.Item{Kind: hlcstore.Report, Number: 4, Stamp: at(31)}
	printAnswer("check", uint64(0), store.Check(late))
	write(store, b, 1<<48, text("city"), text("Nice"))
	write(store, b, 31, make([]byte, 256), text("Nice"))
	write(store, b, 31, text("city"), make([]byte, 65536))
	keepAbove(store, c)
	keepInParts(store, b, c)
}

func main() {
	store := begin()
	a, b := hlcstore.NewNode(0, 0), hlcstore.NewNode(1, 0)
	closed := closedSnapshot()
	first, second := writeAndRead(store, a, b, closed)
	list(first)
	list(second)
	list(closed)
	lookRound(store, first, second, closed)
	save(store)
	replicate()
	restart()
	vacuum(store, first)
	joinAndRetire(store, a, b)
	line("close all", store.CloseAll())
	printOpened(store)
	store.Close()
	line("close all", store.CloseAll())
	printFloor(store)
}
