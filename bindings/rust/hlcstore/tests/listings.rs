//! What snapshots list: ranges, pages, and pairs that are longer than a page.

use hlcstore::{ErrorKind, Node, Prefix, Snapshot, Stamp, Store};
use std::collections::BTreeMap;
use std::ops::Bound::{Excluded, Included, Unbounded};

type Pairs = BTreeMap<Vec<u8>, Vec<u8>>;

/// Writes these pairs to a store.
fn store_of(pairs: &Pairs) -> Store {
    let store = Store::open(1).unwrap();
    let mut node = Node::new(0, Stamp::ZERO);
    for (key, value) in pairs {
        store.accept(node.write(1, key, value).unwrap()).unwrap();
    }
    store
}

fn pairs_of(keys: &[&[u8]]) -> Pairs {
    keys.iter().map(|key| (key.to_vec(), key.repeat(2))).collect()
}

/// The keys of a range of a snapshot, from each call that lists them.
macro_rules! keys_of {
    ($snapshot:expr, $range:expr) => {{
        let keys: Vec<Vec<u8>> = $snapshot.keys($range).map(Result::unwrap).collect();
        let of_pairs: Vec<Vec<u8>> = $snapshot.range($range).map(|pair| pair.unwrap().0).collect();
        assert_eq!(keys, of_pairs);
        assert_eq!($snapshot.count($range).unwrap(), keys.len() as u64);
        let page = $snapshot.scan($range, 1000).unwrap();
        assert_eq!(page.iter().map(|(key, _)| key.to_vec()).collect::<Vec<_>>(), keys);
        let page = $snapshot.scan_keys($range, 1000).unwrap();
        assert_eq!(page.iter().map(<[u8]>::to_vec).collect::<Vec<_>>(), keys);
        assert_eq!((page.len(), page.is_empty(), page.has_more()), (keys.len(), keys.is_empty(), false));
        let back: Vec<Vec<u8>> = $snapshot.range_back($range).map(|pair| pair.unwrap().0).collect();
        assert!(back.iter().rev().eq(&keys));
        let page = $snapshot.scan_back($range, 1000).unwrap();
        assert_eq!(page.iter().map(|(key, _)| key.to_vec()).collect::<Vec<_>>(), back);
        keys.iter().map(|key| String::from_utf8_lossy(key).into_owned()).collect::<Vec<_>>().join(" ")
    }};
}

#[test]
fn ranges_have_their_keys() {
    let store = store_of(&pairs_of(&[b"a", b"a\0", b"ab", b"b", b"c"]));
    let snapshot = store.snapshot().unwrap();
    assert_eq!(keys_of!(snapshot, ..), "a a\0 ab b c");
    assert_eq!(keys_of!(snapshot, "ab"..), "ab b c");
    assert_eq!(keys_of!(snapshot, .."b"), "a a\0 ab");
    assert_eq!(keys_of!(snapshot, ..="b"), "a a\0 ab b");
    assert_eq!(keys_of!(snapshot, b"a"..b"b"), "a a\0 ab");
    assert_eq!(keys_of!(snapshot, "a"..="a"), "a");
    assert_eq!(keys_of!(snapshot, (Excluded("a"), Included("b"))), "a\0 ab b");
    assert_eq!(keys_of!(snapshot, (Excluded("ab"), Unbounded)), "b c");
    assert_eq!(keys_of!(snapshot, "d"..), "");
    assert_eq!(keys_of!(snapshot, "c".."a"), "");
    assert_eq!(keys_of!(snapshot, "a".."a"), "");
    assert_eq!(keys_of!(snapshot, ..""), "");
    assert_eq!(keys_of!(snapshot, ""..), "a a\0 ab b c");
    assert_eq!(keys_of!(snapshot, vec![b'b']..), "b c");
}

#[test]
fn prefixes_have_their_keys() {
    let store = store_of(&pairs_of(&[b"a", b"a\xff", b"a\xff\xffz", b"b", b"\xff", b"\xff\xff"]));
    let snapshot = store.snapshot().unwrap();
    assert_eq!(snapshot.count(Prefix("a")), Ok(3));
    assert_eq!(snapshot.count(Prefix(b"a\xff")), Ok(2));
    assert_eq!(snapshot.count(Prefix(b"a\xff\xff")), Ok(1));
    assert_eq!(snapshot.count(Prefix(b"\xff")), Ok(2));
    assert_eq!(snapshot.count(Prefix("")), Ok(6));
    assert_eq!(snapshot.count(Prefix("c")), Ok(0));
}

/// Pairs of some pages, a few of which are longer than a page.
fn many_pairs() -> Pairs {
    let mut pairs: Pairs = (0..3000).map(|n| (format!("key {n:05}").into_bytes(), vec![b'v'; n % 200])).collect();
    for n in [0, 1500, 2999] {
        let mut key = format!("key {n:05}").into_bytes();
        key.resize(255, b'k');
        pairs.insert(key, vec![n as u8; 65_535]);
    }
    pairs
}

#[test]
fn iterators_go_from_page_to_page() {
    let pairs = many_pairs();
    let store = store_of(&pairs);
    let snapshot = store.snapshot().unwrap();
    let listed: Pairs = snapshot.iter().map(Result::unwrap).collect();
    assert!(listed == pairs);
    let mut count = 0;
    for pair in &snapshot {
        pair.unwrap();
        count += 1;
    }
    assert_eq!(count, pairs.len());
    assert!(snapshot.keys(..).map(Result::unwrap).eq(pairs.keys().cloned()));
    let part: Vec<_> = snapshot.range("key 01000".."key 02000").map(Result::unwrap).collect();
    let range = b"key 01000".to_vec()..b"key 02000".to_vec();
    assert!(part.into_iter().eq(pairs.range(range).map(|(key, value)| (key.clone(), value.clone()))));
}

#[test]
fn iterators_go_back_from_page_to_page() {
    let pairs = many_pairs();
    let store = store_of(&pairs);
    let snapshot = store.snapshot().unwrap();
    assert!(snapshot.range_back(..).map(Result::unwrap).eq(pairs.clone().into_iter().rev()));
    let range = b"key 01000".to_vec()..b"key 02000".to_vec();
    let part = pairs.range(range.clone()).rev().map(|(key, value)| (key.clone(), value.clone()));
    assert!(snapshot.range_back(range).map(Result::unwrap).eq(part));
    for key in [&b"key 01500"[..], b"key 01500k", b"key 1", b"", b"key 00000", b"a"] {
        let below = pairs.iter().rfind(|(other, _)| key.is_empty() || other.as_slice() < key);
        let expected = below.map(|(key, value)| (key.clone(), value.clone()));
        assert_eq!(snapshot.last_below(key).unwrap(), expected);
    }
}

/// Goes through a listing from both ends in turns: so many entries from the front, and so many from the back. Returns
/// them in the order of the front.
fn both_ends<T, I>(mut listing: I, front: usize, back: usize) -> Vec<T>
where
    I: DoubleEndedIterator<Item = hlcstore::Result<T>>,
{
    let (mut first, mut last) = (Vec::new(), Vec::new());
    while let Some(entry) = listing.next() {
        first.push(entry.unwrap());
        first.extend(listing.by_ref().take(front - 1).map(Result::unwrap));
        last.extend(listing.by_ref().rev().take(back).map(Result::unwrap));
    }
    assert!(listing.next().is_none() && listing.next_back().is_none());
    first.extend(last.into_iter().rev());
    first
}

#[test]
fn ends_of_a_listing_meet() {
    let pairs = many_pairs();
    let store = store_of(&pairs);
    let snapshot = store.snapshot().unwrap();
    let all: Vec<_> = pairs.clone().into_iter().collect();
    let keys: Vec<_> = pairs.keys().cloned().collect();
    for (front, back) in [(1, 1), (1, 100), (100, 1), (700, 800), (5000, 1), (1, 5000)] {
        assert!(both_ends(snapshot.iter(), front, back) == all);
        assert_eq!(both_ends(snapshot.keys(..), front, back), keys);
        let reversed: Vec<_> = both_ends(snapshot.range_back(..), front, back).into_iter().rev().collect();
        assert!(reversed == all);
    }
    let range = "key 01000".."key 01500";
    assert!(snapshot.range(range.clone()).rev().eq(snapshot.range_back(range.clone())));
    assert!(snapshot.keys(range.clone()).rev().map(Result::unwrap).eq(keys[1001..1501].iter().rev().cloned()));
    assert_eq!(both_ends(snapshot.keys(range), 3, 2), keys[1001..1501]);
}

#[test]
fn ends_of_few_entries_meet() {
    for many in 0..5 {
        let pairs: Pairs = (0..many).map(|key: u8| (vec![key], vec![])).collect();
        let store = store_of(&pairs);
        let snapshot = store.snapshot().unwrap();
        for front in 0..=many {
            let mut keys = snapshot.keys(..);
            let mut found: Vec<_> = keys.by_ref().take(front.into()).map(Result::unwrap).collect();
            let last: Vec<_> = keys.by_ref().rev().map(Result::unwrap).collect();
            assert!(keys.next().is_none() && keys.next_back().is_none());
            found.extend(last.into_iter().rev());
            assert!(found.iter().eq(pairs.keys()));
        }
    }
}

#[test]
fn pages_have_what_fits() {
    let store = store_of(&pairs_of(&[b"a", b"b", b"c"]));
    let snapshot = store.snapshot().unwrap();
    // Each pair takes 19 bytes.
    for (room, len) in [(0, 0), (18, 0), (19, 1), (37, 1), (38, 2), (56, 2), (57, 3), (1000, 3)] {
        let page = snapshot.scan(.., room).unwrap();
        assert_eq!((page.len(), page.is_empty(), page.has_more()), (len, len == 0, len < 3));
        assert_eq!((page.iter().count(), page.as_bytes().len()), (len, 19 * len));
    }
    let page = snapshot.scan_back(.., 40).unwrap();
    assert_eq!((page.len(), page.has_more(), page.iter().next()), (2, true, Some((&b"c"[..], &b"cc"[..]))));
    let page = snapshot.scan_keys(.., 20).unwrap();
    assert_eq!(page.as_bytes(), b"\x01\0\0\0\0\0\0\0a\x01\0\0\0\0\0\0\0b");
    assert!(page.has_more());
    assert_eq!(format!("{page:?} {:?}", snapshot.scan("c".., 100).unwrap()), "[[97], [98]] {[99]: [99, 99]}");
}

#[test]
fn iterator_ends_after_an_error() {
    let store = store_of(&many_pairs());
    let snapshot = store.snapshot().unwrap();
    let mut pairs = snapshot.iter();
    assert!(pairs.next().unwrap().is_ok());
    store.close_all().unwrap();
    let errors: Vec<_> = pairs.by_ref().filter_map(Result::err).collect();
    assert_eq!(errors.len(), 1);
    assert_eq!(errors[0].kind(), ErrorKind::NoSnapshot);
    assert!(pairs.next().is_none());
    let mut keys = snapshot.keys(..);
    assert!(keys.next().unwrap().is_err());
    assert!(keys.next().is_none() && keys.next_back().is_none());
    let mut keys = snapshot.keys(..);
    assert!(keys.next_back().unwrap().is_err());
    assert!(keys.next().is_none() && keys.next_back().is_none());
}

#[test]
fn values_of_all_lengths_are_read() {
    let lengths = [0, 1, 22, 23, 63, 64, 65, 511, 512, 513, 4096, 65_535];
    let pairs: Pairs = lengths.iter().map(|len| (format!("{len}").into_bytes(), vec![b'v'; *len])).collect();
    let store = store_of(&pairs);
    let snapshot = store.snapshot().unwrap();
    let mut value = b"from before".to_vec();
    for (key, expected) in &pairs {
        assert_eq!(snapshot.get(key).unwrap().as_ref(), Some(expected));
        assert!(snapshot.get_into(key, &mut value).unwrap());
        assert_eq!(&value, expected);
        assert_eq!(snapshot.get_with(key, <[u8]>::to_vec).unwrap().as_ref(), Some(expected));
    }
    assert!(!snapshot.get_into(b"none", &mut value).unwrap());
    assert_eq!(value, b"");
    assert_eq!(snapshot.get(b""), Ok(None));
    assert_eq!(snapshot.get_with(b"none", |_| ()), Ok(None));
    let many = snapshot.get_many(&[b"1", b"none", b"23"]).unwrap();
    assert_eq!(many, [Some(vec![b'v'; 1]), None, Some(vec![b'v'; 23])]);
}

#[test]
fn digests_differ_where_pairs_do() {
    let (one, other) = (store_of(&pairs_of(&[b"a", b"b"])), store_of(&pairs_of(&[b"a", b"c"])));
    let (one, other) = (one.snapshot().unwrap(), other.snapshot().unwrap());
    let digests = |snapshot: &Snapshot<&Store>| (snapshot.digest(..).unwrap(), snapshot.digest(.."b").unwrap());
    assert_ne!(digests(&one).0, digests(&other).0);
    assert_eq!(digests(&one).1, digests(&other).1);
    assert_ne!(digests(&one).0, digests(&one).1);
}

#[test]
fn keys_are_texts_or_any_bytes() {
    let store = Store::open(1).unwrap();
    let mut node = Node::new(0, Stamp::ZERO);
    store.accept(node.write(1, "city", &String::from("Lyon")).unwrap()).unwrap();
    store.accept(node.write(2, &vec![b'a'], &[1, 2]).unwrap()).unwrap();
    store.accept(node.delete(3, "a").unwrap()).unwrap();
    let snapshot = store.snapshot().unwrap();
    let lyon = Some(b"Lyon".to_vec());
    assert_eq!((snapshot.get("city"), snapshot.get(b"city"), snapshot.get(String::from("city"))), {
        (Ok(lyon.clone()), Ok(lyon.clone()), Ok(lyon))
    });
    assert_eq!(snapshot.last_below(vec![b'd']).unwrap().unwrap().0, b"city");
    assert_eq!(store.versions("a", Stamp::ZERO, Stamp::MAX).unwrap()[1].value, Some(vec![1, 2]));
    assert_eq!(store.vacuum_part(Stamp::new(3, 0), "b", 9).unwrap().vacuumed.kept, 1);
}
