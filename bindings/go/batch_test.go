package hlcstore_test

import (
	"errors"
	"fmt"
	"strings"
	"testing"

	"hlcstore"
)

// batchOf returns a batch of these keys and values, in turn. A key whose value is "-" is deleted.
func batchOf(pairs ...string) *hlcstore.Batch {
	batch := new(hlcstore.Batch)
	for i := 0; i < len(pairs); i += 2 {
		put := func() error { return batch.Write([]byte(pairs[i]), []byte(pairs[i+1])) }
		if pairs[i+1] == "-" {
			put = func() error { return batch.Delete([]byte(pairs[i])) }
		}
		if err := put(); err != nil {
			panic(err)
		}
	}
	return batch
}

// issue lets a node issue a batch of these keys and values.
func issue(t testing.TB, node *hlcstore.Node, reading uint64, pairs ...string) hlcstore.Item {
	t.Helper()
	item, err := node.WriteBatch(reading, batchOf(pairs...))
	if err != nil {
		t.Fatal(err)
	}
	return item
}

// listAt returns what a store has at a stamp, as text.
func listAt(store *hlcstore.Store, stamp hlcstore.Stamp) string {
	snapshot := must(store.SnapshotAt(stamp))
	defer snapshot.Close()
	var all []string
	for _, pair := range must(snapshot.List()) {
		all = append(all, fmt.Sprintf("%s=%s", pair.Key, pair.Value))
	}
	return strings.Join(all, " ")
}

func TestBatchHasItsWrites(t *testing.T) {
	var batch hlcstore.Batch
	equal(t, batch.Len()+len(batch.Writes()), 0)
	for _, key := range [][]byte{nil, {}, make([]byte, 256)} {
		refused(t, batch.Write(key, make([]byte, 65536)), hlcstore.ErrBadKey, 0)
		refused(t, batch.Delete(key), hlcstore.ErrBadKey, 0)
	}
	refused(t, batch.Write([]byte("a"), make([]byte, 65536)), hlcstore.ErrValueTooLong, 0)
	equal(t, batch.Len(), 0)
	key, value := []byte("city"), []byte("Lyon")
	ok(t, batch.Write(key, value))
	copy(key, "dust")
	copy(value, "dust")
	ok(t, batch.Delete([]byte("lake")))
	ok(t, batch.Write([]byte("sea"), nil))
	equal(t, batch.Len(), 3)
	for i, want := range []hlcstore.BatchWrite{
		{Key: "city", Value: "Lyon"}, {Kind: hlcstore.Delete, Key: "lake"}, {Key: "sea"},
	} {
		equal(t, batch.Writes()[i], want)
	}
	batch.Clear()
	equal(t, batch.Len(), 0)
	ok(t, batch.Write(make([]byte, 255), make([]byte, 65535)))
	for i := 1; i < 256; i++ {
		ok(t, batch.Delete([]byte(keyOf(i))))
	}
	refused(t, batch.Delete([]byte("z")), hlcstore.ErrTooManyWrites, 0)
	refused(t, batch.Write([]byte("z"), nil), hlcstore.ErrTooManyWrites, 0)
	equal(t, batch.Len(), 256)
	equal(t, len(batch.Writes()), 256)
	equal(t, len(batch.Writes()[0].Value), 65535)
}

func TestSnapshotHasABatchOrNoneOfIt(t *testing.T) {
	store, node := open(t, 1), hlcstore.NewNode(0, 0)
	put(t, store, node, 1, "b", "old")
	item := issue(t, node, 2, "a", "x", "b", "-", "c", "")
	equal(t, item, hlcstore.Item{Kind: hlcstore.WriteBatch, Number: 1, Stamp: at(2), Writes: item.Writes})
	ok(t, store.Check(item))
	ok(t, store.Accept(item))
	equal(t, listAt(store, at(2)-1), "b=old")
	equal(t, listAt(store, at(2)), "a=x c=")
	equal(t, must(store.Rows()), 4)
	refused(t, store.Accept(item), hlcstore.ErrNotNext, 2)
	other := issue(t, node, 3, "d", "y")
	ok(t, store.AcceptBatch(0, other.Number, other.Stamp, must(other.Batch())))
	refused(t, store.AcceptBatch(0, other.Number, other.Stamp, must(other.Batch())), hlcstore.ErrNotNext, 3)
	equal(t, listAt(store, at(3)), "a=x c= d=y")
}

func TestRefusedBatchLeavesNothing(t *testing.T) {
	store, node := open(t, 1), hlcstore.NewNode(0, 0)
	put(t, store, node, 1, "b", "old")
	before := *node
	twice := batchOf("a", "x", "b", "y", "a", "-")
	refused(t, second(node.WriteBatch(2, new(hlcstore.Batch))), hlcstore.ErrNoWrites, 0)
	refused(t, second(node.WriteBatch(2, twice)), hlcstore.ErrKeyTwice, 0)
	refused(t, second(node.WriteBatch(1<<48, batchOf("a", "x"))), hlcstore.ErrReadingTooLarge, 0)
	equal(t, *node, before)
	next := hlcstore.Item{Kind: hlcstore.WriteBatch, Number: 1, Stamp: at(2)}
	for writes, want := range map[string]hlcstore.Error{
		"":                                      {Code: hlcstore.ErrNoWrites},
		"\x01\x01a\x00\x01a\x00":                {Code: hlcstore.ErrKeyTwice},
		"\x01\x01a\x00\x01b":                    {Code: hlcstore.ErrBadBytes, Word: 1},
		"\x00\x00\x00":                          {Code: hlcstore.ErrBadBytes, Word: 4},
		"\x00\x01a\x02":                         {Code: hlcstore.ErrBadBytes, Word: 5},
		"\x00\x01a\x00\x01b\x00":                {Code: hlcstore.ErrBadBytes, Word: 6},
		"\xff" + strings.Repeat("\x01a\x00", 9): {Code: hlcstore.ErrBadBytes, Word: 1},
	} {
		item := next
		item.Writes = writes
		_, encodeErr := item.Encode()
		for _, err := range []error{store.Check(item), store.Accept(item), acceptOne(store, item), encodeErr} {
			refused(t, err, want.Code, want.Word)
		}
		_, err := item.Batch()
		if want.Code == hlcstore.ErrBadBytes {
			refused(t, err, want.Code, want.Word)
		} else {
			ok(t, err)
		}
	}
	refused(t, store.AcceptBatch(0, 1, at(2), new(hlcstore.Batch)), hlcstore.ErrNoWrites, 0)
	refused(t, store.AcceptBatch(0, 1, at(2), twice), hlcstore.ErrKeyTwice, 0)
	refused(t, store.AcceptBatch(0, 1, at(1), twice), hlcstore.ErrStampNotRising, uint64(at(1)))
	refused(t, store.AcceptBatch(1, 1, at(2), twice), hlcstore.ErrNoNode, 0)
	equal(t, must(store.Link(0)), hlcstore.Link{Next: 1, Head: at(1)})
	equal(t, listAt(store, at(1)), "b=old")
	ok(t, store.Accept(issue(t, node, 2, "a", "x")))
}

func TestBatchAsBytes(t *testing.T) {
	// By docs/formats.md: version 1, node, number, stamp, kind 3, the number of writes less one, and the writes.
	item := hlcstore.Item{Kind: hlcstore.WriteBatch, Node: 2, Number: 3, Stamp: at(5)}
	item.Writes = issue(t, hlcstore.NewNode(0, 0), 1, "a", "xy", "bb", "-").Writes
	encoded := must(item.Encode())
	equal(t, string(encoded), "\x01\x00\x02\x00\x00\x00\x00\x00\x00\x00\x03\x00\x00\x00\x00\x00\x05\x00\x00\x03\x01"+
		"\x01a\x01\x00\x02xy\x02bb\x00")
	decoded, rest, err := hlcstore.DecodeItem(append(encoded, "rest"...))
	ok(t, err)
	equal(t, decoded, item)
	equal(t, string(rest), "rest")
	equal(t, item.Kind.String(), "batch")
	store := open(t, 3)
	item.Number = 0
	log := must(item.Encode())
	for cut := 1; cut < len(log); cut++ {
		applied, err := store.AcceptItems(log[:cut])
		refused(t, err, hlcstore.ErrBadBytes, 1)
		equal(t, applied, hlcstore.Applied{})
	}
	equal(t, must(store.Rows()), 0)
	for i := 0; i < 2; i++ {
		equal(t, must(store.AcceptItems(log)), hlcstore.Applied{Records: 1, Bytes: len(log)})
	}
	equal(t, must(store.Rows()), 2)
}

// The longest batch: 256 writes of the longest keys and values.
func TestLongestBatch(t *testing.T) {
	var batch hlcstore.Batch
	for i := 0; i < 256; i++ {
		key := make([]byte, 255)
		key[0] = byte(i)
		ok(t, batch.Write(key, make([]byte, 65535)))
	}
	item := must(hlcstore.NewNode(0, 0).WriteBatch(1, &batch))
	equal(t, len(must(item.Encode())), 16_843_285)
	store := open(t, 1)
	ok(t, store.Accept(item))
	equal(t, must(store.Sizes()), hlcstore.Sizes{Rows: 256, Keys: 256, KeyBytes: 256 * 255, ValueBytes: 256 * 65535})
}

func TestBatchOfOneStore(t *testing.T) {
	r := openRanges(t, byLetters, 1)
	m := hlcstore.NewMachine(byLetters, 0)
	low, both := batchOf("a", "x", "f", "-", "b", "y"), batchOf("a", "x", "g", "-")
	for _, err := range []error{second(m.WriteBatch(5, both)), second(r.WriteBatch(m, 5, both))} {
		if !errors.Is(err, hlcstore.ErrWrongStore) {
			t.Error(err)
		}
	}
	refused(t, second(m.WriteBatch(5, new(hlcstore.Batch))), hlcstore.ErrNoWrites, 0)
	refused(t, second(r.WriteBatch(m, 5, new(hlcstore.Batch))), hlcstore.ErrNoWrites, 0)
	refused(t, second(r.WriteBatch(m, 5, batchOf("a", "x", "a", "y"))), hlcstore.ErrKeyTwice, 0)
	equal(t, m.Last(), 0)
	made := must(m.WriteBatch(5, low))
	equal(t, made.Store, 0)
	equal(t, made.Item, hlcstore.Item{Kind: hlcstore.WriteBatch, Stamp: at(5), Writes: made.Item.Writes})
	wrong := made.Item
	wrong.Writes = must(hlcstore.NewNode(0, 0).WriteBatch(5, both)).Writes
	for _, err := range []error{r.Accept(1, made.Item), r.Accept(0, wrong), r.Accept(1, wrong)} {
		if !errors.Is(err, hlcstore.ErrWrongStore) {
			t.Error(err)
		}
	}
	equal(t, must(r.Rows()), 0)
	ok(t, r.Accept(made.Store, made.Item))
	equal(t, must(r.WriteBatch(m, 5, batchOf("n", "z", "s", "z"))), at(5)+1)
	equal(t, must(m.Send(5)), at(5)+2)
	ok(t, r.ReportAll(m, 9))
	for cut, want := range map[hlcstore.Stamp]string{at(5) - 1: "", at(5): "a=x b=y", at(9): "a=x b=y n=z s=z"} {
		snapshot := must(r.SnapshotAt(cut))
		equal(t, pairsOf(t, snapshot, "", ""), want)
		ok(t, snapshot.Close())
	}
	other := hlcstore.NewMachine(hlcstore.Division{}, 0)
	if _, err := r.WriteBatch(other, 9, low); !errors.Is(err, hlcstore.ErrWrongStore) {
		t.Error(err)
	}
	// Where the store refuses, the machine is as it was.
	stale := must(r.Machine(0, 0))
	write(t, r, m, 10, "a", "y")
	refused(t, second(r.WriteBatch(stale, 20, low)), hlcstore.ErrNotNext, must(r.Link(0, 0)).Next)
	equal(t, stale.Last(), at(9)+3)
}

func ExampleNode_WriteBatch() {
	store := must(hlcstore.Open(1))
	defer store.Close()
	var node hlcstore.Node
	var batch hlcstore.Batch
	batch.Write([]byte("from"), []byte("90"))
	batch.Write([]byte("to"), []byte("110"))
	item, err := node.WriteBatch(10, &batch)
	if err == nil {
		err = store.Accept(item)
	}
	if err != nil {
		fmt.Println(err)
	}
	for _, stamp := range []hlcstore.Stamp{item.Stamp - 1, item.Stamp} {
		snapshot := must(store.SnapshotAt(stamp))
		fmt.Println(must(snapshot.Count(nil, nil)), "keys at", stamp)
		snapshot.Close()
	}
	// Output:
	// 0 keys at 9.65535
	// 2 keys at 10.0
}
