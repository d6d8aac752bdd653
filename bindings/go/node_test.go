package hlcstore_test

import (
	"errors"
	"testing"

	"hlcstore"
)

func TestZeroNodeIsNodeZeroAtTheStart(t *testing.T) {
	var node hlcstore.Node
	equal(t, node, *hlcstore.NewNode(0, 0))
	item, err := node.Write(5, []byte("a"), []byte("x"))
	ok(t, err)
	equal(t, item, hlcstore.Item{Kind: hlcstore.Write, Stamp: at(5), Key: "a", Value: "x"})
	equal(t, node.Next(), 1)
	equal(t, node.Last(), at(5))
}

func TestItemsAreTheirNodes(t *testing.T) {
	node := hlcstore.NewNode(7, at(9))
	deletion, err := node.Delete(5, []byte("a"))
	ok(t, err)
	equal(t, deletion, hlcstore.Item{Kind: hlcstore.Delete, Node: 7, Stamp: hlcstore.MustStamp(9, 1), Key: "a"})
	report, err := node.Report(12)
	ok(t, err)
	equal(t, report, hlcstore.Item{Kind: hlcstore.Report, Node: 7, Number: 1, Stamp: at(12)})
	last, err := node.Retire(12)
	ok(t, err)
	equal(t, last, hlcstore.Item{Kind: hlcstore.Retire, Node: 7, Number: 2, Stamp: hlcstore.MustStamp(12, 1)})
	equal(t, node.Retired(), true)
	equal(t, node.ID(), 7)
	_, err = node.Send(13)
	refused(t, err, hlcstore.ErrRetired, 0)
}

func TestItemOwnsItsBytes(t *testing.T) {
	key, value := []byte("city"), []byte("Lyon")
	item := must(hlcstore.NewNode(0, 0).Write(5, key, value))
	copy(key, "dust")
	copy(value, "dust")
	equal(t, item.Key+item.Value, "cityLyon")
}

func TestRefusedEventChangesNothing(t *testing.T) {
	node := hlcstore.NewNode(0, hlcstore.MustStamp(5, 65535))
	before := *node
	_, err := node.Write(5, []byte("a"), nil)
	refused(t, err, hlcstore.ErrCounterFull, uint64(hlcstore.MustStamp(5, 65535)))
	_, err = node.Write(1<<48, []byte("a"), nil)
	refused(t, err, hlcstore.ErrReadingTooLarge, 0)
	for _, key := range [][]byte{nil, {}, make([]byte, 256)} {
		_, err = node.Write(6, key, nil)
		refused(t, err, hlcstore.ErrBadKey, 0)
		_, err = node.Delete(6, key)
		refused(t, err, hlcstore.ErrBadKey, 0)
	}
	_, err = node.Write(6, []byte("a"), make([]byte, 65536))
	refused(t, err, hlcstore.ErrValueTooLong, 0)
	equal(t, *node, before)
	_, err = node.Write(6, make([]byte, 255), make([]byte, 65535))
	ok(t, err)
}

func TestMessagesRaiseClocks(t *testing.T) {
	a, b := hlcstore.NewNode(0, 0), hlcstore.NewNode(1, 0)
	sent, err := a.Send(12)
	ok(t, err)
	equal(t, sent, at(12))
	received, err := b.Receive(sent, 11)
	ok(t, err)
	equal(t, received, hlcstore.MustStamp(12, 1))
	b.RaiseTo(at(20))
	b.RaiseTo(at(15))
	equal(t, b.Last(), at(20))
}

func TestRestoredNodeGoesOn(t *testing.T) {
	node, err := hlcstore.RestoreNode(3, at(10), 4)
	ok(t, err)
	item, err := node.Report(1)
	ok(t, err)
	equal(t, item, hlcstore.Item{Kind: hlcstore.Report, Node: 3, Number: 4, Stamp: hlcstore.MustStamp(10, 1)})
	none, err := hlcstore.RestoreNode(3, 2, 3)
	refused(t, err, hlcstore.ErrNoSuchNode, 0)
	if none != nil {
		t.Error(none)
	}
}

func TestItemAsBytes(t *testing.T) {
	// By docs/formats.md: version 1, node, number, stamp, then the kind's own bytes.
	item := hlcstore.Item{Node: 2, Number: 3, Stamp: at(5), Key: "a", Value: "xy"}
	log, err := item.AppendTo([]byte("log"))
	ok(t, err)
	encoded, err := item.Encode()
	ok(t, err)
	equal(t, string(log), "log"+string(encoded))
	equal(t, string(encoded[:19]), "\x01\x00\x02\x00\x00\x00\x00\x00\x00\x00\x03\x00\x00\x00\x00\x00\x05\x00\x00")
	longest := hlcstore.Item{Key: string(make([]byte, 255)), Value: string(make([]byte, 65535))}
	equal(t, len(must(longest.Encode())), 65814)
	for err, item := range map[hlcstore.Code]hlcstore.Item{
		hlcstore.ErrBadKey:       {Kind: hlcstore.Delete},
		hlcstore.ErrValueTooLong: {Key: "a", Value: string(make([]byte, 65536))},
	} {
		same, refusal := item.AppendTo(log)
		refused(t, refusal, err, 0)
		equal(t, string(same), string(log))
	}
}

func TestItemsFromBytes(t *testing.T) {
	items := []hlcstore.Item{
		{Node: 2, Number: 3, Stamp: at(5), Key: "a", Value: "xy"},
		{Node: 1, Number: 4, Stamp: at(6), Key: string(make([]byte, 255)), Value: string(make([]byte, 65535))},
		{Key: "b"},
		{Kind: hlcstore.Delete, Node: 65535, Number: 1<<64 - 1, Stamp: 1<<64 - 1, Key: "a"},
		{Kind: hlcstore.Report, Node: 1, Number: 5, Stamp: at(7)},
		{Kind: hlcstore.Retire, Node: 1, Number: 6, Stamp: at(8)},
		{Kind: hlcstore.WriteBatch, Node: 2, Number: 4, Stamp: at(6), Writes: "\x00\x01a\x00"},
		{Kind: hlcstore.WriteBatch, Writes: "\x02\x01a\x01\x00\x01x\x01b\x00\x03key\x01\x00\x00"},
	}
	var log []byte
	for _, item := range items {
		log = must(item.AppendTo(log))
	}
	rest := log
	for _, item := range items {
		decoded, after, err := hlcstore.DecodeItem(rest)
		ok(t, err)
		equal(t, decoded, item)
		rest = after
	}
	equal(t, len(rest), 0)
}

// Of bytes with one change, or cut, an item has the fault that a store finds in them.
func TestBadItemsFromBytes(t *testing.T) {
	batch := hlcstore.Item{Kind: hlcstore.WriteBatch, Stamp: at(1)}
	batch.Writes = "\x02\x01a\x01\x00\x01x\x02bb\x00\x03key\x01\x00\x00"
	for _, item := range []hlcstore.Item{{Stamp: at(1), Key: "key", Value: "value"}, batch} {
		badItemsFrom(t, must(item.Encode()))
	}
	_, _, err := hlcstore.DecodeItem(nil)
	refused(t, err, hlcstore.ErrBadBytes, 1)
}

func badItemsFrom(t *testing.T, write []byte) {
	check := func(log []byte) {
		t.Helper()
		store := must(hlcstore.Open(1))
		defer store.Close()
		_, accepted := store.AcceptItems(log)
		item, rest, err := hlcstore.DecodeItem(log)
		if !errors.Is(accepted, hlcstore.ErrBadBytes) {
			ok(t, err)
			return
		}
		var fault *hlcstore.Error
		errors.As(accepted, &fault)
		refused(t, err, hlcstore.ErrBadBytes, fault.Word)
		equal(t, item, hlcstore.Item{})
		equal(t, string(rest), string(log))
	}
	for at := range write {
		if at > 0 {
			check(write[:at])
		}
		changed := append([]byte(nil), write...)
		for b := 0; b < 256; b++ {
			changed[at] = byte(b)
			if _, rest, err := hlcstore.DecodeItem(changed); err == nil && len(rest) > 0 {
				continue // bytes follow that are no item
			}
			check(changed)
		}
	}
}

func TestItemOfNoKind(t *testing.T) {
	item := hlcstore.Item{Kind: 9, Key: "a"}
	store := open(t, 1)
	_, encodeErr := item.Encode()
	_, allErr := store.AcceptAll([]hlcstore.Item{item})
	for _, err := range []error{encodeErr, allErr, store.Accept(item), store.Check(item)} {
		if err == nil || err.Error() != "hlcstore: Kind(9) is no kind of an item" {
			t.Error(err)
		}
	}
	equal(t, hlcstore.Retire.String(), "retire")
}

func TestRecordsAsBytes(t *testing.T) {
	// By docs/formats.md: a join is 2, the node and the start; a threshold is 3 and the stamp.
	equal(t, string(hlcstore.AppendJoin([]byte("x"), 1, at(5))), "x\x02\x00\x01\x00\x00\x00\x00\x00\x05\x00\x00")
	equal(t, string(hlcstore.AppendThreshold(nil, at(5))), "\x03\x00\x00\x00\x00\x00\x05\x00\x00")
}
