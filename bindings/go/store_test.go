package hlcstore_test

import (
	"bytes"
	"context"
	"errors"
	"strings"
	"testing"

	"hlcstore"
)

func TestOpenTakes1To64Nodes(t *testing.T) {
	for _, nodes := range []uint16{0, 65, 65535} {
		store, err := hlcstore.Open(nodes)
		refused(t, err, hlcstore.ErrBadNodeCount, 0)
		if store != nil {
			t.Error(store)
		}
	}
	for _, nodes := range []uint16{1, 64} {
		equal(t, must(open(t, nodes).Nodes()), uint64(nodes))
	}
}

// calls are all calls of a store and of a snapshot that a closed store refuses.
func calls(store *hlcstore.Store, snapshot *hlcstore.Snapshot) map[string]error {
	item := hlcstore.Item{Stamp: at(9), Key: "a"}
	made := map[string]error{
		"Accept":      store.Accept(item),
		"AcceptBatch": store.AcceptBatch(0, 0, at(9), batchOf("a", "x")),
		"Check":       store.Check(item),
		"CloseAll":    store.CloseAll(),
		"CheckVacuum": store.CheckVacuum(0),
		"Range":       snapshot.Range(nil, nil).Err(),
	}
	keep := func(name string) func(any, error) {
		return func(_ any, err error) { made[name] = err }
	}
	keep("AcceptAll")(store.AcceptAll([]hlcstore.Item{item}))
	keep("AcceptAll of none")(store.AcceptAll(nil))
	keep("AcceptItems")(store.AcceptItems(nil))
	keep("ApplyRecords")(store.ApplyRecords(nil))
	keep("Join")(store.Join())
	keep("JoinAt")(store.JoinAt(at(9)))
	keep("Snapshot")(store.Snapshot())
	keep("SnapshotAt")(store.SnapshotAt(0))
	keep("SnapshotByID")(store.SnapshotByID(1))
	keep("Snapshots")(store.Snapshots())
	keep("CloseSnapshot")(store.CloseSnapshot(1))
	keep("Floor")(store.Floor())
	keep("FloorNode")(store.FloorNode())
	keep("Horizon")(store.Horizon())
	keep("Nodes")(store.Nodes())
	keep("Rows")(store.Rows())
	keep("Sizes")(store.Sizes())
	keep("Link")(store.Link(0))
	keep("Versions")(store.Versions([]byte("a"), 0, at(9)))
	keep("Vacuum")(store.Vacuum())
	keep("VacuumTo")(store.VacuumTo(0))
	keep("VacuumPart")(store.VacuumPart(0, nil, 1))
	keep("VacuumInParts")(store.VacuumInParts(context.Background(), 0, 1))
	keep("Certificate")(store.Certificate(new(bytes.Buffer), 0))
	keep("Checkpoint")(store.Checkpoint(new(bytes.Buffer), 0))
	keep("Increment")(store.Increment(new(bytes.Buffer), 0, 0))
	keep("Get")(snapshot.Get([]byte("a")))
	keep("GetTo")(snapshot.GetTo(nil, []byte("a")))
	keep("Has")(snapshot.Has([]byte("a")))
	keep("GetMany")(snapshot.GetMany([][]byte{[]byte("a")}))
	keep("GetMany of none")(snapshot.GetMany(nil))
	keep("List")(snapshot.List())
	keep("Count")(snapshot.Count(nil, nil))
	keep("Digest")(snapshot.Digest(nil, nil))
	for name, entries := range map[string]*hlcstore.Iterator{
		"Range": snapshot.Range(nil, nil), "RangeBack": snapshot.RangeBack(nil, nil), "Keys": snapshot.Keys(nil, nil),
		"Changes": snapshot.Changes(snapshot, nil, nil),
	} {
		if entries.Next() {
			made[name] = errors.New("it has an entry")
			continue
		}
		made[name] = entries.Close()
	}
	return made
}

func TestClosedStoreRefusesEachCall(t *testing.T) {
	store := filled(t, 3)
	snapshot := must(store.Snapshot())
	ok(t, store.Close())
	ok(t, store.Close())
	for name, err := range calls(store, snapshot) {
		if !errors.Is(err, hlcstore.ErrClosed) {
			t.Errorf("%s: %v", name, err)
		}
	}
	ok(t, snapshot.Close())
}

func TestZeroStoreAndSnapshotAreClosed(t *testing.T) {
	var store hlcstore.Store
	var snapshot hlcstore.Snapshot
	for name, err := range calls(&store, &snapshot) {
		if !errors.Is(err, hlcstore.ErrClosed) {
			t.Errorf("%s: %v", name, err)
		}
	}
	ok(t, snapshot.Close())
	ok(t, store.Close())
	equal(t, snapshot.ID(), 0)
	equal(t, snapshot.Stamp(), 0)
}

func TestStoreAndSnapshotMayBeFields(t *testing.T) {
	var service struct {
		name     string
		store    hlcstore.Store
		snapshot hlcstore.Snapshot
	}
	ok(t, service.store.Close())
	ok(t, service.snapshot.Close())
	service.snapshot = *must(filled(t, 1).Snapshot())
	equal(t, must(service.snapshot.Has([]byte(keyOf(0)))), true)
	ok(t, service.snapshot.Close())
	refused(t, second(service.snapshot.Has(nil)), hlcstore.ErrNoSnapshot, 0)
}

func TestRefusalsOfAccept(t *testing.T) {
	store := open(t, 2)
	node := hlcstore.NewNode(0, 0)
	put(t, store, node, 5, "a", "x")
	ok(t, store.Accept(must(hlcstore.NewNode(1, 0).Retire(5))))
	for _, kind := range []hlcstore.Kind{
		hlcstore.Write, hlcstore.Delete, hlcstore.Report, hlcstore.Retire, hlcstore.WriteBatch,
	} {
		next := hlcstore.Item{Kind: kind, Number: 1, Stamp: at(6), Key: "a"}
		if kind == hlcstore.WriteBatch {
			next.Writes = must(hlcstore.NewNode(0, 0).WriteBatch(1, batchOf("a", "x", "b", "y"))).Writes
		}
		ok(t, store.Check(next))
		for name, change := range map[string]struct {
			change func(*hlcstore.Item)
			code   hlcstore.Code
			word   uint64
		}{
			"no node": {func(i *hlcstore.Item) { i.Node = 2 }, hlcstore.ErrNoNode, 0},
			"retired": {func(i *hlcstore.Item) { i.Node = 1 }, hlcstore.ErrRetired, 0},
			"again":   {func(i *hlcstore.Item) { i.Number = 0 }, hlcstore.ErrNotNext, 1},
			"early":   {func(i *hlcstore.Item) { i.Number = 2 }, hlcstore.ErrNotNext, 1},
			"falling": {func(i *hlcstore.Item) { i.Stamp = at(5) }, hlcstore.ErrStampNotRising, uint64(at(5))},
		} {
			item := next
			change.change(&item)
			for _, err := range []error{store.Check(item), store.Accept(item), acceptOne(store, item)} {
				if !errors.Is(err, change.code) {
					t.Errorf("%v, %s: %v", kind, name, err)
					continue
				}
				refused(t, err, change.code, change.word)
			}
		}
	}
	equal(t, must(store.Rows()), 1)
}

func acceptOne(store *hlcstore.Store, item hlcstore.Item) error {
	_, err := store.AcceptAll([]hlcstore.Item{item})
	return err
}

func TestLengthsOfKeysAndValues(t *testing.T) {
	store := open(t, 1)
	tooLong := map[hlcstore.Code]hlcstore.Item{
		hlcstore.ErrBadKey:       {Stamp: at(1), Key: strings.Repeat("k", 256)},
		hlcstore.ErrValueTooLong: {Stamp: at(1), Key: "k", Value: strings.Repeat("v", 65536)},
	}
	for code, item := range tooLong {
		refused(t, store.Check(item), code, 0)
		refused(t, store.Accept(item), code, 0)
		refused(t, acceptOne(store, item), code, 0)
	}
	refused(t, store.Accept(hlcstore.Item{Stamp: at(1)}), hlcstore.ErrBadKey, 0)
	refused(t, acceptOne(store, hlcstore.Item{Stamp: at(1)}), hlcstore.ErrBadKey, 0)
	longest := hlcstore.Item{Stamp: at(1), Key: strings.Repeat("k", 255), Value: strings.Repeat("v", 65535)}
	ok(t, store.Accept(longest))
	value, err := must(store.Snapshot()).Get([]byte(longest.Key))
	ok(t, err)
	equal(t, string(value), longest.Value)
}

// mixed returns items of one node, of all kinds, the last a retirement; enough for several lists.
func mixed(many int) []hlcstore.Item {
	var node hlcstore.Node
	var items []hlcstore.Item
	for i := 0; i < many-1; i++ {
		var item hlcstore.Item
		switch {
		case i%100 == 7:
			item = must(node.Report(uint64(i)))
		case i%10 == 5:
			item = must(node.WriteBatch(uint64(i), batchOf(keyOf(i%50), valueOf(i), keyOf(60+i%7), "")))
		case i%10 == 3:
			item = must(node.Delete(uint64(i), []byte(keyOf(i%50))))
		case i%1000 == 0:
			item = must(node.Write(uint64(i), []byte(keyOf(i%50)), make([]byte, 65535)))
		default:
			item = must(node.Write(uint64(i), []byte(keyOf(i%50)), []byte(valueOf(i))))
		}
		items = append(items, item)
	}
	return append(items, must(node.Retire(uint64(many))))
}

func digestOf(t *testing.T, store *hlcstore.Store) [32]byte {
	t.Helper()
	snapshot := must(store.Snapshot())
	defer snapshot.Close()
	return must(snapshot.Digest(nil, nil))
}

func TestListIsItsItemsInTurn(t *testing.T) {
	items := mixed(5000)
	alone, together, logged := open(t, 2), open(t, 2), open(t, 2)
	var log []byte
	for _, item := range items {
		ok(t, alone.Accept(item))
		log = must(item.AppendTo(log))
	}
	accepted, err := together.AcceptAll(items)
	ok(t, err)
	equal(t, accepted, len(items))
	applied, err := logged.AcceptItems(log)
	ok(t, err)
	equal(t, applied, hlcstore.Applied{Records: len(items), Bytes: len(log)})
	for _, store := range []*hlcstore.Store{alone, together, logged} {
		ok(t, store.Accept(must(hlcstore.NewNode(1, 0).Report(9000))))
		equal(t, must(store.Floor()), at(9000))
		equal(t, digestOf(t, store), digestOf(t, alone))
		equal(t, must(store.Sizes()), must(alone.Sizes()))
		equal(t, must(store.Link(0)), hlcstore.Link{Next: 5000, Head: at(5000), Retired: true})
	}
}

func TestListStopsAtARefusal(t *testing.T) {
	items := mixed(3000)
	for _, stop := range []int{0, 1, 8, 1023, 1024, 1025, 2999} {
		store := open(t, 1)
		wrong := append([]hlcstore.Item(nil), items...)
		wrong[stop].Number++
		accepted, err := store.AcceptAll(wrong)
		refused(t, err, hlcstore.ErrNotNext, uint64(stop))
		equal(t, accepted, stop)
		equal(t, must(store.Link(0)).Next, uint64(stop))
		accepted, err = store.AcceptAll(items[stop:])
		ok(t, err)
		equal(t, accepted, len(items)-stop)
	}
}

func TestLogMayBeReadAgainAndStopsAtAFault(t *testing.T) {
	store := open(t, 1)
	var node hlcstore.Node
	first := must(must(node.Write(5, []byte("a"), []byte("x"))).Encode())
	log := must(must(node.Report(6)).AppendTo(first))
	log = append(log[:len(log):len(log)], first[:7]...)
	applied, err := store.AcceptItems(log)
	refused(t, err, hlcstore.ErrBadBytes, 1)
	equal(t, applied, hlcstore.Applied{Records: 2, Bytes: len(log) - 7})
	applied, err = store.AcceptItems(log[:len(log)-7])
	ok(t, err)
	equal(t, applied, hlcstore.Applied{Records: 2, Bytes: len(log) - 7})
	equal(t, must(store.Rows()), 1)
}

func TestRecordsJoinNodesAndRaiseTheThreshold(t *testing.T) {
	log := must(hlcstore.Item{Kind: hlcstore.Report, Stamp: at(6)}.Encode())
	log = hlcstore.AppendThreshold(log, at(5))
	log = hlcstore.AppendJoin(log, 1, at(7))
	log = hlcstore.AppendThreshold(log, at(3))
	store := open(t, 1)
	for i := 0; i < 2; i++ {
		applied, err := store.ApplyRecords(log)
		ok(t, err)
		equal(t, applied, hlcstore.Applied{Records: 4, Bytes: len(log), Threshold: at(5)})
		equal(t, must(store.Nodes()), 2)
		equal(t, must(store.Horizon()), 0)
	}
	applied, err := store.ApplyRecords(hlcstore.AppendJoin(hlcstore.AppendThreshold(nil, at(1)), 3, at(9)))
	refused(t, err, hlcstore.ErrNotNext, 2)
	equal(t, applied, hlcstore.Applied{Records: 1, Bytes: 9, Threshold: at(1)})
	_, err = store.ApplyRecords(hlcstore.AppendJoin(nil, 2, at(5)))
	refused(t, err, hlcstore.ErrBelowFloor, uint64(at(6)))
}

func TestJoins(t *testing.T) {
	store := filled(t, 5)
	node, err := store.Join()
	ok(t, err)
	equal(t, *node, *hlcstore.NewNode(1, at(5)))
	equal(t, must(store.FloorNode()), 0)
	node, err = store.JoinAt(at(8))
	ok(t, err)
	equal(t, *node, *hlcstore.NewNode(2, at(8)))
	_, err = store.JoinAt(at(4))
	refused(t, err, hlcstore.ErrBelowFloor, uint64(at(5)))
	for i := 3; i < 1024; i++ {
		must(store.Join())
	}
	_, err = store.Join()
	refused(t, err, hlcstore.ErrTooManyNodes, 0)
	_, err = store.JoinAt(at(9))
	refused(t, err, hlcstore.ErrTooManyNodes, 0)
	equal(t, must(store.Nodes()), 1024)
}

func TestFloorWaitsForTheSlowestNode(t *testing.T) {
	store := open(t, 2)
	a, b := hlcstore.NewNode(0, 0), hlcstore.NewNode(1, 0)
	put(t, store, a, 9, "a", "x")
	equal(t, must(store.Floor()), 0)
	equal(t, must(store.FloorNode()), 1)
	ok(t, store.Accept(must(b.Report(7))))
	equal(t, must(store.Floor()), at(7))
	equal(t, must(store.Link(1)), hlcstore.Link{Next: 1, Head: at(7)})
	_, err := store.Link(2)
	refused(t, err, hlcstore.ErrNoNode, 0)
	ok(t, store.Accept(must(a.Retire(10))))
	ok(t, store.Accept(must(b.Retire(10))))
	_, err = store.FloorNode()
	refused(t, err, hlcstore.ErrAllRetired, 0)
}

func TestSizesAndVersions(t *testing.T) {
	store := open(t, 2)
	a, b := hlcstore.NewNode(0, 0), hlcstore.NewNode(1, 0)
	put(t, store, a, 5, "city", "Lyon")
	put(t, store, b, 5, "city", "")
	remove(t, store, a, 6, "city")
	put(t, store, a, 7, "town", "Bern")
	equal(t, must(store.Sizes()), hlcstore.Sizes{Rows: 4, Keys: 2, KeyBytes: 8, ValueBytes: 8})
	equal(t, must(store.Rows()), 4)
	rows := must(store.Versions([]byte("city"), 0, hlcstore.MaxStamp))
	equal(t, len(rows), 3)
	if rows[0].Stamp != at(6) || rows[0].Node != 0 || rows[0].Value != nil {
		t.Error(rows[0])
	}
	if rows[1].Stamp != at(5) || rows[1].Node != 1 || rows[1].Value == nil || len(rows[1].Value) != 0 {
		t.Error(rows[1])
	}
	if rows[2].Stamp != at(5) || rows[2].Node != 0 || string(rows[2].Value) != "Lyon" {
		t.Error(rows[2])
	}
	equal(t, len(must(store.Versions([]byte("city"), at(5), at(6)))), 1)
	equal(t, len(must(store.Versions([]byte("city"), at(6), hlcstore.MaxStamp))), 0)
	equal(t, len(must(store.Versions(nil, 0, hlcstore.MaxStamp))), 0)
}
