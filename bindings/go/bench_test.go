package hlcstore_test

import (
	"testing"

	"hlcstore"
)

// The work of bench/callers.c: keys and values of 8 bytes, 1,000 keys, 100 versions of each.
const (
	benchWrites = 100_000
	benchKeys   = 1_000
)

func benchItems() []hlcstore.Item {
	keys := make([]string, benchKeys)
	for i := range keys {
		keys[i] = keyOf(i)
	}
	items := make([]hlcstore.Item, benchWrites)
	for i := range items {
		items[i] = hlcstore.Item{
			Number: uint64(i), Stamp: at(uint64(i + 1)), Key: keys[i%benchKeys], Value: "value000",
		}
	}
	return items
}

func benchSnapshot(b *testing.B) *hlcstore.Snapshot {
	store := open(b, 1)
	must(store.AcceptAll(benchItems()))
	return must(store.Snapshot())
}

func benchAsked() [][]byte {
	keys := make([][]byte, benchKeys)
	for i := range keys {
		keys[i] = []byte(keyOf(i * 7 % benchKeys))
	}
	return keys
}

// each runs a part of the work of a whole round for each call, with a new store for each round.
func each(b *testing.B, step int, call func(store *hlcstore.Store, at int)) {
	b.ReportAllocs()
	b.ResetTimer()
	var store *hlcstore.Store
	for i := 0; i < b.N; i += step {
		place := i % benchWrites
		if place == 0 {
			b.StopTimer()
			if store != nil {
				store.Close()
			}
			store = open(b, 1)
			b.StartTimer()
		}
		call(store, place)
	}
}

func BenchmarkAccept(b *testing.B) {
	items := benchItems()
	each(b, 1, func(store *hlcstore.Store, at int) { store.Accept(items[at]) })
}

func BenchmarkAcceptAllBy1000(b *testing.B) {
	items := benchItems()
	each(b, 1000, func(store *hlcstore.Store, at int) { store.AcceptAll(items[at : at+1000]) })
}

func BenchmarkAcceptItemsBy1000(b *testing.B) {
	items := benchItems()
	logs := make([][]byte, benchWrites/1000)
	for i, item := range items {
		logs[i/1000] = must(item.AppendTo(logs[i/1000]))
	}
	each(b, 1000, func(store *hlcstore.Store, at int) { store.AcceptItems(logs[at/1000]) })
}

// A put is a write of a node, and its acceptance.
func BenchmarkPut(b *testing.B) {
	keys, value := benchAsked(), []byte("value000")
	var node *hlcstore.Node
	each(b, 1, func(store *hlcstore.Store, at int) {
		if at == 0 {
			node = hlcstore.NewNode(0, 0)
		}
		item, _ := node.Write(uint64(at), keys[at%benchKeys], value)
		store.Accept(item)
	})
}

func BenchmarkNodeWrite(b *testing.B) {
	b.ReportAllocs()
	key, value := []byte("key00005"), []byte("value000")
	var node hlcstore.Node
	for i := 0; i < b.N; i++ {
		node.Write(uint64(i), key, value)
	}
}

func BenchmarkGet(b *testing.B) {
	snapshot, keys := benchSnapshot(b), benchAsked()
	b.ReportAllocs()
	b.ResetTimer()
	for i := 0; i < b.N; i++ {
		snapshot.Get(keys[i%benchKeys])
	}
}

func BenchmarkGetTo(b *testing.B) {
	snapshot, keys := benchSnapshot(b), benchAsked()
	dst := make([]byte, 0, 64)
	b.ReportAllocs()
	b.ResetTimer()
	for i := 0; i < b.N; i++ {
		snapshot.GetTo(dst, keys[i%benchKeys])
	}
}

func BenchmarkGetManyBy1000(b *testing.B) {
	snapshot, keys := benchSnapshot(b), benchAsked()
	b.ReportAllocs()
	b.ResetTimer()
	for i := 0; i < b.N; i += benchKeys {
		snapshot.GetMany(keys)
	}
}

func BenchmarkGetInParallel(b *testing.B) {
	snapshot, keys := benchSnapshot(b), benchAsked()
	b.ResetTimer()
	b.RunParallel(func(turns *testing.PB) {
		for i := 0; turns.Next(); i++ {
			snapshot.Get(keys[i%benchKeys])
		}
	})
}

// Each operation is one key of an iteration over all.
func BenchmarkIteratePerKey(b *testing.B) {
	snapshot := benchSnapshot(b)
	b.ReportAllocs()
	b.ResetTimer()
	for i := 0; i < b.N; i += benchKeys {
		pairs := snapshot.Range(nil, nil)
		for pairs.Next() {
		}
		pairs.Close()
	}
}

func BenchmarkFloor(b *testing.B) {
	store := filled(b, 1)
	b.ReportAllocs()
	for i := 0; i < b.N; i++ {
		store.Floor()
	}
}
