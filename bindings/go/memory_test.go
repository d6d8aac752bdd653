package hlcstore_test

import (
	"bytes"
	"fmt"
	"io"
	"os"
	"runtime"
	"runtime/debug"
	"testing"
	"testing/iotest"
	"time"

	"hlcstore"
)

// resident returns how much memory the process has, in KiB, C's and Go's.
func resident(t *testing.T) int {
	t.Helper()
	debug.FreeOSMemory()
	statm, err := os.ReadFile("/proc/self/statm")
	if err != nil {
		t.Skip("left out: no /proc")
	}
	var size, pages int
	fmt.Sscan(string(statm), &size, &pages)
	return pages * os.Getpagesize() >> 10
}

// What a process may grow by, in KiB, where nothing leaks. In each of these tests a leak would be twice that.
const growth = 24 << 10

// grows fails where a turn that is made again and again takes more and more memory.
func grows(t *testing.T, turns int, turn func()) {
	t.Helper()
	if testing.Short() {
		t.Skip("left out: it takes seconds")
	}
	for i := 0; i < turns; i++ {
		turn()
	}
	before := resident(t)
	for i := 0; i < 4*turns; i++ {
		turn()
	}
	if after := resident(t); after > before+growth {
		t.Errorf("%d KiB before, %d after", before, after)
	}
}

func TestClosedStoresLeaveNothing(t *testing.T) {
	grows(t, 150, func() {
		store := filled(t, 200)
		snapshot := must(store.Snapshot())
		pairs := snapshot.Range(nil, nil)
		pairs.Next()
		var saved bytes.Buffer
		must(store.Checkpoint(&saved, 0))
		must(store.Increment(&saved, 0, 0))
		must(store.Vacuum())
		must(store.Certificate(&saved, at(200)))
		restoreError(bytes.NewReader(saved.Bytes()))
		restoreError(io.MultiReader(&saved, iotest.ErrReader(io.ErrUnexpectedEOF)))
		store.Close()
	})
}

func TestForgottenStoresLeaveNothing(t *testing.T) {
	turns := 0
	grows(t, 80, func() {
		store := must(hlcstore.Open(1))
		var node hlcstore.Node
		for i := 0; i < 200; i++ {
			item := must(node.Write(uint64(i), []byte(keyOf(i)), make([]byte, 1000)))
			if err := store.Accept(item); err != nil {
				t.Fatal(err)
			}
		}
		must(store.Snapshot())
		if turns++; turns%20 == 0 {
			runtime.GC()
			time.Sleep(10 * time.Millisecond)
			runtime.GC()
			time.Sleep(10 * time.Millisecond)
		}
	})
}

func TestSnapshotsLeaveNothing(t *testing.T) {
	store := filled(t, 100)
	grows(t, 5000, func() {
		snapshot := must(store.Snapshot())
		must(snapshot.List())
		must(snapshot.Get([]byte(keyOf(5))))
		must(snapshot.GetMany([][]byte{[]byte(keyOf(5)), []byte(keyOf(6))}))
		snapshot.Range(nil, nil).Next()
		snapshot.Close()
	})
}

// The memory that calls take in Go, beside what they return.
func TestAllocations(t *testing.T) {
	store := open(t, 1)
	var node hlcstore.Node
	put(t, store, &node, 1, "key", "value")
	snapshot := must(store.Snapshot())
	key, none, value, dst := []byte("key"), []byte("none"), []byte("value"), make([]byte, 0, 100)
	item := hlcstore.Item{Stamp: at(1), Key: "key", Value: "value"}
	batch := batchOf("a", "x", "b", "y")
	for name, call := range map[string]struct {
		most float64
		call func()
	}{
		"Get, the value":             {1, func() { snapshot.Get(key) }},
		"Get of no value":            {0, func() { snapshot.Get(none) }},
		"GetTo":                      {0, func() { snapshot.GetTo(dst, key) }},
		"Has":                        {0, func() { snapshot.Has(key) }},
		"Node.Write, its bytes":      {1, func() { node.Write(1, key, value) }},
		"Node.WriteBatch, its bytes": {1, func() { node.WriteBatch(1, batch) }},
		"Batch.Write, no more room":  {0, func() { batch.Clear(); batch.Write(key, value) }},
		"Node.Report":                {0, func() { node.Report(1) }},
		"Item.AppendTo":              {0, func() { item.AppendTo(dst) }},
		"a refused item, its error":  {1, func() { store.Accept(item) }},
		"Floor":                      {0, func() { store.Floor() }},
		"Count":                      {0, func() { snapshot.Count(nil, nil) }},
	} {
		if many := testing.AllocsPerRun(100, call.call); many > call.most {
			t.Errorf("%s: %v allocations", name, many)
		}
	}
}
