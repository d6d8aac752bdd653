package hlcstore_test

import (
	"bytes"
	"crypto/sha256"
	"encoding/binary"
	"fmt"
	"runtime"
	"strings"
	"testing"
	"time"

	"hlcstore"
)

func keyOf(i int) string { return fmt.Sprintf("key%05d", i) }

// valueOf returns a value of a length between 0 and 700 bytes.
func valueOf(i int) string { return strings.Repeat(string(rune('a'+i%26)), i*7%701) }

func TestAnswersStay(t *testing.T) {
	store := open(t, 1)
	var node hlcstore.Node
	put(t, store, &node, 5, "city", "Lyon")
	old := must(store.Snapshot())
	put(t, store, &node, 6, "city", "Paris")
	remove(t, store, &node, 7, "city")
	middle, last := must(store.SnapshotAt(at(6))), must(store.Snapshot())
	must(store.Vacuum())
	equal(t, string(must(old.Get([]byte("city")))), "Lyon")
	equal(t, string(must(middle.Get([]byte("city")))), "Paris")
	_, err := last.Get([]byte("city"))
	refused(t, err, hlcstore.ErrNoValue, 0)
	equal(t, old.Stamp(), at(5))
	equal(t, last.Stamp(), at(7))
}

func TestOpeningIsRefusedOutsideOfHorizonAndFloor(t *testing.T) {
	store := filled(t, 9)
	_, err := store.SnapshotAt(at(9) + 1)
	refused(t, err, hlcstore.ErrAboveFloor, uint64(at(9)))
	must(store.VacuumTo(at(4)))
	_, err = store.SnapshotAt(at(4) - 1)
	refused(t, err, hlcstore.ErrBelowHorizon, uint64(at(4)))
	must(store.SnapshotAt(at(4))).Keep()
	for i := 1; i < 1024; i++ {
		must(store.Snapshot()).Keep()
	}
	_, err = store.Snapshot()
	refused(t, err, hlcstore.ErrTooManySnapshots, 0)
}

func TestClosedSnapshotIsRefused(t *testing.T) {
	store := filled(t, 3)
	snapshot := must(store.Snapshot())
	ok(t, snapshot.Close())
	ok(t, snapshot.Close())
	_, err := snapshot.Get([]byte(keyOf(0)))
	refused(t, err, hlcstore.ErrNoSnapshot, 0)
	_, err = snapshot.GetTo(nil, []byte(keyOf(0)))
	refused(t, err, hlcstore.ErrNoSnapshot, 0)
	pairs := snapshot.Range(nil, nil)
	equal(t, pairs.Next(), false)
	refused(t, pairs.Err(), hlcstore.ErrNoSnapshot, 0)
	equal(t, pairs.Next(), false)
	refused(t, pairs.Close(), hlcstore.ErrNoSnapshot, 0)
	_, err = store.CloseSnapshot(snapshot.ID())
	refused(t, err, hlcstore.ErrNoSnapshot, 0)
}

func TestSnapshotsByTheirIDs(t *testing.T) {
	store := filled(t, 9)
	first, second := must(store.SnapshotAt(at(3))), must(store.Snapshot())
	opened := must(store.Snapshots())
	equal(t, len(opened), 2)
	equal(t, opened[0], hlcstore.OpenSnapshot{ID: first.ID(), Stamp: at(3)})
	equal(t, opened[1], hlcstore.OpenSnapshot{ID: second.ID(), Stamp: at(9)})
	same := must(store.SnapshotByID(first.ID()))
	equal(t, same.Stamp(), at(3))
	equal(t, must(same.Count(nil, nil)), 3)
	equal(t, must(store.CloseSnapshot(first.ID())), at(3))
	_, err := store.SnapshotByID(first.ID())
	refused(t, err, hlcstore.ErrNoSnapshot, 0)
	ok(t, store.CloseAll())
	equal(t, len(must(store.Snapshots())), 0)
	ok(t, second.Close())
}

// openInTime returns whether so many snapshots are open within some seconds, in which garbage is collected.
func openInTime(store *hlcstore.Store, many int) bool {
	for i := 0; i < 200; i++ {
		runtime.GC()
		if len(must(store.Snapshots())) == many {
			return true
		}
		time.Sleep(10 * time.Millisecond)
	}
	return false
}

func TestForgottenSnapshotIsClosedAndAKeptOneIsNot(t *testing.T) {
	store := filled(t, 1)
	for i := 0; i < 10; i++ {
		must(store.Snapshot())
	}
	kept := must(store.Snapshot()).Keep()
	if !openInTime(store, 1) {
		t.Fatal(must(store.Snapshots()))
	}
	must(store.SnapshotByID(kept))
	runtime.GC()
	runtime.GC()
	equal(t, must(store.CloseSnapshot(kept)), at(1))
}

func TestIteratorKeepsItsSnapshotOpen(t *testing.T) {
	store := filled(t, 2000)
	pairs := must(store.Snapshot()).Range(nil, nil)
	many := 0
	for ; pairs.Next(); many++ {
		if many%500 == 0 {
			runtime.GC()
			time.Sleep(time.Millisecond)
		}
	}
	ok(t, pairs.Err())
	equal(t, many, 2000)
}

func TestGetOfEachLength(t *testing.T) {
	store := open(t, 1)
	var node hlcstore.Node
	lengths := []int{0, 1, 111, 112, 113, 1000, 65535}
	for i, length := range lengths {
		put(t, store, &node, uint64(i+1), fmt.Sprint(length), strings.Repeat("v", length))
	}
	snapshot := must(store.Snapshot())
	for _, length := range lengths {
		key, want := []byte(fmt.Sprint(length)), strings.Repeat("v", length)
		value := must(snapshot.Get(key))
		if value == nil {
			t.Error("an empty value is nil")
		}
		equal(t, string(value), want)
		equal(t, must(snapshot.Has(key)), true)
		for _, space := range []int{0, length, length + 1, 70000} {
			dst := append(make([]byte, 0, 3+space), "to "...)
			got := must(snapshot.GetTo(dst, key))
			equal(t, string(got), "to "+want)
			equal(t, len(got) > 0 && &got[0] == &dst[0], space >= length)
		}
	}
}

func TestKeyWithoutAValue(t *testing.T) {
	snapshot := must(filled(t, 3).Snapshot())
	for _, key := range [][]byte{nil, {}, []byte("none"), make([]byte, 300)} {
		value, err := snapshot.Get(key)
		refused(t, err, hlcstore.ErrNoValue, 0)
		if value != nil {
			t.Error(value)
		}
		dst, err := snapshot.GetTo([]byte("to"), key)
		refused(t, err, hlcstore.ErrNoValue, 0)
		equal(t, string(dst), "to")
		equal(t, must(snapshot.Has(key)), false)
	}
}

func TestGetManyReadsAlsoWhatDoesNotFitAtOnce(t *testing.T) {
	store := filled(t, 300)
	node := must(store.Join())
	for i := 0; i < 40; i++ {
		put(t, store, node, 1000, fmt.Sprint("long", i), strings.Repeat("v", 65535))
	}
	ok(t, store.Accept(hlcstore.Item{Kind: hlcstore.Report, Number: 300, Stamp: at(2000)}))
	var keys [][]byte
	for i := 0; i < 300; i++ {
		keys = append(keys, []byte(keyOf(i)), []byte("none"), nil, []byte(fmt.Sprint("long", i%40)))
	}
	snapshot := must(store.Snapshot())
	values := must(snapshot.GetMany(keys))
	equal(t, len(values), len(keys))
	for i := 0; i < 300; i++ {
		equal(t, string(values[4*i]), valueOf(i))
		if values[4*i] == nil || values[4*i+1] != nil || values[4*i+2] != nil {
			t.Fatal(i, "an empty value is nil, or none is not")
		}
		equal(t, len(values[4*i+3]), 65535)
	}
	equal(t, len(must(snapshot.GetMany(nil))), 0)
}

// entries returns the keys and values that an iterator goes through.
func entries(t testing.TB, i *hlcstore.Iterator) (keys, values []string) {
	t.Helper()
	for i.Next() {
		keys = append(keys, string(i.Key()))
		values = append(values, string(i.Value()))
	}
	if err := i.Close(); err != nil {
		t.Fatal(err)
	}
	return keys, values
}

func TestRangesInManyPieces(t *testing.T) {
	const many = 3000
	store := filled(t, many)
	snapshot := must(store.Snapshot())
	for _, bounds := range [][2]int{{0, many}, {1, many - 1}, {17, 18}, {500, 500}, {2999, many}, {700, 600}} {
		from, to := []byte(keyOf(bounds[0])), []byte(keyOf(bounds[1]))
		if bounds[1] == many {
			to = nil
		}
		var wanted []int
		for i := bounds[0]; i < bounds[1]; i++ {
			wanted = append(wanted, i)
		}
		keys, values := entries(t, snapshot.Range(from, to))
		backKeys, backValues := entries(t, snapshot.RangeBack(from, to))
		alone, none := entries(t, snapshot.Keys(from, to))
		equal(t, must(snapshot.Count(from, to)), uint64(len(wanted)))
		equal(t, len(keys), len(wanted))
		equal(t, len(backKeys), len(wanted))
		equal(t, len(alone), len(wanted))
		for place, i := range wanted {
			equal(t, keys[place]+" "+values[place], keyOf(i)+" "+valueOf(i))
			last := len(wanted) - 1 - place
			equal(t, backKeys[last]+" "+backValues[last], keyOf(i)+" "+valueOf(i))
			equal(t, alone[place]+none[place], keyOf(i))
		}
	}
}

func TestLongestPairsComeOneByOne(t *testing.T) {
	store := open(t, 1)
	var node hlcstore.Node
	for i := 0; i < 5; i++ {
		put(t, store, &node, uint64(i+1), strings.Repeat("k", 254)+fmt.Sprint(i), strings.Repeat("v", 65535))
	}
	empty := must(store.SnapshotAt(0))
	snapshot := must(store.Snapshot())
	for _, pairs := range []*hlcstore.Iterator{
		snapshot.Range(nil, nil), snapshot.RangeBack(nil, nil), empty.Changes(snapshot, nil, nil),
	} {
		keys, values := entries(t, pairs)
		equal(t, len(keys), 5)
		equal(t, len(values[4]), 65535)
	}
}

func TestLastKeyBelowAnother(t *testing.T) {
	snapshot := must(filled(t, 9).Snapshot())
	pairs := snapshot.RangeBack(nil, []byte(keyOf(5)))
	equal(t, pairs.Next(), true)
	equal(t, string(pairs.Key()), keyOf(4))
}

func TestIteratorBeforeAndAfterItsEntries(t *testing.T) {
	var zero hlcstore.Iterator
	equal(t, zero.Next(), false)
	ok(t, zero.Close())
	snapshot := must(filled(t, 2).Snapshot())
	pairs := snapshot.Range(nil, nil)
	for i := 0; i < 2; i++ {
		if pairs.Key() != nil || pairs.Value() != nil {
			t.Error("it has an entry")
		}
		for pairs.Next() {
			if cap(pairs.Key()) != len(pairs.Key()) || cap(pairs.Value()) != len(pairs.Value()) {
				t.Error("there is room for the next entry behind this one")
			}
		}
	}
	ok(t, pairs.Close())
	closed := snapshot.Range(nil, nil)
	equal(t, closed.Next(), true)
	ok(t, closed.Close())
	equal(t, closed.Next(), false)
	if closed.Key() != nil {
		t.Error(closed.Key())
	}
}

func TestBoundsMayBeChangedDuringAnIteration(t *testing.T) {
	snapshot := must(filled(t, 3000).Snapshot())
	from, to := []byte(keyOf(10)), []byte(keyOf(2990))
	pairs := snapshot.Range(from, to)
	copy(from, "zzzzzzzz")
	copy(to, "aaaaaaaa")
	keys, _ := entries(t, pairs)
	equal(t, len(keys), 2980)
}

func TestLoopMayCallTheStore(t *testing.T) {
	store := filled(t, 3000)
	node := must(store.Join())
	many := 0
	snapshot := must(store.Snapshot())
	for pairs := snapshot.Range(nil, nil); pairs.Next(); many++ {
		put(t, store, node, uint64(5000+many), string(pairs.Key())+"!", "x")
	}
	equal(t, many, 3000)
}

func TestChangesLeadFromOneSnapshotToAnother(t *testing.T) {
	store := open(t, 1)
	var node hlcstore.Node
	put(t, store, &node, 1, "gone", "x")
	put(t, store, &node, 2, "same", "x")
	put(t, store, &node, 3, "news", "x")
	before := must(store.Snapshot())
	remove(t, store, &node, 4, "gone")
	put(t, store, &node, 5, "same", "x")
	put(t, store, &node, 6, "news", "")
	put(t, store, &node, 7, "more", "y")
	after := must(store.Snapshot())
	changes := before.Changes(after, nil, nil)
	var listed []string
	for changes.Next() {
		listed = append(listed, fmt.Sprintf("%s %v %q", changes.Key(), changes.Value() == nil, changes.Value()))
	}
	ok(t, changes.Close())
	equal(t, strings.Join(listed, ", "), `gone true "", more false "y", news false ""`)
	back, values := entries(t, after.Changes(before, []byte("m"), []byte("news\x00")))
	equal(t, strings.Join(back, " ")+strings.Join(values, ","), "more news,x")
	other := must(filled(t, 1).Snapshot())
	foreign := before.Changes(other, nil, nil)
	equal(t, foreign.Next(), false)
	refused(t, foreign.Close(), hlcstore.ErrNoSnapshot, 0)
}

// listed returns pairs in the form of hlc_snapshot_list, whose SHA-256 is their digest.
func listed(keys, values []string) []byte {
	var out bytes.Buffer
	for i := range keys {
		for _, part := range []string{keys[i], values[i]} {
			binary.Write(&out, binary.LittleEndian, uint64(len(part)))
			out.WriteString(part)
		}
	}
	return out.Bytes()
}

func TestDigestIsThatOfTheListing(t *testing.T) {
	snapshot := must(filled(t, 100).Snapshot())
	for _, bounds := range [][2][]byte{{nil, nil}, {[]byte(keyOf(3)), []byte(keyOf(50))}, {[]byte("z"), nil}} {
		keys, values := entries(t, snapshot.Range(bounds[0], bounds[1]))
		equal(t, must(snapshot.Digest(bounds[0], bounds[1])), sha256.Sum256(listed(keys, values)))
	}
	var keys, values []string
	for _, pair := range must(snapshot.List()) {
		keys, values = append(keys, string(pair.Key)), append(values, string(pair.Value))
	}
	equal(t, must(snapshot.Digest(nil, nil)), sha256.Sum256(listed(keys, values)))
	equal(t, len(keys), 100)
}
