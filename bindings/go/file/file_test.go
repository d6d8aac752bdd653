package file_test

import (
	"bytes"
	"errors"
	"fmt"
	"io"
	"os"
	"os/exec"
	"path/filepath"
	"strings"
	"sync"
	"testing"
	"time"

	"hlcstore"
	"hlcstore/file"
)

func at(physical uint64) hlcstore.Stamp { return hlcstore.MustStamp(physical, 0) }

func must[T any](result T, err error) T {
	if err != nil {
		panic(err)
	}
	return result
}

func ok(t *testing.T, err error) {
	t.Helper()
	if err != nil {
		t.Fatal(err)
	}
}

func equal[T comparable](t *testing.T, got, want T) {
	t.Helper()
	if got != want {
		t.Fatalf("got %v, want %v", got, want)
	}
}

func is(t *testing.T, err, want error) {
	t.Helper()
	if !errors.Is(err, want) {
		t.Fatalf("got %v, want %v", err, want)
	}
}

// refused checks that an error is this one of a file, with this word.
func refused(t *testing.T, err error, code file.Code, word uint64) {
	t.Helper()
	var refusal *file.Error
	if !errors.As(err, &refusal) || *refusal != (file.Error{Code: code, Word: word}) {
		t.Fatalf("got %v, want %v with the word %d", err, code, word)
	}
}

func second[T any](_ T, err error) error { return err }

// fresh returns a path without a file.
func fresh(t testing.TB) string { return filepath.Join(t.TempDir(), "store") }

// open opens a file that is closed after the test.
func open(t testing.TB, path string, options *file.Options) *file.File {
	t.Helper()
	opened, err := file.Open(path, options)
	if err != nil {
		t.Fatal(err)
	}
	t.Cleanup(func() { opened.Close() })
	return opened
}

// put appends a batch of keys and values of node 0.
func put(t testing.TB, f *file.File, reading uint64, pairs ...string) hlcstore.Stamp {
	t.Helper()
	var batch file.Batch
	defer batch.Close()
	for i := 0; i < len(pairs); i += 2 {
		if err := batch.Put([]byte(pairs[i]), []byte(pairs[i+1])); err != nil {
			t.Fatal(err)
		}
	}
	stamp, err := f.Append(0, reading, &batch, file.Default)
	if err != nil || batch.Len() != 0 {
		t.Fatal(batch.Len(), err)
	}
	return stamp
}

func get(f *file.File, stamp hlcstore.Stamp, key string) string {
	snapshot := must(f.SnapshotAt(stamp))
	defer snapshot.Close()
	return string(must(snapshot.Get([]byte(key))))
}

func TestBatchIsThereAfterAReopening(t *testing.T) {
	path := fresh(t)
	f := open(t, path, nil)
	first := put(t, f, 10, "city", "Lyon", "lake", "Como")
	equal(t, first, hlcstore.MustStamp(10, 1))
	// Each write has a stamp of its own.
	between := must(f.SnapshotAt(at(10)))
	equal(t, must(between.Count(nil, nil)), 1)
	ok(t, between.Close())
	later := put(t, f, 20, "city", "Rome")
	equal(t, get(f, first, "city"), "Lyon")
	equal(t, must(f.Status()).Created, true)
	ok(t, f.Close())
	ok(t, f.Close())
	f = open(t, path, &file.Options{MustExist: true})
	equal(t, must(f.Floor()), later)
	equal(t, get(f, first, "city")+get(f, first, "lake")+get(f, later, "city"), "LyonComoRome")
	state := must(f.Status())
	equal(t, state.Created, false)
	equal(t, state.Clock >= later, true)
	if state.Applied == 0 || state.Failure != nil || state.Writes != nil || state.Background != nil {
		t.Error(state)
	}
}

func TestBatchAtOneStamp(t *testing.T) {
	path := fresh(t)
	f := open(t, path, nil)
	put(t, f, 5, "lake", "old")
	var batch file.Batch
	defer batch.Close()
	is(t, second(f.WriteBatch(0, 10, &batch, file.Default)), hlcstore.ErrNoWrites)
	for i := 0; i < 257; i++ {
		ok(t, batch.Put([]byte(fmt.Sprint(i)), nil))
	}
	is(t, second(f.WriteBatch(0, 10, &batch, file.Default)), hlcstore.ErrTooManyWrites)
	batch.Clear()
	ok(t, batch.Put([]byte("city"), []byte("Lyon")))
	ok(t, batch.Delete([]byte("lake")))
	ok(t, batch.Delete([]byte("city")))
	is(t, second(f.WriteBatch(0, 10, &batch, file.Default)), hlcstore.ErrKeyTwice)
	equal(t, batch.Len(), 3)
	batch.Clear()
	ok(t, batch.Put([]byte("city"), []byte("Lyon")))
	ok(t, batch.Delete([]byte("lake")))
	is(t, second(f.WriteBatch(1, 10, &batch, file.Default)), hlcstore.ErrNoNode)
	equal(t, must(f.WriteBatch(0, 10, &batch, file.Group)), at(10))
	equal(t, batch.Len(), 0)
	for i := 0; i < 2; i++ {
		early, late := must(f.SnapshotAt(at(10)-1)), must(f.SnapshotAt(at(10)))
		equal(t, string(must(early.Get([]byte("lake"))))+string(must(late.Get([]byte("city")))), "oldLyon")
		is(t, second(early.Get([]byte("city"))), hlcstore.ErrNoValue)
		is(t, second(late.Get([]byte("lake"))), hlcstore.ErrNoValue)
		ok(t, f.Close())
		f = open(t, path, nil)
	}
	equal(t, must(f.Status()).Applied, 2)
	ok(t, batch.Put([]byte("city"), nil))
	ok(t, f.Close())
	is(t, second(f.WriteBatch(0, 10, &batch, file.Default)), hlcstore.ErrClosed)
}

func TestCheckpointAndVacuum(t *testing.T) {
	path := fresh(t)
	f := open(t, path, nil)
	for reading := uint64(1); reading <= 9; reading++ {
		put(t, f, reading, "city", fmt.Sprint(reading))
	}
	equal(t, must(f.VacuumTo(at(6))), hlcstore.Vacuumed{Stamp: at(6), Kept: 1, Bytes: 4 + 1 + 10, Dropped: 5})
	equal(t, must(f.Horizon()), at(6))
	is(t, second(f.SnapshotAt(at(5))), hlcstore.ErrBelowHorizon)
	is(t, second(f.VacuumTo(at(5))), hlcstore.ErrBelowHorizon)
	is(t, second(f.VacuumTo(at(10))), hlcstore.ErrAboveFloor)
	place := must(f.Checkpoint())
	state := must(f.Status())
	equal(t, state.CheckpointPlace, place)
	equal(t, state.LogBytes, 0)
	ok(t, f.Close())
	f = open(t, path, nil)
	equal(t, must(f.Status()).Applied, 0)
	equal(t, must(f.Horizon()), at(6))
	equal(t, get(f, at(6), "city")+get(f, at(9), "city"), "69")
	equal(t, must(f.VacuumOlder(0)).Dropped, 3)
	is(t, second(f.VacuumOlder(1<<62)), file.ErrNoStamp)
}

// meddler writes to the file before each piece, and takes so many bytes at most.
type meddler struct {
	file  *file.File
	taken bytes.Buffer
	most  int
}

func (m *meddler) Write(piece []byte) (int, error) {
	if _, err := m.file.Write(0, 9, []byte("later"), nil); err != nil {
		return 0, err
	}
	if room := m.most - m.taken.Len(); len(piece) > room {
		piece = piece[:room]
	}
	return m.taken.Write(piece)
}

func TestCheckpointToAWriter(t *testing.T) {
	f := open(t, fresh(t), &file.Options{Promise: file.Written})
	for reading := uint64(1); reading <= 8; reading++ {
		put(t, f, reading, fmt.Sprint(reading), strings.Repeat("v", 60_000))
	}
	saved := meddler{file: f, most: 1 << 20}
	equal(t, must(f.CheckpointTo(&saved, 7)), int64(saved.taken.Len()))
	store, tag, err := hlcstore.RestoreBytes(saved.taken.Bytes())
	ok(t, err)
	defer store.Close()
	equal(t, tag, 7)
	equal(t, must(store.Floor()), at(8))
	var again bytes.Buffer
	equal(t, must(store.Checkpoint(&again, 7)), int64(saved.taken.Len()))
	equal(t, bytes.Equal(again.Bytes(), saved.taken.Bytes()), true)
	equal(t, must(f.Floor()) > at(9), true)
	equal(t, must(f.Status()).CheckpointPlace, 0)
	short := meddler{file: f, most: 100_000}
	many, err := f.CheckpointTo(&short, 0)
	equal(t, many, 100_000)
	is(t, err, io.ErrShortWrite)
}

// A closer closes the file before each piece.
type closer struct{ file *file.File }

func (c closer) Write(piece []byte) (int, error) {
	closed := make(chan error, 1)
	go func() { closed <- c.file.Close() }()
	select {
	case err := <-closed:
		return len(piece), err
	case <-time.After(20 * time.Second):
		return 0, errors.New("the file is in use")
	}
}

// The bytes are a copy, which is written to its end.
func TestWriterOfACheckpointMayCloseTheFile(t *testing.T) {
	f := open(t, fresh(t), nil)
	put(t, f, 1, "lake", strings.Repeat("v", 60_000), "river", strings.Repeat("v", 60_000))
	if many := must(f.CheckpointTo(closer{f}, 0)); many <= 2*60_000 {
		t.Error(many)
	}
	is(t, second(f.Floor()), hlcstore.ErrClosed)
}

func TestNodesOfAFile(t *testing.T) {
	f := open(t, fresh(t), &file.Options{Nodes: 2})
	put(t, f, 10, "city", "Lyon")
	equal(t, must(f.Floor()), 0)
	equal(t, must(f.Report(1, 12)), at(12))
	equal(t, must(f.Floor()), at(10))
	node, start, err := f.Join()
	ok(t, err)
	equal(t, node, 2)
	equal(t, start, at(10))
	sent := must(f.Send(2, 15))
	if received := must(f.Receive(0, sent, 14)); received <= sent {
		t.Error(received, sent)
	}
	must(f.Retire(1, 16))
	is(t, second(f.Report(1, 17)), hlcstore.ErrRetired)
	is(t, second(f.Report(3, 17)), hlcstore.ErrNoNode)
	is(t, second(f.Report(0, 1<<48)), hlcstore.ErrReadingTooLarge)
	now := must(f.Report(0, file.Now)).Time()
	if age := time.Since(now); age > time.Minute || age < -time.Minute {
		t.Error(now)
	}
}

func TestSingleWrites(t *testing.T) {
	f := open(t, fresh(t), nil)
	equal(t, must(f.Write(0, 5, []byte("a"), []byte("x"))), at(5))
	equal(t, must(f.Delete(0, 6, []byte("a"))), at(6))
	equal(t, get(f, at(5), "a"), "x")
	is(t, second(must(f.Snapshot()).Get([]byte("a"))), hlcstore.ErrNoValue)
	is(t, second(f.Write(0, 7, nil, nil)), hlcstore.ErrBadKey)
	is(t, second(f.Write(0, 7, []byte("a"), make([]byte, 65536))), hlcstore.ErrValueTooLong)
	is(t, second(f.Delete(1, 7, []byte("a"))), hlcstore.ErrNoNode)
	equal(t, must(f.Floor()), at(6))
}

func TestRecordsComeAllOrNone(t *testing.T) {
	f := open(t, fresh(t), nil)
	var node hlcstore.Node
	log := must(must(node.Write(5, []byte("a"), []byte("x"))).Encode())
	log = must(must(node.Report(6)).AppendTo(log))
	equal(t, must(f.AppendRecords(log, file.Default)), 2)
	equal(t, must(f.AppendRecords(log, file.Default)), 2)
	equal(t, must(f.Floor()), at(6))
	more := must(must(node.Report(7)).AppendTo(nil))
	many, err := f.AppendRecords(append(more, 9), file.Default)
	is(t, err, hlcstore.ErrBadBytes)
	equal(t, many, 1)
	equal(t, must(f.Floor()), at(6))
}

func TestBatches(t *testing.T) {
	var batch file.Batch
	equal(t, batch.Len(), 0)
	batch.Clear()
	is(t, batch.Put(nil, nil), hlcstore.ErrBadKey)
	is(t, batch.Delete(make([]byte, 256)), hlcstore.ErrBadKey)
	is(t, batch.Put([]byte("a"), make([]byte, 65536)), hlcstore.ErrValueTooLong)
	ok(t, batch.Put([]byte("a"), nil))
	ok(t, batch.Delete([]byte("b")))
	equal(t, batch.Len(), 2)
	f := open(t, fresh(t), nil)
	is(t, second(f.Append(0, 5, &batch, 9)), file.ErrBadOption)
	is(t, second(f.Append(1, 5, &batch, file.Default)), hlcstore.ErrNoNode)
	equal(t, batch.Len(), 2)
	equal(t, must(f.Append(0, 5, &batch, file.Written)), hlcstore.MustStamp(5, 1))
	equal(t, batch.Len(), 0)
	must(f.Append(0, 6, &batch, file.Group))
	equal(t, must(f.Floor()), hlcstore.MustStamp(5, 1))
	var err error
	for i := 0; err == nil; i++ {
		if i == 1025 {
			t.Fatal("it has more than 64 MiB")
		}
		err = batch.Put([]byte("key"), make([]byte, 65535))
	}
	is(t, err, file.ErrTooLong)
	ok(t, batch.Close())
	ok(t, batch.Close())
	equal(t, batch.Len(), 0)
}

func TestReadsOfASnapshot(t *testing.T) {
	f := open(t, fresh(t), nil)
	put(t, f, 1, "gone", "x", "kept", "x")
	before := must(f.Snapshot())
	var batch file.Batch
	ok(t, batch.Delete([]byte("gone")))
	for i := 0; i < 500; i++ {
		ok(t, batch.Put([]byte(fmt.Sprintf("key%03d", i)), []byte(strings.Repeat("v", i))))
	}
	must(f.Append(0, 2, &batch, file.Default))
	after := must(f.Snapshot())
	equal(t, must(before.Count(nil, nil)), 2)
	equal(t, must(after.Count([]byte("key"), []byte("l"))), 500)
	equal(t, must(before.Digest(nil, nil)) == must(after.Digest(nil, nil)), false)
	pairs, back := after.Range([]byte("key"), []byte("l")), after.RangeBack([]byte("key"), []byte("l"))
	for i := 0; i < 500; i++ {
		equal(t, pairs.Next() && back.Next(), true)
		equal(t, string(pairs.Key())+fmt.Sprint(len(pairs.Value())), fmt.Sprintf("key%03d%d", i, i))
		equal(t, string(back.Key()), fmt.Sprintf("key%03d", 499-i))
	}
	equal(t, pairs.Next() || back.Next(), false)
	ok(t, pairs.Close())
	changes := before.Changes(after, nil, []byte("key000\x00"))
	equal(t, changes.Next() && string(changes.Key()) == "gone" && changes.Value() == nil, true)
	equal(t, changes.Next() && string(changes.Key()) == "key000" && changes.Value() != nil, true)
	equal(t, changes.Next(), false)
	if value := must(after.Get([]byte("key000"))); value == nil || len(value) != 0 {
		t.Error(value)
	}
	equal(t, string(must(after.GetTo([]byte("to "), []byte("key003")))), "to vvv")
	is(t, second(after.Get([]byte("gone"))), hlcstore.ErrNoValue)
	ok(t, after.Close())
	ok(t, after.Close())
	is(t, second(after.Get([]byte("kept"))), hlcstore.ErrNoSnapshot)
	is(t, second(after.Digest(nil, nil)), hlcstore.ErrNoSnapshot)
	foreign := before.Changes(must(open(t, fresh(t), nil).Snapshot()), nil, nil)
	equal(t, foreign.Next(), false)
	is(t, foreign.Err(), hlcstore.ErrNoSnapshot)
}

func TestClosedFileRefusesEachCall(t *testing.T) {
	closed := open(t, fresh(t), nil)
	put(t, closed, 1, "a", "x")
	snapshot := must(closed.Snapshot())
	ok(t, closed.Close())
	var batch file.Batch
	for _, f := range []*file.File{closed, new(file.File)} {
		for name, err := range map[string]error{
			"Append": second(f.Append(0, 1, &batch, file.Default)), "Report": second(f.Report(0, 1)),
			"Retire": second(f.Retire(0, 1)), "Send": second(f.Send(0, 1)), "Receive": second(f.Receive(0, 1, 1)),
			"AppendRecords": second(f.AppendRecords(nil, file.Default)), "Checkpoint": second(f.Checkpoint()),
			"CheckpointTo": second(f.CheckpointTo(io.Discard, 0)), "VacuumTo": second(f.VacuumTo(0)),
			"VacuumOlder": second(f.VacuumOlder(0)), "Status": second(f.Status()),
			"Snapshot": second(f.Snapshot()), "SnapshotAt": second(f.SnapshotAt(0)), "Floor": second(f.Floor()),
			"Horizon": second(f.Horizon()), "Write": second(f.Write(0, 1, []byte("a"), nil)),
			"Delete": second(f.Delete(0, 1, []byte("a"))),
		} {
			if !errors.Is(err, hlcstore.ErrClosed) {
				t.Error(name, err)
			}
		}
		_, _, err := f.Join()
		is(t, err, hlcstore.ErrClosed)
		ok(t, f.Close())
	}
	for _, snapshot := range []*file.Snapshot{snapshot, new(file.Snapshot)} {
		is(t, second(snapshot.Get(nil)), hlcstore.ErrClosed)
		is(t, second(snapshot.Count(nil, nil)), hlcstore.ErrClosed)
		is(t, second(snapshot.Digest(nil, nil)), hlcstore.ErrClosed)
		for _, entries := range []*hlcstore.Iterator{
			snapshot.Range(nil, nil), snapshot.RangeBack(nil, nil), snapshot.Changes(snapshot, nil, nil),
		} {
			equal(t, entries.Next(), false)
			is(t, entries.Err(), hlcstore.ErrClosed)
		}
		ok(t, snapshot.Close())
	}
}

func TestErrorsOfOpening(t *testing.T) {
	path := fresh(t)
	is(t, second(file.Open(path, &file.Options{MustExist: true})), file.ErrCannotOpen)
	is(t, second(file.Open(filepath.Join(path, "none"), nil)), file.ErrCannotOpen)
	is(t, second(file.Open("a\x00b", nil)), file.ErrCannotOpen)
	for _, options := range []file.Options{{Nodes: 65}, {Promise: 9}, {GroupMicros: 1_000_001}} {
		is(t, second(file.Open(path, &options)), file.ErrBadOption)
	}
	first := open(t, path, nil)
	is(t, second(file.Open(path, nil)), file.ErrInUse)
	ok(t, first.Close())
	ok(t, open(t, path, nil).Close())
	text := []byte(strings.Repeat("a text is no store\n", 100))
	other := fresh(t)
	ok(t, os.WriteFile(other, text, 0o600))
	is(t, second(file.Open(other, nil)), file.ErrNotOurs)
	equal(t, bytes.Equal(must(os.ReadFile(other)), text), true)
}

// changed makes a store of two batches, and changes its tables by SQL. It returns its path.
func changed(t *testing.T, sql string) string {
	t.Helper()
	if _, err := exec.LookPath("sqlite3"); err != nil {
		t.Skip("left out: no sqlite3")
	}
	path := fresh(t)
	f := open(t, path, nil)
	put(t, f, 1, "a", "x")
	put(t, f, 2, "b", "y")
	ok(t, f.Close())
	if out, err := exec.Command("sqlite3", path, sql).CombinedOutput(); err != nil {
		t.Fatalf("%s %v", out, err)
	}
	return path
}

func TestErrorsOfADamagedFile(t *testing.T) {
	newer := changed(t, "PRAGMA user_version = 7")
	refused(t, second(file.Open(newer, nil)), file.ErrNewer, 7)
	damaged := changed(t, "UPDATE log SET records = zeroblob(30) WHERE place = (SELECT max(place) FROM log)")
	refused(t, second(file.Open(damaged, nil)), file.ErrDamagedLog, 2)
	kept := open(t, damaged, &file.Options{KeepBeforeDamage: true})
	equal(t, must(kept.Status()).Aside, 1)
	equal(t, must(kept.Floor()), at(1))
	without := changed(t, "DELETE FROM log WHERE place = 1")
	if _, err := file.Open(without, nil); err == nil {
		t.Error("it was opened without its first row")
	}
}

// A writer appends the number of the batch to each of two keys; so each snapshot has the same number in both.
func TestReadersBesideAWriter(t *testing.T) {
	path := fresh(t)
	f := open(t, path, &file.Options{Promise: file.Written, CheckpointBytes: 4096})
	put(t, f, 1, "a", "0", "b", "0")
	over := time.Now().Add(500 * time.Millisecond)
	var group sync.WaitGroup
	for r := 0; r < 3; r++ {
		group.Add(1)
		go func() {
			defer group.Done()
			for time.Now().Before(over) {
				readBoth(t, f)
			}
		}()
	}
	var last hlcstore.Stamp
	for n := uint64(1); time.Now().Before(over); n++ {
		last = put(t, f, n+1, "a", fmt.Sprint(n), "b", fmt.Sprint(n))
		if n%50 == 0 {
			must(f.VacuumTo(must(f.Floor())))
			must(f.Checkpoint())
		}
	}
	group.Wait()
	ok(t, f.Close())
	equal(t, must(open(t, path, nil).Floor()), last)
}

// readBoth reads both keys at the stamp of a whole batch: its last item has the counter 1.
func readBoth(t *testing.T, f *file.File) {
	floor := must(f.Floor())
	if floor.Counter() != 1 {
		return
	}
	snapshot, err := f.SnapshotAt(floor)
	if errors.Is(err, hlcstore.ErrBelowHorizon) {
		return
	}
	if err != nil {
		t.Error(err)
		return
	}
	defer snapshot.Close()
	a, b := must(snapshot.Get([]byte("a"))), must(snapshot.Get([]byte("b")))
	if !bytes.Equal(a, b) {
		t.Errorf("%s %s", a, b)
	}
}

func TestCloseBesideCalls(t *testing.T) {
	f := open(t, fresh(t), nil)
	put(t, f, 1, "a", "x")
	snapshot := must(f.Snapshot())
	var group sync.WaitGroup
	for r := 0; r < 4; r++ {
		group.Add(1)
		go func() {
			defer group.Done()
			var err error
			for err == nil {
				_, err = snapshot.Get([]byte("a"))
			}
			if !errors.Is(err, hlcstore.ErrClosed) {
				t.Error(err)
			}
		}()
	}
	time.Sleep(5 * time.Millisecond)
	ok(t, f.Close())
	group.Wait()
}

func Example() {
	folder := must(os.MkdirTemp("", "hlcstore"))
	defer os.RemoveAll(folder)
	store := must(file.Open(filepath.Join(folder, "store"), nil))
	defer store.Close()
	then := must(store.Write(0, file.Now, []byte("city"), []byte("Lyon")))
	var batch file.Batch
	defer batch.Close()
	must(0, batch.Put([]byte("city"), []byte("Rome")))
	must(0, batch.Put([]byte("river"), []byte("Tiber")))
	must(store.WriteBatch(0, file.Now, &batch, file.Synced)) // both at one stamp

	past := must(store.SnapshotAt(then))
	defer past.Close()
	fmt.Printf("%s\n", must(past.Get([]byte("city"))))
	// Output: Lyon
}
