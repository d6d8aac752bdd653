package hlcstore_test

import (
	"bytes"
	"errors"
	"io"
	"testing"
	"testing/iotest"
	"time"

	"hlcstore"
)

func checkpointOf(t testing.TB, store *hlcstore.Store, tag uint64) []byte {
	t.Helper()
	var saved bytes.Buffer
	written, err := store.Checkpoint(&saved, tag)
	if err != nil || written != int64(saved.Len()) {
		t.Fatal(written, err)
	}
	return saved.Bytes()
}

func TestRestoredStoreIsTheSavedOne(t *testing.T) {
	store, snapshot := rewritten(t, 3000)
	must(store.VacuumTo(at(4000)))
	saved := checkpointOf(t, store, 77)
	for name, reader := range map[string]io.Reader{
		"whole":       bytes.NewReader(saved),
		"byte":        iotest.OneByteReader(bytes.NewReader(saved)),
		"half":        iotest.HalfReader(bytes.NewReader(saved)),
		"end at once": iotest.DataErrReader(bytes.NewReader(saved)),
	} {
		restored, tag, err := hlcstore.Restore(reader)
		if err != nil || tag != 77 {
			t.Fatal(name, tag, err)
		}
		equal(t, string(checkpointOf(t, restored, 77)), string(saved))
		equal(t, must(restored.Horizon()), at(4000))
		same := must(restored.SnapshotByID(snapshot.ID()))
		equal(t, same.Stamp(), snapshot.Stamp())
		equal(t, must(same.Digest(nil, nil)), must(snapshot.Digest(nil, nil)))
		ok(t, restored.Accept(hlcstore.Item{Kind: hlcstore.Report, Number: 9000, Stamp: at(9001)}))
		ok(t, restored.Close())
	}
	restored, tag, err := hlcstore.RestoreBytes(saved)
	ok(t, err)
	equal(t, tag, 77)
	equal(t, string(checkpointOf(t, restored, 77)), string(saved))
	ok(t, restored.Close())
}

func TestPiecesAreTheCheckpoint(t *testing.T) {
	store, snapshot := rewritten(t, 3000)
	var pieces bytes.Buffer
	written, err := store.CheckpointTo(&pieces, 77)
	ok(t, err)
	equal(t, written, int64(pieces.Len()))
	equal(t, pieces.String(), string(checkpointOf(t, store, 77)))
	ok(t, snapshot.Close()) // the garbage collector closes one that is not used any more
	ok(t, store.Close())
	_, err = store.CheckpointTo(&pieces, 77)
	refused(t, err, hlcstore.ErrClosed, 0)
}

// A writeFunc is the Write of a writer.
type writeFunc func(piece []byte) (int, error)

func (write writeFunc) Write(piece []byte) (int, error) { return write(piece) }

// rowsOf returns how many rows another goroutine reads, or 0 where it waits.
func rowsOf(store *hlcstore.Store) uint64 {
	read := make(chan uint64, 1)
	go func() { read <- must(store.Rows()) }()
	select {
	case rows := <-read:
		return rows
	case <-time.After(20 * time.Second):
		return 0
	}
}

func TestReadsGoOnWhileAChangeWaits(t *testing.T) {
	store := filled(t, 3000)
	expected := checkpointOf(t, store, 77)
	var pieces bytes.Buffer
	joined := make(chan *hlcstore.Node, 1)
	_, err := store.CheckpointTo(writeFunc(func(piece []byte) (int, error) {
		if pieces.Len() == 0 {
			go func() { joined <- must(store.Join()) }()
			time.Sleep(100 * time.Millisecond) // so that the change waits
		}
		equal(t, rowsOf(store), 3000)
		equal(t, must(store.Rows()), 3000) // of the goroutine that saves
		return pieces.Write(piece)
	}), 77)
	ok(t, err)
	<-joined
	equal(t, pieces.String(), string(expected))
	equal(t, must(store.Nodes()), 2)
}

func TestChangesGoOnAfterASavingThatFails(t *testing.T) {
	store := filled(t, 10)
	cause := errors.New("the disk is full")
	_, err := store.CheckpointTo(&limited{5, cause}, 0)
	if err != cause {
		t.Error(err)
	}
	must(store.Join())
}

func TestBytesThatAreNoCheckpoint(t *testing.T) {
	saved := checkpointOf(t, filled(t, 10), 0)
	damaged := append([]byte(nil), saved...)
	damaged[len(damaged)/2] ^= 1
	for name, bad := range map[string]struct {
		bytes []byte
		word  uint64 // 1 where the bytes are short, 6 where the digest differs, see docs/formats.md
	}{
		"none":    {nil, 1},
		"cut":     {saved[:len(saved)-1], 1},
		"damaged": {damaged, 0},
	} {
		for _, err := range []error{restoreError(bytes.NewReader(bad.bytes)), restoreBytesError(bad.bytes)} {
			if !errors.Is(err, hlcstore.ErrBadBytes) {
				t.Errorf("%s: %v", name, err)
			}
			if bad.word > 0 {
				refused(t, err, hlcstore.ErrBadBytes, bad.word)
			}
		}
	}
}

func restoreError(r io.Reader) error {
	_, _, err := hlcstore.Restore(r)
	return err
}

func restoreBytesError(checkpoint []byte) error {
	_, _, err := hlcstore.RestoreBytes(checkpoint)
	return err
}

func TestErrorOfTheReaderEndsARestore(t *testing.T) {
	saved := checkpointOf(t, filled(t, 10), 0)
	cause := errors.New("the disk is gone")
	err := restoreError(io.MultiReader(bytes.NewReader(saved[:50]), iotest.ErrReader(cause)))
	if err != cause {
		t.Error(err)
	}
}

// A limited writer takes so many bytes, and then fails; one without an error writes less than it gets.
type limited struct {
	left int
	err  error
}

func (l *limited) Write(piece []byte) (int, error) {
	if len(piece) <= l.left {
		l.left -= len(piece)
		return len(piece), nil
	}
	return l.left, l.err
}

func TestErrorOfTheWriterEndsACheckpoint(t *testing.T) {
	store := filled(t, 3000)
	length := int64(len(checkpointOf(t, store, 0)))
	if length < 300_000 {
		t.Fatal("the checkpoint has too few pieces:", length)
	}
	cause := errors.New("the disk is full")
	for _, left := range []int{0, 1, 70_000, 200_000} {
		written, err := store.Checkpoint(&limited{left, cause}, 0)
		if err != cause {
			t.Error(err)
		}
		if written < int64(left) || written > length {
			t.Error(left, written)
		}
		_, err = store.Checkpoint(&limited{left, nil}, 0)
		if err != io.ErrShortWrite {
			t.Error(err)
		}
	}
	equal(t, int64(len(checkpointOf(t, store, 0))), length)
}

func TestIncrementMakesANewerCheckpoint(t *testing.T) {
	store, snapshot := rewritten(t, 100)
	ok(t, snapshot.Close())
	older := checkpointOf(t, store, 1)
	since := must(store.Floor())
	node := must(hlcstore.RestoreNode(0, since, 300))
	put(t, store, node, 400, "new", "x")
	remove(t, store, node, 401, keyOf(7))
	var increment, newer bytes.Buffer
	written, err := store.Increment(&increment, since, 2)
	ok(t, err)
	equal(t, written, int64(increment.Len()))
	_, err = hlcstore.ApplyIncrement(&newer, older, increment.Bytes())
	ok(t, err)
	equal(t, newer.String(), string(checkpointOf(t, store, 2)))
	restored, tag, err := hlcstore.RestoreBytes(newer.Bytes())
	ok(t, err)
	equal(t, tag, 2)
	equal(t, digestOf(t, restored), digestOf(t, store))
}

func TestCheckpointIsSplitAndMerged(t *testing.T) {
	whole := checkpointOf(t, filled(t, 10), 7)
	var below, from, merged bytes.Buffer
	ok(t, hlcstore.SplitCheckpoint(&below, &from, whole, []byte(keyOf(5))))
	restored, tag, err := hlcstore.RestoreBytes(below.Bytes())
	ok(t, err)
	equal(t, tag, 7)
	rest, tag, err := hlcstore.RestoreBytes(from.Bytes())
	ok(t, err)
	equal(t, tag, 7)
	equal(t, must(restored.Rows()), 5)
	equal(t, must(rest.Rows()), 5)
	written, err := hlcstore.MergeCheckpoints(&merged, below.Bytes(), from.Bytes())
	ok(t, err)
	equal(t, written, int64(len(whole)))
	equal(t, merged.String(), string(whole))
	merged.Reset()
	_, err = hlcstore.MergeCheckpoints(&merged, from.Bytes(), below.Bytes())
	refused(t, err, hlcstore.ErrNotParts, 4)
	_, err = hlcstore.MergeCheckpoints(&merged, below.Bytes(), checkpointOf(t, open(t, 2), 7))
	refused(t, err, hlcstore.ErrNotParts, 1)
	refused(t, hlcstore.SplitCheckpoint(&merged, &merged, whole[:9], nil), hlcstore.ErrBadBytes, 1)
	equal(t, merged.Len(), 0)
}

func TestRefusalsOfIncrements(t *testing.T) {
	store := filled(t, 10)
	older := checkpointOf(t, store, 0)
	var increment, empty bytes.Buffer
	must(store.Increment(&increment, at(10), 0))
	var newer bytes.Buffer
	_, err := hlcstore.ApplyIncrement(&newer, older[:9], increment.Bytes())
	refused(t, err, hlcstore.ErrBadBytes, 1)
	_, err = hlcstore.ApplyIncrement(&newer, older, nil)
	refused(t, err, hlcstore.ErrNoIncrement, 1)
	other := open(t, 2)
	must(other.Increment(&empty, 0, 0))
	_, err = hlcstore.ApplyIncrement(&newer, older, empty.Bytes())
	refused(t, err, hlcstore.ErrNotLater, 0)
	early := checkpointOf(t, filled(t, 5), 0)
	_, err = hlcstore.ApplyIncrement(&newer, early, increment.Bytes())
	refused(t, err, hlcstore.ErrAboveFloor, uint64(at(5)))
	equal(t, newer.Len(), 0)
	must(store.VacuumTo(at(8)))
	_, err = store.Increment(&newer, at(7), 0)
	refused(t, err, hlcstore.ErrBelowHorizon, uint64(at(8)))
}
