package hlcstore_test

import (
	"bytes"
	"context"
	"errors"
	"fmt"
	"sync"
	"sync/atomic"
	"testing"
	"time"

	"hlcstore"
)

// How long goroutines run beside each other.
const together = 500 * time.Millisecond

// A crowd runs functions again and again beside each other until some time is over.
type crowd struct {
	group sync.WaitGroup
	over  time.Time
}

func newCrowd() *crowd { return &crowd{over: time.Now().Add(together)} }

func (c *crowd) run(turn func(n int)) {
	c.group.Add(1)
	go func() {
		defer c.group.Done()
		for n := 1; time.Now().Before(c.over); n++ {
			turn(n)
		}
	}()
}

// Each writer writes 1, 2, .. to its key and to a copy of it; so in each snapshot the key is as its copy, or one ahead.
func TestReadersBesideWritersAndAVacuum(t *testing.T) {
	const writers = 4
	store := open(t, writers)
	crowd := newCrowd()
	for w := uint16(0); w < writers; w++ {
		node := hlcstore.NewNode(w, 0)
		key, replica := fmt.Sprint("key", w), fmt.Sprint("replica", w)
		crowd.run(func(n int) {
			now := hlcstore.Reading(time.Now())
			put(t, store, node, now, key, fmt.Sprint(n))
			put(t, store, node, now, replica, fmt.Sprint(n))
		})
	}
	for r := 0; r < 3; r++ {
		crowd.run(func(int) { lookAtCopies(t, store, writers) })
	}
	crowd.run(func(int) {
		floor := must(store.Floor())
		_, err := store.VacuumInParts(context.Background(), floor, 3)
		if err != nil {
			t.Error(err)
		}
	})
	crowd.run(func(int) {
		var saved bytes.Buffer
		must(store.Checkpoint(&saved, 0))
		restored, _, err := hlcstore.RestoreBytes(saved.Bytes())
		if err != nil {
			t.Error(err)
			return
		}
		restored.Close()
	})
	crowd.group.Wait()
}

func lookAtCopies(t *testing.T, store *hlcstore.Store, writers int) {
	snapshot := must(store.Snapshot())
	defer snapshot.Close()
	digest := must(snapshot.Digest(nil, nil))
	for w := 0; w < writers; w++ {
		n, m := numberOf(t, snapshot, fmt.Sprint("key", w)), numberOf(t, snapshot, fmt.Sprint("replica", w))
		if n != m && n != m+1 {
			t.Error(n, m)
		}
	}
	if digest != must(snapshot.Digest(nil, nil)) {
		t.Error("the answers changed")
	}
}

func numberOf(t *testing.T, snapshot *hlcstore.Snapshot, key string) (n int) {
	value, err := snapshot.Get([]byte(key))
	if errors.Is(err, hlcstore.ErrNoValue) {
		return 0
	}
	if err != nil {
		t.Error(err)
	}
	fmt.Sscan(string(value), &n)
	return n
}

// Eight readers, of whom at each moment some hold the lock, go on until a writer has made its writes. A writer that
// later readers overtook would never end.
func TestWriterIsNotStarved(t *testing.T) {
	store := filled(t, 500)
	snapshot := must(store.Snapshot())
	node := must(store.Join())
	var done atomic.Bool
	var group sync.WaitGroup
	for r := 0; r < 8; r++ {
		group.Add(1)
		go func() {
			defer group.Done()
			for !done.Load() {
				must(snapshot.Digest(nil, nil))
			}
		}()
	}
	late := time.AfterFunc(time.Minute, func() { panic("the writer does not come to its turn") })
	for n := 1; n <= 20; n++ {
		put(t, store, node, uint64(3000+n), "key", "x")
	}
	late.Stop()
	done.Store(true)
	group.Wait()
}

func TestCloseBesideCalls(t *testing.T) {
	for i := 0; i < 20; i++ {
		store := filled(t, 200)
		snapshot := must(store.Snapshot())
		var group sync.WaitGroup
		for r := 0; r < 4; r++ {
			group.Add(1)
			go func() {
				defer group.Done()
				var err error
				for err == nil {
					pairs := snapshot.Range(nil, nil)
					for pairs.Next() {
					}
					if err = pairs.Close(); err == nil {
						_, err = snapshot.Get([]byte(keyOf(7)))
					}
				}
				if !errors.Is(err, hlcstore.ErrClosed) {
					t.Error(err)
				}
			}()
		}
		time.Sleep(time.Millisecond)
		ok(t, store.Close())
		group.Wait()
	}
}

func TestSnapshotIsSharedAndClosedOnce(t *testing.T) {
	store := filled(t, 10)
	for i := 0; i < 200; i++ {
		snapshot := must(store.Snapshot())
		var group sync.WaitGroup
		for r := 0; r < 4; r++ {
			group.Add(1)
			go func() {
				defer group.Done()
				if _, err := snapshot.Get([]byte(keyOf(3))); err != nil && !errors.Is(err, hlcstore.ErrNoSnapshot) {
					t.Error(err)
				}
				if err := snapshot.Close(); err != nil {
					t.Error(err)
				}
			}()
		}
		group.Wait()
	}
	equal(t, len(must(store.Snapshots())), 0)
}
