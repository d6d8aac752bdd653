package hlcstore

import (
	"sync"
	"sync/atomic"
	"testing"
	"time"
)

// Writers change two numbers one after the other; a reader never sees them differ. Each goroutine has a stack of
// another depth, so that they take several slots.
func TestReadersAndWritersExcludeEachOther(t *testing.T) {
	var l storeLock
	var one, other int
	var group sync.WaitGroup
	over := time.Now().Add(300 * time.Millisecond)
	for i := 0; i < 6; i++ {
		group.Add(2)
		go func(depth int) {
			defer group.Done()
			for time.Now().Before(over) {
				readDeep(&l, depth, func() {
					if one != other {
						t.Error(one, other)
					}
				})
			}
		}(100 * i)
		go func(writes bool) {
			defer group.Done()
			for n := 0; time.Now().Before(over); n++ {
				if n%64 == 0 {
					time.Sleep(100 * time.Microsecond) // so that readers enter slots again
				}
				if !writes && n%16 == 0 {
					l.beginSaving()
					l.endSaving()
				}
				l.Lock()
				one++
				other++
				l.Unlock()
			}
		}(i%2 == 0)
	}
	group.Wait()
	if l.writers.Load() != 0 || l.savings.Load() != 0 {
		t.Error("a writer, or a saving, is left")
	}
	for i := range l.slots {
		if left := l.slots[i].readers.Load(); left != 0 {
			t.Error(i, left)
		}
	}
}

// A writer waits for a reader, in whatever slot that is.
func TestAWriterWaitsForEachSlot(t *testing.T) {
	for i := 0; i < 1<<slotBits; i++ {
		var l storeLock
		own := &l.slots[i]
		own.readers.Add(1) // as RLock does
		l.inSlots.Store(true)
		var left atomic.Bool
		waited := make(chan bool)
		go func() {
			l.Lock()
			waited <- left.Load()
			l.Unlock()
		}()
		for l.writers.Load() == 0 {
			time.Sleep(time.Millisecond)
		}
		time.Sleep(5 * time.Millisecond)
		left.Store(true)
		l.RUnlock(own)
		if !<-waited {
			t.Error("a writer passed a reader in slot", i)
		}
	}
}

// readDeep reads so many calls down.
func readDeep(l *storeLock, depth int, read func()) {
	if depth > 0 {
		readDeep(l, depth-1, read)
		return
	}
	defer l.RUnlock(l.RLock())
	read()
}

// Four readers never stop. A writer comes to its turn a hundred times, and so do they between.
func TestSpinningReadersLetAWriterPass(t *testing.T) {
	var l storeLock
	var over atomic.Bool
	var group sync.WaitGroup
	for i := 0; i < 4; i++ {
		group.Add(1)
		go func() {
			defer group.Done()
			for !over.Load() {
				l.RUnlock(l.RLock())
			}
		}()
	}
	late := time.AfterFunc(time.Minute, func() { panic("the writer does not come to its turn") })
	for n := 0; n < 100; n++ {
		l.Lock()
		l.Unlock()
	}
	late.Stop()
	over.Store(true)
	group.Wait()
}

// A reader that stays keeps a writer waiting, and readers that come later wait behind that. When it leaves, all go on.
func TestLaterReadersWaitBehindAWriter(t *testing.T) {
	var l storeLock
	var steps atomic.Int32
	stays := l.RLock()
	var group sync.WaitGroup
	group.Add(2)
	go func() {
		defer group.Done()
		l.Lock()
		steps.CompareAndSwap(0, 1)
		l.Unlock()
	}()
	for l.writers.Load() == 0 {
		time.Sleep(time.Millisecond)
	}
	go func() {
		defer group.Done()
		own := l.RLock()
		steps.CompareAndSwap(1, 2)
		l.RUnlock(own)
	}()
	time.Sleep(20 * time.Millisecond)
	if steps.Load() != 0 {
		t.Error("the lock was not kept")
	}
	l.RUnlock(stays)
	group.Wait()
	if steps.Load() != 2 {
		t.Error("the reader came before the writer that waited")
	}
}
