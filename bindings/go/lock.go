package hlcstore

import (
	"sync"
	"sync/atomic"
	"unsafe"
)

// A storeLock is the lock of a store. A writer that waits comes before later readers.
//
// A reader enters one of 16 slots, which it rarely shares, so that readers who come at once do not pass one cache line
// around. While writers wait or have the lock, readers use the reading side of `turns` instead, behind that writer.
//
// A saving keeps the gate, but the reading side of the lock only while it reads a piece, so that reads go on beside the
// writer that gets the piece. A change waits at the gate where there are savings, and not at the lock: there it would
// keep later readers waiting.
type storeLock struct {
	turns   sync.RWMutex
	writers atomic.Int32 // how many wait or have the lock
	inSlots atomic.Bool  // whether readers may be in slots
	mu      sync.Mutex   // of left
	left    sync.Cond    // no reader is in a slot any more
	gate    sync.RWMutex
	savings atomic.Int32 // how many there are; one begins under the reading side, so that no change is under way
	gated   bool         // whether the change that has the lock has the gate too
	slots   [1 << slotBits]slot
}

const slotBits = 4

// A slot counts the readers in it. It has two cache lines for itself, since processors fetch lines in pairs.
type slot struct {
	_       [64]byte
	readers atomic.Int32
	_       [60]byte
}

// RLock locks the store for a reader, and returns what RUnlock takes: the reader's slot, or nil.
//
// A reader enters its slot, says that readers are in slots, and only then looks for writers. A writer says that it
// waits, takes back that readers are in slots, and only then looks into each. So one of the two sees the other.
func (l *storeLock) RLock() *slot {
	own := &l.slots[ownSlot()]
	own.readers.Add(1)
	if !l.inSlots.Load() {
		l.inSlots.Store(true)
	}
	if l.writers.Load() == 0 {
		return own
	}
	l.RUnlock(own)
	l.turns.RLock()
	return nil
}

// RUnlock ends a reader.
func (l *storeLock) RUnlock(own *slot) {
	if own == nil {
		l.turns.RUnlock()
	} else if own.readers.Add(-1) == 0 && l.writers.Load() != 0 {
		l.mu.Lock()
		l.left.Signal()
		l.mu.Unlock()
	}
}

// ownSlot returns the number of a slot by the place of the stack, which no two goroutines share.
func ownSlot() uint64 {
	var here byte
	place := uint64(uintptr(unsafe.Pointer(&here))) >> 11 // the least stack has 2 KiB
	return place * 0x9e3779b97f4a7c15 >> (64 - slotBits)
}

// Lock locks the store for a change.
func (l *storeLock) Lock() {
	l.lockAlone()
	if l.savings.Load() == 0 {
		return
	}
	l.unlockAlone()
	l.gate.Lock()
	l.lockAlone()
	l.gated = true
}

// Unlock ends a change.
func (l *storeLock) Unlock() {
	gated := l.gated
	l.gated = false
	l.unlockAlone()
	if gated {
		l.gate.Unlock()
	}
}

// lockAlone waits until there is no reader, and no other writer.
func (l *storeLock) lockAlone() {
	l.writers.Add(1)
	l.turns.Lock()
	if !l.inSlots.Load() {
		return
	}
	l.inSlots.Store(false)
	for i := range l.slots {
		if l.slots[i].readers.Load() != 0 {
			l.waitFor(&l.slots[i])
		}
	}
}

// waitFor waits until no reader is in a slot. Later ones leave it at once.
func (l *storeLock) waitFor(taken *slot) {
	l.mu.Lock()
	defer l.mu.Unlock()
	l.left.L = &l.mu
	for taken.readers.Load() != 0 {
		l.left.Wait()
	}
}

func (l *storeLock) unlockAlone() {
	l.writers.Add(-1)
	l.turns.Unlock()
}

// beginSaving lets changes wait until endSaving.
func (l *storeLock) beginSaving() {
	l.gate.RLock()
	l.turns.RLock()
	l.savings.Add(1)
	l.turns.RUnlock()
}

func (l *storeLock) endSaving() {
	l.savings.Add(-1)
	l.gate.RUnlock()
}
