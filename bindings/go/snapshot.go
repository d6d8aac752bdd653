package hlcstore

// #include "calls.h"
import "C"

import (
	"errors"
	"runtime"
	"unsafe"
)

// A Snapshot reads the store as it was at a stamp: of each key the newest accepted write at or below it, by stamp and
// node. Its answers never change, whatever the store accepts or drops. It is safe for concurrent use.
//
// An open snapshot makes vacuums keep rows, so Close it. One that nothing refers to any more is closed by the garbage
// collector, at some time, unless [Store.SnapshotByID] returned it.
type Snapshot struct {
	store  *Store
	id     C.uint64_t
	stamp  Stamp
	opener *opener // nil where the garbage collector leaves the snapshot open
}

// An opener is of a snapshot that the garbage collector closes, with it.
type opener struct {
	store *Store
	id    uint64
}

// Snapshot opens a snapshot at the floor.
//
// Refusals: ErrTooManySnapshots, ErrNumbersSpent.
func (s *Store) Snapshot() (*Snapshot, error) {
	s.mu.Lock()
	defer s.mu.Unlock()
	return s.opened(C.hlcgo_open_snapshot_at_floor(&s.raw))
}

// SnapshotAt opens a snapshot at a stamp, from the horizon to the floor.
//
// Refusals: ErrAboveFloor, ErrBelowHorizon, ErrTooManySnapshots, ErrNumbersSpent.
func (s *Store) SnapshotAt(stamp Stamp) (*Snapshot, error) {
	s.mu.Lock()
	defer s.mu.Unlock()
	return s.opened(C.hlcgo_open_snapshot(&s.raw, C.uint64_t(stamp)))
}

func (s *Store) opened(answer C.hlcgo_snapshot) (*Snapshot, error) {
	if answer.code != C.HLC_OK {
		return nil, refusal(answer.code, answer.id)
	}
	opener := &opener{s, uint64(answer.id)}
	runtime.SetFinalizer(opener, closeLater)
	return &Snapshot{s, answer.id, Stamp(answer.stamp), opener}, nil
}

// closeLater closes a snapshot beside the other finalizers, which do not wait for the lock of the store.
func closeLater(opener *opener) { go opener.store.CloseSnapshot(opener.id) }

// SnapshotByID returns the open snapshot with this id, for example after a restore. It stays open until it is closed,
// or the store is.
//
// Refusal: ErrNoSnapshot.
func (s *Store) SnapshotByID(id uint64) (*Snapshot, error) {
	all, err := s.Snapshots()
	if err != nil {
		return nil, err
	}
	for _, open := range all {
		if open.ID == id {
			return &Snapshot{s, C.uint64_t(id), open.Stamp, nil}, nil
		}
	}
	return nil, &Error{Code: ErrNoSnapshot}
}

// OpenSnapshot names an open snapshot.
type OpenSnapshot struct {
	ID    uint64
	Stamp Stamp
}

// Snapshots returns the open snapshots, by rising ids.
func (s *Store) Snapshots() ([]OpenSnapshot, error) {
	defer s.mu.RUnlock(s.mu.RLock())
	var all []OpenSnapshot
	for {
		next := C.hlcgo_snapshot_at(&s.raw, C.uint64_t(len(all)))
		if next.code == C.HLC_AFTER_LAST {
			return all, nil
		}
		if next.code != C.HLC_OK {
			return nil, refusal(next.code, 0)
		}
		all = append(all, OpenSnapshot{uint64(next.id), Stamp(next.stamp)})
	}
}

// CloseSnapshot closes the snapshot with this id, and returns the stamp at which it was opened.
//
// Refusal: ErrNoSnapshot.
func (s *Store) CloseSnapshot(id uint64) (Stamp, error) {
	s.mu.Lock()
	defer s.mu.Unlock()
	answer := C.hlcgo_close_snapshot(&s.raw, C.uint64_t(id))
	return Stamp(answer.word), refusal(answer.code, 0)
}

// CloseAll closes all open snapshots. Their ids are not used again.
func (s *Store) CloseAll() error {
	s.mu.Lock()
	defer s.mu.Unlock()
	return refusal(C.hlc_snapshot_close_all(&s.raw), 0)
}

// Close closes the snapshot; then its calls are refused with ErrNoSnapshot. A snapshot that was closed before, by
// itself or with all others, or whose store was closed, stays closed. The result is nil in all these cases.
func (v *Snapshot) Close() error {
	v.Keep()
	_, err := v.of().CloseSnapshot(v.ID())
	if errors.Is(err, ErrNoSnapshot) || errors.Is(err, ErrClosed) {
		return nil
	}
	return err
}

// Keep leaves the snapshot open until [Store.CloseSnapshot], also where nothing refers to it any more, and returns its
// id.
func (v *Snapshot) Keep() uint64 {
	if v.opener != nil {
		runtime.SetFinalizer(v.opener, nil)
	}
	return v.ID()
}

// ID returns the id, which no other snapshot of the store has.
func (v *Snapshot) ID() uint64 { return uint64(v.id) }

// Stamp returns the stamp at which the snapshot was opened.
func (v *Snapshot) Stamp() Stamp { return v.stamp }

// of returns the store, which is closed where the snapshot is the zero one.
func (v *Snapshot) of() *Store {
	if v.store == nil {
		return &closedStore
	}
	return v.store
}

// Get returns the value of a key, in a slice of its own.
//
// Refusals: ErrNoSnapshot; ErrNoValue, where the key has none.
func (v *Snapshot) Get(key []byte) ([]byte, error) {
	keyAt, keyLen := pointer(key)
	store := v.of()
	own := store.mu.RLock()
	value := C.hlcgo_read_short(&store.raw, v.id, keyAt, keyLen)
	store.mu.RUnlock(own)
	if value.code != C.HLC_OK {
		return nil, unread(value.code)
	}
	if int(value.len) > len(value.bytes) {
		return v.GetTo(make([]byte, 0, value.len), key)
	}
	return append(
		make([]byte, 0, value.len), (*[len(value.bytes)]byte)(unsafe.Pointer(&value.bytes))[:value.len]...,
	), nil
}

// GetTo appends the value of a key to dst, and returns the longer slice. It allocates only where dst lacks room. After
// a refusal it returns dst as it was.
//
// Refusals: those of Get.
func (v *Snapshot) GetTo(dst, key []byte) ([]byte, error) {
	part := v.readTo(dst, key)
	if part.code == C.HLC_OK && int(part.len) > cap(dst)-len(dst) {
		longer := grown(dst, int(part.len))
		if part = v.readTo(longer, key); part.code == C.HLC_OK {
			dst = longer
		}
	}
	if part.code != C.HLC_OK {
		return dst, unread(part.code)
	}
	return dst[:len(dst)+int(part.len)], nil
}

// readTo reads a value into the room of dst, if it fits there.
func (v *Snapshot) readTo(dst, key []byte) C.hlcgo_part {
	keyAt, keyLen := pointer(key)
	out, outLen := room(dst)
	store := v.of()
	defer store.mu.RUnlock(store.mu.RLock())
	return C.hlcgo_read(&store.raw, v.id, keyAt, keyLen, out, outLen)
}

// noValue is the refusal of a key without a value, which takes no memory.
var noValue = &Error{Code: ErrNoValue}

func unread(code C.uint32_t) error {
	if code == C.HLC_NO_VALUE {
		return noValue
	}
	return refusal(code, 0)
}

// Has returns whether a key has a value.
//
// Refusal: ErrNoSnapshot.
func (v *Snapshot) Has(key []byte) (bool, error) {
	part := v.readTo(nil, key)
	if part.code == C.HLC_NO_VALUE {
		return false, nil
	}
	return part.code == C.HLC_OK, refusal(part.code, 0)
}

// Count returns how many keys from `from` on and below `to`, or from `from` on if `to` has no bytes, have a value.
//
// Refusal: ErrNoSnapshot.
func (v *Snapshot) Count(from, to []byte) (uint64, error) {
	fromAt, fromLen := pointer(from)
	toAt, toLen := pointer(to)
	store := v.of()
	defer store.mu.RUnlock(store.mu.RLock())
	answer := C.hlcgo_count(&store.raw, v.id, fromAt, fromLen, toAt, toLen)
	return uint64(answer.word), refusal(answer.code, 0)
}

// Digest returns the SHA-256 of such a range, so that replicas compare without listing: of the bytes that
// hlc_snapshot_list writes for these keys.
//
// Refusal: ErrNoSnapshot.
func (v *Snapshot) Digest(from, to []byte) ([32]byte, error) {
	fromAt, fromLen := pointer(from)
	toAt, toLen := pointer(to)
	store := v.of()
	defer store.mu.RUnlock(store.mu.RLock())
	digest := C.hlcgo_digest(&store.raw, v.id, fromAt, fromLen, toAt, toLen)
	return *(*[32]byte)(unsafe.Pointer(&digest.bytes)), refusal(digest.code, 0)
}
