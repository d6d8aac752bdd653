package hlcstore

// #include "calls.h"
import "C"

import "runtime"

// A Store is a multi-version store that nodes feed. It is safe for concurrent use, and must not be copied. The zero
// Store is closed.
//
// A store has its memory in C until Close. One that nothing refers to any more is closed by the garbage collector, at
// some time; since that does not see how much memory a store has, call Close.
type Store struct {
	// A call that changes the store has the lock alone; a call that asks gets a copy of the handle under the reading
	// side.
	mu      storeLock
	raw     C.hlc_store
	scratch entryList
	watched bool // whether the garbage collector closes it
}

// closedStore is the store of the zero Snapshot.
var closedStore Store

// Open opens a store of this many nodes, 1 to 64, numbered from 0, in which nothing took place.
//
// Refusal: ErrBadNodeCount, where it is another number.
func Open(nodes uint16) (*Store, error) {
	store := new(Store)
	if code := C.hlc_store_open(&store.raw, C.uint16_t(nodes)); code != C.HLC_OK {
		return nil, refusal(code, 0)
	}
	return watched(store), nil
}

// watched returns the open store, which the garbage collector closes if its program does not.
func watched(store *Store) *Store {
	store.watched = true
	runtime.SetFinalizer(store, (*Store).Close)
	return store
}

// Close closes the store, and frees what it contains. It waits for the calls that are under way. A closed store stays
// closed. The result is always nil.
func (s *Store) Close() error {
	s.mu.Lock()
	defer s.mu.Unlock()
	C.hlc_store_close(&s.raw)
	s.scratch = entryList{}
	if s.watched {
		runtime.SetFinalizer(s, nil)
		s.watched = false
	}
	return nil
}

// Join lets a node join, and returns it. Its clock starts at the floor.
//
// Refusal: ErrTooManyNodes.
func (s *Store) Join() (*Node, error) {
	s.mu.Lock()
	defer s.mu.Unlock()
	return joined(C.hlcgo_join(&s.raw))
}

// JoinAt lets a node join that starts at this stamp, at or above the floor, and returns it. Stores that accept the same
// items agree on a join if each gets the same start, whatever their floors are then.
//
// Refusals: ErrTooManyNodes; ErrBelowFloor, with the floor.
func (s *Store) JoinAt(start Stamp) (*Node, error) {
	s.mu.Lock()
	defer s.mu.Unlock()
	return s.joinAt(start)
}

// joinAt does what JoinAt does. The caller holds the lock alone.
func (s *Store) joinAt(start Stamp) (*Node, error) {
	return joined(C.hlcgo_join_at(&s.raw, C.uint64_t(start)))
}

// joinOnce returns the node of a number that has no item, and lets it join first if it did not. The caller holds the
// lock alone.
func (s *Store) joinOnce(id uint16, start Stamp) (*Node, error) {
	if nodes, _ := s.nodes(); nodes == uint64(id) {
		return s.joinAt(start)
	}
	link, err := s.link(id)
	return NewNode(id, link.Head), err
}

func joined(answer C.hlcgo_joined) (*Node, error) {
	if answer.code != C.HLC_OK {
		return nil, refusal(answer.code, answer.word)
	}
	return NewNode(uint16(answer.node), Stamp(answer.word)), nil
}
