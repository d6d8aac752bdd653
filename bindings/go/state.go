package hlcstore

// #include "calls.h"
import "C"

// Floor returns the floor (closed timestamp): every item that is accepted later has a greater stamp.
func (s *Store) Floor() (Stamp, error) {
	defer s.mu.RUnlock(s.mu.RLock())
	return s.floor()
}

// floor does what Floor does. The caller holds the lock; so it is of nodes and link.
func (s *Store) floor() (Stamp, error) {
	answer := C.hlcgo_floor(&s.raw)
	return Stamp(answer.word), refusal(answer.code, 0)
}

// FloorNode returns the first node that holds the floor back: it has not retired, and its last accepted item, or its
// start, is the floor.
//
// Refusal: ErrAllRetired.
func (s *Store) FloorNode() (uint16, error) {
	defer s.mu.RUnlock(s.mu.RLock())
	answer := C.hlcgo_floor_node(&s.raw)
	return uint16(answer.word), refusal(answer.code, 0)
}

// Horizon returns the horizon (GC threshold): the stamp of the last vacuum, or part of one, or 0 before the first.
func (s *Store) Horizon() (Stamp, error) {
	defer s.mu.RUnlock(s.mu.RLock())
	answer := C.hlcgo_horizon(&s.raw)
	return Stamp(answer.word), refusal(answer.code, 0)
}

// Nodes returns how many node numbers are assigned, those of retired nodes too.
func (s *Store) Nodes() (uint64, error) {
	defer s.mu.RUnlock(s.mu.RLock())
	return s.nodes()
}

func (s *Store) nodes() (uint64, error) {
	answer := C.hlcgo_nodes(&s.raw)
	return uint64(answer.word), refusal(answer.code, 0)
}

// Rows returns how many rows are stored.
func (s *Store) Rows() (uint64, error) {
	defer s.mu.RUnlock(s.mu.RLock())
	answer := C.hlcgo_rows(&s.raw)
	return uint64(answer.word), refusal(answer.code, 0)
}

// Sizes is how much a store has. The memory that it takes is more.
type Sizes struct {
	Rows       uint64
	Keys       uint64 // keys with rows
	KeyBytes   uint64 // the bytes of these keys, each counted once
	ValueBytes uint64 // the bytes of the values of all rows
}

// Sizes returns how much is stored, in constant time.
func (s *Store) Sizes() (Sizes, error) {
	defer s.mu.RUnlock(s.mu.RLock())
	sizes := C.hlcgo_sizes(&s.raw)
	return Sizes{
		Rows:       uint64(sizes.rows),
		Keys:       uint64(sizes.keys),
		KeyBytes:   uint64(sizes.key_bytes),
		ValueBytes: uint64(sizes.value_bytes),
	}, refusal(sizes.code, 0)
}

// Link is what was accepted from a node.
type Link struct {
	Next    uint64 // the number of the node's next item
	Head    Stamp  // the stamp of its last accepted item, or of its start
	Retired bool   // whether its retirement was accepted
}

// Link returns what was accepted from a node. With [RestoreNode], its Head and Next continue a node whose items all
// reached the store, and that sent and received no message since.
//
// Refusal: ErrNoNode.
func (s *Store) Link(node uint16) (Link, error) {
	defer s.mu.RUnlock(s.mu.RLock())
	return s.link(node)
}

func (s *Store) link(node uint16) (Link, error) {
	link := C.hlcgo_link(&s.raw, C.uint16_t(node))
	return Link{uint64(link.next), Stamp(link.head), bool(link.retired)}, refusal(link.code, 0)
}
