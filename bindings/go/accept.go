package hlcstore

// #include "calls.h"
import "C"

// Accept accepts an item, if it is the next one of its node.
//
// Refusals: ErrNoNode, ErrRetired, ErrNotNext, ErrNumbersSpent, ErrStampNotRising, ErrBadKey, ErrValueTooLong; of a
// batch those of AcceptBatch.
func (s *Store) Accept(item Item) error {
	s.mu.Lock()
	defer s.mu.Unlock()
	return s.accept(&item)
}

// accept accepts an item. The caller holds the lock alone.
func (s *Store) accept(item *Item) error {
	node, number, stamp := C.uint16_t(item.Node), C.uint64_t(item.Number), C.uint64_t(item.Stamp)
	var answer C.hlcgo_answer
	switch item.Kind {
	case Write:
		answer = C.hlcgo_accept_write(&s.raw, node, number, stamp, item.Key, item.Value)
	case Delete:
		answer = C.hlcgo_accept_delete(&s.raw, node, number, stamp, item.Key)
	case Report:
		answer = C.hlcgo_accept_report(&s.raw, node, number, stamp)
	case Retire:
		answer = C.hlcgo_accept_retire(&s.raw, node, number, stamp)
	case WriteBatch:
		count, writes := item.writes()
		answer = C.hlcgo_accept_item_batch(&s.raw, node, number, stamp, count, writes)
	default:
		return item.unknown()
	}
	return refusal(answer.code, answer.word)
}

// AcceptBatch accepts the writes and deletions of a batch that a node issued under this number with this stamp: all of
// them, or none. Accept does so with an item, which has a copy of them.
//
// Refusals: ErrBadBytes, of an item whose Writes no node made; ErrNoNode, ErrRetired, ErrNotNext, ErrNumbersSpent,
// ErrStampNotRising, ErrNoWrites, ErrKeyTwice.
func (s *Store) AcceptBatch(node uint16, number uint64, stamp Stamp, batch *Batch) error {
	count, writes, writesLen := batch.writes()
	s.mu.Lock()
	defer s.mu.Unlock()
	answer := C.hlcgo_accept_batch(&s.raw, C.uint16_t(node), C.uint64_t(number), C.uint64_t(stamp), count, writes,
		writesLen)
	return refusal(answer.code, answer.word)
}

// Check returns what Accept would return for this item, except ErrNoMemory. It changes nothing.
func (s *Store) Check(item Item) error {
	node, number, stamp := C.uint16_t(item.Node), C.uint64_t(item.Number), C.uint64_t(item.Stamp)
	defer s.mu.RUnlock(s.mu.RLock())
	var answer C.hlcgo_answer
	switch item.Kind {
	case Write:
		answer = C.hlcgo_check_write(&s.raw, node, number, stamp, item.Key, item.Value)
	case Delete:
		answer = C.hlcgo_check_delete(&s.raw, node, number, stamp, item.Key)
	case Report, Retire:
		answer = C.hlcgo_check_report(&s.raw, node, number, stamp)
	case WriteBatch:
		count, writes := item.writes()
		answer = C.hlcgo_check_batch(&s.raw, node, number, stamp, count, writes)
	default:
		return item.unknown()
	}
	return refusal(answer.code, answer.word)
}

// AcceptAll accepts items in turn, as Accept does, until one is refused, and returns how many were accepted: they stay
// accepted. It takes the lock once, and calls C once for many items, copying their keys and values once more.
// The store keeps about half a megabyte for that.
func (s *Store) AcceptAll(items []Item) (int, error) {
	s.mu.Lock()
	defer s.mu.Unlock()
	accepted, err := s.acceptSome(items)
	for err == nil && accepted < len(items) {
		var many int
		many, err = s.acceptSome(items[accepted:])
		accepted += many
	}
	return accepted, err
}

// acceptSome accepts the first of some items: the writes and deletions at their front, as many as fit into the list, or
// else the one item that is neither. Of no items it asks C too, since the store may be closed.
func (s *Store) acceptSome(items []Item) (int, error) {
	many := s.scratch.fill(items)
	if many == 0 && len(items) > 0 {
		if err := s.accept(&items[0]); err != nil {
			return 0, err
		}
		return 1, nil
	}
	bytes, bytesLen := pointer(s.scratch.bytes)
	applied := C.hlcgo_accept_all(&s.raw, s.scratch.first(), C.size_t(many), bytes, bytesLen)
	return int(applied.many), refusal(applied.code, applied.word)
}

// The most items of a list, and about the most bytes of their keys and values: it is kept for the next one.
const (
	listItems = 1024
	listBytes = 256 << 10
)

// An entryList has writes and deletions in the form in which C takes many at once.
type entryList struct {
	entries []C.hlc_entry
	bytes   []byte
}

// fill takes the writes and deletions at the front of some items, as many as fit, and returns how many those are.
func (l *entryList) fill(items []Item) int {
	l.entries, l.bytes = l.entries[:0], l.bytes[:0]
	for i := range items {
		item := &items[i]
		if item.Kind > Delete || i == listItems || len(l.bytes) >= listBytes || item.isTooLong() {
			break
		}
		l.add(item)
	}
	return len(l.entries)
}

// first returns the place of the entries, or nil where there are none.
func (l *entryList) first() *C.hlc_entry {
	if len(l.entries) == 0 {
		return nil
	}
	return &l.entries[0]
}

// isTooLong returns whether the item is refused for its lengths, so that its bytes need not be copied.
func (i *Item) isTooLong() bool {
	return len(i.Key) > longestKey || len(i.Value) > longestValue
}

func (l *entryList) add(item *Item) {
	keyAt := len(l.bytes)
	l.bytes = append(l.bytes, item.Key...)
	valueAt := len(l.bytes)
	if item.Kind == Write {
		l.bytes = append(l.bytes, item.Value...)
	}
	l.entries = append(l.entries, C.hlc_entry{
		node:      C.uint16_t(item.Node),
		deletes:   C.bool(item.Kind == Delete),
		number:    C.uint64_t(item.Number),
		stamp:     C.uint64_t(item.Stamp),
		key_at:    C.size_t(keyAt),
		key_len:   C.size_t(valueAt - keyAt),
		value_at:  C.size_t(valueAt),
		value_len: C.size_t(len(l.bytes) - valueAt),
	})
}

// Applied is how far a log was applied, also where a record was refused: those before it stay applied.
type Applied struct {
	Records   int   // how many items or records were applied, or had been before
	Bytes     int   // how many bytes they have: a later call can go on from there
	Threshold Stamp // the greatest retention threshold among them, or 0
}

// AcceptItems accepts the items of a log, one after another as bytes ([Item.AppendTo]), until one is refused. Items
// whose numbers were accepted before are passed over, so that a log can be read again from any place. C reads the slice
// where it is.
//
// Refusals, of each item in this order: ErrBadBytes, where 1 is the word if the bytes end within the item; ErrNoNode,
// ErrRetired, ErrNotNext, ErrNumbersSpent, ErrStampNotRising, ErrKeyTwice.
func (s *Store) AcceptItems(log []byte) (Applied, error) {
	bytes, bytesLen := pointer(log)
	s.mu.Lock()
	defer s.mu.Unlock()
	return applied(C.hlcgo_items_accept(&s.raw, bytes, bytesLen))
}

// ApplyRecords applies the records of a log that replicas share ([Item.AppendTo], [AppendJoin], [AppendThreshold]), one
// after another, until one is refused: items are accepted, and nodes join at their starts. Records that came before are
// passed over, so that a log can be read again from any place. A retention threshold changes nothing here; the greatest
// is returned, and the caller may vacuum to it. C reads the slice where it is.
//
// Refusals, of each item those of AcceptItems; of each join in this order: ErrNotNext, with the number of the next
// node; ErrTooManyNodes; ErrBelowFloor, with the floor.
func (s *Store) ApplyRecords(log []byte) (Applied, error) {
	bytes, bytesLen := pointer(log)
	s.mu.Lock()
	defer s.mu.Unlock()
	return applied(C.hlcgo_records_apply(&s.raw, bytes, bytesLen))
}

func applied(answer C.hlcgo_applied) (Applied, error) {
	return Applied{int(answer.many), int(answer.used), Stamp(answer.threshold)}, refusal(answer.code, answer.word)
}
