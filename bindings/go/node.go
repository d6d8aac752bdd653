package hlcstore

// #include "calls.h"
import "C"

// A Node is a writer: its clock, and the numbers of its items. It is a plain value, apart from any store; of two copies
// only one may go on issuing items. The zero Node is node 0 at the start. A node is for one goroutine at a time.
//
// A reading is the value of a physical clock, below 2^48, as [Reading] makes it. It may be wrong or stop: stamps still
// rise.
type Node struct{ raw C.hlc_node }

// NewNode returns the node of this number whose clock starts at a stamp: at 0 if the node is there when the store is
// opened. [Store.Join] returns the others.
func NewNode(id uint16, start Stamp) *Node {
	return &Node{C.hlc_node_open(C.uint16_t(id), C.uint64_t(start))}
}

// RestoreNode returns a node as it was before a restart, from its number, the stamp of its last event, and the number
// of its next item. A node that retired has no further event, so it is not restored.
//
// Refusal: ErrNoSuchNode, if no node has issued that many items up to this stamp.
func RestoreNode(id uint16, last Stamp, next uint64) (*Node, error) {
	restored := C.hlcgo_node_restore(C.uint16_t(id), C.uint64_t(last), C.uint64_t(next))
	if restored.code != C.HLC_OK {
		return nil, refusal(restored.code, 0)
	}
	return &Node{restored.node}, nil
}

// ID returns the node's number.
func (n *Node) ID() uint16 { return uint16(n.raw.id) }

// Last returns the stamp of the node's last event.
func (n *Node) Last() Stamp { return Stamp(n.raw.last) }

// Next returns the number of the node's next item.
func (n *Node) Next() uint64 { return uint64(n.raw.next) }

// Retired returns whether the node retired.
func (n *Node) Retired() bool { return bool(n.raw.retired) }

// RaiseTo raises the node's clock to a stamp, without an event: the node's next stamps are above it. So the nodes of
// one machine can share one clock. A stamp at or below the last one changes nothing.
func (n *Node) RaiseTo(stamp Stamp) {
	n.raw = C.hlcgo_node_raise(n.raw, C.uint64_t(stamp))
}

// Write issues a write at this reading. It copies the key and the value.
//
// Refusals: ErrRetired, ErrBadKey, ErrValueTooLong, ErrNumbersSpent, ErrReadingTooLarge, ErrCounterFull.
func (n *Node) Write(reading uint64, key, value []byte) (Item, error) {
	keyAt, keyLen := pointer(key)
	valueAt, valueLen := pointer(value)
	item, err := n.issue(Write, C.hlcgo_node_write(n.raw, C.uint64_t(reading), keyAt, keyLen, valueAt, valueLen))
	if err == nil {
		item.Key, item.Value = owned(key, value)
	}
	return item, err
}

// Delete issues a deletion at this reading. It copies the key.
//
// Refusals: ErrRetired, ErrBadKey, ErrNumbersSpent, ErrReadingTooLarge, ErrCounterFull.
func (n *Node) Delete(reading uint64, key []byte) (Item, error) {
	keyAt, keyLen := pointer(key)
	item, err := n.issue(Delete, C.hlcgo_node_delete(n.raw, C.uint64_t(reading), keyAt, keyLen))
	if err == nil {
		item.Key = string(key)
	}
	return item, err
}

// WriteBatch issues the writes and deletions of a batch at this reading, as one item. It copies them.
//
// Refusals: ErrRetired, ErrNoWrites, ErrKeyTwice, ErrNumbersSpent, ErrReadingTooLarge, ErrCounterFull.
func (n *Node) WriteBatch(reading uint64, batch *Batch) (Item, error) {
	count, writes, writesLen := batch.writes()
	item, err := n.issue(WriteBatch, C.hlcgo_node_write_batch(n.raw, C.uint64_t(reading), count, writes, writesLen))
	if err == nil {
		item.Writes = string(batch.bytes)
	}
	return item, err
}

// Report issues a report at this reading, which lets the floor rise where the node has nothing to write.
//
// Refusals: ErrRetired, ErrNumbersSpent, ErrReadingTooLarge, ErrCounterFull.
func (n *Node) Report(reading uint64) (Item, error) {
	return n.issue(Report, C.hlcgo_node_report(n.raw, C.uint64_t(reading)))
}

// Retire issues the node's last item at this reading. After it the floor does not wait for the node.
//
// Refusals: those of Report.
func (n *Node) Retire(reading uint64) (Item, error) {
	return n.issue(Retire, C.hlcgo_node_retire(n.raw, C.uint64_t(reading)))
}

// Send sends a message at this reading, and returns its stamp, which goes to the receiver.
//
// Refusals: ErrRetired, ErrReadingTooLarge, ErrCounterFull.
func (n *Node) Send(reading uint64) (Stamp, error) {
	return n.event(C.hlcgo_node_send(n.raw, C.uint64_t(reading)))
}

// Receive receives a message with this stamp at this reading, or observes a snapshot at it. It returns the stamp of the
// event, which is above that stamp and above the node's last one.
//
// Refusals: those of Send.
func (n *Node) Receive(seen Stamp, reading uint64) (Stamp, error) {
	return n.event(C.hlcgo_node_receive(n.raw, C.uint64_t(seen), C.uint64_t(reading)))
}

// retire makes a restored node one that retired, if it did.
func (n *Node) retire(retired bool) { n.raw.retired = C.bool(retired) }

// event takes over the node of an event, and returns the event's stamp.
func (n *Node) event(issued C.hlcgo_issued) (Stamp, error) {
	n.raw = issued.node
	if issued.code != C.HLC_OK {
		return 0, refusal(issued.code, issued.word)
	}
	return Stamp(issued.word), nil
}

// issue takes over the node of an event, and returns the item without its bytes.
func (n *Node) issue(kind Kind, issued C.hlcgo_issued) (Item, error) {
	stamp, err := n.event(issued)
	if err != nil {
		return Item{}, err
	}
	return Item{Kind: kind, Node: n.ID(), Number: uint64(issued.number), Stamp: stamp}, nil
}
