package hlcstore

// #include "calls.h"
import "C"

// A Batch is writes and deletions, 1 to 256 of different keys, that [Node.WriteBatch] issues as one item at one stamp:
// a snapshot shows all of them or none. It owns their bytes. The zero Batch is empty. It is for one goroutine at a
// time, and of two copies only one may be changed.
type Batch struct {
	// Nothing, or one less than the number of writes in a byte, and the writes.
	bytes []byte
}

// A BatchWrite is a write of a batch, or a deletion, as its Kind says.
type BatchWrite struct {
	Kind  Kind
	Key   string
	Value string // of a write
}

const mostWrites = C.HLC_MAX_BATCH

// Write adds a write. It copies the key and the value. That a key is there twice is refused by what takes the batch.
//
// Refusals: ErrBadKey, ErrValueTooLong; ErrTooManyWrites, after 256. The batch keeps what it had.
func (b *Batch) Write(key, value []byte) error {
	if len(value) > longestValue && len(key) > 0 && len(key) <= longestKey {
		return &Error{Code: ErrValueTooLong}
	}
	if err := b.add(key, 1); err != nil {
		return err
	}
	b.bytes = append(append(b.bytes, byte(len(value)>>8), byte(len(value))), value...)
	return nil
}

// Delete adds a deletion. It copies the key.
//
// Refusals: those of Write, but ErrValueTooLong.
func (b *Batch) Delete(key []byte) error { return b.add(key, 0) }

// add adds a key, and whether a value follows it.
func (b *Batch) add(key []byte, hasValue byte) error {
	many := b.Len()
	switch {
	case len(key) == 0 || len(key) > longestKey:
		return &Error{Code: ErrBadKey}
	case many == mostWrites:
		return &Error{Code: ErrTooManyWrites}
	case many == 0:
		b.bytes = append(b.bytes, 0)
	}
	b.bytes[0] = byte(many)
	b.bytes = append(append(append(b.bytes, byte(len(key))), key...), hasValue)
	return nil
}

// Len returns how many writes and deletions the batch has.
func (b *Batch) Len() int {
	if len(b.bytes) == 0 {
		return 0
	}
	return int(b.bytes[0]) + 1
}

// Clear takes all out, and keeps the memory for the next ones.
func (b *Batch) Clear() { b.bytes = b.bytes[:0] }

// Writes returns the writes and deletions, in the order in which they were added.
func (b *Batch) Writes() []BatchWrite {
	if b.Len() == 0 {
		return nil
	}
	fields := itemFields{rest: b.bytes}
	writes := make([]BatchWrite, 0, b.Len())
	fields.batch(func(key, value []byte, kind Kind) {
		write := BatchWrite{Kind: kind}
		write.Key, write.Value = owned(key, value)
		writes = append(writes, write)
	})
	return writes
}

// writes returns how many writes there are, and their bytes, as C takes them.
func (b *Batch) writes() (C.size_t, *C.uint8_t, C.size_t) {
	if b.Len() == 0 {
		return 0, nil, 0
	}
	at, length := pointer(b.bytes[1:])
	return C.size_t(b.Len()), at, length
}

// Batch returns the writes of an item that is a batch, as a copy.
//
// Refusal: ErrBadBytes, with the number of the fault, where Writes are not what a node or DecodeItem put there.
func (i Item) Batch() (*Batch, error) {
	if i.Writes == "" {
		return &Batch{}, nil
	}
	fields := itemFields{rest: []byte(i.Writes)}
	batch := &Batch{fields.rest}
	fields.batch(func(_, _ []byte, _ Kind) {})
	if len(fields.rest) > 0 {
		fields.fail(faultTrailing)
	}
	if fields.fault != 0 {
		return nil, &Error{Code: ErrBadBytes, Word: uint64(fields.fault)}
	}
	return batch, nil
}

// writes returns how many writes an item that is a batch has, and their bytes.
func (i *Item) writes() (C.size_t, string) {
	if i.Writes == "" {
		return 0, ""
	}
	return C.size_t(i.Writes[0]) + 1, i.Writes[1:]
}
