package hlcstore

// #include "calls.h"
import "C"

import (
	"fmt"
	"strings"
)

// A Kind is what an item says.
type Kind uint8

const (
	Write  Kind = iota // the key has the value from now on
	Delete             // the key has no value from now on
	Report             // the node's later stamps are greater
	Retire             // this is the node's last item

	WriteBatch // several keys have values, or none, from now on: a Batch
)

// String returns the kind in lower case.
func (k Kind) String() string {
	switch k {
	case Write:
		return "write"
	case Delete:
		return "delete"
	case Report:
		return "report"
	case Retire:
		return "retire"
	case WriteBatch:
		return "batch"
	}
	return fmt.Sprintf("Kind(%d)", uint8(k))
}

// An Item is what a node issued, with its number on the node's link and its stamp. It owns its bytes, which are in
// strings: so items may be compared, kept and sent to other goroutines.
type Item struct {
	Kind   Kind
	Node   uint16
	Number uint64
	Stamp  Stamp
	Key    string // of a write and a deletion
	Value  string // of a write
	Writes string // of a batch: their bytes, which Item.Batch reads
}

// How many bytes an item takes in a log beside its key and its value, or more.
const itemRoom = 24

// Encode returns the item as bytes for a log, at most 65,814, or of a batch 16,843,285. docs/formats.md describes them.
//
// Refusals: ErrBadKey, ErrValueTooLong; of a batch ErrBadBytes, ErrNoWrites, ErrKeyTwice.
func (i Item) Encode() ([]byte, error) {
	return i.AppendTo(make([]byte, 0, i.room()))
}

// room returns how many bytes the item takes in a log, or more.
func (i *Item) room() int { return itemRoom + len(i.Key) + len(i.Value) + len(i.Writes) }

// AppendTo appends these bytes to a log, and returns the longer log. After a refusal, which are those of Encode, it
// returns the log as it was.
func (i Item) AppendTo(log []byte) ([]byte, error) {
	longer := grown(log, i.room())
	out, outLen := room(longer)
	node, number, stamp := C.uint16_t(i.Node), C.uint64_t(i.Number), C.uint64_t(i.Stamp)
	var part C.hlcgo_part
	switch i.Kind {
	case Write:
		part = C.hlcgo_item_write(node, number, stamp, i.Key, i.Value, out, outLen)
	case Delete:
		part = C.hlcgo_item_delete(node, number, stamp, i.Key, out, outLen)
	case Report:
		part = C.hlcgo_item_report(node, number, stamp, out, outLen)
	case Retire:
		part = C.hlcgo_item_retire(node, number, stamp, out, outLen)
	case WriteBatch:
		count, writes := i.writes()
		part = C.hlcgo_item_batch(node, number, stamp, count, writes, out, outLen)
	default:
		return log, i.unknown()
	}
	if part.code == C.HLC_BAD_BYTES {
		if _, err := i.Batch(); err != nil { // with the number of the fault
			return log, err
		}
	}
	if part.code != C.HLC_OK {
		return log, refusal(part.code, 0)
	}
	return longer[:len(longer)+int(part.len)], nil
}

// DecodeItem returns the first item of a log, and the bytes after it. It is the opposite of Encode.
//
// Refusal: ErrBadBytes, with the number of the fault, which is 1 if the bytes end within the item; then the item is
// empty, and the bytes are the whole log.
func DecodeItem(log []byte) (Item, []byte, error) {
	fields := itemFields{rest: log}
	item := fields.item()
	if fields.fault != 0 {
		return Item{}, log, &Error{Code: ErrBadBytes, Word: uint64(fields.fault)}
	}
	return item, fields.rest, nil
}

// The faults of an item's bytes, as docs/formats.md numbers them.
const (
	faultShort = iota + 1
	faultVersion
	faultKind
	faultKey
	faultFlag
	faultTrailing
)

// itemFields has the bytes of a log from the next field on, and the first fault of those before, or 0. After a fault
// there are no more bytes.
type itemFields struct {
	rest  []byte
	fault int
}

func (f *itemFields) fail(fault int) {
	if f.fault == 0 {
		f.fault, f.rest = fault, nil
	}
}

func (f *itemFields) bytes(length int) []byte {
	if length > len(f.rest) {
		f.fail(faultShort)
		return nil
	}
	field := f.rest[:length]
	f.rest = f.rest[length:]
	return field
}

// number returns a number of this many bytes, the high one first.
func (f *itemFields) number(size int) uint64 {
	var number uint64
	for _, b := range f.bytes(size) {
		number = number<<8 | uint64(b)
	}
	return number
}

func (f *itemFields) item() Item {
	if version := f.number(1); version != 1 {
		f.fail(faultVersion)
	}
	item := Item{Node: uint16(f.number(2)), Number: f.number(8), Stamp: Stamp(f.number(8))}
	switch f.number(1) {
	case 0:
		f.write(&item)
	case 1:
		item.Kind = Report
	case 2:
		item.Kind = Retire
	case 3:
		all := f.rest
		item.Kind = WriteBatch
		f.batch(func(_, _ []byte, _ Kind) {})
		item.Writes = string(all[:len(all)-len(f.rest)])
	default:
		f.fail(faultKind)
	}
	return item
}

// batch passes each write of a batch, up to the first fault.
func (f *itemFields) batch(take func(key, value []byte, kind Kind)) {
	for left := f.number(1) + 1; left > 0 && f.fault == 0; left-- {
		if key, value, kind := f.keyAndValue(); f.fault == 0 {
			take(key, value, kind)
		}
	}
}

// write fills the kind, the key and the value of a write or a deletion.
func (f *itemFields) write(item *Item) {
	key, value, kind := f.keyAndValue()
	item.Kind = kind
	item.Key, item.Value = owned(key, value)
}

// keyAndValue returns the key and the value of a write, or the key of a deletion.
func (f *itemFields) keyAndValue() (key, value []byte, kind Kind) {
	length := f.number(1)
	if length == 0 {
		f.fail(faultKey)
	}
	key = f.bytes(int(length))
	switch f.number(1) {
	case 0:
		kind = Delete
	case 1:
		value = f.bytes(int(f.number(2)))
	default:
		f.fail(faultFlag)
	}
	return key, value, kind
}

// unknown returns why an item of no kind is refused.
func (i Item) unknown() error {
	return fmt.Errorf("hlcstore: %v is no kind of an item", i.Kind)
}

// owned returns copies of a key and a value, in one block.
func owned(key, value []byte) (string, string) {
	var both strings.Builder
	both.Grow(len(key) + len(value))
	both.Write(key)
	both.Write(value)
	return both.String()[:len(key)], both.String()[len(key):]
}
