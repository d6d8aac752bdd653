package hlcstore

// #include "calls.h"
import "C"

import "hlcstore/internal/listing"

// An Iterator goes through a range of a snapshot. It begins before the first entry:
//
//	pairs := snapshot.Range(from, to)
//	defer pairs.Close()
//	for pairs.Next() {
//		use(pairs.Key(), pairs.Value())
//	}
//	return pairs.Err()
//
// It gets the entries in pieces, and holds the lock of the store only while it gets one; so a loop may call the store.
// It is for one goroutine at a time. The zero Iterator has no entries.
type Iterator struct {
	scan     listing.Scan // nil where the range has no further piece
	form     listing.Form
	from, to []byte // the rest of the range, behind the piece
	piece    []byte
	rest     []byte // what is left of the piece
	beside   int    // how many other iterators share the room for pieces with it
	key      []byte
	value    []byte
	err      error
}

// The room for a piece, at first and at most.
const (
	firstPiece = 4 << 10
	mostPiece  = 128 << 10
)

// Range returns an iterator over the keys with a value from `from` on and below `to`, or from `from` on if `to` has no
// bytes, in byte order.
//
// Refusal, by Err: ErrNoSnapshot.
func (v *Snapshot) Range(from, to []byte) *Iterator {
	return IteratorOf(listing.Pairs, v.scan, from, to)
}

// RangeBack returns an iterator over such a range from its end. So the last key below another is the first of
// RangeBack(nil, other).
//
// Refusal, by Err: ErrNoSnapshot.
func (v *Snapshot) RangeBack(from, to []byte) *Iterator {
	return IteratorOf(listing.PairsBack, v.scanBack, from, to)
}

// Keys returns an iterator over the keys of such a range alone, whose Value is nil.
//
// Refusal, by Err: ErrNoSnapshot.
func (v *Snapshot) Keys(from, to []byte) *Iterator {
	return IteratorOf(listing.Keys, v.scanKeys, from, to)
}

// Changes returns an iterator over what leads from this snapshot to another one of the same store: the keys of such a
// range whose answers in the two differ, in byte order. Value is that in the other one, or nil where the key has none
// there. Either snapshot may be the older one.
//
// Refusal, by Err: ErrNoSnapshot, where one of them is not open, or they are of two stores.
func (v *Snapshot) Changes(after *Snapshot, from, to []byte) *Iterator {
	scan := func(from, to, out []byte) (listing.Part, error) { return v.scanChanges(after, from, to, out) }
	return IteratorOf(listing.Answers, scan, from, to)
}

// IteratorOf returns an iterator over what a call lists. It is for the packages of this module.
func IteratorOf(form listing.Form, scan listing.Scan, from, to []byte) *Iterator {
	return &Iterator{
		scan: scan,
		form: form,
		from: append([]byte(nil), from...),
		to:   append([]byte(nil), to...),
	}
}

// Next goes on to the next entry, and returns whether there is one. After the last one, and after an error, there is
// none.
func (i *Iterator) Next() bool {
	if len(i.rest) == 0 && !i.fetch() {
		i.key, i.value = nil, nil
		return false
	}
	i.key, i.rest = takeBytes(i.rest)
	switch i.form {
	case listing.Pairs, listing.PairsBack:
		i.value, i.rest = takeBytes(i.rest)
	case listing.Answers:
		i.value, i.rest = takeAnswer(i.rest)
	}
	return true
}

// Key returns the key of the entry. Its bytes are the iterator's: they are valid until the next call of Next or Close,
// and must not be changed. Without an entry it is nil.
func (i *Iterator) Key() []byte { return i.key }

// Value returns the value of the entry, likewise.
func (i *Iterator) Value() []byte { return i.value }

// Err returns why the iteration ended early, or nil.
func (i *Iterator) Err() error { return i.err }

// Close ends the iteration, frees its memory, and returns what Err returns.
func (i *Iterator) Close() error {
	*i = Iterator{err: i.err}
	return i.err
}

// fetch gets the next piece, and returns whether it has an entry.
func (i *Iterator) fetch() bool {
	if i.scan == nil {
		return false
	}
	i.goOn()
	i.piece = grown(i.piece[:0], i.nextRoom())
	part, err := i.scan(i.from, i.to, i.piece)
	if part.More && part.Many == 0 {
		i.piece = grown(i.piece, mostPiece)
		part, err = i.scan(i.from, i.to, i.piece)
	}
	if !part.More {
		i.scan = nil
		i.err = err
	}
	i.rest = i.piece[:part.Len]
	return part.Len > 0
}

// goOn leaves out of the range what was read of it.
func (i *Iterator) goOn() {
	if i.key == nil {
		return
	}
	if i.form == listing.PairsBack {
		i.to = append(i.to[:0], i.key...)
	} else {
		i.from = append(append(i.from[:0], i.key...), 0)
	}
}

// nextRoom returns the room for the next piece: twice that of the last one, so that a short range takes little memory
// and a long one few calls.
func (i *Iterator) nextRoom() int {
	size := 2 * cap(i.piece)
	if most := mostPiece / (1 + i.beside); size > most {
		size = most
	}
	if size < firstPiece {
		return firstPiece
	}
	return size
}

func (v *Snapshot) scan(from, to, out []byte) (listing.Part, error) {
	fromAt, fromLen := pointer(from)
	toAt, toLen := pointer(to)
	outAt, outLen := room(out)
	store := v.of()
	defer store.mu.RUnlock(store.mu.RLock())
	return partOf(C.hlcgo_scan(&store.raw, v.id, fromAt, fromLen, toAt, toLen, outAt, outLen))
}

func (v *Snapshot) scanBack(from, to, out []byte) (listing.Part, error) {
	fromAt, fromLen := pointer(from)
	toAt, toLen := pointer(to)
	outAt, outLen := room(out)
	store := v.of()
	defer store.mu.RUnlock(store.mu.RLock())
	return partOf(C.hlcgo_scan_back(&store.raw, v.id, fromAt, fromLen, toAt, toLen, outAt, outLen))
}

func (v *Snapshot) scanKeys(from, to, out []byte) (listing.Part, error) {
	fromAt, fromLen := pointer(from)
	toAt, toLen := pointer(to)
	outAt, outLen := room(out)
	store := v.of()
	defer store.mu.RUnlock(store.mu.RLock())
	return partOf(C.hlcgo_scan_keys(&store.raw, v.id, fromAt, fromLen, toAt, toLen, outAt, outLen))
}

func (v *Snapshot) scanChanges(after *Snapshot, from, to, out []byte) (listing.Part, error) {
	if after.store != v.store {
		return listing.Part{}, &Error{Code: ErrNoSnapshot}
	}
	fromAt, fromLen := pointer(from)
	toAt, toLen := pointer(to)
	outAt, outLen := room(out)
	store := v.of()
	defer store.mu.RUnlock(store.mu.RLock())
	return partOf(C.hlcgo_changes(&store.raw, v.id, after.id, fromAt, fromLen, toAt, toLen, outAt, outLen))
}

func partOf(part C.hlcgo_part) (listing.Part, error) {
	if part.code != C.HLC_OK && part.code != C.HLC_MORE {
		return listing.Part{}, refusal(part.code, 0)
	}
	return listing.Part{Len: int(part.len), Many: int(part.many), More: part.code == C.HLC_MORE}, nil
}
