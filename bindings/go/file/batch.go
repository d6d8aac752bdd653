package file

// #include "calls.h"
import "C"

import "runtime"

// A Batch is writes and deletions, at most 64 MiB; a write takes 24 bytes beside its key and its value.
// [File.WriteBatch] gives all of them one stamp, and [File.Append] each a stamp of its own. The zero Batch is empty. It
// is for one goroutine at a time, and must not be copied while it is used.
//
// Its memory is in C until Close; the garbage collector frees that of a forgotten one, at some time.
type Batch struct{ owned *rawBatch }

// A rawBatch frees its memory when nothing refers to it.
type rawBatch struct{ at *C.hlc_file_batch }

// Put adds a write. It copies the key and the value.
//
// Refusals: ErrBadKey, ErrValueTooLong and ErrNoMemory of package hlcstore; ErrTooLong. The batch keeps what it had.
func (b *Batch) Put(key, value []byte) error {
	if err := b.allocate(); err != nil {
		return err
	}
	keyAt, keyLen := pointer(key)
	valueAt, valueLen := pointer(value)
	defer runtime.KeepAlive(b.owned)
	return refusal(C.hlc_file_batch_put(b.owned.at, keyAt, keyLen, valueAt, valueLen), 0)
}

// Delete adds a deletion. It copies the key.
//
// Refusals: those of Put.
func (b *Batch) Delete(key []byte) error {
	if err := b.allocate(); err != nil {
		return err
	}
	keyAt, keyLen := pointer(key)
	defer runtime.KeepAlive(b.owned)
	return refusal(C.hlc_file_batch_delete(b.owned.at, keyAt, keyLen), 0)
}

// Len returns how many writes and deletions the batch has.
func (b *Batch) Len() int {
	if b.owned == nil {
		return 0
	}
	defer runtime.KeepAlive(b.owned)
	return int(C.hlc_file_batch_many(b.owned.at))
}

// Clear takes all out, and keeps the memory for the next ones.
func (b *Batch) Clear() {
	if b.owned != nil {
		C.hlc_file_batch_clear(b.owned.at)
		runtime.KeepAlive(b.owned)
	}
}

// Close frees the memory. The batch is empty then, and may be used again. The result is always nil.
func (b *Batch) Close() error {
	if b.owned != nil {
		runtime.SetFinalizer(b.owned, nil)
		b.owned.free()
		b.owned = nil
	}
	return nil
}

// allocate takes the memory of a batch that has none.
func (b *Batch) allocate() error {
	if b.owned != nil {
		return nil
	}
	owned := new(rawBatch)
	if code := C.hlc_file_batch_new(&owned.at); code != C.HLC_OK {
		return refusal(code, 0)
	}
	runtime.SetFinalizer(owned, (*rawBatch).free)
	b.owned = owned
	return nil
}

func (r *rawBatch) free() { C.hlc_file_batch_drop(r.at) }
