package file

// #include "calls.h"
import "C"

import (
	"errors"
	"runtime"
	"unsafe"

	"hlcstore"
	"hlcstore/internal/listing"
)

// Floor returns the floor (closed timestamp) of the store.
func (f *File) Floor() (hlcstore.Stamp, error) {
	if err := f.use(); err != nil {
		return 0, err
	}
	defer f.done()
	return stamped(C.file_floor(f.raw))
}

// Horizon returns the horizon (GC threshold) of the store.
func (f *File) Horizon() (hlcstore.Stamp, error) {
	if err := f.use(); err != nil {
		return 0, err
	}
	defer f.done()
	return stamped(C.file_horizon(f.raw))
}

// A Snapshot reads the store as it was at a stamp, as an [hlcstore.Snapshot] does. It is not kept in the file, and ends
// with the File. Close it; the garbage collector closes a forgotten one, at some time.
type Snapshot struct {
	file   *File
	id     C.uint64_t
	stamp  hlcstore.Stamp
	opener *opener
}

// An opener is of a snapshot that the garbage collector closes, with it.
type opener struct {
	file *File
	id   C.uint64_t
}

// Snapshot opens a snapshot at the floor.
//
// Refusals: ErrTooManySnapshots, ErrNumbersSpent, ErrNoMemory of package hlcstore.
func (f *File) Snapshot() (*Snapshot, error) {
	if err := f.use(); err != nil {
		return nil, err
	}
	defer f.done()
	return f.opened(C.file_open_snapshot_at_floor(f.raw))
}

// SnapshotAt opens a snapshot at a stamp, from the horizon to the floor.
//
// Refusals: ErrAboveFloor, ErrBelowHorizon, and those of Snapshot.
func (f *File) SnapshotAt(stamp hlcstore.Stamp) (*Snapshot, error) {
	if err := f.use(); err != nil {
		return nil, err
	}
	defer f.done()
	return f.opened(C.file_open_snapshot(f.raw, C.uint64_t(stamp)))
}

func (f *File) opened(answer C.file_snapshot) (*Snapshot, error) {
	if answer.code != C.HLC_OK {
		return nil, refusal(answer.code, answer.id)
	}
	opener := &opener{f, answer.id}
	runtime.SetFinalizer(opener, closeLater)
	return &Snapshot{f, answer.id, hlcstore.Stamp(answer.stamp), opener}, nil
}

// closeLater closes a snapshot beside the other finalizers, which do not wait for the file.
func closeLater(opener *opener) { go opener.file.closeSnapshot(opener.id) }

func (f *File) closeSnapshot(id C.uint64_t) error {
	if err := f.use(); err != nil {
		return err
	}
	defer f.done()
	return refusal(C.file_close_snapshot(f.raw, id), 0)
}

// Close closes the snapshot; then its calls are refused with ErrNoSnapshot of package hlcstore. A snapshot that was
// closed before, also with its file, stays closed. The result is nil in all these cases.
func (v *Snapshot) Close() error {
	if v.opener != nil {
		runtime.SetFinalizer(v.opener, nil)
	}
	err := v.of().closeSnapshot(v.id)
	if errors.Is(err, hlcstore.ErrNoSnapshot) || errors.Is(err, hlcstore.ErrClosed) {
		return nil
	}
	return err
}

// Stamp returns the stamp at which the snapshot was opened.
func (v *Snapshot) Stamp() hlcstore.Stamp { return v.stamp }

// of returns the file, which is closed where the snapshot is the zero one.
func (v *Snapshot) of() *File {
	if v.file == nil {
		return &closedFile
	}
	return v.file
}

// Get returns the value of a key, in a slice of its own.
//
// Refusals: ErrNoSnapshot, ErrNoValue of package hlcstore.
func (v *Snapshot) Get(key []byte) ([]byte, error) {
	value, err := v.GetTo(nil, key)
	if err == nil && value == nil {
		value = []byte{}
	}
	return value, err
}

// GetTo appends the value of a key to dst, and returns the longer slice. After a refusal it returns dst as it was.
//
// Refusals: those of Get.
func (v *Snapshot) GetTo(dst, key []byte) ([]byte, error) {
	file := v.of()
	if err := file.use(); err != nil {
		return dst, err
	}
	defer file.done()
	part := v.read(dst, key)
	longer := dst
	if part.code == C.HLC_OK && int(part.len) > cap(dst)-len(dst) {
		longer = append(dst, make([]byte, part.len)...)[:len(dst)]
		part = v.read(longer, key)
	}
	if part.code != C.HLC_OK {
		return dst, refusal(part.code, 0)
	}
	return longer[:len(longer)+int(part.len)], nil
}

// read reads a value into the room of dst, if it fits there. The file is in use.
func (v *Snapshot) read(dst, key []byte) C.file_part {
	keyAt, keyLen := pointer(key)
	out, outLen := room(dst)
	return C.file_read(v.file.raw, v.id, keyAt, keyLen, out, outLen)
}

// Count returns how many keys from `from` on and below `to`, or from `from` on if `to` has no bytes, have a value.
//
// Refusal: ErrNoSnapshot of package hlcstore.
func (v *Snapshot) Count(from, to []byte) (uint64, error) {
	file := v.of()
	if err := file.use(); err != nil {
		return 0, err
	}
	defer file.done()
	fromAt, fromLen := pointer(from)
	toAt, toLen := pointer(to)
	answer := C.file_count(file.raw, v.id, fromAt, fromLen, toAt, toLen)
	return uint64(answer.word), refusal(answer.code, 0)
}

// Digest returns the SHA-256 of such a range, as [hlcstore.Snapshot.Digest] does.
//
// Refusal: ErrNoSnapshot of package hlcstore.
func (v *Snapshot) Digest(from, to []byte) ([32]byte, error) {
	file := v.of()
	if err := file.use(); err != nil {
		return [32]byte{}, err
	}
	defer file.done()
	fromAt, fromLen := pointer(from)
	toAt, toLen := pointer(to)
	digest := C.file_digest_of(file.raw, v.id, fromAt, fromLen, toAt, toLen)
	return *(*[32]byte)(unsafe.Pointer(&digest.bytes)), refusal(digest.code, 0)
}

// Range returns an iterator over such a range, as [hlcstore.Snapshot.Range] does. The file may be used while it goes
// on, and must not be closed before it ends: then its Err is ErrClosed of package hlcstore.
func (v *Snapshot) Range(from, to []byte) *hlcstore.Iterator {
	return hlcstore.IteratorOf(listing.Pairs, v.scan, from, to)
}

// RangeBack returns an iterator over such a range from its end.
func (v *Snapshot) RangeBack(from, to []byte) *hlcstore.Iterator {
	return hlcstore.IteratorOf(listing.PairsBack, v.scanBack, from, to)
}

// Changes returns an iterator over what leads from this snapshot to another one of the same file, as
// [hlcstore.Snapshot.Changes] does.
func (v *Snapshot) Changes(after *Snapshot, from, to []byte) *hlcstore.Iterator {
	scan := func(from, to, out []byte) (listing.Part, error) { return v.scanChanges(after, from, to, out) }
	return hlcstore.IteratorOf(listing.Answers, scan, from, to)
}

func (v *Snapshot) scan(from, to, out []byte) (listing.Part, error) {
	file := v.of()
	if err := file.use(); err != nil {
		return listing.Part{}, err
	}
	defer file.done()
	fromAt, fromLen := pointer(from)
	toAt, toLen := pointer(to)
	outAt, outLen := room(out)
	return partOf(C.file_scan(file.raw, v.id, fromAt, fromLen, toAt, toLen, outAt, outLen))
}

func (v *Snapshot) scanBack(from, to, out []byte) (listing.Part, error) {
	file := v.of()
	if err := file.use(); err != nil {
		return listing.Part{}, err
	}
	defer file.done()
	fromAt, fromLen := pointer(from)
	toAt, toLen := pointer(to)
	outAt, outLen := room(out)
	return partOf(C.file_scan_back(file.raw, v.id, fromAt, fromLen, toAt, toLen, outAt, outLen))
}

func (v *Snapshot) scanChanges(after *Snapshot, from, to, out []byte) (listing.Part, error) {
	if after.file != v.file {
		return listing.Part{}, &hlcstore.Error{Code: hlcstore.ErrNoSnapshot}
	}
	file := v.of()
	if err := file.use(); err != nil {
		return listing.Part{}, err
	}
	defer file.done()
	fromAt, fromLen := pointer(from)
	toAt, toLen := pointer(to)
	outAt, outLen := room(out)
	return partOf(C.file_changes(file.raw, v.id, after.id, fromAt, fromLen, toAt, toLen, outAt, outLen))
}

func partOf(part C.file_part) (listing.Part, error) {
	if part.code != C.HLC_OK && part.code != C.HLC_MORE {
		return listing.Part{}, refusal(part.code, 0)
	}
	return listing.Part{Len: int(part.len), Many: int(part.many), More: part.code == C.HLC_MORE}, nil
}
