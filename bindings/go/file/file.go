package file

// #include "calls.h"
import "C"

import (
	"math"
	"runtime"
	"strings"
	"sync"
	"unsafe"

	"hlcstore"
)

// Now is the reading of the system's clock.
const Now = math.MaxUint64

// A Promise is when a call that writes returns.
type Promise uint32

const (
	Default Promise = C.HLC_FILE_DEFAULT // as Options.Promise says
	Synced  Promise = C.HLC_FILE_SYNCED  // the batch is synced, in a transaction of its own
	Group   Promise = C.HLC_FILE_GROUP   // it is synced, in a transaction with batches of other goroutines
	Written Promise = C.HLC_FILE_WRITTEN // it is written, not synced: a loss of power may lose it, with all behind it
)

// Options are how a file is opened. The zero Options are the defaults.
type Options struct {
	MustExist        bool    // refuse a path without a file
	KeepBeforeDamage bool    // of a damaged log, open what is before the damage, and move the rest aside
	Nodes            uint16  // how many nodes a new file has, 1 to 64; default 1
	Promise          Promise // default Synced
	GroupMicros      uint32  // how long Group waits for more batches, at most 1,000,000; default 0
	CheckpointBytes  uint64  // the bytes of log before a checkpoint in the background; default 64 MiB
}

func (o *Options) raw() (raw C.hlc_file_options) {
	if o == nil {
		return raw
	}
	if o.MustExist {
		raw.flags |= C.HLC_FILE_MUST_EXIST
	}
	if o.KeepBeforeDamage {
		raw.flags |= C.HLC_FILE_KEEP_BEFORE_DAMAGE
	}
	raw.nodes = C.uint32_t(o.Nodes)
	raw.promise = C.uint32_t(o.Promise)
	raw.group_microseconds = C.uint32_t(o.GroupMicros)
	raw.checkpoint_bytes = C.uint64_t(o.CheckpointBytes)
	return raw
}

// A File is a store in a file, which is locked against other processes until Close. It is safe for concurrent use, and
// must not be copied. The zero File is closed.
type File struct {
	// Calls hold the reading side, and Close the other, since no call may be under way then.
	mu  sync.RWMutex
	raw *C.hlc_file
}

// closedFile is the file of the zero Snapshot.
var closedFile File

// Open makes or recovers a file. The options may be nil. It restores the newest checkpoint, and applies the log behind
// it. No snapshot is open then.
//
// Errors: ErrInUse, ErrCannotOpen, ErrNotOurs, ErrNewer, ErrBadOption, ErrFull, ErrIO, ErrCorrupt, ErrDamagedLog,
// ErrNoWholeCheckpoint, and ErrNoMemory of package hlcstore.
func Open(path string, options *Options) (*File, error) {
	if strings.IndexByte(path, 0) >= 0 {
		return nil, &Error{Code: ErrCannotOpen}
	}
	text := C.CString(path)
	defer C.free(unsafe.Pointer(text))
	opened := C.file_open(text, options.raw())
	if opened.code != C.HLC_OK {
		return nil, refusal(opened.code, opened.state.word)
	}
	file := &File{raw: opened.file}
	runtime.SetFinalizer(file, closeFileLater)
	return file, nil
}

// Close waits for the calls that are under way and for a checkpoint in the background, syncs the file, and frees it in
// any case. A closed file stays closed.
//
// Errors: ErrFull, ErrIO, ErrUnknown, ErrSealed, where a batch of the promise Written may not be synced. All others
// kept their promise.
func (f *File) Close() error {
	f.mu.Lock()
	defer f.mu.Unlock()
	if f.raw == nil {
		return nil
	}
	code := C.hlc_file_close(f.raw)
	f.raw = nil
	runtime.SetFinalizer(f, nil)
	return refusal(code, 0)
}

// closeFileLater closes a forgotten file beside the other finalizers, which do not wait for the disk.
func closeFileLater(file *File) { go file.Close() }

// use begins a call with the file, which done ends.
func (f *File) use() error {
	f.mu.RLock()
	if f.raw == nil {
		f.mu.RUnlock()
		return &hlcstore.Error{Code: hlcstore.ErrClosed}
	}
	return nil
}

func (f *File) done() { f.mu.RUnlock() }

// Status is how a file is.
type Status struct {
	Failure         error          // the last Error that was no mistake of the caller, or nil
	SQLite          int            // SQLite's extended result code of it, or 0
	Writes          error          // nil, or ErrUnknown where the next write first finds out, or ErrSealed
	Created         bool           // whether Open made the file
	Damaged         uint64         // how many damaged checkpoints Open passed over
	Applied         uint64         // how many records of the log Open applied
	Aside           uint64         // how many rows of the log Open moved aside
	Place           uint64         // the place of the last row of the log
	CheckpointPlace uint64         // the place that the newest checkpoint has
	LogBytes        uint64         // how many bytes of records are behind it
	Clock           hlcstore.Stamp // no stamp above this one was accepted or returned
	Waiting         uint64         // how many batches are on disk, but not accepted, after ErrLater
	Background      error          // why the last checkpoint in the background failed, or nil
}

// Status returns how the file is.
func (f *File) Status() (Status, error) {
	if err := f.use(); err != nil {
		return Status{}, err
	}
	defer f.done()
	status := C.file_status(f.raw)
	state := &status.state
	return Status{
		Failure:         refusal(state.failure, state.word),
		SQLite:          int(state.sqlite),
		Writes:          refusal(state.writes, 0),
		Created:         state.created != 0,
		Damaged:         uint64(state.damaged),
		Applied:         uint64(state.applied),
		Aside:           uint64(state.aside),
		Place:           uint64(state.place),
		CheckpointPlace: uint64(state.checkpoint_place),
		LogBytes:        uint64(state.log_bytes),
		Clock:           hlcstore.Stamp(state.clock),
		Waiting:         uint64(state.waiting),
		Background:      refusal(state.background, 0),
	}, refusal(status.code, 0)
}

// pointer returns the place of some bytes, which C uses only during the call. No bytes have the place nil.
func pointer(bytes []byte) (*C.uint8_t, C.size_t) {
	if len(bytes) == 0 {
		return nil, 0
	}
	return (*C.uint8_t)(unsafe.Pointer(&bytes[0])), C.size_t(len(bytes))
}

// room returns the place between the end of some bytes and the end of their capacity.
func room(bytes []byte) (*C.uint8_t, C.size_t) {
	return pointer(bytes[len(bytes):cap(bytes)])
}
