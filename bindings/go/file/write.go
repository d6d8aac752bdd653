package file

// #include "calls.h"
import "C"

import (
	"io"
	"runtime"

	"hlcstore"
)

// The most bytes that are copied from C at once.
const mostCopied = 64 << 10

// Append appends a batch as items of a node, in turn, at a reading of the clock, or [Now]; and clears the batch, also
// where the error is ErrLater. After a crash all of it is in the file or none. Each write has a stamp of its own, so a
// snapshot between two of them shows a part; for one stamp use [File.WriteBatch]. It returns the stamp of the last
// item, at which a snapshot has all of them. An empty batch does nothing.
//
// Refusals: ErrBadOption; ErrNoNode, ErrRetired, ErrNumbersSpent, ErrReadingTooLarge, ErrCounterFull of package
// hlcstore.
func (f *File) Append(node uint16, reading uint64, batch *Batch, promise Promise) (hlcstore.Stamp, error) {
	if err := batch.allocate(); err != nil {
		return 0, err
	}
	defer runtime.KeepAlive(batch.owned)
	if err := f.use(); err != nil {
		return 0, err
	}
	defer f.done()
	return stamped(C.file_append(f.raw, C.uint16_t(node), C.uint64_t(reading), batch.owned.at, C.uint32_t(promise)))
}

// WriteBatch appends a batch of 1 to 256 different keys as one item of a node, so that all of its writes have one
// stamp, and returns that; and clears the batch, also where the error is ErrLater. A snapshot, at whatever stamp, shows
// all of them or none.
//
// Refusals: ErrBadOption; ErrNoWrites, ErrTooManyWrites, ErrKeyTwice, ErrNoNode, ErrRetired, ErrNumbersSpent,
// ErrReadingTooLarge, ErrCounterFull of package hlcstore.
func (f *File) WriteBatch(node uint16, reading uint64, batch *Batch, promise Promise) (hlcstore.Stamp, error) {
	if err := batch.allocate(); err != nil {
		return 0, err
	}
	defer runtime.KeepAlive(batch.owned)
	if err := f.use(); err != nil {
		return 0, err
	}
	defer f.done()
	return stamped(C.file_write_batch(f.raw, C.uint16_t(node), C.uint64_t(reading), batch.owned.at,
		C.uint32_t(promise)))
}

// Write appends one write of a node, as Options.Promise says. It returns its stamp.
//
// Refusals: ErrNoNode, ErrRetired, ErrNumbersSpent, ErrBadKey, ErrValueTooLong, ErrReadingTooLarge, ErrCounterFull of
// package hlcstore.
func (f *File) Write(node uint16, reading uint64, key, value []byte) (hlcstore.Stamp, error) {
	if err := f.use(); err != nil {
		return 0, err
	}
	defer f.done()
	keyAt, keyLen := pointer(key)
	valueAt, valueLen := pointer(value)
	return stamped(C.file_write(f.raw, C.uint16_t(node), C.uint64_t(reading), keyAt, keyLen, valueAt, valueLen))
}

// Delete appends one deletion of a node, likewise.
//
// Refusals: those of Write, but ErrValueTooLong.
func (f *File) Delete(node uint16, reading uint64, key []byte) (hlcstore.Stamp, error) {
	if err := f.use(); err != nil {
		return 0, err
	}
	defer f.done()
	keyAt, keyLen := pointer(key)
	return stamped(C.file_delete(f.raw, C.uint16_t(node), C.uint64_t(reading), keyAt, keyLen))
}

// Report appends a report of a node, which lets the floor rise where the node has nothing to write. It returns its
// stamp.
//
// Refusals: those of Append, but ErrBadOption.
func (f *File) Report(node uint16, reading uint64) (hlcstore.Stamp, error) {
	if err := f.use(); err != nil {
		return 0, err
	}
	defer f.done()
	return stamped(C.file_report(f.raw, C.uint16_t(node), C.uint64_t(reading)))
}

// Retire appends the last item of a node. It returns its stamp.
//
// Refusals: those of Report.
func (f *File) Retire(node uint16, reading uint64) (hlcstore.Stamp, error) {
	if err := f.use(); err != nil {
		return 0, err
	}
	defer f.done()
	return stamped(C.file_retire(f.raw, C.uint16_t(node), C.uint64_t(reading)))
}

// Send sends a message from a node, and returns its stamp.
//
// Refusals: ErrNoNode, ErrRetired, ErrReadingTooLarge, ErrCounterFull of package hlcstore.
func (f *File) Send(node uint16, reading uint64) (hlcstore.Stamp, error) {
	if err := f.use(); err != nil {
		return 0, err
	}
	defer f.done()
	return stamped(C.file_send(f.raw, C.uint16_t(node), C.uint64_t(reading)))
}

// Receive receives a message with this stamp, or observes a snapshot at it, and returns the stamp of that event.
//
// Refusals: those of Send.
func (f *File) Receive(node uint16, seen hlcstore.Stamp, reading uint64) (hlcstore.Stamp, error) {
	if err := f.use(); err != nil {
		return 0, err
	}
	defer f.done()
	return stamped(C.file_receive(f.raw, C.uint16_t(node), C.uint64_t(seen), C.uint64_t(reading)))
}

// Join lets a node join at the floor, and returns its number and its start.
//
// Refusal: ErrTooManyNodes of package hlcstore.
func (f *File) Join() (uint16, hlcstore.Stamp, error) {
	if err := f.use(); err != nil {
		return 0, 0, err
	}
	defer f.done()
	joined := C.file_join(f.raw)
	return uint16(joined.node), hlcstore.Stamp(joined.start), refusal(joined.code, 0)
}

// AppendRecords appends records as bytes, as other machines made them. Where one is refused, none is appended. Records
// that came before are passed over. It returns how many records came before the refused one, or how many there are.
//
// Refusals: ErrBadOption, ErrTooLong; of each record those of [hlcstore.Store.ApplyRecords].
func (f *File) AppendRecords(log []byte, promise Promise) (int, error) {
	if err := f.use(); err != nil {
		return 0, err
	}
	defer f.done()
	bytes, bytesLen := pointer(log)
	applied := C.file_append_records(f.raw, bytes, bytesLen, C.uint32_t(promise))
	return int(applied.many), refusal(applied.code, applied.word)
}

// Checkpoint saves a checkpoint, and cuts the log behind the older one of the two newest. It returns the place of the
// last row of the log that it has. Writes go on meanwhile.
func (f *File) Checkpoint() (uint64, error) {
	if err := f.use(); err != nil {
		return 0, err
	}
	defer f.done()
	answer := C.file_checkpoint(f.raw)
	return uint64(answer.word), refusal(answer.code, 0)
}

// CheckpointTo writes the bytes of a checkpoint in pieces, with a tag of the caller's: [hlcstore.Restore] opens a
// store in memory from them. It returns how many it wrote. Writes wait while C copies the state, and go on while w gets
// it, so w may make any call with the file.
//
// Errors: those of the writer, after which a part may be written.
func (f *File) CheckpointTo(w io.Writer, tag uint64) (int64, error) {
	if err := f.use(); err != nil {
		return 0, err
	}
	copied := C.file_copy(f.raw, C.uint64_t(tag))
	f.done()
	output := copied.output
	defer C.hlc_output_drop(&output)
	if err := refusal(copied.code, 0); err != nil {
		return 0, err
	}
	piece, written := make([]byte, mostCopied), int64(0)
	for written < int64(copied.len) {
		read := C.file_output_read(&output, C.size_t(written), (*C.uint8_t)(&piece[0]), C.size_t(len(piece)))
		many, err := w.Write(piece[:read.len])
		written += int64(many)
		if err != nil {
			return written, err
		}
		if many < int(read.len) {
			return written, io.ErrShortWrite
		}
	}
	return written, nil
}

// VacuumTo does what [hlcstore.Store.VacuumTo] does, in parts between which reads and writes go on.
//
// Refusals: ErrAboveFloor, ErrBelowHorizon of package hlcstore.
func (f *File) VacuumTo(stamp hlcstore.Stamp) (hlcstore.Vacuumed, error) {
	if err := f.use(); err != nil {
		return hlcstore.Vacuumed{}, err
	}
	defer f.done()
	return vacuumed(C.file_vacuum_to(f.raw, C.uint64_t(stamp)))
}

// VacuumOlder vacuums to the stamp that the system's clock had this many milliseconds ago, or to the floor where
// that is lower; where the horizon is higher, to the horizon.
//
// Refusal: ErrNoStamp, where the clock reads less.
func (f *File) VacuumOlder(milliseconds uint64) (hlcstore.Vacuumed, error) {
	if err := f.use(); err != nil {
		return hlcstore.Vacuumed{}, err
	}
	defer f.done()
	return vacuumed(C.file_vacuum_older(f.raw, C.uint64_t(milliseconds)))
}

func vacuumed(answer C.file_vacuumed) (hlcstore.Vacuumed, error) {
	if answer.code != C.HLC_OK {
		return hlcstore.Vacuumed{}, refusal(answer.code, answer.word)
	}
	return hlcstore.Vacuumed{
		Stamp:   hlcstore.Stamp(answer.word),
		Kept:    uint64(answer.kept),
		Bytes:   uint64(answer.bytes),
		Dropped: uint64(answer.dropped),
	}, nil
}

func stamped(answer C.file_answer) (hlcstore.Stamp, error) {
	if answer.code != C.HLC_OK && answer.code != C.HLC_FILE_LATER {
		return 0, refusal(answer.code, answer.word)
	}
	return hlcstore.Stamp(answer.word), refusal(answer.code, 0)
}
