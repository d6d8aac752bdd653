package hlcstore

// #include "calls.h"
import "C"

import "io"

// Checkpoint writes the whole state of the store, with a tag of the caller's: for example the place in a log up to
// which the store applied it. docs/formats.md describes the bytes, which end with a digest. It returns how many it
// wrote. C makes a copy of the state under the lock, beside readers, and that is written after it.
//
// Errors: those of the writer, after which a part may be written.
func (s *Store) Checkpoint(w io.Writer, tag uint64) (int64, error) {
	own := s.mu.RLock()
	made := C.hlcgo_checkpoint(&s.raw, C.uint64_t(tag))
	s.mu.RUnlock(own)
	return writeOutput(w, made)
}

// CheckpointTo writes what Checkpoint writes, in pieces that C makes one after another. In memory are a piece, and the
// rows of up to 32 keys as bytes.
//
// Reads go on beside it, and calls that change the store wait until all is written; to open or close a snapshot is a
// change too. So w may read the store, but must not change it or call CheckpointTo, nor wait for a goroutine that does:
// it would wait for itself.
//
// Errors: those of the writer, after which a part may be written; ErrNoMemory likewise.
func (s *Store) CheckpointTo(w io.Writer, tag uint64) (int64, error) {
	s.mu.beginSaving()
	defer s.mu.endSaving()
	var saving C.hlc_saving
	defer C.hlc_saving_drop(&saving)
	own := s.mu.RLock()
	started := C.hlcgo_saving_start(&saving, &s.raw, C.uint64_t(tag))
	s.mu.RUnlock(own)
	if started.code != C.HLC_OK {
		return 0, refusal(started.code, 0)
	}
	return writePieces(w, func(out *C.uint8_t, outLen C.size_t) C.hlcgo_part {
		defer s.mu.RUnlock(s.mu.RLock())
		return C.hlcgo_saving_read(&saving, &s.raw, out, outLen)
	})
}

// Increment writes the whole state of the store, but of its rows only those above a stamp, with a tag of the caller's.
// As the stamp choose the floor that the store had at an older checkpoint: of both [ApplyIncrement] makes a newer one.
// Otherwise it is like Checkpoint.
//
// Refusal: ErrBelowHorizon, where the stamp is below the horizon: then make a whole checkpoint.
func (s *Store) Increment(w io.Writer, since Stamp, tag uint64) (int64, error) {
	own := s.mu.RLock()
	made := C.hlcgo_increment(&s.raw, C.uint64_t(since), C.uint64_t(tag))
	s.mu.RUnlock(own)
	return writeOutput(w, made)
}

// ApplyIncrement makes a newer checkpoint, of an older one and of an increment of the same store, and writes it. It has
// the increment's tag. It answers as the newer store did, but also has the rows that vacuums dropped since the older
// checkpoint; its next vacuum drops them.
//
// Refusals, in this order: ErrBadBytes, of the older bytes; ErrNoIncrement; ErrNoCheckpoint, of either; ErrNotLater;
// ErrAboveFloor, with the floor of the older checkpoint; ErrNoIncrement with the word 0, where the stamp of the
// increment does not fit its rows and its horizon. ErrNoMemory may come in place of each; and errors of the writer.
func ApplyIncrement(w io.Writer, older, increment []byte) (int64, error) {
	olderAt, olderLen := pointer(older)
	incrementAt, incrementLen := pointer(increment)
	return writeOutput(w, C.hlcgo_increment_apply(olderAt, olderLen, incrementAt, incrementLen))
}

// SplitCheckpoint divides the bytes of a checkpoint at a key, and writes those of both parts: below gets the rows of
// lower keys, from the others. Each has the links, the open snapshots, the horizon and the tag of the whole, and goes
// on from the same log: it takes each write of another key as a report.
//
// Refusals, in this order: ErrBadBytes; ErrNoCheckpoint, of either part. ErrNoMemory may come in place of each; and
// errors of the writers, of which the second gets nothing where the first one fails.
func SplitCheckpoint(below, from io.Writer, checkpoint, key []byte) error {
	checkpointAt, checkpointLen := pointer(checkpoint)
	keyAt, keyLen := pointer(key)
	made := C.hlcgo_split(checkpointAt, checkpointLen, keyAt, keyLen)
	if _, err := writeOutput(below, made.left); err != nil {
		C.hlc_output_drop(&made.right.output)
		return err
	}
	_, err := writeOutput(from, made.right)
	return err
}

// MergeCheckpoints joins the bytes of two neighbouring parts of a checkpoint, of which the left one has the lower keys,
// and writes those of the whole, with the tag of the left one.
//
// Refusals, in this order: ErrBadBytes, of the left bytes and then of the right ones; ErrNotParts, with the number of
// the first thing that differs, see hlcstore.h; ErrNoCheckpoint. ErrNoMemory may come in place of each; and errors of
// the writer.
func MergeCheckpoints(w io.Writer, left, right []byte) (int64, error) {
	leftAt, leftLen := pointer(left)
	rightAt, rightLen := pointer(right)
	return writeOutput(w, C.hlcgo_merge(leftAt, leftLen, rightAt, rightLen))
}

// The most bytes that are copied from C at once.
const mostCopied = 64 << 10

// writeOutput writes what a call made, in pieces, and frees it.
func writeOutput(w io.Writer, made C.hlcgo_made) (int64, error) {
	output := made.output
	defer C.hlc_output_drop(&output)
	if made.code != C.HLC_OK {
		return 0, refusal(made.code, made.word)
	}
	from := C.size_t(0)
	return writePieces(w, func(out *C.uint8_t, outLen C.size_t) C.hlcgo_part {
		read := C.hlcgo_output_read(&output, from, out, outLen)
		from += read.len
		return read
	})
}

// writePieces writes the pieces that a call reads, until it answers other than that bytes are left.
func writePieces(w io.Writer, read func(out *C.uint8_t, outLen C.size_t) C.hlcgo_part) (int64, error) {
	piece := make([]byte, 0, mostCopied)
	written := int64(0)
	for {
		part := read(room(piece))
		many, err := w.Write(piece[:part.len])
		written += int64(many)
		if err != nil {
			return written, err
		}
		if many < int(part.len) {
			return written, io.ErrShortWrite
		}
		if part.code != C.HLC_MORE {
			return written, refusal(part.code, 0)
		}
	}
}

// Restore opens a store from the bytes of a checkpoint, which it reads to their end, in pieces. It continues as the
// saved store would have: the same next items, open snapshots, horizon and answers. It also returns the tag that was
// saved.
//
// Refusals: ErrBadBytes, ErrNoCheckpoint, or ErrNoMemory in their place; and errors of the reader. No fault of the
// bytes is found before their end.
func Restore(r io.Reader) (*Store, uint64, error) {
	var pieces restoring
	if err := refusal(C.hlc_restoring_start(&pieces.raw), 0); err != nil {
		return nil, 0, err
	}
	defer C.hlc_restoring_drop(&pieces.raw)
	if _, err := io.Copy(&pieces, r); err != nil {
		return nil, 0, err
	}
	store := new(Store)
	return restored(store, C.hlcgo_restore_finish(&pieces.raw, &store.raw))
}

// RestoreBytes is like Restore, from the bytes of a checkpoint that are in memory.
func RestoreBytes(checkpoint []byte) (*Store, uint64, error) {
	bytes, bytesLen := pointer(checkpoint)
	store := new(Store)
	return restored(store, C.hlcgo_restore(&store.raw, bytes, bytesLen))
}

func restored(store *Store, answer C.hlcgo_answer) (*Store, uint64, error) {
	if answer.code != C.HLC_OK {
		return nil, 0, refusal(answer.code, answer.word)
	}
	return watched(store), uint64(answer.word), nil
}

// restoring passes what is written to it to a restore that is under way.
type restoring struct{ raw C.hlc_restoring }

func (p *restoring) Write(piece []byte) (int, error) {
	bytes, bytesLen := pointer(piece)
	if code := C.hlc_restoring_feed(&p.raw, bytes, bytesLen); code != C.HLC_OK {
		return 0, refusal(code, 0)
	}
	return len(piece), nil
}
