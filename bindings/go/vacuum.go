package hlcstore

// #include "calls.h"
import "C"

import (
	"context"
	"io"
	"unsafe"
)

// Vacuumed is what a vacuum did.
type Vacuumed struct {
	Stamp   Stamp  // the stamp up to which rows were dropped, which is the horizon now
	Kept    uint64 // how many rows at or below it were kept
	Bytes   uint64 // what these cost: for each the length of its key and of its value, and 10
	Dropped uint64 // how many rows at or below it were dropped
}

// Vacuum drops all rows at or below the floor except the fewest, and the cheapest, that give the same answers as all
// accepted writes at each open snapshot and at the floor. It holds the lock alone for as long as it takes:
// [Store.VacuumInParts] does not.
func (s *Store) Vacuum() (Vacuumed, error) {
	s.mu.Lock()
	defer s.mu.Unlock()
	return vacuumed(C.hlcgo_vacuum(&s.raw))
}

// VacuumTo drops all rows at or below a stamp except the fewest, and the cheapest, that give the same answers as all
// accepted writes at each snapshot that is open at or below the stamp, and at the stamp. All rows above it stay.
//
// Refusals: ErrAboveFloor, ErrBelowHorizon.
func (s *Store) VacuumTo(stamp Stamp) (Vacuumed, error) {
	s.mu.Lock()
	defer s.mu.Unlock()
	return vacuumed(C.hlcgo_vacuum_to(&s.raw, C.uint64_t(stamp)))
}

// VacuumInParts does what VacuumTo does, by parts of this many keys, at least one, and holds the lock only during each
// of them. All other calls are allowed between parts, and each part leaves the fewest rows at the snapshots that are
// open then. Before each part it looks whether the context is done: then it returns what the parts before it did, and
// the context's error. The store has the stamp as its horizon from the first part on. A later call begins anew.
//
// Refusals: those of VacuumTo; also between parts, where another vacuum went above the stamp.
func (s *Store) VacuumInParts(ctx context.Context, stamp Stamp, limit int) (Vacuumed, error) {
	if limit < 1 {
		limit = 1
	}
	done := Vacuumed{Stamp: stamp}
	for after, more := []byte(nil), true; more; {
		if err := ctx.Err(); err != nil {
			return done, err
		}
		part, err := s.VacuumPart(stamp, after, limit)
		if err != nil {
			return done, err
		}
		done.Kept += part.Kept
		done.Bytes += part.Bytes
		done.Dropped += part.Dropped
		after, more = part.Last, part.More
	}
	return done, nil
}

// VacuumPart is what a part of a vacuum did, to the rows of its keys.
type VacuumPart struct {
	Vacuumed
	Last []byte // where More is true, the last key of the part, after which the next one goes on
	More bool   // whether a key may be left
}

// VacuumPart does a part of VacuumTo: of the first keys above `after`, or the first of all if that has no bytes, at
// most this many. The first part makes the stamp the horizon.
//
// Refusals: those of VacuumTo.
func (s *Store) VacuumPart(stamp Stamp, after []byte, limit int) (VacuumPart, error) {
	if limit < 0 {
		limit = 0
	}
	afterAt, afterLen := pointer(after)
	s.mu.Lock()
	defer s.mu.Unlock()
	part := C.hlcgo_vacuum_part(&s.raw, C.uint64_t(stamp), afterAt, afterLen, C.size_t(limit))
	done, err := vacuumed(part.done)
	return VacuumPart{done, lastKey(&part, after), bool(part.more)}, err
}

// lastKey returns the key after which the next part goes on: `after` itself where there was room for no key, in which
// case that may be longer than any key of the store.
func lastKey(part *C.hlcgo_vacuum_part_of, after []byte) []byte {
	if !part.more {
		return nil
	}
	if int(part.len) > len(part.last) {
		return append([]byte(nil), after...)
	}
	return append([]byte(nil), (*[len(part.last)]byte)(unsafe.Pointer(&part.last))[:part.len]...)
}

// CheckVacuum returns why VacuumTo would be refused for this stamp, except ErrNoMemory. It changes nothing.
func (s *Store) CheckVacuum(stamp Stamp) error {
	defer s.mu.RUnlock(s.mu.RLock())
	answer := C.hlcgo_check_vacuum(&s.raw, C.uint64_t(stamp))
	return refusal(answer.code, answer.word)
}

func vacuumed(answer C.hlcgo_vacuumed) (Vacuumed, error) {
	if answer.code != C.HLC_OK {
		return Vacuumed{}, refusal(answer.code, answer.word)
	}
	return Vacuumed{
		Stamp:   Stamp(answer.word),
		Kept:    uint64(answer.kept),
		Bytes:   uint64(answer.bytes),
		Dropped: uint64(answer.dropped),
	}, nil
}

// Certified is which rows a certificate is of.
type Certified struct {
	Rows  uint64 // how many
	Bytes uint64 // what they cost: for each the length of its key and of its value, and 10
}

// Certificate writes the certificate of the rows at or below a stamp: that no row set which gives the same answers at
// each snapshot that is open at or below the stamp, and at the stamp, has fewer rows, or costs fewer bytes. It changes
// nothing, so it comes after a vacuum to this stamp. C makes it under the lock, and it is written after that.
//
// Refusals: ErrAboveFloor, ErrBelowHorizon, ErrNotFewest; or ErrNoMemory in place of that; and errors of the writer.
func (s *Store) Certificate(w io.Writer, stamp Stamp) (Certified, error) {
	own := s.mu.RLock()
	made := C.hlcgo_certificate(&s.raw, C.uint64_t(stamp))
	s.mu.RUnlock(own)
	_, err := writeOutput(w, made)
	return Certified{uint64(made.kept), uint64(made.bytes)}, err
}

// CheckCertificate checks the text of a certificate, whoever made it: no row set that gives the same answers at its
// points has fewer rows, or costs fewer bytes.
//
// Refusals: ErrBadLine, ErrNotShown.
func CheckCertificate(text []byte) (Certified, error) {
	textAt, textLen := pointer(text)
	checked := C.hlcgo_check(textAt, textLen)
	return Certified{uint64(checked.kept), uint64(checked.bytes)}, refusal(checked.code, checked.word)
}
