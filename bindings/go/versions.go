package hlcstore

// #include "calls.h"
import "C"

import "encoding/binary"

// A Version is a stored row of a key.
type Version struct {
	Stamp Stamp
	Node  uint16
	Value []byte // nil in a deletion
}

// Versions returns the stored rows of a key above one stamp and at or below another, the newest first: by stamp, and at
// one stamp by node. Above the horizon these are all accepted writes of the key; at and below it, those that vacuums
// kept. The rows share one block of memory. The cost is the square of the number of the key's rows.
func (s *Store) Versions(key []byte, above, to Stamp) ([]Version, error) {
	defer s.mu.RUnlock(s.mu.RLock())
	listed := s.versions(key, above, to, nil)
	if listed.code != C.HLC_OK {
		return nil, refusal(listed.code, 0)
	}
	out := make([]byte, 0, listed.len)
	listed = s.versions(key, above, to, out)
	all := make([]Version, 0, listed.many)
	for rest := out[:listed.len]; len(rest) > 0; {
		version := Version{
			Stamp: Stamp(binary.LittleEndian.Uint64(rest)),
			Node:  binary.LittleEndian.Uint16(rest[8:]),
		}
		version.Value, rest = takeAnswer(rest[10:])
		all = append(all, version)
	}
	return all, refusal(listed.code, 0)
}

// versions writes the rows into the room of out, where they fit. The caller holds the lock, so that two calls agree.
func (s *Store) versions(key []byte, above, to Stamp, out []byte) C.hlcgo_part {
	keyAt, keyLen := pointer(key)
	outAt, outLen := room(out)
	return C.hlcgo_versions(&s.raw, keyAt, keyLen, C.uint64_t(above), C.uint64_t(to), outAt, outLen)
}
