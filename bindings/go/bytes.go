package hlcstore

// #include "calls.h"
import "C"

import (
	"encoding/binary"
	"unsafe"
)

// How many bytes the longest of some things have.
const (
	longestKey   = C.HLCGO_LONGEST_KEY
	longestValue = 65535
	// The room in which every call that lists pairs, keys or changes writes one of them.
	roomForOne = 8 + longestKey + 1 + 8 + longestValue
)

// pointer returns the place of some bytes, which C uses only during the call to which it is passed. No bytes have the
// place nil.
func pointer(bytes []byte) (*C.uint8_t, C.size_t) {
	if len(bytes) == 0 {
		return nil, 0
	}
	return (*C.uint8_t)(unsafe.Pointer(&bytes[0])), C.size_t(len(bytes))
}

// room returns the place between the end of some bytes and the end of their capacity.
func room(bytes []byte) (*C.uint8_t, C.size_t) {
	return pointer(bytes[len(bytes):cap(bytes)])
}

// grown returns the bytes with room for at least this many more, and with that of append where they are moved.
func grown(bytes []byte, more int) []byte {
	if cap(bytes)-len(bytes) >= more {
		return bytes
	}
	return append(bytes, make([]byte, more)...)[:len(bytes)]
}

// takeBytes takes a string, behind its length in eight bytes, from what C wrote. The string has no room behind it, so
// that a caller who appends to it changes nothing else.
func takeBytes(rest []byte) (taken, left []byte) {
	end := 8 + binary.LittleEndian.Uint64(rest)
	return rest[8:end:end], rest[end:]
}

// takeAnswer takes a byte 0, which is no value and comes as nil, or a byte 1 and a value.
func takeAnswer(rest []byte) (value, left []byte) {
	if rest[0] == 0 {
		return nil, rest[1:]
	}
	return takeBytes(rest[1:])
}
