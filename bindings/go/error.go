package hlcstore

// #include "calls.h"
import "C"

import (
	"fmt"
	"unsafe"
)

// A Code is the number of a refusal in hlcstore.h. It is an error, so that errors.Is(err, ErrAboveFloor) asks for the
// kind of a refusal, whatever its word is.
type Code uint32

// bindings/refusals makes this list, and that of stamps in Error, from include/refusals.toml.

// The refusals, with the meaning of the word that comes with some of them.
const (
	ErrNoNode           = Code(C.HLC_NO_NODE)            // no node has this number
	ErrReadingTooLarge  = Code(C.HLC_READING_TOO_LARGE)  // the reading is 2^48 or more
	ErrCounterFull      = Code(C.HLC_COUNTER_FULL)       // word: the greatest earlier stamp, with the counter 65,535
	ErrNotNext          = Code(C.HLC_NOT_NEXT)           // word: the number that is next on the node's link
	ErrStampNotRising   = Code(C.HLC_STAMP_NOT_RISING)   // word: the stamp of the node's last accepted item
	ErrAboveFloor       = Code(C.HLC_ABOVE_FLOOR)        // word: the floor; of ApplyIncrement: the older checkpoint's
	ErrBelowHorizon     = Code(C.HLC_BELOW_HORIZON)      // word: the horizon
	ErrNoSnapshot       = Code(C.HLC_NO_SNAPSHOT)        // the snapshot is not open
	ErrTooManySnapshots = Code(C.HLC_TOO_MANY_SNAPSHOTS) // 1,024 are open
	ErrBadKey           = Code(C.HLC_BAD_KEY)            // the key has no bytes, or more than 255
	ErrValueTooLong     = Code(C.HLC_VALUE_TOO_LONG)     // the value has more than 65,535 bytes
	ErrNumbersSpent     = Code(C.HLC_NUMBERS_SPENT)      // no number of an item, or id of a snapshot, is left
	ErrNoMemory         = Code(C.HLC_NO_MEMORY)          // the C library found no memory
	ErrBadLine          = Code(C.HLC_BAD_LINE)           // word: the number of the first bad line of a certificate
	ErrNotShown         = Code(C.HLC_NOT_SHOWN)          // word: the number of the reason, see docs/formats.md
	ErrTooManyNodes     = Code(C.HLC_TOO_MANY_NODES)     // 1,024 node numbers are assigned
	ErrRetired          = Code(C.HLC_RETIRED)            // the node retired
	ErrNoWrites         = Code(C.HLC_NO_WRITES)          // the batch has no writes
	ErrTooManyWrites    = Code(C.HLC_TOO_MANY_WRITES)    // the batch has more than 256 writes
	ErrKeyTwice         = Code(C.HLC_KEY_TWICE)          // two writes of the batch are of one key
	ErrClosed           = Code(C.HLC_CLOSED)             // the store is closed
	ErrNoValue          = Code(C.HLC_NO_VALUE)           // the key has no value in the snapshot
	ErrNoSuchNode       = Code(C.HLC_NO_SUCH_NODE)       // no node has issued that many items up to this stamp
	ErrBadBytes         = Code(C.HLC_BAD_BYTES)          // word: the number of the first fault, see docs/formats.md
	ErrNoCheckpoint     = Code(C.HLC_NO_CHECKPOINT)      // word: the number of the reason, see docs/formats.md
	ErrNotFewest        = Code(C.HLC_NOT_FEWEST)         // a vacuum to the stamp would drop a row
	ErrNoIncrement      = Code(C.HLC_NO_INCREMENT)       // word: the number of the fault, or 0, see ApplyIncrement
	ErrNotLater         = Code(C.HLC_NOT_LATER)          // the increment is not of a later state of this store
	ErrNotParts         = Code(C.HLC_NOT_PARTS)          // word: the number of what differs, see hlcstore.h
	ErrBadNodeCount     = Code(C.HLC_BAD_NODE_COUNT)     // the number of nodes is not 1 to 64
	ErrAllRetired       = Code(C.HLC_ALL_RETIRED)        // no node holds the floor back
	ErrBelowFloor       = Code(C.HLC_BELOW_FLOOR)        // of a join: the start is too low; word: the floor
)

// Name returns the name of the refusal in hlcstore.h, for example HLC_NOT_NEXT, or nothing for an unknown number.
func (c Code) Name() string {
	return words(C.hlcgo_error_name(C.uint32_t(c)))
}

// Text returns what the refusal says, in English, or nothing for an unknown number.
func (c Code) Text() string {
	return words(C.hlcgo_error_text(C.uint32_t(c)))
}

// Error returns the text behind the name of the package.
func (c Code) Error() string {
	if text := c.Text(); text != "" {
		return "hlcstore: " + text
	}
	return fmt.Sprintf("hlcstore: unknown refusal %d", uint32(c))
}

// An Error is why a call was refused. errors.As finds it, with its word, and errors.Is its Code.
type Error struct {
	Code Code
	Word uint64 // what the Code describes, or 0
}

// Error returns the text of the refusal, and its word: a stamp as 5.0, any other as a number.
func (e *Error) Error() string {
	switch e.Code {
	case ErrCounterFull, ErrStampNotRising, ErrAboveFloor, ErrBelowHorizon, ErrBelowFloor:
		return fmt.Sprintf("%v (%v)", e.Code, e.Stamp())
	case ErrNotNext:
		return fmt.Sprintf("%v (%d)", e.Code, e.Word)
	}
	if e.Word == 0 {
		return e.Code.Error()
	}
	return fmt.Sprintf("%v (%d)", e.Code, e.Word)
}

// Unwrap returns the Code.
func (e *Error) Unwrap() error { return e.Code }

// Name returns the name of the refusal in hlcstore.h.
func (e *Error) Name() string { return e.Code.Name() }

// Text returns what the refusal says, without its word.
func (e *Error) Text() string { return e.Code.Text() }

// Stamp returns the word as a stamp, where it is one.
func (e *Error) Stamp() Stamp { return Stamp(e.Word) }

// LibraryVersion returns the version of the C library: 10,000 times its first number, 100 times the second, and the
// third.
func LibraryVersion() uint32 { return uint32(C.hlc_version()) }

// refusal returns nothing where a call was made, and otherwise its Error. Its answer is an hlc_answer, or the number of
// one.
func refusal[Answer ~uint32](code Answer, word C.uint64_t) error {
	if code == C.HLC_OK {
		return nil
	}
	return &Error{Code: Code(code), Word: uint64(word)}
}

func words(text C.hlcgo_text) string {
	if int(text.len) > len(text.bytes) {
		return ""
	}
	return C.GoStringN((*C.char)(unsafe.Pointer(&text.bytes)), C.int(text.len))
}
