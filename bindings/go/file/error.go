package file

// #include "calls.h"
import "C"

import (
	"fmt"
	"unsafe"

	"hlcstore"
)

// A Code is the number of an answer in hlcstore_file.h. It is an error, so that errors.Is(err, ErrFull) asks for it.
type Code uint32

// bindings/refusals makes this list, and that of Error, from include/refusals.toml.

// What a file answers beside the refusals of package hlcstore.
const (
	ErrInUse             = Code(C.HLC_FILE_IN_USE)        // another process, or this one, has the file open
	ErrCannotOpen        = Code(C.HLC_FILE_CANNOT_OPEN)   // the path or its lock cannot be opened, or has several links
	ErrNotOurs           = Code(C.HLC_FILE_NOT_OURS)      // another application's file, which is unchanged
	ErrNewer             = Code(C.HLC_FILE_NEWER)         // made by a newer library; word: the version of its schema
	ErrBadOption         = Code(C.HLC_FILE_BAD_OPTION)    // an option or a promise is out of range
	ErrFull              = Code(C.HLC_FILE_FULL)          // the disk is full
	ErrIO                = Code(C.HLC_FILE_IO)            // the disk failed
	ErrCorrupt           = Code(C.HLC_FILE_CORRUPT)       // SQLite's structure is damaged, or only its log is there
	ErrDamagedLog        = Code(C.HLC_FILE_DAMAGED_LOG)   // a log row is missing or altered; word: its place
	ErrNoWholeCheckpoint = Code(C.HLC_FILE_NO_CHECKPOINT) // none is whole, nor the log; word: how many are damaged
	ErrUnknown           = Code(C.HLC_FILE_UNKNOWN)       // whether the batch is on disk is not known; it is not visible
	ErrSealed            = Code(C.HLC_FILE_SEALED)        // no writes until the file is opened again; reads go on
	ErrLater             = Code(C.HLC_FILE_LATER)         // the batch is on disk and visible later: do not append it again
	ErrTooLong           = Code(C.HLC_FILE_TOO_LONG)      // a batch would have more than 64 MiB
	ErrNoStamp           = Code(C.HLC_FILE_NO_STAMP)      // no stamp is so old
)

// Name returns the name of the answer in hlcstore_file.h, or nothing for an unknown number.
func (c Code) Name() string { return words(C.file_error_name(C.uint32_t(c))) }

// Text returns what the answer says, in English, or nothing for an unknown number.
func (c Code) Text() string { return words(C.file_error_text(C.uint32_t(c))) }

// Error returns the text behind the name of the package.
func (c Code) Error() string { return "hlcstore/file: " + c.Text() }

// An Error is what went wrong with a file. errors.As finds it, with its word, and errors.Is its Code.
type Error struct {
	Code Code
	Word uint64 // what the Code describes, or 0
}

// Error returns the text of the answer, and its word where it has one.
func (e *Error) Error() string {
	switch e.Code {
	case ErrNewer, ErrDamagedLog, ErrNoWholeCheckpoint:
		return fmt.Sprintf("%v (%d)", e.Code, e.Word)
	}
	return e.Code.Error()
}

// Unwrap returns the Code.
func (e *Error) Unwrap() error { return e.Code }

// refusal returns nothing where a call was made, and otherwise the Error of the file or of its store.
func refusal(code C.uint32_t, word C.uint64_t) error {
	switch {
	case code == C.HLC_OK:
		return nil
	case code >= C.HLC_FILE_IN_USE:
		return &Error{Code: Code(code), Word: uint64(word)}
	default:
		return &hlcstore.Error{Code: hlcstore.Code(code), Word: uint64(word)}
	}
}

func words(text C.file_text) string {
	if int(text.len) > len(text.bytes) {
		return ""
	}
	return C.GoStringN((*C.char)(unsafe.Pointer(&text.bytes)), C.int(text.len))
}
