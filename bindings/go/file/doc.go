// Package file is a store of package hlcstore in one file: a batch is on disk, all of it, before the store accepts it.
// It calls libhlcstore-file, which keeps a log and checkpoints by SQLite.
//
// A [File] and its snapshots are safe for concurrent use. Reads do not wait for the disk. A [Batch] is for one
// goroutine at a time. Stamps count milliseconds since 1970, as [hlcstore.Reading] does.
//
// # Errors
//
// A refusal of the store is an [hlcstore.Error], and what goes wrong with the file is an [Error]. After each of them
// nothing of the call is visible or on disk, except where the Code says otherwise. A closed file answers every call
// with [hlcstore.ErrClosed], and so does the zero File.
//
// Each call that writes may return [ErrFull], [ErrIO], [ErrCorrupt], [ErrUnknown], [ErrSealed], [ErrLater], and
// [hlcstore.ErrNoMemory]; its documentation has the others. ErrLater says that the call did take place.
package file
