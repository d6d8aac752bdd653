// Package hlcstore is an in-memory, multi-version key-value store that several writers, the nodes, feed in order. It
// contains the proved C library of hlcstore.h.
//
// A [Node] gives its writes a stamp (hybrid logical timestamp) and a number, and a [Store] accepts these items. A
// [Snapshot] opens at or below the floor (closed timestamp) of the store: everything accepted later has a greater
// stamp, so its answers never change. A vacuum drops what no open snapshot and no later one can read.
//
// # Several keys at once
//
// A [Batch] is up to 256 writes and deletions of different keys, which a node issues as one item at one stamp: a
// snapshot shows all of them or none.
//
// # Several stores
//
// A [Ranges] is several stores that share the keys, by a [Division], and are read at one stamp, a cut. A [Machine]
// writes to all of them, with one clock.
//
// # Concurrency
//
// A store and its snapshots are safe for concurrent use. Calls that only ask run beside each other; a call that changes
// the store, as one that accepts an item, opens or closes a snapshot or vacuums, runs alone. A call that waits to
// change the store comes before reads that begin later. A node, a machine, a batch and an iterator are for one
// goroutine at a time.
//
// # Bytes
//
// Keys have 1 to 255 bytes and values at most 65,535. A nil slice is one without bytes. A call keeps no slice that was
// passed to it, and returns bytes that belong to the caller; only what [Iterator] returns is valid for a while.
//
// # Errors
//
// A refusal of the library is an [Error]. After it the store, or the node, is as it was before the call, unless the
// call describes an exception. A closed store answers every call with [ErrClosed]; so does the zero Store, which is
// closed, and the zero Snapshot. In the same way [ErrNoMemory] may come from every call that takes memory in C. The
// documentation of a call names the other refusals, in the order in which they are looked for.
package hlcstore
