package hlcstore

import "io"

// StoreAt returns a store of a Ranges, so that tests do to it what else happens only between the calls of goroutines.
func (r *Ranges) StoreAt(number int) *Store { return r.stores[number] }

// SnapshotAtOneOf is Snapshot, where the cuts come from a test.
func (r *Ranges) SnapshotAtOneOf(cuts func() (Stamp, error)) (*RangesSnapshot, error) {
	return r.snapshotAtOneOf(cuts)
}

// CheckpointBy is Checkpoint, where a test saves each store.
func (r *Ranges) CheckpointBy(save func(*Store, io.Writer, uint64) (int64, error)) ([][]byte, error) {
	return r.checkpointBy(save)
}
