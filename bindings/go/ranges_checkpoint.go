package hlcstore

import (
	"bytes"
	"errors"
	"io"
)

// Checkpoint returns the whole state of each store, as [Store.Checkpoint] writes it, with the cut as its tag. It takes
// the lock of one store after another, beside readers, and writers go on between: a later store may have later items.
// So what is restored has at least that cut, each of its cuts is one, and a snapshot opens there. Where a machine joins
// meanwhile, or a vacuum goes above the cut, it saves all stores anew.
//
// Refusals: ErrNoNode, where a Join for which there was no memory left stores without the node: Join first;
// ErrBelowHorizon, where vacuums overtook it eight times, or a store was vacuumed above the cut.
func (r *Ranges) Checkpoint() ([][]byte, error) { return r.checkpointBy((*Store).Checkpoint) }

// checkpointBy is Checkpoint, where a function saves each store.
func (r *Ranges) checkpointBy(save func(*Store, io.Writer, uint64) (int64, error)) ([][]byte, error) {
	for tries := 1; ; {
		nodes, err := r.sameNodes()
		if err != nil {
			return nil, err
		}
		cut, err := r.Cut()
		if err != nil {
			return nil, err
		}
		all := make([][]byte, 0, len(r.stores))
		for _, store := range r.stores {
			var saved bytes.Buffer
			if _, err := save(store, &saved, uint64(cut)); err != nil {
				return nil, err
			}
			all = append(all, saved.Bytes())
		}
		if now, err := r.sameNodes(); err != nil {
			return nil, err
		} else if now != nodes {
			continue
		}
		err = r.checkVacuum(cut) // refused where a horizon is above the cut
		if err == nil {
			return all, nil
		}
		if tries == mostTries || !errors.Is(err, ErrBelowHorizon) {
			return nil, err
		}
		tries++
	}
}

// sameNodes returns how many nodes each store has, under the locks of all, so that no machine joins meanwhile.
func (r *Ranges) sameNodes() (uint64, error) {
	for _, store := range r.stores {
		defer store.mu.RUnlock(store.mu.RLock())
	}
	nodes, err := r.stores[0].nodes()
	if err != nil {
		return 0, err
	}
	for _, store := range r.stores[1:] {
		others, err := store.nodes()
		if err != nil {
			return 0, err
		}
		if others != nodes {
			return 0, &Error{Code: ErrNoNode}
		}
	}
	return nodes, nil
}

// RestoreRanges opens the stores of a division from their checkpoints, and closes their snapshots, whose readers are
// gone. [Ranges.Machine] returns the machines.
//
// Refusals: those of RestoreBytes; ErrNotOneCut, where there is not a checkpoint for each store, or they have different
// tags, or different numbers of nodes; ErrWrongStore, where a store has a value at its floor of another store's key.
func RestoreRanges(division Division, checkpoints [][]byte) (*Ranges, error) {
	if len(checkpoints) != division.Stores() {
		return nil, ErrNotOneCut
	}
	r := &Ranges{division: division}
	cut := uint64(0)
	for number, checkpoint := range checkpoints {
		store, tag, err := RestoreBytes(checkpoint)
		if err == nil {
			r.stores = append(r.stores, store)
			err = store.CloseAll()
		}
		if number == 0 {
			cut = tag
		}
		if err == nil && tag != cut {
			err = ErrNotOneCut
		}
		if err == nil {
			err = r.checkRestored(number)
		}
		if err != nil {
			r.Close()
			return nil, err
		}
	}
	return r, nil
}

// checkRestored checks that a store has as many nodes as the first one, and no value of another store's key.
func (r *Ranges) checkRestored(number int) error {
	store := r.stores[number]
	machines, err := r.Nodes()
	if err != nil {
		return err
	}
	nodes, err := store.Nodes()
	if err != nil {
		return err
	}
	if nodes != machines {
		return ErrNotOneCut
	}
	snapshot, err := store.Snapshot()
	if err != nil {
		return err
	}
	defer snapshot.Close()
	keys := snapshot.Keys(nil, nil)
	for keys.Next() {
		if r.division.StoreOf(keys.Key()) != number {
			return ErrWrongStore
		}
	}
	return keys.Close()
}
