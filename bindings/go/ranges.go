package hlcstore

import (
	"context"
	"errors"
)

// A Ranges is several stores that share the keys, each with a lock of its own, and all are read at one stamp. Each
// writer is a [Machine], which has a node of one number in every store.
//
// A stamp at or below the floor of every store is a cut: all items at or below it that were issued, for whatever store,
// were accepted, and so was all that happened before them on any machine. A cut stays one. [Ranges.Cut] returns the
// greatest, the least floor; a store that hears nothing from a machine keeps it back, so let machines report to all
// stores ([Machine.ReportAll]).
//
// It is safe for concurrent use. Close it; the garbage collector closes the stores of one that is forgotten, at some
// time.
type Ranges struct {
	division Division
	stores   []*Store
}

const (
	mostNodes  = 1024 // the node numbers of a store
	keysOfPart = 256  // of a vacuum
	mostTries  = 8    // of a snapshot, and a checkpoint, that vacuums overtake
)

// OpenRanges opens the stores of a division, in which nothing took place, with this many machines, 1 to 64, numbered
// from 0.
//
// Refusal: ErrBadNodeCount, where it is another number.
func OpenRanges(division Division, machines uint16) (*Ranges, error) {
	r := &Ranges{division: division}
	for len(r.stores) < division.Stores() {
		store, err := Open(machines)
		if err != nil {
			r.Close()
			return nil, err
		}
		r.stores = append(r.stores, store)
	}
	return r, nil
}

// Close closes all stores. The result is always nil.
func (r *Ranges) Close() error {
	for _, store := range r.stores {
		store.Close()
	}
	return nil
}

// Division returns which store has a key.
func (r *Ranges) Division() Division { return r.division }

// Stores returns how many stores there are.
func (r *Ranges) Stores() int { return len(r.stores) }

// StoreOf returns the number of the store that has the key.
func (r *Ranges) StoreOf(key []byte) int { return r.division.StoreOf(key) }

// store returns the store of a number.
func (r *Ranges) store(number int) (*Store, error) {
	if number < 0 || number >= len(r.stores) {
		return nil, ErrWrongStore
	}
	return r.stores[number], nil
}

// Accept accepts an item for a store, if it is the next one of its node there.
//
// Refusals: ErrWrongStore, where no store has this number, or another one has the key; those of Store.Accept.
func (r *Ranges) Accept(store int, item Item) error {
	of, err := r.store(store)
	if err != nil {
		return err
	}
	if !r.hasKeys(store, &item) {
		return ErrWrongStore
	}
	return of.Accept(item)
}

// hasKeys returns whether a store has all keys of an item. An item whose Writes no node made is refused by the store.
func (r *Ranges) hasKeys(store int, item *Item) bool {
	switch {
	case item.Kind <= Delete:
		return r.division.storeOf(item.Key) == store
	case item.Kind == WriteBatch && item.Writes != "":
		of, err := r.division.storeOfWrites(itemFields{rest: []byte(item.Writes)})
		return err == nil && (of == store || of < 0)
	}
	return true
}

// Write lets a machine write at this reading, accepts the item, and returns its stamp. After a refusal the machine is
// as it was, too.
//
// Refusals: ErrWrongStore, where the machine is of a division with another number of stores; those of Machine.Write;
// those of Accept.
func (r *Ranges) Write(m *Machine, reading uint64, key, value []byte) (Stamp, error) {
	return r.put(m, r.StoreOf(key), func(node *Node) (Item, error) { return node.Write(reading, key, value) })
}

// Delete does with a deletion what Write does with a write.
//
// Refusals: those of Write.
func (r *Ranges) Delete(m *Machine, reading uint64, key []byte) (Stamp, error) {
	return r.put(m, r.StoreOf(key), func(node *Node) (Item, error) { return node.Delete(reading, key) })
}

// WriteBatch does with a batch, whose keys are of one store, what Write does with a write.
//
// Refusals: ErrWrongStore, where the keys are of several stores; those of Write; those of Machine.WriteBatch.
func (r *Ranges) WriteBatch(m *Machine, reading uint64, batch *Batch) (Stamp, error) {
	store, err := r.division.storeOfAll(batch)
	if err != nil {
		return 0, err
	}
	return r.put(m, store, func(node *Node) (Item, error) { return node.WriteBatch(reading, batch) })
}

// ReportAll lets a machine report to one store after another at this reading, and accepts the reports. It ends at the
// first that is refused: those before it are accepted, and the machine is as they left it.
//
// Refusals: those of Write; ErrRetired.
func (r *Ranges) ReportAll(m *Machine, reading uint64) error {
	return r.putAll(m, func(node *Node) (Item, error) { return node.Report(reading) })
}

// RetireAll does with the machine's last items what ReportAll does with reports.
//
// Refusals: those of ReportAll.
func (r *Ranges) RetireAll(m *Machine, reading uint64) error {
	return r.putAll(m, func(node *Node) (Item, error) { return node.Retire(reading) })
}

// put lets a machine issue an item for a store, which accepts it.
func (r *Ranges) put(m *Machine, store int, issue func(*Node) (Item, error)) (Stamp, error) {
	if len(m.nodes) != len(r.stores) {
		return 0, ErrWrongStore
	}
	before := m.nodes[store]
	item, err := issue(m.acting(store))
	if err == nil {
		err = r.Accept(store, item)
	}
	if err != nil {
		m.nodes[store] = before // nothing knows of the item
		return 0, err
	}
	m.last = item.Stamp
	return item.Stamp, nil
}

// putAll does what put does, for each store in which the machine's node has not retired.
func (r *Ranges) putAll(m *Machine, issue func(*Node) (Item, error)) error {
	if m.isRetired() {
		return &Error{Code: ErrRetired}
	}
	for store := range m.nodes {
		if m.nodes[store].Retired() {
			continue
		}
		if _, err := r.put(m, store, issue); err != nil {
			return err
		}
	}
	return nil
}

// Floor returns the floor of a store.
//
// Refusal: ErrWrongStore.
func (r *Ranges) Floor(store int) (Stamp, error) {
	of, err := r.store(store)
	if err != nil {
		return 0, err
	}
	return of.Floor()
}

// Link returns what a store accepted from the node of a machine.
//
// Refusals: ErrWrongStore; ErrNoNode.
func (r *Ranges) Link(store int, machine uint16) (Link, error) {
	of, err := r.store(store)
	if err != nil {
		return Link{}, err
	}
	return of.Link(machine)
}

// Cut returns the least floor of all stores, which is a cut. It takes the lock of one store after another; a cut that
// is returned stays one.
func (r *Ranges) Cut() (Stamp, error) {
	cut := MaxStamp
	for _, store := range r.stores {
		floor, err := store.Floor()
		if err != nil {
			return 0, err
		}
		if floor < cut {
			cut = floor
		}
	}
	return cut, nil
}

// Nodes returns how many node numbers are assigned, those of retired machines too.
func (r *Ranges) Nodes() (uint64, error) { return r.stores[0].Nodes() }

// Rows returns how many rows all stores have.
func (r *Ranges) Rows() (uint64, error) {
	sum := uint64(0)
	for _, store := range r.stores {
		rows, err := store.Rows()
		if err != nil {
			return 0, err
		}
		sum += rows
	}
	return sum, nil
}

// VacuumTo drops in each store all rows at or below a stamp, or the cut where that is less, except the fewest that give
// the same answers, as [Store.VacuumTo] does. It returns the sums of all stores. It holds the lock of one store at a
// time, for 256 keys.
//
// Refusal: ErrBelowHorizon, where a store was vacuumed to a greater stamp. Before the first part nothing is changed.
func (r *Ranges) VacuumTo(stamp Stamp) (Vacuumed, error) {
	return r.VacuumInParts(context.Background(), stamp, keysOfPart)
}

// VacuumInParts does what VacuumTo does, by parts of this many keys, as [Store.VacuumInParts]: so it may be cancelled,
// and returns then what it did so far. A later call with this stamp, or a greater one, goes through all keys again.
//
// Refusals: those of VacuumTo; the context's error.
func (r *Ranges) VacuumInParts(ctx context.Context, stamp Stamp, keys int) (Vacuumed, error) {
	cut, err := r.Cut()
	if err != nil {
		return Vacuumed{}, err
	}
	if stamp > cut {
		stamp = cut
	}
	if err := r.checkVacuum(stamp); err != nil {
		return Vacuumed{}, err
	}
	all := Vacuumed{Stamp: stamp}
	for _, store := range r.stores {
		done, err := store.VacuumInParts(ctx, stamp, keys)
		all.Kept += done.Kept
		all.Bytes += done.Bytes
		all.Dropped += done.Dropped
		if err != nil {
			return all, err
		}
	}
	return all, nil
}

// checkVacuum returns why a store would refuse a vacuum to a stamp.
func (r *Ranges) checkVacuum(stamp Stamp) error {
	for _, store := range r.stores {
		if err := store.CheckVacuum(stamp); err != nil {
			return err
		}
	}
	return nil
}

// Join lets a machine join, and returns it: its node has one number in all stores, and its clock starts at the greatest
// floor. For that time it holds the locks of all stores. Where it is refused, no store has the node; only after
// ErrNoMemory the first stores may have it. Then they keep the cut back, and the next Join goes on with that node.
//
// Refusal: ErrTooManyNodes.
func (r *Ranges) Join() (*Machine, error) {
	for _, store := range r.stores {
		store.mu.Lock()
		defer store.mu.Unlock()
	}
	id, start, err := r.nextMachine()
	if err != nil {
		return nil, err
	}
	m := &Machine{division: r.division, last: start}
	for _, store := range r.stores {
		node, err := store.joinOnce(id, start)
		if err != nil {
			return nil, err
		}
		m.nodes = append(m.nodes, *node)
	}
	return m, nil
}

// nextMachine returns the least number that a store has not assigned, and the greatest floor. The caller holds all
// locks.
func (r *Ranges) nextMachine() (id uint16, start Stamp, err error) {
	least := uint64(mostNodes)
	for _, store := range r.stores {
		floor, err := store.floor()
		if err != nil {
			return 0, 0, err
		}
		nodes, err := store.nodes()
		if err != nil {
			return 0, 0, err
		}
		if nodes < least {
			least = nodes
		}
		if floor > start {
			start = floor
		}
	}
	if least == mostNodes {
		return 0, 0, &Error{Code: ErrTooManyNodes}
	}
	return uint16(least), start, nil
}

// Machine returns a machine as it was before a restart, of what the stores accepted from its nodes: they go on
// with the numbers behind that. Its clock is at the greatest stamp of these items and of `last`, which is to be at or
// above the stamp of each of its events: of those that no store has, as a message or an item that was lost, too.
//
// Refusals: ErrNoNode; ErrRetired, where it retired in all stores.
func (r *Ranges) Machine(id uint16, last Stamp) (*Machine, error) {
	m := &Machine{division: r.division, last: last}
	for _, store := range r.stores {
		link, err := store.Link(id)
		if err != nil {
			return nil, err
		}
		node, err := RestoreNode(id, link.Head, link.Next)
		if err != nil {
			return nil, err
		}
		node.retire(link.Retired)
		m.nodes = append(m.nodes, *node)
		if link.Head > m.last {
			m.last = link.Head
		}
	}
	if m.isRetired() {
		return nil, &Error{Code: ErrRetired}
	}
	return m, nil
}

// Snapshot opens a snapshot of all stores at the cut. Where a vacuum to a greater cut comes first, it begins anew, a
// few times.
//
// Refusals: ErrTooManySnapshots, ErrNumbersSpent, of any store; ErrBelowHorizon, where vacuums came first each time.
// Then no store has it open.
func (r *Ranges) Snapshot() (*RangesSnapshot, error) { return r.snapshotAtOneOf(r.Cut) }

// snapshotAtOneOf opens a snapshot at a cut, or where a vacuum comes first, at a later one.
func (r *Ranges) snapshotAtOneOf(cuts func() (Stamp, error)) (*RangesSnapshot, error) {
	for tries := 1; ; tries++ {
		cut, err := cuts()
		if err != nil {
			return nil, err
		}
		opened, err := r.openAll(cut)
		if tries == mostTries || !errors.Is(err, ErrBelowHorizon) {
			return opened, err
		}
	}
}

// SnapshotAt opens a snapshot of all stores at a stamp, from the horizon of each to the cut.
//
// Refusals: ErrAboveFloor, with the cut as its word; ErrBelowHorizon, ErrTooManySnapshots, ErrNumbersSpent, of any
// store. Then no store has it open.
func (r *Ranges) SnapshotAt(stamp Stamp) (*RangesSnapshot, error) {
	cut, err := r.Cut()
	if err != nil {
		return nil, err
	}
	if stamp > cut {
		return nil, &Error{Code: ErrAboveFloor, Word: uint64(cut)}
	}
	return r.openAll(stamp)
}

// openAll opens a snapshot at a cut in all stores, or in none.
func (r *Ranges) openAll(cut Stamp) (*RangesSnapshot, error) {
	v := &RangesSnapshot{division: r.division, stamp: cut}
	for _, store := range r.stores {
		part, err := store.SnapshotAt(cut)
		if err != nil {
			v.Close()
			return nil, err
		}
		v.parts = append(v.parts, part)
	}
	return v, nil
}
