package hlcstore

// A RangesSnapshot reads all stores of a [Ranges] as they were at a cut: of each key the newest write of all that were
// issued at or below it. Its answers never change. It is safe for concurrent use.
//
// It has a snapshot open in each store, so Close it. One that nothing refers to any more is closed by the garbage
// collector, at some time.
type RangesSnapshot struct {
	division Division
	stamp    Stamp
	parts    []*Snapshot // of each store
}

// Stamp returns the stamp at which the snapshot was opened, which is a cut.
func (v *RangesSnapshot) Stamp() Stamp { return v.stamp }

// Close closes the snapshot in each store; then its calls are refused with ErrNoSnapshot. A closed one stays closed.
// The result is nil in all these cases, as of [Snapshot.Close].
func (v *RangesSnapshot) Close() error {
	var first error
	for _, part := range v.parts {
		if err := part.Close(); first == nil {
			first = err
		}
	}
	return first
}

// of returns the snapshot of a key's store.
func (v *RangesSnapshot) of(key []byte) *Snapshot {
	if len(v.parts) == 0 {
		return &Snapshot{}
	}
	return v.parts[v.division.StoreOf(key)]
}

// Get returns the value of a key, in a slice of its own.
//
// Refusals: ErrNoSnapshot; ErrNoValue, where the key has none.
func (v *RangesSnapshot) Get(key []byte) ([]byte, error) { return v.of(key).Get(key) }

// GetTo appends the value of a key to dst, as [Snapshot.GetTo] does.
//
// Refusals: those of Get.
func (v *RangesSnapshot) GetTo(dst, key []byte) ([]byte, error) { return v.of(key).GetTo(dst, key) }

// Has returns whether a key has a value.
//
// Refusal: ErrNoSnapshot.
func (v *RangesSnapshot) Has(key []byte) (bool, error) { return v.of(key).Has(key) }

// Count returns how many keys from `from` on and below `to`, or from `from` on if `to` has no bytes, have a value.
//
// Refusal: ErrNoSnapshot.
func (v *RangesSnapshot) Count(from, to []byte) (uint64, error) {
	sum := uint64(0)
	for _, part := range v.between(from, to) {
		count, err := part.Count(from, to)
		if err != nil {
			return 0, err
		}
		sum += count
	}
	return sum, nil
}

// between returns the snapshots of the stores that may have keys of a range.
func (v *RangesSnapshot) between(from, to []byte) []*Snapshot {
	first, end := v.division.between(from, to)
	if first >= end || len(v.parts) == 0 {
		return nil
	}
	return v.parts[first:end]
}

// A RangesIterator goes through a range of a [RangesSnapshot], as an [Iterator] does through one of a [Snapshot]: its
// calls are the same. By keys it reads one store after another; by hash it merges all of them, with a piece of each, at
// least 4 KiB, in memory.
type RangesIterator struct {
	// The iterators that stand at an entry, as a heap whose least key is the first. The entry is that of the first one.
	heads []*Iterator
	later []*Iterator // those that did not begin
	byKey bool        // whether the keys of each later one are above those of all before it
	err   error
}

// Range returns an iterator over the keys with a value from `from` on and below `to`, or from `from` on if `to` has no
// bytes, in byte order over all stores.
//
// Refusal, by Err: ErrNoSnapshot.
func (v *RangesSnapshot) Range(from, to []byte) *RangesIterator {
	i := &RangesIterator{byKey: v.division.hashed == 0}
	parts := v.between(from, to)
	for _, part := range parts {
		pairs := part.Range(from, to)
		if !i.byKey {
			pairs.beside = len(parts) - 1
		}
		i.later = append(i.later, pairs)
	}
	return i
}

// Next goes on to the next entry, and returns whether there is one. After the last one, and after an error, there is
// none.
func (i *RangesIterator) Next() bool {
	if len(i.heads) > 0 {
		i.goOn()
	}
	for len(i.later) > 0 && (len(i.heads) == 0 || !i.byKey) {
		i.begin(i.later[0])
		i.later = i.later[1:]
	}
	if i.err != nil {
		i.Close()
	}
	return len(i.heads) > 0
}

// Key returns the key of the entry. Its bytes are the iterator's: they are valid until the next call of Next or Close,
// and must not be changed. Without an entry it is nil.
func (i *RangesIterator) Key() []byte {
	if len(i.heads) == 0 {
		return nil
	}
	return i.heads[0].Key()
}

// Value returns the value of the entry, likewise.
func (i *RangesIterator) Value() []byte {
	if len(i.heads) == 0 {
		return nil
	}
	return i.heads[0].Value()
}

// Err returns why the iteration ended early, or nil.
func (i *RangesIterator) Err() error { return i.err }

// Close ends the iteration, frees its memory, and returns what Err returns.
func (i *RangesIterator) Close() error {
	*i = RangesIterator{err: i.err}
	return i.err
}

// begin lets an iterator stand at its first entry, if it has one.
func (i *RangesIterator) begin(head *Iterator) {
	if !head.Next() {
		i.end(head)
		return
	}
	i.heads = append(i.heads, head)
	for at := len(i.heads) - 1; at > 0 && i.isBelow(at, (at-1)/2); at = (at - 1) / 2 {
		i.swap(at, (at-1)/2)
	}
}

// goOn lets the first iterator stand at its next entry, or takes it out.
func (i *RangesIterator) goOn() {
	if head := i.heads[0]; !head.Next() {
		i.end(head)
		last := len(i.heads) - 1
		i.heads[0] = i.heads[last]
		i.heads = i.heads[:last]
	}
	for at := 0; ; {
		least := at
		for child := 2*at + 1; child <= 2*at+2 && child < len(i.heads); child++ {
			if i.isBelow(child, least) {
				least = child
			}
		}
		if least == at {
			return
		}
		i.swap(at, least)
		at = least
	}
}

// end takes over why an iterator ended.
func (i *RangesIterator) end(head *Iterator) {
	if err := head.Close(); i.err == nil {
		i.err = err
	}
}

func (i *RangesIterator) isBelow(one, other int) bool {
	return string(i.heads[one].Key()) < string(i.heads[other].Key())
}

func (i *RangesIterator) swap(one, other int) {
	i.heads[one], i.heads[other] = i.heads[other], i.heads[one]
}
