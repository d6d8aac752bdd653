package hlcstore

import (
	"errors"
	"sort"
	"unsafe"
)

// The refusals of what divides its keys among several stores, beside those of the stores.
var (
	// ErrBadDivision is the refusal of boundaries that do not ascend, and of other than 1 to 1,024 stores.
	ErrBadDivision = errors.New("hlcstore: the boundaries do not ascend, or there are not 1 to 1,024 stores")
	// ErrWrongStore is the refusal of an item for a store that has other keys, or that there is not.
	ErrWrongStore = errors.New("hlcstore: the key is of another store, or no store has this number")
	// ErrNotOneCut is the refusal of checkpoints that no single call of Ranges.Checkpoint returned.
	ErrNotOneCut = errors.New("hlcstore: the checkpoints are not those of all stores at one cut")
)

const mostStores = 1024

// A Division says which of several stores, numbered from 0, has a key. The zero Division is of one store.
type Division struct {
	boundaries []string // by keys: the first key of each store but the first
	hashed     int      // by hash: how many stores there are; otherwise 0
}

// DivideByKeys divides the keys by their order, as bytes, at these keys: store i has the keys from boundary i on and
// below boundary i+1, counted from 1. So there is one store more than boundaries.
//
// Refusal: ErrBadDivision, where the boundaries do not ascend, or the first one has no bytes.
func DivideByKeys(boundaries ...string) (Division, error) {
	last := ""
	for _, boundary := range boundaries {
		if boundary <= last {
			return Division{}, ErrBadDivision
		}
		last = boundary
	}
	if len(boundaries) >= mostStores {
		return Division{}, ErrBadDivision
	}
	return Division{boundaries: append([]string(nil), boundaries...)}, nil
}

// DivideByHash divides the keys among this many stores, 1 to 1,024, by their hash: the 64-bit FNV-1a of a key's bytes,
// modulo the number of stores.
//
// Refusal: ErrBadDivision.
func DivideByHash(stores int) (Division, error) {
	if stores < 1 || stores > mostStores {
		return Division{}, ErrBadDivision
	}
	return Division{hashed: stores}, nil
}

// Stores returns how many stores there are.
func (d Division) Stores() int {
	if d.hashed > 0 {
		return d.hashed
	}
	return len(d.boundaries) + 1
}

// StoreOf returns the number of the store that has the key.
func (d Division) StoreOf(key []byte) int {
	return d.storeOf(*(*string)(unsafe.Pointer(&key))) // which keeps nothing of it
}

func (d Division) storeOf(key string) int {
	if d.hashed > 0 {
		return int(hash(key) % uint64(d.hashed))
	}
	return sort.Search(len(d.boundaries), func(i int) bool { return key < d.boundaries[i] })
}

// storeOfAll returns the number of the store that has all keys of a batch, or ErrWrongStore. No keys are of the first
// one.
func (d Division) storeOfAll(batch *Batch) (int, error) {
	if batch.Len() == 0 {
		return 0, nil
	}
	return d.storeOfWrites(itemFields{rest: batch.bytes})
}

// storeOfWrites does so with the writes up to the first fault.
func (d Division) storeOfWrites(fields itemFields) (int, error) {
	store, wrong := -1, error(nil)
	fields.batch(func(key, _ []byte, _ Kind) {
		of := d.StoreOf(key)
		if store >= 0 && store != of {
			wrong = ErrWrongStore
		}
		store = of
	})
	return store, wrong
}

// hash returns the 64-bit FNV-1a.
func hash(key string) uint64 {
	sum := uint64(0xcbf29ce484222325)
	for i := 0; i < len(key); i++ {
		sum = (sum ^ uint64(key[i])) * 0x100000001b3
	}
	return sum
}

// between returns the stores that may have keys from `from` on and below `to`, the first of them and the one behind
// the last. By keys, those of one are below those of the next.
func (d Division) between(from, to []byte) (first, end int) {
	if d.hashed > 0 {
		return 0, d.hashed
	}
	if len(to) == 0 {
		return d.StoreOf(from), d.Stores()
	}
	return d.StoreOf(from), d.StoreOf(to) + 1
}
