package hlcstore

// #include "calls.h"
import "C"

// A Pair is a key with a value.
type Pair struct{ Key, Value []byte }

// List returns all keys with a value, in byte order. The pairs share one block of memory.
//
// Refusal: ErrNoSnapshot.
func (v *Snapshot) List() ([]Pair, error) {
	listed := v.list(nil)
	if listed.code != C.HLC_OK {
		return nil, refusal(listed.code, 0)
	}
	out := make([]byte, 0, listed.len)
	if listed = v.list(out); listed.code != C.HLC_OK {
		return nil, refusal(listed.code, 0)
	}
	var all []Pair
	for rest := out[:listed.len]; len(rest) > 0; {
		var pair Pair
		pair.Key, rest = takeBytes(rest)
		pair.Value, rest = takeBytes(rest)
		all = append(all, pair)
	}
	return all, nil
}

// list writes all pairs into the room of out, where they fit.
func (v *Snapshot) list(out []byte) C.hlcgo_part {
	outAt, outLen := room(out)
	store := v.of()
	defer store.mu.RUnlock(store.mu.RLock())
	return C.hlcgo_list(&store.raw, v.id, outAt, outLen)
}
