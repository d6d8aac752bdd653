package hlcstore

// #include "calls.h"
import "C"

// The room for the answers of many keys, for each at first, and in all at most, beside what a longer answer takes.
const (
	roomForAnswer  = 64
	roomForAnswers = 1 << 20
)

// GetMany returns the value of each of some keys, nil for one that has none. An empty value is not nil. It calls C once
// for many keys. Values share blocks of memory: one that is kept long keeps its neighbours.
//
// Refusal: ErrNoSnapshot.
func (v *Snapshot) GetMany(keys [][]byte) ([][]byte, error) {
	places, bytes := joinedKeys(keys)
	values := make([][]byte, 0, len(keys))
	size := len(keys) * roomForAnswer
	for {
		if size > roomForAnswers {
			size = roomForAnswers
		}
		out := make([]byte, 0, size)
		part := v.readAll(places[len(values):], bytes, out)
		if part.code != C.HLC_OK && part.code != C.HLC_MORE {
			return nil, refusal(part.code, 0)
		}
		values = takeAnswers(values, out[:part.len], int(part.many))
		if part.code == C.HLC_OK {
			return values, nil
		}
		size = 2*size + roomForOne
	}
}

// readAll reads the keys at some places into the room of out.
func (v *Snapshot) readAll(places []C.hlc_place, bytes, out []byte) C.hlcgo_part {
	var first *C.hlc_place
	if len(places) > 0 {
		first = &places[0]
	}
	bytesAt, bytesLen := pointer(bytes)
	outAt, outLen := room(out)
	store := v.of()
	defer store.mu.RUnlock(store.mu.RLock())
	return C.hlcgo_read_all(&store.raw, v.id, first, C.size_t(len(places)), bytesAt, bytesLen, outAt, outLen)
}

// joinedKeys returns the keys one after another, and the place of each.
func joinedKeys(keys [][]byte) ([]C.hlc_place, []byte) {
	places := make([]C.hlc_place, len(keys))
	var bytes []byte
	for i, key := range keys {
		places[i] = C.hlc_place{at: C.size_t(len(bytes)), len: C.size_t(len(key))}
		bytes = append(bytes, key...)
	}
	return places, bytes
}

// takeAnswers appends this many answers to some values.
func takeAnswers(values [][]byte, rest []byte, many int) [][]byte {
	for ; many > 0; many-- {
		var value []byte
		value, rest = takeAnswer(rest)
		values = append(values, value)
	}
	return values
}
