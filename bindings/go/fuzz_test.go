package hlcstore_test

import (
	"bytes"
	"errors"
	"testing"

	"hlcstore"
)

// Arbitrary moves are played beside the model.
func FuzzCallsBesideAModel(f *testing.F) {
	for seed := int64(1); seed <= 8; seed++ {
		f.Add(moves(seed, 200))
	}
	f.Fuzz(func(t *testing.T, moves []byte) {
		if len(moves) > 400 {
			moves = moves[:400]
		}
		play(t, moves)
	})
}

// Arbitrary bytes are applied as far as they are records; the rest is refused, also again.
func FuzzApplyRecords(f *testing.F) {
	var log []byte
	for _, item := range mixed(8) {
		log = must(item.AppendTo(log))
	}
	f.Add(hlcstore.AppendThreshold(hlcstore.AppendJoin(log, 1, at(9000)), at(3)))
	f.Add(log[:20])
	f.Add([]byte{})
	batch := batchOf("a", "x", "b", "", "key", "value")
	f.Add(must(must(hlcstore.NewNode(0, 0).WriteBatch(5, batch)).Encode()))
	f.Fuzz(func(t *testing.T, log []byte) {
		store := must(hlcstore.Open(1))
		defer store.Close()
		applied, err := store.ApplyRecords(log)
		if (err == nil) != (applied.Bytes == len(log)) || applied.Bytes > len(log) {
			t.Fatal(applied, err)
		}
		again, err := store.ApplyRecords(log[:applied.Bytes])
		if err != nil || again.Records != applied.Records || again.Threshold != applied.Threshold {
			t.Fatal(again, applied, err)
		}
	})
}

// Arbitrary bytes are refused, or are an item that has just these bytes, and whose writes can be listed.
func FuzzDecodeItem(f *testing.F) {
	for _, item := range mixed(8) {
		f.Add(must(item.Encode()))
	}
	f.Fuzz(func(t *testing.T, log []byte) {
		item, rest, err := hlcstore.DecodeItem(log)
		if err != nil {
			return
		}
		encoded, err := item.Encode()
		if errors.Is(err, hlcstore.ErrKeyTwice) {
			return
		}
		batch, other := item.Batch()
		if err != nil || other != nil || string(encoded) != string(log[:len(log)-len(rest)]) {
			t.Fatal(item, err, other)
		}
		if item.Kind == hlcstore.WriteBatch && (len(batch.Writes()) != batch.Len() || batch.Len() == 0) {
			t.Fatal(item, batch)
		}
	})
}

// Arbitrary bytes are refused, or are a checkpoint, whose store saves the same bytes.
func FuzzRestore(f *testing.F) {
	store := filled(f, 3)
	f.Add(checkpointOf(f, store, 5))
	f.Add(checkpointOf(f, open(f, 2), 0))
	f.Add([]byte{})
	f.Fuzz(func(t *testing.T, saved []byte) {
		store, tag, err := hlcstore.RestoreBytes(saved)
		inPieces, sameTag, sameErr := hlcstore.Restore(bytes.NewReader(saved))
		if err != nil {
			var refusal, same *hlcstore.Error
			if !errors.As(err, &refusal) || !errors.As(sameErr, &same) || *refusal != *same {
				t.Fatal(err, sameErr)
			}
			return
		}
		defer store.Close()
		defer inPieces.Close()
		if sameErr != nil || sameTag != tag || !bytes.Equal(checkpointOf(t, store, tag), saved) {
			t.Fatal(sameErr, sameTag, tag)
		}
	})
}

func FuzzCheckCertificate(f *testing.F) {
	store, _ := rewritten(f, 2)
	stamp := must(store.Vacuum()).Stamp
	var certificate bytes.Buffer
	must(store.Certificate(&certificate, stamp))
	f.Add(certificate.Bytes())
	f.Add([]byte("point 1.0\n"))
	f.Fuzz(func(t *testing.T, text []byte) {
		checked, err := hlcstore.CheckCertificate(text)
		if err != nil && checked != (hlcstore.Certified{}) {
			t.Fatal(checked, err)
		}
	})
}

// A text is no stamp, or is the text of its stamp.
func FuzzParseStamp(f *testing.F) {
	for _, text := range []string{"0.0", "5.65535", "281474976710655.65535", "05.0", "x"} {
		f.Add(text)
	}
	f.Fuzz(func(t *testing.T, text string) {
		if stamp, err := hlcstore.ParseStamp(text); err == nil && stamp.String() != text {
			t.Fatal(stamp, text)
		}
	})
}
