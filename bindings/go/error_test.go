package hlcstore_test

import (
	"errors"
	"fmt"
	"testing"

	"hlcstore"
)

func TestErrorIsFoundByItsCodeAndHasAWord(t *testing.T) {
	store := filled(t, 5)
	_, err := store.SnapshotAt(at(9))
	err = fmt.Errorf("of a test: %w", err)
	if !errors.Is(err, hlcstore.ErrAboveFloor) || errors.Is(err, hlcstore.ErrBelowHorizon) {
		t.Error(err)
	}
	var refusal *hlcstore.Error
	if !errors.As(err, &refusal) || refusal.Stamp() != at(5) || refusal.Code != hlcstore.ErrAboveFloor {
		t.Error(err)
	}
	equal(t, refusal.Name(), "HLC_ABOVE_FLOOR")
	equal(t, refusal.Text(), "the stamp is above the floor")
	equal(t, err.Error(), "of a test: hlcstore: the stamp is above the floor (5.0)")
	var code hlcstore.Code
	if !errors.As(err, &code) || code != hlcstore.ErrAboveFloor {
		t.Error(code)
	}
}

func TestErrorsAsText(t *testing.T) {
	texts := map[hlcstore.Error]string{
		{Code: hlcstore.ErrAboveFloor}:                 "hlcstore: the stamp is above the floor (0.0)",
		{Code: hlcstore.ErrNotNext}:                    "hlcstore: the number is not the next one of the node (0)",
		{Code: hlcstore.ErrNotNext, Word: 7}:           "hlcstore: the number is not the next one of the node (7)",
		{Code: hlcstore.ErrClosed}:                     "hlcstore: the store is closed",
		{Code: hlcstore.ErrNoIncrement}:                "hlcstore: " + hlcstore.ErrNoIncrement.Text(),
		{Code: hlcstore.ErrBadBytes, Word: 3}:          "hlcstore: " + hlcstore.ErrBadBytes.Text() + " (3)",
		{Code: hlcstore.ErrNotParts, Word: 4}:          "hlcstore: the checkpoints are no two parts of one store (4)",
		{Code: hlcstore.Code(4_000_000_000)}:           "hlcstore: unknown refusal 4000000000",
		{Code: hlcstore.ErrCounterFull, Word: 5 << 16}: "hlcstore: " + hlcstore.ErrCounterFull.Text() + " (5.0)",
	}
	for err, text := range texts {
		equal(t, (&err).Error(), text)
	}
	equal(t, hlcstore.Code(4).Name(), "")
}
