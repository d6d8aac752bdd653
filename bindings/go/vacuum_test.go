package hlcstore_test

import (
	"bytes"
	"context"
	"errors"
	"fmt"
	"strings"
	"testing"

	"hlcstore"
)

// rewritten returns a store in which so many keys were each written three times, at the stamps 1.0 and on. A snapshot
// is open after the first writes.
func rewritten(t testing.TB, keys int) (*hlcstore.Store, *hlcstore.Snapshot) {
	t.Helper()
	store := open(t, 1)
	var node hlcstore.Node
	var snapshot *hlcstore.Snapshot
	for round := 0; round < 3; round++ {
		for i := 0; i < keys; i++ {
			put(t, store, &node, uint64(round*keys+i+1), keyOf(i), fmt.Sprint(round))
		}
		if round == 0 {
			snapshot = must(store.Snapshot())
		}
	}
	return store, snapshot
}

func TestVacuumKeepsWhatSnapshotsRead(t *testing.T) {
	store, snapshot := rewritten(t, 10)
	// A row costs its key of 8 bytes, its value of one, and 10.
	equal(t, must(store.Vacuum()), hlcstore.Vacuumed{Stamp: at(30), Kept: 20, Bytes: 20 * 19, Dropped: 10})
	equal(t, string(must(snapshot.Get([]byte(keyOf(3))))), "0")
	ok(t, snapshot.Close())
	equal(t, must(store.Vacuum()), hlcstore.Vacuumed{Stamp: at(30), Kept: 10, Bytes: 190, Dropped: 10})
	equal(t, must(store.Rows()), 10)
	equal(t, must(store.Horizon()), at(30))
}

func TestVacuumToKeepsWhatIsAbove(t *testing.T) {
	store, snapshot := rewritten(t, 10)
	ok(t, snapshot.Close())
	ok(t, store.CheckVacuum(at(20)))
	equal(t, must(store.VacuumTo(at(20))), hlcstore.Vacuumed{Stamp: at(20), Kept: 10, Bytes: 190, Dropped: 10})
	equal(t, must(store.Rows()), 20)
	for _, refusal := range []error{store.CheckVacuum(at(31)), second(store.VacuumTo(at(31)))} {
		refused(t, refusal, hlcstore.ErrAboveFloor, uint64(at(30)))
	}
	for _, refusal := range []error{store.CheckVacuum(at(19)), second(store.VacuumTo(at(19)))} {
		refused(t, refusal, hlcstore.ErrBelowHorizon, uint64(at(20)))
	}
}

func second[T any](_ T, err error) error { return err }

func TestPartsAreAVacuum(t *testing.T) {
	for _, keys := range []int{-1, 0, 1, 3, 10, 100} {
		whole, _ := rewritten(t, 10)
		parts, _ := rewritten(t, 10)
		want := must(whole.VacuumTo(at(25)))
		equal(t, must(parts.VacuumInParts(context.Background(), at(25), keys)), want)
		equal(t, must(parts.Sizes()), must(whole.Sizes()))
		equal(t, must(parts.Horizon()), at(25))
	}
}

func TestPartNamesItsLastKey(t *testing.T) {
	store, _ := rewritten(t, 10)
	part := must(store.VacuumPart(at(30), nil, 4))
	equal(t, part.Vacuumed, hlcstore.Vacuumed{Stamp: at(30), Kept: 8, Bytes: 8 * 19, Dropped: 4})
	equal(t, string(part.Last), keyOf(3))
	equal(t, part.More, true)
	part = must(store.VacuumPart(at(30), part.Last, 100))
	equal(t, part.More, false)
	equal(t, part.Kept, 12)
	if part.Last != nil {
		t.Error(part.Last)
	}
	for _, after := range []string{"", "k", strings.Repeat("k", 400)} {
		part = must(store.VacuumPart(at(30), []byte(after), 0))
		equal(t, part.Kept+part.Dropped, 0)
		if part.More {
			equal(t, string(part.Last), after)
		}
	}
}

// A context that is done after it was asked so many times.
type asked struct {
	context.Context
	left int
}

func (a *asked) Err() error {
	if a.left == 0 {
		return context.Canceled
	}
	a.left--
	return nil
}

func TestVacuumEndsBetweenParts(t *testing.T) {
	store, _ := rewritten(t, 10)
	cancelled, cancel := context.WithCancel(context.Background())
	cancel()
	done, err := store.VacuumInParts(cancelled, at(30), 2)
	if !errors.Is(err, context.Canceled) {
		t.Error(err)
	}
	equal(t, done, hlcstore.Vacuumed{Stamp: at(30)})
	equal(t, must(store.Horizon()), 0)
	done, err = store.VacuumInParts(&asked{context.Background(), 3}, at(30), 2)
	if !errors.Is(err, context.Canceled) {
		t.Error(err)
	}
	equal(t, done, hlcstore.Vacuumed{Stamp: at(30), Kept: 12, Bytes: 12 * 19, Dropped: 6})
	equal(t, must(store.Rows()), 24)
	equal(t, must(store.Horizon()), at(30))
	equal(t, must(store.VacuumInParts(context.Background(), at(30), 2)).Dropped, 4)
	_, err = store.VacuumInParts(context.Background(), at(29), 2)
	refused(t, err, hlcstore.ErrBelowHorizon, uint64(at(30)))
}

func TestCertificateShowsTheFewestRows(t *testing.T) {
	store, _ := rewritten(t, 1)
	var text bytes.Buffer
	_, err := store.Certificate(&text, at(3))
	refused(t, err, hlcstore.ErrNotFewest, 0)
	equal(t, text.Len(), 0)
	must(store.Vacuum())
	certified, err := store.Certificate(&text, at(3))
	ok(t, err)
	equal(t, certified, hlcstore.Certified{Rows: 2, Bytes: 38})
	equal(t, text.String(), "point 1.0\npoint 3.0\n"+
		"row key00000 1.0 0 value 0\nrow key00000 3.0 0 value 2\n"+
		"witness key00000 none 1.0\nwitness key00000 1.0 3.0\n")
	equal(t, must(hlcstore.CheckCertificate(text.Bytes())), certified)
	_, err = hlcstore.CheckCertificate([]byte("point 1.0\nnone"))
	refused(t, err, hlcstore.ErrBadLine, 2)
	lines := bytes.SplitAfter(text.Bytes(), []byte("\n"))
	_, err = hlcstore.CheckCertificate(bytes.Join(lines[:5], nil))
	if !errors.Is(err, hlcstore.ErrNotShown) {
		t.Error(err)
	}
	_, err = store.Certificate(&text, at(4))
	refused(t, err, hlcstore.ErrAboveFloor, uint64(at(3)))
	_, err = store.Certificate(&text, at(2))
	refused(t, err, hlcstore.ErrBelowHorizon, uint64(at(3)))
}
