package hlcstore_test

import (
	"errors"
	"testing"

	"hlcstore"
)

// at returns the stamp with a physical part and the counter 0.
func at(physical uint64) hlcstore.Stamp { return hlcstore.MustStamp(physical, 0) }

// must returns what a call returns that is not refused.
func must[T any](result T, err error) T {
	if err != nil {
		panic(err)
	}
	return result
}

func ok(t *testing.T, err error) {
	t.Helper()
	if err != nil {
		t.Fatal(err)
	}
}

func equal[T comparable](t *testing.T, got, want T) {
	t.Helper()
	if got != want {
		t.Fatalf("got %v, want %v", got, want)
	}
}

// refused checks that an error is this refusal, with this word.
func refused(t *testing.T, err error, code hlcstore.Code, word uint64) {
	t.Helper()
	var refusal *hlcstore.Error
	if !errors.As(err, &refusal) || *refusal != (hlcstore.Error{Code: code, Word: word}) {
		t.Fatalf("got %v, want %v with the word %d", err, code, word)
	}
}

// open opens a store that is closed after the test.
func open(t testing.TB, nodes uint16) *hlcstore.Store {
	t.Helper()
	store, err := hlcstore.Open(nodes)
	if err != nil {
		t.Fatal(err)
	}
	t.Cleanup(func() { store.Close() })
	return store
}

// put lets a node write, and the store accept it.
func put(t testing.TB, store *hlcstore.Store, node *hlcstore.Node, reading uint64, key, value string) hlcstore.Item {
	t.Helper()
	item, err := node.Write(reading, []byte(key), []byte(value))
	if err == nil {
		err = store.Accept(item)
	}
	if err != nil {
		t.Fatal(err)
	}
	return item
}

// remove lets a node delete a key, and the store accept it.
func remove(t testing.TB, store *hlcstore.Store, node *hlcstore.Node, reading uint64, key string) {
	t.Helper()
	item, err := node.Delete(reading, []byte(key))
	if err == nil {
		err = store.Accept(item)
	}
	if err != nil {
		t.Fatal(err)
	}
}

// filled returns a store of one node that wrote its number to so many keys, key00000 and on, at the stamps 1.0 and on.
func filled(t testing.TB, keys int) *hlcstore.Store {
	t.Helper()
	store := open(t, 1)
	var node hlcstore.Node
	for i := 0; i < keys; i++ {
		put(t, store, &node, uint64(i+1), keyOf(i), valueOf(i))
	}
	return store
}
