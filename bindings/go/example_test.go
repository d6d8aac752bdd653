package hlcstore_test

import (
	"bytes"
	"context"
	"errors"
	"fmt"
	"log"
	"time"

	"hlcstore"
)

// Two nodes feed a store; a snapshot at the floor still returns the first value.
func Example() {
	store, err := hlcstore.Open(2)
	if err != nil {
		log.Fatal(err)
	}
	defer store.Close()
	lyon, rome := hlcstore.NewNode(0, 0), hlcstore.NewNode(1, 0)

	item, err := lyon.Write(10, []byte("river"), []byte("Rhone"))
	if err == nil {
		err = store.Accept(item)
	}
	if err != nil {
		log.Fatal(err)
	}
	report, _ := rome.Report(12)
	if err := store.Accept(report); err != nil {
		log.Fatal(err)
	}
	snapshot, err := store.Snapshot()
	if err != nil {
		log.Fatal(err)
	}
	defer snapshot.Close()
	value, err := snapshot.Get([]byte("river"))
	fmt.Printf("%s at %v, %v\n", value, snapshot.Stamp(), err)
	// Output: Rhone at 10.0, <nil>
}

// The kind of a refusal, and its word.
func ExampleError() {
	store := must(hlcstore.Open(1))
	defer store.Close()
	_, err := store.SnapshotAt(at(5))
	fmt.Println(err)
	fmt.Println(errors.Is(err, hlcstore.ErrAboveFloor))
	var refusal *hlcstore.Error
	if errors.As(err, &refusal) {
		fmt.Println(refusal.Name(), refusal.Stamp())
	}
	// Output:
	// hlcstore: the stamp is above the floor (0.0)
	// true
	// HLC_ABOVE_FLOOR 0.0
}

func ExampleSnapshot_Range() {
	store := must(hlcstore.Open(1))
	defer store.Close()
	var node hlcstore.Node
	for i, city := range []string{"Bern", "Lyon", "Oslo", "Rome"} {
		item := must(node.Write(uint64(i), []byte(city), []byte{'0' + byte(i)}))
		if err := store.Accept(item); err != nil {
			log.Fatal(err)
		}
	}
	snapshot := must(store.Snapshot())
	defer snapshot.Close()
	pairs := snapshot.RangeBack([]byte("L"), []byte("R"))
	defer pairs.Close()
	for pairs.Next() {
		fmt.Printf("%s %s\n", pairs.Key(), pairs.Value())
	}
	fmt.Println(pairs.Err())
	// Output:
	// Oslo 2
	// Lyon 1
	// <nil>
}

// A replica starts from a checkpoint, whose tag is the place in the log from which it goes on.
func ExampleStore_Checkpoint() {
	items := []hlcstore.Item{
		{Number: 0, Stamp: at(5), Key: "city", Value: "Lyon"},
		{Number: 1, Stamp: at(6), Key: "city", Value: "Rome"},
	}
	var shared []byte
	for _, item := range items {
		shared = must(item.AppendTo(shared))
	}
	store := must(hlcstore.Open(1))
	defer store.Close()
	if err := store.Accept(items[0]); err != nil {
		log.Fatal(err)
	}
	var saved bytes.Buffer
	place := len(shared) / 2
	must(store.Checkpoint(&saved, uint64(place)))

	replica, tag, err := hlcstore.Restore(&saved)
	if err != nil {
		log.Fatal(err)
	}
	defer replica.Close()
	applied, err := replica.ApplyRecords(shared[tag:])
	fmt.Println(applied.Records, err, must(replica.Floor()))
	// Output: 1 <nil> 6.0
}

// A vacuum that leaves the lock between its parts, and ends in time.
func ExampleStore_VacuumInParts() {
	store := must(hlcstore.Open(1))
	defer store.Close()
	var node hlcstore.Node
	for reading := uint64(1); reading <= 9; reading++ {
		if err := store.Accept(must(node.Write(reading, []byte{'a' + byte(reading%3)}, nil))); err != nil {
			log.Fatal(err)
		}
	}
	ctx, cancel := context.WithTimeout(context.Background(), time.Minute)
	defer cancel()
	vacuumed, err := store.VacuumInParts(ctx, at(9), 2)
	fmt.Printf("%+v %v\n", vacuumed, err)
	// Output: {Stamp:9.0 Kept:3 Bytes:33 Dropped:6} <nil>
}
