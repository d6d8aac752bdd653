// Command ranges divides the keys among four stores, to which two machines write, and reads all of them at one cut.
package main

import (
	"errors"
	"fmt"
	"log"

	"hlcstore"
)

func check(err error) {
	if err != nil {
		log.Fatal(err)
	}
}

func must[T any](result T, err error) T {
	check(err)
	return result
}

// show prints all pairs at a stamp, in key order.
func show(ranges *hlcstore.Ranges, stamp hlcstore.Stamp) {
	snapshot := must(ranges.SnapshotAt(stamp))
	defer snapshot.Close()
	pairs := snapshot.Range(nil, nil)
	defer pairs.Close()
	for pairs.Next() {
		fmt.Printf("%s=%s\n", pairs.Key(), pairs.Value())
	}
	check(pairs.Err())
}

func main() {
	division := must(hlcstore.DivideByKeys("g", "n", "t"))
	ranges := must(hlcstore.OpenRanges(division, 2))
	defer ranges.Close()
	first, other := hlcstore.NewMachine(division, 0), hlcstore.NewMachine(division, 1)
	write := func(machine *hlcstore.Machine, reading uint64, key, value string) hlcstore.Stamp {
		return must(ranges.Write(machine, reading, []byte(key), []byte(value)))
	}

	// A message orders what its sender wrote before it, and what its receiver writes after it, in whatever stores.
	write(first, 10, "apple", "red")
	message := must(first.Send(11))
	must(other.Receive(message, 12))
	pear := write(other, 13, "pear", "green")
	write(other, 13, "plum", "blue")
	write(other, 13, "quince", "yellow")
	write(other, 13, "zucchini", "green")
	must(ranges.Delete(first, 14, []byte("apple")))

	// Each machine reports to all stores, so that their floors rise.
	check(ranges.ReportAll(first, 20))
	check(ranges.ReportAll(other, 20))
	cut := must(ranges.Cut())
	fmt.Println("cut", cut)
	show(ranges, pear)
	show(ranges, cut)

	must(ranges.VacuumTo(cut))
	fmt.Println("rows", must(ranges.Rows()))

	// An item goes to the store of its key alone.
	issued := must(first.Write(30, []byte("apple"), []byte("green")))
	if err := ranges.Accept(issued.Store+1, issued.Item); errors.Is(err, hlcstore.ErrWrongStore) {
		fmt.Println("refused")
	}
}
