// The program of main.c in Go.
package main

import (
	"bytes"
	"errors"
	"fmt"
	"log"
	"os"
	"strconv"

	"hlcstore"
	"hlcstore/file"
)

const (
	steps       = 5
	lastCounter = 3
	longStep    = 10000
)

var longKey = []byte{0, 255}

func writeStep(store *file.File, step, name, old string) error {
	number, err := strconv.Atoi(step)
	if err != nil {
		return err
	}
	var batch file.Batch
	defer batch.Close()
	for _, err := range []error{
		batch.Put([]byte("who"), []byte(name)),
		batch.Put([]byte(name), []byte(step)),
		batch.Delete([]byte(old)),
		batch.Put(longKey, bytes.Repeat([]byte("v"), longStep*number)),
	} {
		if err != nil {
			return err
		}
	}
	_, err = store.Append(0, uint64(10*number), &batch, file.Default)
	return err
}

func printStep(store *file.File, step uint64) error {
	snapshot, err := store.SnapshotAt(hlcstore.MustStamp(10*step, lastCounter))
	if err != nil {
		return err
	}
	defer snapshot.Close()
	fmt.Printf("%v: ", snapshot.Stamp())
	pairs := snapshot.Range([]byte("a"), nil)
	for pairs.Next() {
		fmt.Printf("%s=%s ", pairs.Key(), pairs.Value())
	}
	if err := pairs.Close(); err != nil {
		return err
	}
	value, err := snapshot.Get(longKey)
	fmt.Printf("long=%d\n", len(value))
	return err
}

func printSteps(store *file.File) error {
	for step := uint64(1); step <= steps; step++ {
		if err := printStep(store, step); err != nil {
			return err
		}
	}
	_, err := store.SnapshotAt(hlcstore.MustStamp(10*(steps+1), 0))
	var refused *hlcstore.Error
	if errors.As(err, &refused) {
		fmt.Printf("refused above %v\n", refused.Stamp())
	}
	return nil
}

func run(path string, words []string) error {
	store, err := file.Open(path, nil)
	if err != nil {
		return err
	}
	if len(words) == 3 {
		err = writeStep(store, words[0], words[1], words[2])
	} else {
		err = printSteps(store)
	}
	if closed := store.Close(); err == nil {
		err = closed
	}
	return err
}

func main() {
	if err := run(os.Args[2], os.Args[3:]); err != nil {
		log.Fatal(err)
	}
}
