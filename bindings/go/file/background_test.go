package file_test

import (
	"fmt"
	"os"
	"runtime"
	"strings"
	"testing"
	"time"

	"hlcstore/file"
)

// until waits until something is so, which the garbage collector may bring about.
func until(t *testing.T, isSo func() bool) {
	t.Helper()
	for late := time.Now().Add(time.Minute); !isSo(); runtime.GC() {
		if time.Now().After(late) {
			t.Fatal("it did not come about in a minute")
		}
		time.Sleep(time.Millisecond)
	}
}

// 1,024 snapshots are all that may be open, and a file that is open is not opened again.
func TestForgottenSnapshotsAndFilesAreClosed(t *testing.T) {
	path := fresh(t)
	func() {
		f := must(file.Open(path, nil))
		for i := 0; i < 1024; i++ {
			must(f.Snapshot())
		}
		until(t, func() bool { return second(f.Snapshot()) == nil })
	}()
	until(t, func() bool {
		f, err := file.Open(path, nil)
		return err == nil && f.Close() == nil
	})
}

// All of them have 200 MiB.
func TestForgottenBatchesAreFreed(t *testing.T) {
	if testing.Short() {
		t.Skip("left out: it takes seconds")
	}
	value := make([]byte, 65535)
	for i := 0; i < 200; i++ {
		var batch file.Batch
		for j := 0; j < 16; j++ {
			ok(t, batch.Put([]byte("key"), value))
		}
		if i%10 == 0 {
			runtime.GC()
		}
	}
	until(t, func() bool {
		statm, err := os.ReadFile("/proc/self/statm")
		if err != nil {
			t.Skip("left out: no /proc")
		}
		var size, pages int
		fmt.Sscan(string(statm), &size, &pages)
		return pages*os.Getpagesize() < 150<<20
	})
}

func TestGroupWaitsForMore(t *testing.T) {
	f := open(t, fresh(t), &file.Options{Promise: file.Group, GroupMicros: 50_000})
	began := time.Now()
	put(t, f, 1, "lake", "Como")
	equal(t, time.Since(began) >= 50*time.Millisecond, true)
}

func TestCheckpointInTheBackground(t *testing.T) {
	f := open(t, fresh(t), &file.Options{CheckpointBytes: 4096})
	put(t, f, 1, "lake", strings.Repeat("v", 5000))
	until(t, func() bool { return must(f.Status()).CheckpointPlace > 0 })
}
