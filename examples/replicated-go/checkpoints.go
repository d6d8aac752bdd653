package main

import (
	"fmt"
	"io"
	"os"
	"path/filepath"
	"strconv"
	"strings"
)

// So many checkpoints are kept: should the newest be damaged, the one before is there, and the log behind it.
const kept = 2

// Checkpoints are files in a folder, each named by the revision of the log up to which its store had applied it.
type checkpoints struct{ folder string }

// Paths returns the files, the newest first.
func (c checkpoints) paths() []string {
	var paths []string
	files, _ := os.ReadDir(c.folder)
	for at := len(files) - 1; at >= 0; at-- {
		if strings.HasSuffix(files[at].Name(), ".checkpoint") {
			paths = append(paths, filepath.Join(c.folder, files[at].Name()))
		}
	}
	return paths
}

// Save writes a checkpoint, which is there whole after a crash or not at all, and then removes the oldest one.
func (c checkpoints) save(revision int64, write func(io.Writer) error) error {
	part := filepath.Join(c.folder, "new")
	os.MkdirAll(c.folder, 0o777)
	file, err := os.Create(part)
	if err == nil {
		err = firstOf(write(file), file.Sync(), file.Close())
	}
	if err != nil {
		os.Remove(part) // the file system is full: what was written would only fill it
		return err
	}
	err = os.Rename(part, filepath.Join(c.folder, fmt.Sprintf("%016x.checkpoint", revision)))
	folder, openErr := os.Open(c.folder)
	if err := firstOf(err, openErr); err != nil {
		return err
	}
	defer folder.Close()
	if err := folder.Sync(); err != nil {
		return err
	}
	for at, path := range c.paths() {
		if at >= kept {
			os.Remove(path)
		}
	}
	return nil
}

// FirstOf returns the first error, or nil. All steps were made.
func firstOf(errs ...error) error {
	for _, err := range errs {
		if err != nil {
			return err
		}
	}
	return nil
}

// Oldest returns the revision behind which the log is still needed, which is 0 until there are enough checkpoints.
func (c checkpoints) oldest() int64 {
	paths := c.paths()
	if len(paths) < kept {
		return 0
	}
	revision, _ := strconv.ParseInt(strings.TrimSuffix(filepath.Base(paths[len(paths)-1]), ".checkpoint"), 16, 64)
	return revision
}
