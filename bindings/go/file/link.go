//go:build !hlcstore_flags

package file

// #cgo pkg-config: hlcstore-file
import "C"
