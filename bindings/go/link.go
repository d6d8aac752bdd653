//go:build !hlcstore_flags

package hlcstore

// With the build tag hlcstore_flags, the folders of the header and of the library come from CGO_CFLAGS and CGO_LDFLAGS.

// #cgo pkg-config: hlcstore
import "C"
