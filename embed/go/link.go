//go:build !qtree_flags

package qtree

// The library that `make install` installed. With the tag qtree_flags, CGO_CFLAGS and CGO_LDFLAGS name it instead.

// #cgo pkg-config: qtree
import "C"
