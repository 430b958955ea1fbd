//go:build !pkgconfig

package rangesync

// The header and the static library of this repository, where c/build puts it. What CGO_CFLAGS and CGO_LDFLAGS name is
// looked at first.

// #cgo CFLAGS: -I${SRCDIR}/../c
// #cgo LDFLAGS: -L${SRCDIR}/../c/out -l:librangesync.a
import "C"
