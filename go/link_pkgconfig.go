//go:build pkgconfig

package rangesync

// The library that is installed on this machine.

// #cgo pkg-config: rangesync
import "C"
