package rangesync

// #include "rangesync.h"
import "C"

import (
	"errors"
	"sync"
	"unsafe"
)

// ErrClosed is what the calls of a value say after its Close.
var ErrClosed = errors.New("rangesync: the value is closed")

// mostBytes is how many bytes an item has at most.
const mostBytes = 64

// A kind is the type of a handle in C; those of all kinds are alike in memory.
type kind interface {
	C.rs_strategy | C.rs_set | C.rs_version | C.rs_session | C.rs_shards
}

// A handle is of the library, which wants one call at a time for it, and to be given it back once.
type handle[K kind] struct {
	mutex sync.Mutex
	raw   K
}

// untyped gives the handle as one of any kind.
func (h *handle[K]) untyped() *C.rs_handle { return (*C.rs_handle)(unsafe.Pointer(&h.raw)) }

// Close frees what the library keeps. A second call does nothing.
func (h *handle[K]) Close() error {
	h.mutex.Lock()
	defer h.mutex.Unlock()
	if h.untyped().at != nil {
		C.rs_free(*h.untyped())
		h.untyped().at = nil
	}
	return nil
}

// use calls the library for this handle.
func (h *handle[K]) use(call func(raw *K) C.uint32_t) error {
	h.mutex.Lock()
	defer h.mutex.Unlock()
	if h.untyped().at == nil {
		return ErrClosed
	}
	return refusedBy(call(&h.raw))
}

// count asks for a number of items.
func (h *handle[K]) count(call func(raw *K, count *C.size_t) C.uint32_t) (int, error) {
	var count C.size_t
	err := h.use(func(raw *K) C.uint32_t { return call(raw, &count) })
	return int(count), err
}

// An itemCall writes the item at a place, which has room, and says its length.
type itemCall[K kind] func(raw *K, place C.size_t, room *C.uint8_t, used *C.size_t) C.uint32_t

// items asks for so many items, one after the other.
func (h *handle[K]) items(count int, call itemCall[K]) ([][]byte, error) {
	room := make([]byte, mostBytes)
	items := make([][]byte, 0, count)
	for place := 0; place < count; place++ {
		var used C.size_t
		err := h.use(func(raw *K) C.uint32_t { return call(raw, C.size_t(place), address(room), &used) })
		if err != nil {
			return nil, err
		}
		items = append(items, append([]byte(nil), room[:used]...))
	}
	return items, nil
}

// noBytes is where the address of no bytes is: the library takes no nil pointer.
var noBytes [1]byte

// address is where the bytes are.
func address(bytes []byte) *C.uint8_t {
	if len(bytes) == 0 {
		return (*C.uint8_t)(unsafe.Pointer(&noBytes[0]))
	}
	return (*C.uint8_t)(unsafe.Pointer(&bytes[0]))
}

func length(bytes []byte) C.size_t { return C.size_t(len(bytes)) }
