// A session with `rangesync serve`: example-go STRATEGY ITEMS ADDRESS, by the paths of a strategy file and of an item
// file in hex. Prints the items that `sync` prints, in the order learned. It calls the library itself, and no more of
// it than it needs; the package in the folder go has all of it, with Go's types.
package main

/*
#include "rangesync.h"
*/
import "C"

import (
	"encoding/hex"
	"fmt"
	"io"
	"net"
	"os"
	"unsafe"
)

func must(number C.uint32_t, what string) {
	if number != 0 {
		fmt.Fprintf(os.Stderr, "%s: refused %d\n", what, number)
		os.Exit(1)
	}
}

func fine(err error) {
	if err != nil {
		fmt.Fprintln(os.Stderr, err)
		os.Exit(3)
	}
}

// The address of bytes, which is never nil.
func at(bytes []byte) *C.uint8_t { return (*C.uint8_t)(unsafe.Pointer(&append(bytes, 0)[0])) }

func open(strategyPath, itemsPath string) C.rs_session {
	text, err := os.ReadFile(strategyPath)
	fine(err)
	lines, err := os.ReadFile(itemsPath)
	fine(err)
	var strategy C.rs_strategy
	var set C.rs_set
	var version C.rs_version
	var session C.rs_session
	must(C.rs_strategy_read(at(text), C.size_t(len(text)), &strategy), strategyPath)
	must(C.rs_set_read(&strategy, C.RS_HEX, at(lines), C.size_t(len(lines)), &set), itemsPath)
	must(C.rs_set_share(&set, &version), "share")
	must(C.rs_session_open(&version, C.RS_FIRST, 1, &session), "open")
	C.rs_free(C.rs_handle(strategy))
	C.rs_free(C.rs_handle(set))
	C.rs_free(C.rs_handle(version))
	return session
}

func talk(session *C.rs_session, connection net.Conn) (state, code C.uint32_t) {
	room := make([]byte, 65536)
	var used, taken C.size_t
	for {
		for used = 1; used > 0; {
			must(C.rs_session_pull(session, (*C.uint8_t)(unsafe.Pointer(&room[0])), C.size_t(len(room)), &used), "pull")
			_, err := connection.Write(room[:used])
			fine(err)
		}
		must(C.rs_session_state(session, &state, &code), "state")
		if state != C.RS_OPEN {
			return
		}
		count, err := connection.Read(room)
		if err != io.EOF {
			fine(err)
		}
		if count == 0 {
			must(C.rs_session_finish(session), "finish")
		}
		for came := room[:count]; len(came) > 0; came = came[taken:] {
			must(C.rs_session_push(session, at(came), C.size_t(len(came)), &taken), "push")
		}
	}
}

func main() {
	if len(os.Args) != 4 {
		fmt.Fprintln(os.Stderr, "usage: example-go STRATEGY ITEMS ADDRESS")
		os.Exit(2)
	}
	connection, err := net.Dial("tcp", os.Args[3])
	fine(err)
	session := open(os.Args[1], os.Args[2])
	if state, code := talk(&session, connection); state != C.RS_ENDED {
		fmt.Printf("state %d code %d\n", state, code)
		os.Exit(1)
	}
	var ours, theirs, used C.size_t
	must(C.rs_session_learned(&session, &ours, &theirs), "learned")
	room := make([]byte, 64)
	for place := C.size_t(0); place < ours; place++ {
		must(C.rs_session_ours(&session, place, (*C.uint8_t)(unsafe.Pointer(&room[0])), 64, &used), "ours")
		fmt.Println("ours", hex.EncodeToString(room[:used]))
	}
	for place := C.size_t(0); place < theirs; place++ {
		must(C.rs_session_theirs(&session, place, (*C.uint8_t)(unsafe.Pointer(&room[0])), 64, &used), "theirs")
		fmt.Println("theirs", hex.EncodeToString(room[:used]))
	}
	C.rs_free(C.rs_handle(session))
}
