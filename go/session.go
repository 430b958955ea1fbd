package rangesync

// #include "rangesync.h"
import "C"

import (
	"bytes"
	"errors"
	"fmt"
	"io"
	"sort"
)

// A State is how a session stands.
type State uint32

const (
	// Open is the state of a session that goes on.
	Open State = C.RS_OPEN
	// Ended is the state of a session that told all that it found.
	Ended State = C.RS_ENDED
	// Refused is the state of a session that this side refused.
	Refused State = C.RS_REFUSED
	// PeerRefused is the state of a session that the peer refused.
	PeerRefused State = C.RS_PEER_REFUSED
)

func (s State) String() string {
	switch s {
	case Open:
		return "open"
	case Ended:
		return "ended"
	case Refused:
		return "refused"
	case PeerRefused:
		return "peer refused"
	}
	return fmt.Sprintf("state %d", uint32(s))
}

// Learned is what a session found. Both rise.
type Learned struct {
	// Ours are the items that only this side has.
	Ours [][]byte
	// Theirs are the items that only the other side has.
	Theirs [][]byte
}

// A Session is one side of a session over a version.
type Session struct{ handle[C.rs_session] }

// Push takes bytes of the peer, cut in any way, and says how many it took: all, unless memory ran out on the way. It is
// refused 90 where it took none: push them again later. Bytes after the end of a session, or after a refusal, count no
// more.
func (s *Session) Push(came []byte) (int, error) {
	return s.count(func(raw *C.rs_session, taken *C.size_t) C.uint32_t {
		return C.rs_session_push(raw, address(came), length(came), taken)
	})
}

// Finish says that the peer's bytes end here: a session that is still open is refused 3.
func (s *Session) Finish() error {
	return s.use(func(raw *C.rs_session) C.uint32_t { return C.rs_session_finish(raw) })
}

// Pull moves bytes that are due to the peer to room, all of them or as many as fit, and says how many: none where none
// are due. Send them all, also where the session has ended or is refused. It is refused 90 where it moved none.
func (s *Session) Pull(room []byte) (int, error) {
	return s.count(func(raw *C.rs_session, used *C.size_t) C.uint32_t {
		return C.rs_session_pull(raw, address(room), length(room), used)
	})
}

// State says how the session stands, and the number by which it is refused, or 0.
func (s *Session) State() (state State, number int, err error) {
	var stands, code C.uint32_t
	err = s.use(func(raw *C.rs_session) C.uint32_t { return C.rs_session_state(raw, &stands, &code) })
	return State(stands), int(code), err
}

// Messages says how many messages the session said, and how many it says at most, whatever comes.
func (s *Session) Messages() (sent, bound int, err error) {
	var said, most C.uint32_t
	err = s.use(func(raw *C.rs_session) C.uint32_t { return C.rs_session_messages(raw, &said, &most) })
	return int(said), int(most), err
}

// Learned gives what the session found, once it has ended. It gives the refusal of a session that was refused, and 98
// while it goes on.
func (s *Session) Learned() (*Learned, error) {
	if err := s.refusal(); err != nil {
		return nil, err
	}
	var ours, theirs C.size_t
	err := s.use(func(raw *C.rs_session) C.uint32_t { return C.rs_session_learned(raw, &ours, &theirs) })
	if err != nil {
		return nil, err
	}
	learned := new(Learned)
	if learned.Ours, err = s.items(int(ours), oursAt); err != nil {
		return nil, err
	}
	if learned.Theirs, err = s.items(int(theirs), theirsAt); err != nil {
		return nil, err
	}
	rise(learned.Ours)
	rise(learned.Theirs)
	return learned, nil
}

func oursAt(raw *C.rs_session, place C.size_t, room *C.uint8_t, used *C.size_t) C.uint32_t {
	return C.rs_session_ours(raw, place, room, mostBytes, used)
}

func theirsAt(raw *C.rs_session, place C.size_t, room *C.uint8_t, used *C.size_t) C.uint32_t {
	return C.rs_session_theirs(raw, place, room, mostBytes, used)
}

// Run speaks with the peer over a connection until the session is over, and gives what it found. It waits as long as
// the peer does: a deadline of the connection sets a limit. It does not close the connection. Bytes that the peer sends
// after the end of the session may be lost.
//
// The error is a [RefusedError] where one of the sides refused, 3 where the peer's bytes ended before the session did,
// and otherwise what the connection gave. After an error the session is of no more use: bytes may be lost.
func (s *Session) Run(connection io.ReadWriter) (*Learned, error) {
	room := make([]byte, 65536)
	for {
		broken := s.send(connection, room)
		// A refusal stands, whether the peer can be told of it or not.
		if err := s.refusal(); err != nil {
			return nil, err
		}
		if broken != nil {
			return nil, broken
		}
		if state, _, err := s.State(); err != nil {
			return nil, err
		} else if state == Ended {
			return s.Learned()
		}
		if err := s.hear(connection, room); err != nil {
			return nil, err
		}
	}
}

// send writes all that is due to the peer.
func (s *Session) send(connection io.Writer, room []byte) error {
	for {
		used, err := s.Pull(room)
		if err != nil || used == 0 {
			return err
		}
		if _, err := connection.Write(room[:used]); err != nil {
			return err
		}
	}
}

// hear reads once, and takes what came.
func (s *Session) hear(connection io.Reader, room []byte) error {
	count, err := connection.Read(room)
	for came := room[:count]; len(came) > 0; {
		taken, err := s.Push(came)
		if err != nil {
			return err
		}
		came = came[taken:]
	}
	if count > 0 {
		return nil
	}
	if errors.Is(err, io.EOF) {
		return s.Finish()
	}
	return err
}

// refusal is the error of a session that was refused.
func (s *Session) refusal() error {
	state, number, err := s.State()
	if err == nil && (state == Refused || state == PeerRefused) {
		return &RefusedError{Number: number, ByPeer: state == PeerRefused}
	}
	return err
}

func rise(items [][]byte) {
	sort.Slice(items, func(one, other int) bool { return bytes.Compare(items[one], items[other]) < 0 })
}
