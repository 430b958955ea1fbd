package rangesync

// #include "rangesync.h"
import "C"

import (
	"bytes"
	"errors"
	"io"
	"runtime"
)

const (
	// directory is the number that stands for the directory.
	directory = C.RS_DIRECTORY
	// mostSelector is how many bytes a selector has at most.
	mostSelector = 202
)

// Shards are a set of any size: 1<<bits sets, of which each has at most as many items as the strategy's cap. An item is
// in the shard that the first bits of its SHA-256 digest number.
type Shards struct {
	handle[C.rs_shards]
	bits int
}

// ReadShards makes a set in shards, bits from 0 to 12, of the items of an item file, at once. The other side needs the
// same bits and the same name, of at most 64 bytes: it is refused 98 for more, and 82 where there are more shards than
// the cap. The file is refused 81 where a line is no item, 82 where a shard has more different items than the cap, and
// 98 for another form.
func ReadShards(strategy *Strategy, name []byte, bits int, form Form, lines []byte) (*Shards, error) {
	shards := &Shards{bits: bits}
	err := strategy.use(func(raw *C.rs_strategy) C.uint32_t {
		if bits < 0 || bits > 12 {
			return 98 // A number of more than 32 bits is not to lose its upper ones.
		}
		return C.rs_shards_read(raw, address(name), length(name), C.uint32_t(bits), C.uint32_t(form), address(lines),
			length(lines), &shards.raw)
	})
	if err != nil {
		return nil, err
	}
	runtime.SetFinalizer(shards, (*Shards).Close)
	return shards, nil
}

// NewShards makes a set in shards of these items, which are inserted one after the other. It is refused as by
// ReadShards, and its items as by Insert.
func NewShards(strategy *Strategy, name []byte, bits int, items ...[]byte) (*Shards, error) {
	shards, err := ReadShards(strategy, name, bits, Hex, nil)
	if err != nil {
		return nil, err
	}
	for _, item := range items {
		if _, err := shards.Insert(item); err != nil {
			shards.Close()
			return nil, err
		}
	}
	return shards, nil
}

// Insert puts an item in, and says whether it is new. It is refused 71 and 72 where the item has no byte or more than
// 64, and 40 where it is new and its shard is full.
func (s *Shards) Insert(item []byte) (bool, error) {
	var isNew C.bool
	err := s.use(func(raw *C.rs_shards) C.uint32_t {
		return C.rs_shards_insert(raw, address(item), length(item), &isNew)
	})
	return bool(isNew), err
}

// Len says how many items all shards have.
func (s *Shards) Len() (int, error) {
	return s.count(func(raw *C.rs_shards, count *C.size_t) C.uint32_t { return C.rs_shards_count(raw, count) })
}

// Version gives a shard as it is now, by its number. It is refused 98 where there is none.
func (s *Shards) Version(number int) (*Version, error) {
	if number < 0 || number >= 1<<s.bits {
		return nil, &RefusedError{Number: 98}
	}
	return s.version(C.uint32_t(number))
}

func (s *Shards) version(number C.uint32_t) (*Version, error) {
	version := new(Version)
	err := s.use(func(raw *C.rs_shards) C.uint32_t {
		return C.rs_shards_share(raw, number, address(nil), 0, address(nil), 0, &version.raw)
	})
	if err != nil {
		return nil, err
	}
	runtime.SetFinalizer(version, (*Version).Close)
	return version, nil
}

// selector gives the bytes that ask a peer for a shard, or for the directory.
func (s *Shards) selector(number C.uint32_t) ([]byte, error) {
	room := make([]byte, mostSelector)
	used, err := s.count(func(raw *C.rs_shards, used *C.size_t) C.uint32_t {
		return C.rs_shards_selector(raw, number, address(nil), 0, address(nil), 0, address(room), length(room), used)
	})
	return room[:used], err
}

// A Connect opens a connection to the other side, which is closed after one session.
type Connect func() (io.ReadWriteCloser, error)

// Reconcile finds how this set and that of the other side, as rangesync serve --shards, differ. This side speaks first:
// once for the directory, and once for each shard that differs, which is then as it is at that time. Nothing is put in.
//
// It is refused 57 where the peer's directory is none, 56 where the peer lacks a shard, and else as [Session.Run] is.
// If the session of a shard fails, it gives what was found before that, which holds, beside the error.
func (s *Shards) Reconcile(connect Connect) (*Learned, error) {
	if s.bits == 0 {
		return s.ask(0, connect, nil)
	}
	told := make([]byte, 1<<s.bits)
	if _, err := s.ask(directory, connect, told); err != nil {
		return nil, err
	}
	if bytes.IndexByte(told, C.RS_LACKED) >= 0 {
		return nil, &RefusedError{Number: 56}
	}
	found := new(Learned)
	defer func() {
		rise(found.Ours)
		rise(found.Theirs)
	}()
	for number, said := range told {
		if said != C.RS_DIFFERS {
			continue
		}
		learned, err := s.ask(C.uint32_t(number), connect, nil)
		if err != nil {
			return found, err
		}
		found.Ours = append(found.Ours, learned.Ours...)
		found.Theirs = append(found.Theirs, learned.Theirs...)
	}
	return found, nil
}

// ask runs a session over a shard, or over the directory, which tells of each shard whether it differs.
func (s *Shards) ask(number C.uint32_t, connect Connect, told []byte) (*Learned, error) {
	version, err := s.version(number)
	if err != nil {
		return nil, err
	}
	defer version.Close()
	selector, err := s.selector(number)
	if err != nil {
		return nil, err
	}
	session, err := version.Initiate(1)
	if err != nil {
		return nil, err
	}
	defer session.Close()
	connection, err := connect()
	if err != nil {
		return nil, err
	}
	defer connection.Close()
	learned, err := session.Run(&selecting{connection, selector})
	if err != nil || told == nil {
		return learned, err
	}
	return learned, session.use(func(raw *C.rs_session) C.uint32_t {
		return C.rs_session_differing(raw, C.uint32_t(s.bits), address(told), length(told))
	})
}

// A selecting connection sends a selector first, in one piece with what follows it.
type selecting struct {
	io.ReadWriter
	selector []byte
}

func (c *selecting) Write(sent []byte) (int, error) {
	front := c.selector
	c.selector = nil
	count, err := c.ReadWriter.Write(append(front, sent...))
	if count -= len(front); count < 0 {
		count = 0
	}
	return count, err
}

// Answer runs the session of one connection, whose peer speaks first, as rangesync sync --shards does: for a shard as
// it is now, or the directory, or a part of these. It gives what was found in a shard; of the directory, which has no
// item, nothing. Nothing is put in. Goroutines may answer at the same time, each its own connection.
//
// It is refused 1 where the peer does not say which set it asks for, 55 where that is another one, and else as
// [Session.Run] is.
func (s *Shards) Answer(connection io.ReadWriter) (*Learned, error) {
	var came []byte
	room := make([]byte, 65536)
	for ended := false; ; {
		version, number, used, profile, err := s.asked(came, ended)
		if err == nil {
			defer version.Close()
			session, err := version.Respond(profile)
			if err != nil {
				return nil, err
			}
			defer session.Close()
			rest := io.MultiReader(bytes.NewReader(came[used:]), connection)
			learned, err := session.Run(after{rest, connection})
			if err == nil && number == directory {
				learned = new(Learned)
			}
			return learned, err
		}
		var refused *RefusedError
		if !errors.As(err, &refused) || refused.Number != 98 {
			if refused != nil && refused.Number < 90 {
				// The refusal stands, whether the peer can be told of it or not.
				fault := []byte{'R', 'R', 'S', '0' + byte(profile), 0, 0, 0, 2, 5, byte(refused.Number)}
				_, _ = connection.Write(fault)
			}
			return nil, err
		}
		count, err := connection.Read(room)
		came = append(came, room[:count]...)
		ended = errors.Is(err, io.EOF)
		if err != nil && !ended {
			return nil, err
		}
	}
}

// A connection of which some bytes were read before.
type after struct {
	io.Reader
	io.Writer
}

// asked gives what these first bytes of a peer ask for. It is refused 98 where more are to come.
func (s *Shards) asked(came []byte, ended bool) (version *Version, number, used, profile int, err error) {
	version = new(Version)
	var which, wire C.uint32_t
	var size C.size_t
	err = s.use(func(raw *C.rs_shards) C.uint32_t {
		return C.rs_shards_asked(raw, address(came), length(came), C.bool(ended), &which, &size, &wire, &version.raw)
	})
	if err == nil {
		runtime.SetFinalizer(version, (*Version).Close)
	}
	return version, int(which), int(size), int(wire), err
}
