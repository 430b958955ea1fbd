package rangesync

// #include "rangesync.h"
import "C"

import (
	"io"
	"runtime"
)

// A Strategy says what a session does with a range, by how many items of this side are in it.
type Strategy struct{ handle[C.rs_strategy] }

// ReadStrategy reads a strategy, a text in TOML, and checks that sessions under it end. It is refused 28 to 38 if not.
func ReadStrategy(text []byte) (*Strategy, error) {
	strategy := new(Strategy)
	if err := refusedBy(C.rs_strategy_read(address(text), length(text), &strategy.raw)); err != nil {
		return nil, err
	}
	runtime.SetFinalizer(strategy, (*Strategy).Close)
	return strategy, nil
}

// A Form is how an item file has its items: one on each line.
type Form uint32

const (
	// Hex is the form whose lines are items in hex.
	Hex Form = C.RS_HEX
	// Text is the form whose lines are items as they stand; but a line that begins with 0x is an item in hex.
	Text Form = C.RS_TEXT
)

// A Set is a set of items of 1 to 64 bytes each, at most as many as its strategy's cap.
type Set struct{ handle[C.rs_set] }

// ReadSet makes a set of the items of an item file. It is refused 81 where a line is no item, 82 where there are more
// different items than the cap, and 98 for another form.
func ReadSet(strategy *Strategy, form Form, lines []byte) (*Set, error) {
	set := new(Set)
	err := strategy.use(func(raw *C.rs_strategy) C.uint32_t {
		return C.rs_set_read(raw, C.uint32_t(form), address(lines), length(lines), &set.raw)
	})
	if err != nil {
		return nil, err
	}
	runtime.SetFinalizer(set, (*Set).Close)
	return set, nil
}

// NewSet makes a set of items, which are inserted one after the other.
func NewSet(strategy *Strategy, items ...[]byte) (*Set, error) {
	set, err := ReadSet(strategy, Hex, nil)
	if err != nil {
		return nil, err
	}
	for _, item := range items {
		if _, err := set.Insert(item); err != nil {
			set.Close()
			return nil, err
		}
	}
	return set, nil
}

// Insert puts an item in, and says whether it is new. Versions that were taken before stay as they are. It is refused
// 71 and 72 where the item has no byte or more than 64, and 40 where it is new and the set is full.
func (s *Set) Insert(item []byte) (bool, error) {
	var isNew C.bool
	err := s.use(func(raw *C.rs_set) C.uint32_t {
		return C.rs_set_insert(raw, address(item), length(item), &isNew)
	})
	return bool(isNew), err
}

// Len says how many items the set has.
func (s *Set) Len() (int, error) {
	return s.count(func(raw *C.rs_set, count *C.size_t) C.uint32_t { return C.rs_set_count(raw, count) })
}

// Version gives the set as it is now.
func (s *Set) Version() (*Version, error) {
	version := new(Version)
	err := s.use(func(raw *C.rs_set) C.uint32_t { return C.rs_set_share(raw, &version.raw) })
	if err != nil {
		return nil, err
	}
	runtime.SetFinalizer(version, (*Version).Close)
	return version, nil
}

// Reconcile is [Version.Reconcile], over the set as it is now.
func (s *Set) Reconcile(connection io.ReadWriter) (*Learned, error) {
	version, err := s.Version()
	if err != nil {
		return nil, err
	}
	defer version.Close()
	return version.Reconcile(connection)
}

// Answer is [Version.Answer], over the set as it is now.
func (s *Set) Answer(connection io.ReadWriter) (*Learned, error) {
	version, err := s.Version()
	if err != nil {
		return nil, err
	}
	defer version.Close()
	return version.Answer(connection)
}

// A Version is a set as it was when the version was taken.
type Version struct{ handle[C.rs_version] }

// Len says how many items the version has.
func (v *Version) Len() (int, error) {
	return v.count(func(raw *C.rs_version, count *C.size_t) C.uint32_t { return C.rs_version_count(raw, count) })
}

// Has says whether the version has an item. It is refused 71 and 72 where this is none.
func (v *Version) Has(item []byte) (bool, error) {
	var found C.bool
	err := v.use(func(raw *C.rs_version) C.uint32_t {
		return C.rs_version_has(raw, address(item), length(item), &found)
	})
	return bool(found), err
}

// Count says how many items the version has from the lower bound on and before the upper one. Items are in the order
// of their bytes. An empty bound is the start, or the end. It is refused 72 where a bound has more than 64 bytes, and
// 73 where the lower one is not below the upper one.
func (v *Version) Count(lower, upper []byte) (int, error) {
	return v.count(func(raw *C.rs_version, count *C.size_t) C.uint32_t {
		return C.rs_version_count_in(raw, address(lower), length(lower), address(upper), length(upper), count)
	})
}

// Items gives these items, rising. It is refused as Count is.
func (v *Version) Items(lower, upper []byte) ([][]byte, error) {
	count, err := v.Count(lower, upper)
	if err != nil {
		return nil, err
	}
	return v.items(count, func(raw *C.rs_version, place C.size_t, room *C.uint8_t, used *C.size_t) C.uint32_t {
		return C.rs_version_item_in(
			raw, address(lower), length(lower), address(upper), length(upper), place, room, mostBytes, used)
	})
}

// Part gives the version that has these items alone; this one stays as it is. It is refused as Count is. A session
// between two parts with the same bounds finds how the items there differ.
func (v *Version) Part(lower, upper []byte) (*Version, error) {
	part := new(Version)
	err := v.use(func(raw *C.rs_version) C.uint32_t {
		return C.rs_version_part(raw, address(lower), length(lower), address(upper), length(upper), &part.raw)
	})
	if err != nil {
		return nil, err
	}
	runtime.SetFinalizer(part, (*Version).Close)
	return part, nil
}

// Initiate opens a session that speaks first, in wire profile 1 or 2. It is refused 98 for another one.
func (v *Version) Initiate(profile int) (*Session, error) { return v.session(C.RS_FIRST, profile) }

// Respond opens a session whose peer speaks first, in wire profile 1 or 2. It is refused 98 for another one.
func (v *Version) Respond(profile int) (*Session, error) { return v.session(C.RS_SECOND, profile) }

func (v *Version) session(role C.uint32_t, profile int) (*Session, error) {
	session := new(Session)
	err := v.use(func(raw *C.rs_version) C.uint32_t {
		if profile != 1 && profile != 2 {
			return 98 // A number of more than 32 bits is not to lose its upper ones.
		}
		return C.rs_session_open(raw, role, C.uint32_t(profile), &session.raw)
	})
	if err != nil {
		return nil, err
	}
	runtime.SetFinalizer(session, (*Session).Close)
	return session, nil
}

// Reconcile runs a session with a peer that answers, as rangesync serve does, in wire profile 1. See [Session.Run].
func (v *Version) Reconcile(connection io.ReadWriter) (*Learned, error) {
	session, err := v.Initiate(1)
	if err != nil {
		return nil, err
	}
	defer session.Close()
	return session.Run(connection)
}

// Answer runs a session with a peer that speaks first, as rangesync sync does, in wire profile 1. See [Session.Run].
func (v *Version) Answer(connection io.ReadWriter) (*Learned, error) {
	session, err := v.Respond(1)
	if err != nil {
		return nil, err
	}
	defer session.Close()
	return session.Run(connection)
}
