"""A session, how it stands, and what it found."""

from __future__ import annotations

import ctypes
import enum
from collections.abc import Iterator
from dataclasses import dataclass
from typing import TYPE_CHECKING

from ._library import Data, _bytes, _call, _Held
from ._refused import Refused

if TYPE_CHECKING:
    from ._sets import Version


class State(enum.Enum):
    """How a session stands."""

    OPEN = 0
    ENDED = 1
    REFUSED = 2
    PEER_REFUSED = 3


@dataclass(frozen=True)
class Learned:
    """What a session found: the items that only this side has, and those that only the other side has; both rise."""

    ours: list[bytes]
    theirs: list[bytes]


class Session(_Held):
    """A session, as `initiate` and `respond` make it. Raises `Refused` 98 where there is no such role or profile."""

    def __init__(self, version: Version, role: int, profile: int) -> None:
        if role not in (0, 1) or profile not in (1, 2):
            raise Refused(98)
        super().__init__(version._make("rs_session_open", role, profile))

    def push(self, data: Data) -> int:
        """Takes bytes of the peer, cut in any way; how many it took: all, unless memory ran out on the way.

        What comes after the end of the session, or after a refusal, counts no more. Raises `Refused` 90 where it took
        none; push them again later.
        """
        came, taken = _bytes(data), ctypes.c_size_t()
        self._ask("rs_session_push", came, len(came), ctypes.byref(taken))
        return taken.value

    def finish(self) -> None:
        """The peer's bytes end here: a session that has not ended is refused 3."""
        self._ask("rs_session_finish")

    def pull(self, most: int = 65_536) -> bytes:
        """Bytes that are due to the peer, `most` at most: none where none are due. They are to be sent in any state."""
        if most < 1:
            raise ValueError("most is to be 1 or more")
        room, used = ctypes.create_string_buffer(most), ctypes.c_size_t()
        self._ask("rs_session_pull", room, most, ctypes.byref(used))
        return ctypes.string_at(room, used.value)

    def pulls(self, most: int = 65_536) -> Iterator[bytes]:
        """All bytes that are due, in pieces of at most so many."""
        while piece := self.pull(most):
            yield piece

    def _pair(self, name: str) -> tuple[int, int]:
        one, other = ctypes.c_uint32(), ctypes.c_uint32()
        self._ask(name, ctypes.byref(one), ctypes.byref(other))
        return one.value, other.value

    def _standing(self) -> tuple[State, int]:
        state, number = self._pair("rs_session_state")
        return State(state), number

    @property
    def state(self) -> State:
        """How it stands."""
        return self._standing()[0]

    @property
    def refusal(self) -> int | None:
        """The number by which one of the sides refused, if one did; `state` says which."""
        state, number = self._standing()
        return number if state in (State.REFUSED, State.PEER_REFUSED) else None

    @property
    def sent(self) -> int:
        """How many messages it said, which is never more than `bound`."""
        return self._pair("rs_session_messages")[0]

    @property
    def bound(self) -> int:
        """How many messages it says at most, whatever comes."""
        return self._pair("rs_session_messages")[1]

    def _counts(self) -> tuple[int, int]:
        """How many items of each kind were learned."""
        state, number = self._standing()
        if state in (State.REFUSED, State.PEER_REFUSED):
            raise Refused(number, state is State.PEER_REFUSED)
        ours, theirs = ctypes.c_size_t(), ctypes.c_size_t()
        self._ask("rs_session_learned", ctypes.byref(ours), ctypes.byref(theirs))
        return ours.value, theirs.value

    def _items(self, name: str, count: int) -> list[bytes]:
        """So many items, in the order learned."""
        handle, room, used = ctypes.byref(self._handle), ctypes.create_string_buffer(64), ctypes.c_size_t()
        items = []
        with self._in_use():
            for place in range(count):
                _call(name, handle, place, room, 64, ctypes.byref(used))
                items.append(ctypes.string_at(room, used.value))
        return items

    def ours(self) -> Iterator[bytes]:
        """The items that only this side has, rising. Raises as `learned` does."""
        return iter(sorted(self._items("rs_session_ours", self._counts()[0])))

    def theirs(self) -> Iterator[bytes]:
        """The items that only the other side has, rising. Raises as `learned` does."""
        return iter(sorted(self._items("rs_session_theirs", self._counts()[1])))

    def learned(self) -> Learned:
        """What it found, once it has ended. Raises `Refused` with the session's refusal, and 98 while it goes on."""
        ours, theirs = self._counts()
        return Learned(sorted(self._items("rs_session_ours", ours)), sorted(self._items("rs_session_theirs", theirs)))

    def _differing(self, bits: int) -> bytes:
        """What it says of each shard, by its number, once it has ended over two directories. Raises `Refused` 57."""
        room = ctypes.create_string_buffer(1 << bits)
        self._ask("rs_session_differing", bits, room, 1 << bits)
        return room.raw
