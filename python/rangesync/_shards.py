"""A set of any size, as shards with a session for each that differs."""

from __future__ import annotations

import contextlib
import ctypes
import hashlib
from collections.abc import Callable, Iterable, Iterator
from concurrent.futures import ThreadPoolExecutor
from dataclasses import dataclass
from typing import Union

from ._library import Data, _bytes, _call, _Handle, _Held
from ._refused import Refused
from ._running import Connection, _hear, run
from ._sessions import Learned, Session
from ._sets import Set, Strategy, Version, _line

Connect = Callable[[], contextlib.AbstractContextManager[Connection]]
Came = Union[Learned, Exception]
Bounds = tuple[bytes, bytes]

_ALL: Bounds = b"", b""
_DIRECTORY = 0xFFFF
_MOST_BITS, _MOST_NAME, _MOST_SELECTOR = 12, 64, 202
_ENTRY, _MOST_COUNT = 38, 65_536
_DIFFERS, _LACKED = 1, 2
_PIECE = 65_536


def shard_of(item: Data, bits: int) -> int:
    """The number of an item's shard in a set of 2 ** bits shards: the first bits of its SHA-256 digest.

    `bits` is 0 to 12; it does not look at that.

    >>> shard_of(b"a", 2), shard_of(b"a", 12)
    (3, 3241)
    """
    return int.from_bytes(hashlib.sha256(_bytes(item)).digest()[:2], "big") >> 16 - bits


@dataclass(frozen=True)
class Reconciled(Learned):
    """What the sessions over the shards found together: as `Learned`, each item once, and how many shards differ."""

    differ: int


@dataclass(frozen=True)
class Answered:
    """What a connection asked for, the number of a shard or None for the directory, and what its session found.

    Of the directory's session, which speaks of no item, nothing is found.
    """

    shard: int | None
    learned: Learned


class Incomplete(Exception):
    """Some of the shards that differ were not reconciled: `faults` has what stopped each, by their numbers.

    `found` is what was found in the others, which holds; its `differ` counts all that differ. Where `connect` raised,
    the shards after that one were not asked, and have the same fault.

        >>> try:
        ...     found = here.reconcile(connect)
        ... except Incomplete as fault:
        ...     found, again = fault.found, sorted(fault.faults)
    """

    __module__ = "rangesync"

    def __init__(self, found: Reconciled, faults: dict[int, Exception]) -> None:
        super().__init__(found, faults)
        self.found = found
        self.faults = faults

    def __str__(self) -> str:
        number = min(self.faults)
        first = f"shard {number}: {self.faults[number]}"
        return f"{len(self.faults)} of {self.found.differ} shards that differ are not reconciled; {first}"


class _Asking:
    """One call of `reconcile`: what it speaks of, and the fault by which no connection could be made."""

    def __init__(self, shards: Shards, bounds: Bounds, connect: Connect, profile: int) -> None:
        self.bits, self.connect, self.profile = shards.bits, connect, profile
        self.versions = shards._versions(bounds)
        self.selectors = {number: shards._selector(number, bounds) for number in self.versions}
        self.gone: Exception | None = None

    @contextlib.contextmanager
    def session(self, number: int) -> Iterator[tuple[Session, Learned]]:
        """A session over a shard, or over the directory, that ended, on a connection of its own."""
        with self.versions[number].initiate(self.profile) as session:
            with contextlib.ExitStack() as held:
                try:
                    connection = held.enter_context(self.connect())
                except Exception as fault:
                    self.gone = fault
                    raise
                # In one piece: what follows a selector that goes alone may wait for the other system to confirm that.
                connection.sendall(self.selectors[number] + session.pull())
                learned = run(session, connection)
            yield session, learned

    def differing(self) -> list[int]:
        """The shards that are kept here and of which the peer has another entry, rising. Raises `Refused` 57, 56."""
        with self.session(_DIRECTORY) as (session, learned):
            try:
                told = session._differing(self.bits)
            except Refused as fault:
                raise fault from _no_entry(self.bits, learned.theirs)
        kept = sorted(self.versions.keys() - {_DIRECTORY})
        for number in kept:
            if told[number] == _LACKED:
                raise Refused(56, shard=number)
        return [number for number in kept if told[number] == _DIFFERS]

    def shard(self, number: int) -> Came:
        """What a shard's session finds, or what stopped it."""
        if self.gone is not None:
            return self.gone
        try:
            with self.session(number) as (_session, learned):
                return learned
        except Exception as fault:  # noqa: BLE001
            return fault

    def shards(self, numbers: list[int], at_once: int) -> list[Came]:
        """What comes of these shards, in their order."""
        if at_once == 1:
            return list(map(self.shard, numbers))
        with ThreadPoolExecutor(at_once) as threads:
            return list(threads.map(self.shard, numbers))


def _no_entry(bits: int, items: Iterable[bytes]) -> ValueError | None:
    """Why the first of these items that is no entry of a directory is none."""
    numbers: set[int] = set()
    for item in items:
        number, count = int.from_bytes(item[:2], "big"), int.from_bytes(item[2:6], "big")
        flaws = {
            f"it has {len(item)} bytes, not {_ENTRY}": len(item) != _ENTRY,
            f"it is of shard {number}, and there are {1 << bits}": number >= 1 << bits,
            f"its shard has {count} items, above {_MOST_COUNT}": count > _MOST_COUNT,
            f"shard {number} has another one": number in numbers,
        }
        for flaw in filter(flaws.get, flaws):
            return ValueError(f"{item.hex()} is no entry: {flaw}")
        numbers.add(number)
    return None


def _merged(parts: Iterable[list[bytes]]) -> list[bytes]:
    """The items of all parts, rising, each once."""
    return sorted({item for part in parts for item in part})


def _found(numbers: list[int], came: list[Came]) -> Reconciled:
    """What all sessions found together. Raises `Incomplete` where one of them was stopped."""
    parts = [each for each in came if isinstance(each, Learned)]
    found = Reconciled(_merged(each.ours for each in parts), _merged(each.theirs for each in parts), len(numbers))
    faults = {number: each for number, each in zip(numbers, came) if isinstance(each, Exception)}
    if faults:
        raise Incomplete(found, faults) from faults[min(faults)]
    return found


class Shards(_Held):
    """A set of any size: 2 ** bits sets, its shards, of which each has at most as many items as the strategy's cap.

    An item is in the shard that the first bits of its SHA-256 digest number (`shard_of`), so the shards are about even.
    `bits` is 0 to 12, and `name` at most 64 bytes. The other side needs the same bits, and the same name: that is how
    it is told a set that is not meant. docs/PROTOCOL.md has what is spoken, under *Shards*.

        >>> here = Shards(strategy, 8, items, b"orders")
        >>> found = here.reconcile(lambda: socket.create_connection(("192.0.2.1", 7700), 60))
        >>> found.ours, found.theirs, found.differ
        ([b'one'], [b'three'], 2)

    With `only` it keeps the shards of these numbers alone, as one of several machines does, and takes no item of
    another one. The strategy is of use until the shards are closed.

    Raises `Refused` 71, 72, and 82 for the first shard that has more items than the cap, with its number in `shard`;
    without one where the cap is below the number of shards. Raises `ValueError` for bits, a name or a number out of
    range.
    """

    def __init__(
        self,
        strategy: Strategy,
        bits: int,
        items: Iterable[Data] = (),
        name: Data = b"",
        only: Iterable[int] | None = None,
    ) -> None:
        self._bits, self._name, self._strategy = bits, _bytes(name), strategy
        if not 0 <= bits <= _MOST_BITS:
            raise ValueError(f"bits is to be 0 to {_MOST_BITS}")
        if len(self._name) > _MOST_NAME:
            raise ValueError(f"a name is to have at most {_MOST_NAME} bytes")
        self._kept = set(range(1 << bits) if only is None else only)
        if not self._kept or not self._kept <= set(range(1 << bits)):
            raise ValueError(f"one shard or more is to be kept, of 0 to {(1 << bits) - 1}")
        self._is_whole = len(self._kept) == 1 << bits
        lines = b"".join(map(_line, items))
        named = self._name, len(self._name)
        try:
            super().__init__(strategy._make("rs_shards_read", *named, bits, 0, lines, len(lines)))
        except Refused as fault:
            raise (self._refusal_of(lines) if lines and fault.number == 82 else fault) from None
        if self._has_others():
            raise self._refusal_of(lines)

    def _has_others(self) -> bool:
        """Whether it has an item of a shard that is not kept here."""
        if self._is_whole:
            return False
        with self._version(_DIRECTORY) as entries:
            return any(any(entry[2:6]) and int.from_bytes(entry[:2], "big") not in self._kept for entry in entries)

    def _refusal_of(self, lines: bytes) -> Refused:
        """The refusal of these lines, which names the first shard that has more items than the cap.

        Raises `ValueError` for the first item whose shard is not kept here.
        """
        full = set()
        with Shards(self._strategy, self._bits, only=self._kept) as dealt:
            for line in lines.decode().split():
                try:
                    dealt.insert(bytes.fromhex(line))
                except Refused as fault:
                    if fault.shard is None:
                        raise
                    full.add(fault.shard)
        return Refused(82, shard=min(full))

    def _number_of(self, item: Data) -> int:
        """The shard of an item, which is to be kept here."""
        number = shard_of(item, self._bits)
        if number not in self._kept:
            raise ValueError(f"shard {number} is not kept here")
        return number

    @property
    def bits(self) -> int:
        """There are 2 to the power of this many shards."""
        return self._bits

    @property
    def name(self) -> bytes:
        """The name that the other side needs too, all of its bytes."""
        return self._name

    def insert(self, item: Data) -> bool:
        """Puts an item in, and says whether it is new.

        Raises `Refused` 40 where it is new and its shard is full, with the number in `shard`, 71, 72, and `ValueError`
        where its shard is not kept here.
        """
        if not self._is_whole:
            self._number_of(item)
        try:
            return self._says("rs_shards_insert", item)
        except Refused as fault:
            raise (Refused(40, shard=shard_of(item, self._bits)) if fault.number == 40 else fault) from None

    def update(self, items: Iterable[Data]) -> int:
        """Puts the items in, one after the other, and says how many of them are new. It makes no list of them.

        Raises as `insert`, and what the iterable raises. The items before that one are then in, and none after it.
        """
        return sum(map(self.insert, items))

    def __len__(self) -> int:
        """How many items all shards have."""
        return self._count("rs_shards_count")

    def __contains__(self, item: Data) -> bool:
        """Whether it has the item. Raises `Refused` 71, 72 where this is none, if its shard is kept here."""
        number = shard_of(item, self._bits)
        if number not in self._kept:
            return False
        with self._version(number) as version:
            return item in version

    def __iter__(self) -> Iterator[bytes]:
        """Its items, shard by shard, and rising in each. It may grow meanwhile."""
        for number in sorted(self._kept):
            with self._version(number) as version:
                yield from version

    def _shared(self, number: int, bounds: Bounds) -> Version:
        """A shard or the directory as it is now, of the items between two bounds. No other thread may use it."""
        made, (start, end) = _Handle(), bounds
        where = number, start, len(start), end, len(end)
        _call("rs_shards_share", ctypes.byref(self._handle), *where, ctypes.byref(made))
        return Version._over(made)

    def _version(self, number: int) -> Version:
        """A shard as it is now."""
        with self._in_use():
            return self._shared(number, _ALL)

    def _versions(self, bounds: Bounds) -> dict[int, Version]:
        """All that is kept as it is at one time, with the directory, of the items between two bounds.

        Raises `Refused` 72, 73.
        """
        numbers = sorted(self._kept) + ([_DIRECTORY] if self._bits else [])
        with self._in_use():
            versions = {number: self._shared(number, bounds) for number in numbers}
        return {number: self._of_kept(number, version) for number, version in versions.items()}

    def _of_kept(self, number: int, version: Version) -> Version:
        """The same version; of the directory the entries of the shards that are kept here."""
        if number != _DIRECTORY or self._is_whole:
            return version
        entries = [entry for entry in version if int.from_bytes(entry[:2], "big") in self._kept]
        with version, Set(self._strategy, entries) as directory:
            return directory.version()

    def _selector(self, number: int, bounds: Bounds) -> bytes:
        """The selector of a shard's session, or of the directory's."""
        room, used = ctypes.create_string_buffer(_MOST_SELECTOR), ctypes.c_size_t()
        where = number, bounds[0], len(bounds[0]), bounds[1], len(bounds[1])
        self._ask("rs_shards_selector", *where, room, _MOST_SELECTOR, ctypes.byref(used))
        return room.raw[: used.value]

    def reconcile(
        self, connect: Connect, profile: int = 1, at_once: int = 1, start: Data = b"", end: Data = b""
    ) -> Reconciled:
        """Finds how this set, as it is now, and that of the other side differ. This side speaks first.

        `connect` opens a connection to the other side, as `socket.create_connection` does: a context manager, whose end
        closes it. It is called once for the directory, and once for each shard that differs; with bits 0, which has no
        directory, once in all. So many sessions as `at_once` says run at the same time, and `connect` is then called in
        other threads. Nothing is put in: `update(found.theirs)` does that.

        With `start` or `end` it finds how the items from `start` on and before `end` differ, and nothing else.

        Raises `Incomplete` where shards that differ were not reconciled, with what was found in the others. Before
        that, of the session over the directory, raises as `run`, and what `connect` raises: nothing is known then.
        Raises `Refused` 55 by the peer where it has another name or other bits, 57 where its directory is none, 56 for
        the first shard that is kept here and not there, with its number in `shard`, 98 where there is no such profile,
        72 where a bound has more than 64 bytes, and 73 where `start` is not below `end`.
        """
        if at_once < 1:
            raise ValueError("at_once is to be 1 or more")
        bounds = _bytes(start), _bytes(end)
        asking = _Asking(self, bounds, connect, profile)
        if self.bits:
            numbers = asking.differing()
            return _found(numbers, asking.shards(numbers, at_once))
        with asking.session(0) as (_session, learned):
            pass
        return Reconciled(learned.ours, learned.theirs, int(bool(learned.ours or learned.theirs)))

    def answer(self, connection: Connection) -> Answered:
        """Answers one connection, in the profile of the other side, which speaks first: for a shard or the directory,
        or for a part of these.

        It closes nothing. Nothing is put in: `update(answered.learned.theirs)` does that. Threads may answer at the
        same time, each its own connection; a session is of the shard as it is when that is asked for.

        Raises `Refused` 1 where the other side does not say which set it asks for, 55 where this is another one, and
        raises as `run`.
        """
        number, profile, asked, rest = self._asked(connection)
        with self._of_kept(number, asked) as version, version.respond(profile) as session:
            _hear(session, rest)
            learned = run(session, connection)
        return Answered(None, Learned([], [])) if number == _DIRECTORY else Answered(number, learned)

    def _asked(self, connection: Connection) -> tuple[int, int, Version, bytes]:
        """What is asked for: its number, the profile, its version as it is now, and what came after the selector.

        Raises `Refused` 1, 3, 55, and tells the other side.
        """
        came, ended, made = b"", False, _Handle()
        number, used, profile = ctypes.c_uint32(), ctypes.c_size_t(), ctypes.c_uint32()
        out = [ctypes.byref(each) for each in (number, used, profile, made)]
        while True:
            try:
                self._ask("rs_shards_asked", came, len(came), ended, *out)
                break
            except Refused as fault:
                if fault.number != 98:
                    # It may end after the number of a shard that is not kept.
                    cut_off = fault.number == 3 and not self._keeps(came[6 + len(self._name) :][:2])
                    raise _told(connection, profile.value, Refused(55) if cut_off else fault) from None
            piece = connection.recv(_PIECE)
            came, ended = came + piece, not piece
        version = Version._over(made)
        if not self._keeps(number.value.to_bytes(2, "big")):
            version.close()
            raise _told(connection, profile.value, Refused(55))
        return number.value, profile.value, version, came[used.value :]

    def _keeps(self, number: bytes) -> bool:
        """Whether the shard of this number is kept here, or it is that of the directory, or has not wholly come."""
        return len(number) < 2 or int.from_bytes(number, "big") in self._kept | {_DIRECTORY}


def _told(connection: Connection, profile: int, fault: Refused) -> Refused:
    """The refusal of what was asked for, of which the other side is told."""
    if fault.number in (1, 3, 55):
        # The refusal stands, whether the other side can be told of it or not.
        with contextlib.suppress(OSError):
            connection.sendall(b"RRS%d" % profile + bytes([0, 0, 0, 2, 5, fault.number]))
    return fault
