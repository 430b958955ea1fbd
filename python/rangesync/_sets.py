"""A strategy, a set of items under it, and a version of a set."""

from __future__ import annotations

import ctypes
from collections.abc import Iterable, Iterator

from ._library import Data, _bytes, _call, _Handle, _Held
from ._refused import Refused
from ._sessions import Learned, Session


class Strategy(_Held):
    """A strategy of a TOML text, read and checked. Raises `Refused` 28 to 38."""

    def __init__(self, text: Data) -> None:
        lines, made = _bytes(text), _Handle()
        _call("rs_strategy_read", lines, len(lines), ctypes.byref(made))
        super().__init__(made)


class Version(_Held):
    """A set as it was when the version was taken."""

    def __init__(self, of: Set) -> None:
        super().__init__(of._make("rs_set_share"))

    @classmethod
    def _over(cls, handle: _Handle) -> Version:
        """The version that this handle stands for."""
        made = cls.__new__(cls)
        _Held.__init__(made, handle)
        return made

    def __len__(self) -> int:
        """How many items it has."""
        return self._count("rs_version_count")

    def __contains__(self, item: Data) -> bool:
        """Whether it has the item. Raises `Refused` 71, 72 where this is none."""
        return self._says("rs_version_has", item)

    def count(self, lower: Data = b"", upper: Data = b"") -> int:
        """How many items it has from `lower` on and before `upper`: from the start, or to the end, where there is none.

        Raises `Refused` 72 where a bound has more than 64 bytes, 73 where `lower` is not below `upper`.
        """
        front, back, count = _bytes(lower), _bytes(upper), ctypes.c_size_t()
        self._ask("rs_version_count_in", front, len(front), back, len(back), ctypes.byref(count))
        return count.value

    def items(self, lower: Data = b"", upper: Data = b"") -> Iterator[bytes]:
        """These items, rising. Raises as `count` does, but only when the first one is asked for."""
        front, back = _bytes(lower), _bytes(upper)
        room, used = ctypes.create_string_buffer(64), ctypes.c_size_t()
        for place in range(self.count(front, back)):
            where = front, len(front), back, len(back), place
            self._ask("rs_version_item_in", *where, room, 64, ctypes.byref(used))
            yield ctypes.string_at(room, used.value)

    def part(self, start: Data | None = None, end: Data | None = None) -> Version:
        """The version that has its items from `start` on and before `end` alone; either may be left out.

        A session between two parts with the same bounds finds how the items there differ, and nothing else. Raises
        `Refused` 72 where a bound has more than 64 bytes, 73 where `start` is not below `end`.
        """
        front, back = (b"" if bound is None else _bytes(bound) for bound in (start, end))
        return Version._over(self._make("rs_version_part", front, len(front), back, len(back)))

    def __iter__(self) -> Iterator[bytes]:
        """Its items, rising."""
        return self.items()

    def compare(self, other: Iterable[Data]) -> Learned:
        """What a session between this and the other would find, without one. The other is a `Set`, a `Version`, or
        any iterable of items.

        It reads each item of both once, some six microseconds each, and makes lists of the differences alone; an
        iterable that is no `Set` or `Version` is sorted first.
        """
        return _differences(iter(self), _rising(other))

    def same(self, other: Iterable[Data]) -> bool:
        """Whether it has the items of the other, which is as for `compare`, and no more. `==` compares objects."""
        if isinstance(other, (Set, Version)) and len(self) != len(other):
            return False
        return self.compare(other) == Learned([], [])

    def initiate(self, profile: int = 1) -> Session:
        """A session that speaks first, in wire profile 1 or 2. Raises `Refused` 98 for another one."""
        return Session(self, 0, profile)

    def respond(self, profile: int = 1) -> Session:
        """A session that is spoken to first, in wire profile 1 or 2. Raises `Refused` 98 for another one."""
        return Session(self, 1, profile)


def _rising(items: Iterable[Data]) -> Iterator[bytes]:
    """The items once each, rising."""
    if isinstance(items, (Set, Version)):
        return iter(items)
    return iter(sorted(set(map(_bytes, items))))


def _differences(ours: Iterator[bytes], theirs: Iterator[bytes]) -> Learned:
    """What only one of two rising iterators gives."""
    found = Learned([], [])
    here, there = next(ours, None), next(theirs, None)
    while here is not None or there is not None:
        if here == there:
            here, there = next(ours, None), next(theirs, None)
        elif there is None or (here is not None and here < there):
            found.ours.append(here or b"")
            here = next(ours, None)
        else:
            found.theirs.append(there)
            there = next(theirs, None)
    return found


def _line(item: Data) -> bytes:
    """An item as a line of an item file."""
    text = _bytes(item)
    if not text:
        raise Refused(71)
    if len(text) > 64:
        raise Refused(72)
    return text.hex().encode() + b"\n"


class Set(_Held):
    """A set of items of 1 to 64 bytes each, at most as many as the strategy's cap. Raises `Refused` 71, 72, 82."""

    def __init__(self, strategy: Strategy, items: Iterable[Data] = ()) -> None:
        self._read(strategy, 0, b"".join(map(_line, items)))

    @classmethod
    def read(cls, strategy: Strategy, lines: Data, text: bool = False) -> Set:
        """The set of an item file: a line is an item in hex, or with `text` as it stands. Raises `Refused` 81, 82.

        With `text` too, a line that begins with `0x` is an item in hex. docs/COMMANDS.md has more on *The item file*.
        """
        made = cls.__new__(cls)
        made._read(strategy, 1 if text else 0, _bytes(lines))
        return made

    def _read(self, strategy: Strategy, form: int, lines: bytes) -> None:
        super().__init__(strategy._make("rs_set_read", form, lines, len(lines)))

    def insert(self, item: Data) -> bool:
        """Puts an item in, and says whether it is new. Raises `Refused` 40 if a new one has no room, and 71, 72."""
        return self._says("rs_set_insert", item)

    def update(self, items: Iterable[Data]) -> int:
        """Puts the items in, one after the other, and says how many of them are new. It makes no list of them.

        Raises `Refused` 40 where one is new and the set is full, 71, 72, and what the iterable raises. The items before
        that one are then in the set, and none after it.

            >>> here.update(row[0] for row in database.execute("SELECT id FROM messages"))
            20000
        """
        return sum(map(self.insert, items))

    def __len__(self) -> int:
        """How many items it has."""
        return self._count("rs_set_count")

    def __iter__(self) -> Iterator[bytes]:
        """Its items, rising, as they are when the first one is asked for. The set may grow meanwhile."""
        with self.version() as version:
            yield from version

    def compare(self, other: Iterable[Data]) -> Learned:
        """As `Version.compare`, of the set as it is now."""
        with self.version() as version:
            return version.compare(other)

    def same(self, other: Iterable[Data]) -> bool:
        """As `Version.same`, of the set as it is now."""
        with self.version() as version:
            return version.same(other)

    def __contains__(self, item: Data) -> bool:
        """Whether it has the item. Raises `Refused` 71, 72 where this is none."""
        with self.version() as version:
            return item in version

    def version(self) -> Version:
        """The set as it is now."""
        return Version(self)

    def initiate(self, profile: int = 1) -> Session:
        """A session over the set as it is now, which speaks first."""
        with self.version() as version:
            return version.initiate(profile)

    def respond(self, profile: int = 1) -> Session:
        """A session over the set as it is now, which is spoken to first."""
        with self.version() as version:
            return version.respond(profile)
