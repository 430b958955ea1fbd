"""Sets of values that are not bytes, each written as an item by a codec of the caller."""

from __future__ import annotations

import uuid
from collections.abc import Iterable, Iterator
from dataclasses import dataclass
from typing import Generic, Protocol, TypeVar

from ._library import Data
from ._sessions import Learned, Session
from ._sets import Set

T = TypeVar("T")


class Codec(Protocol[T]):
    """Writes values of a type as items, and reads them back.

    Both sides of a session need the same one. Equal values are to have equal items, and other values other items. The
    order of a set is that of its items. `Texts`, `Uuids` and `Integers` are codecs.
    """

    def encode(self, value: T, /) -> bytes:
        """The item of a value, of 1 to 64 bytes. It may raise what it likes, which goes to the caller."""

    def decode(self, item: bytes, /) -> T:
        """The value of an item. Raises `ValueError` where it is the item of none."""


class BadItem(ValueError):
    """An item that a peer sent is the item of no value: `item` has its bytes. `__cause__` is what the codec raised."""

    __module__ = "rangesync"

    def __init__(self, item: bytes) -> None:
        super().__init__(item)
        self.item = item

    def __str__(self) -> str:
        return f"the item {self.item.hex()} is no value of the codec"


@dataclass(frozen=True)
class Texts:
    """Texts in UTF-8, of 1 to 64 bytes there: a longer one, and an empty one, is refused 72 or 71 by the set.

    With `errors="surrogateescape"` it takes names of files as `os.listdir` gives them.
    """

    errors: str = "strict"

    def encode(self, value: str, /) -> bytes:
        """The text's bytes. Raises `UnicodeEncodeError`, a `ValueError`."""
        return value.encode("utf-8", self.errors)

    def decode(self, item: bytes, /) -> str:
        """The text of these bytes. Raises `UnicodeDecodeError`, a `ValueError`."""
        return item.decode("utf-8", self.errors)


@dataclass(frozen=True)
class Uuids:
    """Values of `uuid.UUID`, in 16 bytes."""

    def encode(self, value: uuid.UUID, /) -> bytes:
        """Its 16 bytes, the first one first."""
        return value.bytes

    def decode(self, item: bytes, /) -> uuid.UUID:
        """The UUID of 16 bytes. Raises `ValueError` for any other number of them."""
        return uuid.UUID(bytes=item)


@dataclass(frozen=True)
class Integers:
    """Whole numbers in a fixed number of bytes, 1 to 64, in the order of the numbers.

    Without `signed` they are 0 to 256 ** length - 1, and with it -(256 ** length // 2) to 256 ** length // 2 - 1.
    """

    length: int = 8
    signed: bool = False

    def _least(self) -> int:
        return -(1 << 8 * self.length - 1) if self.signed else 0

    def encode(self, value: int, /) -> bytes:
        """The number, from the least one on, with its highest byte first. Raises `OverflowError` if it has no room."""
        return (value - self._least()).to_bytes(self.length, "big")

    def decode(self, item: bytes, /) -> int:
        """The number. Raises `ValueError` where the item has another length."""
        if len(item) != self.length:
            raise ValueError(f"{len(item)} bytes, not {self.length}")
        return int.from_bytes(item, "big") + self._least()


@dataclass(frozen=True)
class LearnedValues(Generic[T]):
    """What a session found, as values: as `Learned`, in the order of the items."""

    ours: list[T]
    theirs: list[T]


class TypedSet(Generic[T]):
    """A set of values, kept as the items of `items`, which is a `Set`, by a codec.

        >>> here = TypedSet(Set(strategy), Texts())
        >>> here.update(["one", "two"])
        2
        >>> with here.items.initiate() as session:
        ...     learned = here.values(run(session, connection))
        >>> learned.theirs
        ['three']

    `items` is the set below: sessions are opened over it. The set and the codec are the caller's, and `close` of the
    set ends it.
    """

    def __init__(self, items: Set, codec: Codec[T]) -> None:
        self.items = items
        self.codec = codec

    def insert(self, value: T) -> bool:
        """Puts a value in, and says whether it is new. Raises as `Set.insert`, and what the codec raises."""
        return self.items.insert(self.codec.encode(value))

    def update(self, values: Iterable[T]) -> int:
        """Puts the values in, and says how many are new. It makes no list. Raises as `Set.update` and the codec."""
        return self.items.update(map(self.codec.encode, values))

    def __len__(self) -> int:
        """How many values it has."""
        return len(self.items)

    def __contains__(self, value: T) -> bool:
        """Whether it has the value. Raises as `Set` and the codec."""
        return self.codec.encode(value) in self.items

    def __iter__(self) -> Iterator[T]:
        """Its values, in the order of their items. Raises `BadItem`, as `value` does."""
        return map(self.value, self.items)

    def value(self, item: Data) -> T:
        """The value of an item. Raises `BadItem` where the codec raises `ValueError`."""
        text = bytes(item)
        try:
            return self.codec.decode(text)
        except ValueError as fault:
            raise BadItem(text) from fault

    def values(self, learned: Learned) -> LearnedValues[T]:
        """What a session found, as values. Raises `BadItem` for an item of the peer that is none."""
        return LearnedValues(list(map(self.value, learned.ours)), list(map(self.value, learned.theirs)))

    def learned(self, session: Session) -> LearnedValues[T]:
        """What a session that has ended found, as values. Raises as `Session.learned` and `values`."""
        return self.values(session.learned())
