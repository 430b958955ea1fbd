"""The other sides of the tests of sets in shards: one in threads of this process, and one whose bytes are given.

And what both sides reckon, by hashlib alone.
"""

from __future__ import annotations

import hashlib
import socket
import threading
from collections.abc import Callable

from rangesync import Refused

SECONDS = 60.0
"""How long a test waits for a peer."""


def number_of(item: bytes, bits: int) -> int:
    """The first bits of the digest, as text of noughts and ones."""
    text = "".join(f"{byte:08b}" for byte in hashlib.sha256(item).digest())
    return int("0" + text[:bits], 2)


def entry(number: int, count: int, fingerprint: bytes) -> bytes:
    """The entry of a shard."""
    return number.to_bytes(2, "big") + count.to_bytes(4, "big") + fingerprint


class Counted:
    """A connection whose bytes are counted."""

    def __init__(self, inner: socket.socket) -> None:
        self.inner, self.bytes = inner, 0

    def sendall(self, data: bytes, /) -> None:
        self.bytes += len(data)
        self.inner.sendall(data)

    def recv(self, most: int, /) -> bytes:
        came = self.inner.recv(most)
        self.bytes += len(came)
        return came

    def __enter__(self) -> Counted:
        return self

    def __exit__(self, *_exception: object) -> None:
        self.inner.close()


class Near:
    """The other side, in threads of this process: answers each connection that is made to it, by a function."""

    def __init__(self, answers: Callable[[socket.socket], object]) -> None:
        self.answers = answers
        self.made: list[Counted] = []
        self.came: list[object] = []
        self.threads: list[threading.Thread] = []

    def connect(self) -> Counted:
        mine, other = socket.socketpair()
        for each in mine, other:
            each.settimeout(SECONDS)
        self.threads.append(threading.Thread(target=self.answer, args=(other,)))
        self.threads[-1].start()
        self.made.append(Counted(mine))
        return self.made[-1]

    def answer(self, connection: socket.socket) -> None:
        with connection:
            try:
                self.came.append(self.answers(connection))
            except (Refused, OSError) as fault:
                self.came.append(fault)

    def __enter__(self) -> Near:
        return self

    def __exit__(self, *_exception: object) -> None:
        for thread in self.threads:
            thread.join(SECONDS)


class Played:
    """A connection over which bytes come that are given, so many at once, and then the end."""

    def __init__(self, came: bytes, most: int = 65_536) -> None:
        self.came, self.most, self.wrote = came, most, b""

    def sendall(self, data: bytes, /) -> None:
        self.wrote += data

    def recv(self, _most: int, /) -> bytes:
        piece, self.came = self.came[: self.most], self.came[self.most :]
        return piece

    def __enter__(self) -> Played:
        return self

    def __exit__(self, *_exception: object) -> None:
        pass


def refusal_of(fault: Exception) -> str:
    """A refusal without its name, or what else it is."""
    if not isinstance(fault, Refused):
        return repr(fault)
    return f"{'peer ' if fault.by_peer else ''}refused {fault.number}"


def outcome_of(call: Callable[[], object]) -> str:
    """`ended`, or the refusal."""
    try:
        call()
    except Refused as fault:
        return refusal_of(fault)
    return "ended"
