"""One side of a rangesync session, in this process.

A set is kept here; a session over it takes the bytes that came from its peer, and gives the bytes that are due to it:

    import socket
    from rangesync import Set, Strategy, run

    with open("examples/all-round.toml", "rb") as file:
        strategy = Strategy(file.read())
    here = Set(strategy, [b"one", b"two"])
    with socket.create_connection(("127.0.0.1", 7700)) as connection, here.initiate() as session:
        learned = run(session, connection)
    print(learned.ours, learned.theirs)

`run` moves the bytes over a socket, and `arun` over the streams of asyncio. Without them, send what `Session.pulls`
gives, and give `Session.push` what comes. An item is 1 to 64 bytes; a `TypedSet` has values of another type by a codec.
A `Set` has at most 65,536 items; `Shards` are a set of any size.

Each object is freed by its `close`, at the end of a `with`, or when nothing names it any more; in any order, since a
session keeps what it needs of its version, its set and its strategy. Calls of a closed object raise `ValueError`.
Threads may share an object: calls of one object wait for each other. So a handler of a signal makes none of its calls:
it would wait for ever for the call that it interrupted. Nor does the child that a process with threads forks, as
`multiprocessing` may. A call for which memory runs out raises `Refused` 90, or Python's `MemoryError`.
"""

from __future__ import annotations

from ._codecs import BadItem, Codec, Integers, LearnedValues, Texts, TypedSet, Uuids
from ._refused import Refused
from ._running import Connection, Reader, Writer, arun, run
from ._sessions import Learned, Session, State
from ._sets import Set, Strategy, Version
from ._shards import Answered, Incomplete, Reconciled, Shards, shard_of

__all__ = [
    "Answered",
    "BadItem",
    "Codec",
    "Connection",
    "Incomplete",
    "Integers",
    "Learned",
    "LearnedValues",
    "Reader",
    "Reconciled",
    "Refused",
    "Session",
    "Set",
    "Shards",
    "State",
    "Strategy",
    "Texts",
    "TypedSet",
    "Uuids",
    "Version",
    "Writer",
    "arun",
    "run",
    "shard_of",
]
