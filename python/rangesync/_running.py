"""Sessions over a socket, and over the streams of asyncio."""

from __future__ import annotations

import asyncio
from typing import Protocol

from ._sessions import Learned, Session, State


class Connection(Protocol):
    """What `run` speaks over: a socket is one."""

    def sendall(self, data: bytes, /) -> None:
        """Sends all of the bytes."""

    def recv(self, most: int, /) -> bytes:
        """Bytes that came, or none at the end."""


class Reader(Protocol):
    """What `arun` reads from: an `asyncio.StreamReader` is one."""

    async def read(self, most: int, /) -> bytes:
        """Bytes that came, or none at the end."""


class Writer(Protocol):
    """What `arun` writes to: an `asyncio.StreamWriter` is one."""

    def write(self, data: bytes, /) -> None:
        """Takes bytes to send."""

    async def drain(self) -> None:
        """Waits until there is room for more."""


def _hear(session: Session, came: bytes) -> None:
    """Gives a session what came; no bytes are the end."""
    if not came:
        session.finish()
    while came:
        came = came[session.push(came) :]


def run(session: Session, connection: Connection, most: int = 65_536) -> Learned:
    """Runs a session over a connection, in pieces of at most so many bytes, and gives what it found.

    Raises `Refused` where one of the sides refused, and what the connection raises. Then the session is of no more use:
    bytes that it gave may not have been sent.
    """
    while True:
        try:
            for piece in session.pulls(most):
                connection.sendall(piece)
        except OSError:
            # A refusal stands, whether the peer can be told of it or not.
            if session.refusal is None:
                raise
        if session.state is not State.OPEN:
            return session.learned()
        _hear(session, connection.recv(most))


async def arun(session: Session, reader: Reader, writer: Writer, most: int = 65_536) -> Learned:
    """Runs a session over the streams of asyncio, in pieces of at most so many bytes, and gives what it found.

        reader, writer = await asyncio.open_connection("127.0.0.1", 7700)
        with here.initiate() as session:
            learned = await asyncio.wait_for(arun(session, reader, writer), 60)
        writer.close()
        await writer.wait_closed()

    It waits as long as the peer does: `asyncio.wait_for` sets a limit, in seconds. Where it is cancelled the session
    stays open, and is of no more use. It closes neither stream. Other tasks have their turn after each piece; while the
    library works on one they wait, some milliseconds for the largest ones.

    Raises `Refused` where one of the sides refused, 3 where the reader ended before the session did, and what the
    streams raise.
    """
    while True:
        try:
            for piece in session.pulls(most):
                writer.write(piece)
                await writer.drain()
                await asyncio.sleep(0)
        except OSError:
            # A refusal stands, whether the peer can be told of it or not.
            if session.refusal is None:
                raise
        if session.state is not State.OPEN:
            return session.learned()
        _hear(session, await reader.read(most))
        await asyncio.sleep(0)
