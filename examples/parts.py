"""What `postgres` and `folders` share: a set of any size as parts of at most 65,536 items, compared over TCP.

An item goes to a part by a hash of its key, which both sides reckon alike. Each part is a `rangesync.Set`, and has a
session and a connection of its own; the sessions run at once. A connection begins with a line of JSON, which says what
is asked:

    {"ask": "about"}                                        one line comes back: what the peer compares, and how much
    {"ask": "session", "view": 1, "parts": 4, "part": 2}    a session follows, and the asking side speaks first
    {"ask": "tell", "view": 1, "items": ["6b31.."]}         a line comes back for each item

"about" makes a view, which is what the peer has at that time; what follows names it. A peer keeps the newest few.
"""

from __future__ import annotations

import argparse
import asyncio
import hashlib
import json
import sys
import time
from collections.abc import Awaitable, Callable, Coroutine, Iterable, Sequence
from dataclasses import dataclass, field
from pathlib import Path
from typing import Any, Protocol

TOP = Path(__file__).resolve().parent.parent
sys.path.append(str(TOP / "python"))  # Where no rangesync is installed.

from rangesync import Learned, Refused, Set, Strategy, arun  # noqa: E402

TABLE = TOP / "examples/all-round.toml"
MOST_PARTS = 4096
IN_A_PART = 50_000
"""How many items a part has on the average; the cap is 65,536, and 60 standard deviations above."""
AT_ONCE = 8
"""How many connections are open at once."""
SECONDS = 60.0
"""How long a peer may be silent."""
LOOKING = 3600.0
"""How many seconds a peer may take to look at all that it has."""
LONGEST = 1 << 28
"""How many bytes a line has at most."""
VIEWS = 4
"""How many views a server keeps."""
DIFFERENT = 4
"""The status of `compare --check` if the two sides differ, which is that of `rangesync sync --check`."""

Json = dict[str, Any]


class Stopped(ValueError):
    """A comparison that came to no end, or words that it does not take: its text says why, for the user."""


class View(Protocol):
    """What a side has, at one time."""

    @property
    def items(self) -> Sequence[bytes]:
        """Its items, in any order, each once."""

    def about(self) -> Json:
        """What the other side is to know of it."""

    def key_of(self, item: bytes) -> bytes:
        """The part of an item by which it goes to a part: equal on both sides for what is to be compared."""

    def tell(self, items: Sequence[bytes]) -> list[Json]:
        """What it has to these of its items, one for each that is still there."""


@dataclass
class Cost:
    """What a comparison took: bytes both ways, as they go into the sockets."""

    sent: int = 0
    received: int = 0
    sessions: int = 0
    began: float = field(default_factory=time.monotonic)

    def __str__(self) -> str:
        seconds = time.monotonic() - self.began
        total = self.sent + self.received
        return f"sessions {self.sessions} bytes {total} seconds {seconds:.1f}"


class Line:
    """A connection whose bytes are counted: the reader and the writer of a session."""

    def __init__(self, reader: asyncio.StreamReader, writer: asyncio.StreamWriter, cost: Cost) -> None:
        self.reader, self.writer, self.cost = reader, writer, cost

    async def read(self, most: int, /) -> bytes:
        came = await asyncio.wait_for(self.reader.read(most), SECONDS)
        self.cost.received += len(came)
        return came

    def write(self, data: bytes, /) -> None:
        self.cost.sent += len(data)
        self.writer.write(data)

    async def drain(self) -> None:
        await asyncio.wait_for(self.writer.drain(), SECONDS)

    def say(self, text: Json) -> None:
        """Writes a line of JSON."""
        self.write(json.dumps(text).encode() + b"\n")

    async def hear(self, seconds: float = SECONDS) -> Json:
        """Reads a line of JSON."""
        line = await asyncio.wait_for(self.reader.readline(), seconds)
        self.cost.received += len(line)
        if not line.endswith(b"\n"):
            raise Stopped("the peer ended before it had answered")
        text = json.loads(line)
        if not isinstance(text, dict):
            raise ValueError("a line that is no object of JSON")
        if "fault" in text:
            raise Stopped(f"the peer says: {text['fault']}")
        return text

    async def close(self) -> None:
        self.writer.close()
        try:
            await self.writer.wait_closed()
        except OSError:
            pass


def parts_for(count: int) -> int:
    """Into how many parts so many items are split."""
    return max(1, -(-count // IN_A_PART))


def split(view: View, parts: int) -> list[Set]:
    """The parts of a view. Raises `Refused` 82 where one of them has more than 65,536 items."""
    lists: list[list[bytes]] = [[] for _ in range(parts)]
    for item in view.items:
        lists[int.from_bytes(hashlib.sha256(view.key_of(item)).digest()[:8], "big") % parts].append(item)
    strategy = Strategy(TABLE.read_bytes())
    return [Set(strategy, items) for items in lists]


def address_of(text: str) -> tuple[str, int]:
    """Of HOST:PORT, where an address of IPv6 stands in brackets."""
    host, colon, port = text.rpartition(":")
    if not colon or not port.isdecimal() or int(port) > 65_535:
        raise Stopped(f"{text} is not HOST:PORT")
    is_six = host.startswith("[") and host.endswith("]")
    return host[1:-1] if is_six else host, int(port)


def address_text(host: str, port: int) -> str:
    """HOST:PORT, as `address_of` reads it."""
    return f"[{host}]:{port}" if ":" in host else f"{host}:{port}"


async def together(*works: Awaitable[Any]) -> list[Any]:
    """Does all at once. Where one fails the others are ended first, and then it is raised."""
    tasks = [asyncio.ensure_future(work) for work in works]
    try:
        return list(await asyncio.gather(*tasks))
    finally:
        for task in tasks:
            task.cancel()
        await asyncio.gather(*tasks, return_exceptions=True)


# The side that asks.


class Peer:
    """The other side, at an address."""

    def __init__(self, address: tuple[str, int]) -> None:
        self.address = address
        self.cost = Cost()
        self.view = 0
        self.room = asyncio.Semaphore(AT_ONCE)

    async def over(self, talk: Callable[[Line], Awaitable[Any]]) -> Any:
        """Runs a talk over a connection of its own."""
        async with self.room:
            opened = asyncio.open_connection(*self.address, limit=LONGEST)
            line = Line(*await asyncio.wait_for(opened, SECONDS), self.cost)
            try:
                return await talk(line)
            finally:
                await line.close()

    async def about(self) -> Json:
        """What the peer says of a new view, of which all that follows is asked."""

        async def talk(line: Line) -> Json:
            line.say({"ask": "about"})
            return await line.hear(LOOKING)

        text: Json = await self.over(talk)
        self.view = int(text["view"])
        return text

    async def session(self, parts: int, part: int, held: Set) -> Learned:
        """Compares one part."""

        async def talk(line: Line) -> Learned:
            line.say({"ask": "session", "view": self.view, "parts": parts, "part": part})
            with held.initiate() as session:
                learned = await arun(session, line, line)
                self.cost.sessions += 1
            return learned

        learned: Learned = await self.over(talk)
        return learned

    async def compare(self, view: View, count: int) -> Learned:
        """Compares a view with that of the peer, which has so many items."""
        parts = parts_for(max(count, len(view.items)))
        sets = await asyncio.to_thread(split, view, parts)
        found = await together(*(self.session(parts, part, held) for part, held in enumerate(sets)))
        ours = [item for learned in found for item in learned.ours]
        return Learned(sorted(ours), sorted(item for learned in found for item in learned.theirs))

    async def tell(self, items: Iterable[bytes]) -> list[Json]:
        """What the peer has to these items, if it still has it."""

        async def talk(line: Line) -> list[Json]:
            line.say({"ask": "tell", "view": self.view, "items": [item.hex() for item in items]})
            told = await line.hear()
            return [await line.hear() for _ in range(int(told["count"]))]

        told: list[Json] = await self.over(talk)
        return told


# The side that is asked.


class Views:
    """The newest views of a server, and their parts."""

    def __init__(self, look: Callable[[], View]) -> None:
        self.look = look
        self.made = 0
        self.views: dict[int, View] = {}
        self.parts: dict[tuple[int, int], list[Set]] = {}
        self.lock = asyncio.Lock()

    async def new(self) -> Json:
        view = await asyncio.to_thread(self.look)
        self.made += 1
        self.views[self.made] = view
        self.views.pop(self.made - VIEWS, None)
        self.parts = {key: sets for key, sets in self.parts.items() if key[0] in self.views}
        return {**view.about(), "view": self.made}

    def view(self, number: int) -> View:
        if number not in self.views:
            raise Stopped("this view is no more kept: compare once more")
        return self.views[number]

    async def part(self, number: int, parts: int, part: int) -> Set:
        if not 0 <= part < parts <= MOST_PARTS:
            raise Stopped(f"there is no part {part} of {parts}")
        view = self.view(number)
        async with self.lock:
            if (number, parts) not in self.parts:
                self.parts[number, parts] = await asyncio.to_thread(split, view, parts)
        return self.parts[number, parts][part]


async def answer(line: Line, views: Views) -> None:
    """Answers what one connection asks."""
    asked = await line.hear()
    if asked["ask"] == "about":
        line.say(await views.new())
    elif asked["ask"] == "session":
        held = await views.part(int(asked["view"]), int(asked["parts"]), int(asked["part"]))
        with held.respond() as session:
            await arun(session, line, line)
    elif asked["ask"] == "tell":
        items = [bytes.fromhex(item) for item in asked["items"]]
        told = await asyncio.to_thread(views.view(int(asked["view"])).tell, items)
        line.say({"count": len(told)})
        for text in told:
            line.say(text)
            await line.drain()
    await line.drain()


async def serve(name: str, address: tuple[str, int], look: Callable[[], View]) -> None:
    """Answers connections until it is ended. Each fault of a connection is told, and ends that connection alone."""
    views = Views(look)

    async def connected(reader: asyncio.StreamReader, writer: asyncio.StreamWriter) -> None:
        line = Line(reader, writer, Cost())
        try:
            await answer(line, views)
        except Stopped as fault:
            print(f"{name}: {fault}", file=sys.stderr, flush=True)
            line.say({"fault": str(fault)})
        except FAULTS as fault:
            print(f"{name}: a connection ended by {told(fault)}", file=sys.stderr, flush=True)
        finally:
            await line.close()

    server = await asyncio.start_server(connected, *address, limit=LONGEST)
    print(f"listening {address_text(*server.sockets[0].getsockname()[:2])}", flush=True)
    async with server:
        await server.serve_forever()


FAULTS = (
    OSError, EOFError, Refused, asyncio.TimeoutError, ValueError, KeyError, TypeError, OverflowError, RecursionError
)
"""What a peer, or the way to it, can cause."""


def told(fault: BaseException) -> str:
    """A fault, for the user."""
    if isinstance(fault, Stopped):
        return str(fault)
    if isinstance(fault, Refused):
        return f"{fault} ({fault.cause})" if fault.cause else str(fault)
    if isinstance(fault, asyncio.TimeoutError):
        return f"a peer that was silent for {SECONDS:.0f} seconds"
    return f"{type(fault).__name__}: {fault}"


def add_words(compare: argparse.ArgumentParser) -> None:
    """The words that each `compare` takes."""
    status = f"end with status {DIFFERENT} if the two sides differ, and with 0 if they are equal"
    compare.add_argument("--check", action="store_true", help=status)
    compare.add_argument("peer", metavar="HOST:PORT")


def status_of(is_checked: bool, differs: bool, is_whole: bool = True) -> int:
    """The status of a comparison that came to its end; `is_whole` says that nothing was left out of it."""
    if not is_checked:
        return 0
    if differs:
        return DIFFERENT
    return 0 if is_whole else 1


def main(name: str, work: Coroutine[Any, Any, int]) -> int:
    """Runs a command, and gives its status: 1 where it stopped, which is told in a line of standard error."""
    try:
        return asyncio.run(work)
    except Stopped as fault:
        print(f"{name}: {fault}", file=sys.stderr)
    except FAULTS as fault:
        print(f"{name}: stopped by {told(fault)}; nothing was written", file=sys.stderr)
    except KeyboardInterrupt:
        pass
    return 1
