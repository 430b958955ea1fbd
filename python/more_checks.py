"""Tests of what stands beside the sessions in the package: asyncio, sets compared, causes of a refusal, codecs.

    python3 python/more_checks.py

It takes Python 3.9 and the library (c/build makes it), and no program. What is expected is typed in, or is a difference
of Python's own sets. The last line is 'N passed, M failed'.
"""

from __future__ import annotations

import asyncio
import contextlib
import copy
import functools
import hashlib
import os
import pickle
import pydoc
import re
import sys
import tracemalloc
import unittest
import uuid
from collections.abc import AsyncIterator, Awaitable, Callable, Iterable, Iterator
from pathlib import Path

import rangesync
from counted import main
from rangesync import BadItem, Integers, Learned, LearnedValues, Refused, Set, Shards, Strategy
from rangesync import Texts, TypedSet, Uuids, arun

TOP = Path(__file__).resolve().parent.parent
EIGHT = (TOP / "examples/eight.toml").read_bytes()
eight = functools.partial(Set, Strategy(EIGHT))
large = functools.partial(Set, Strategy((TOP / "examples/all-round.toml").read_bytes()))
SECONDS = 240  # How long a test waits for a peer.
Streams = tuple[asyncio.StreamReader, asyncio.StreamWriter]
Answers = Callable[[asyncio.StreamReader, asyncio.StreamWriter], Awaitable[None]]


def item_of(number: int) -> bytes:
    return hashlib.sha512(b"%d" % number).digest()[: 4 + number % 61]


HERE, THERE = set(map(item_of, range(20, 3000))), set(map(item_of, range(2980)))


@contextlib.asynccontextmanager
async def pair(answers: Answers) -> AsyncIterator[Streams]:
    """The streams to a server that answers one connection by this, and has ended it at the end."""
    done = asyncio.Event()

    async def serve(reader: asyncio.StreamReader, writer: asyncio.StreamWriter) -> None:
        try:
            await answers(reader, writer)
        finally:
            writer.close()
            done.set()

    server = await asyncio.start_server(serve, "127.0.0.1", 0)
    reader, writer = await asyncio.open_connection(*server.sockets[0].getsockname())
    try:
        yield reader, writer
        writer.close()
        await asyncio.wait_for(done.wait(), SECONDS)
    finally:
        writer.close()
        server.close()


class Streamed(unittest.IsolatedAsyncioTestCase):
    """`arun` over connections of the loopback."""

    async def both(self, profile: int, most: int) -> None:
        """Both sides are in this loop."""
        found = []

        async def answer(reader: asyncio.StreamReader, writer: asyncio.StreamWriter) -> None:
            with large(THERE).respond(profile) as session:
                found.append(await arun(session, reader, writer, most))

        async with pair(answer) as (reader, writer):
            with large(HERE).initiate(profile) as session:
                found.append(await asyncio.wait_for(arun(session, reader, writer, most), SECONDS))
        ours, theirs = sorted(HERE - THERE), sorted(THERE - HERE)
        wanted = [Learned(ours, theirs), Learned(theirs, ours)]
        self.assertEqual(len(found), 2)
        self.assertTrue(all(each in found for each in wanted))

    async def test_both_sides(self) -> None:
        for profile, most in (1, 1), (1, 65_536), (2, 1000):
            await self.both(profile, most)

    async def test_many_at_once(self) -> None:
        """Fifty sessions over one set, which grows meanwhile."""
        held, there = large(HERE), large(THERE)

        async def answer(reader: asyncio.StreamReader, writer: asyncio.StreamWriter) -> None:
            with there.respond() as session:
                await arun(session, reader, writer)
            writer.close()

        server = await asyncio.start_server(answer, "127.0.0.1", 0)
        address = server.sockets[0].getsockname()

        async def ask(number: int) -> int:
            reader, writer = await asyncio.open_connection(*address)
            held.insert(b"new %d" % number)
            with held.initiate() as session:
                learned = await arun(session, reader, writer)
            writer.close()
            return len(learned.ours) - len(HERE - THERE)

        added = await asyncio.wait_for(asyncio.gather(*map(ask, range(50))), SECONDS)
        server.close()
        self.assertTrue(all(1 <= number <= 50 for number in added), added)
        self.assertEqual(len(held), len(HERE) + 50)

    async def test_peer_that_is_gone(self) -> None:
        async def answer(reader: asyncio.StreamReader, writer: asyncio.StreamWriter) -> None:
            writer.write(b"RRS1")
            writer.write_eof()
            await reader.read()

        async with pair(answer) as (reader, writer):
            with self.assertRaises(Refused) as raised, large(HERE).initiate() as session:
                await asyncio.wait_for(arun(session, reader, writer), SECONDS)
        self.assertEqual((raised.exception.number, raised.exception.by_peer), (3, False))

    async def test_peer_that_refuses(self) -> None:
        async def answer(reader: asyncio.StreamReader, writer: asyncio.StreamWriter) -> None:
            writer.write(b"RRS1" + bytes.fromhex("000000020536"))
            await writer.drain()
            await reader.read()

        async with pair(answer) as (reader, writer):
            with self.assertRaisesRegex(Refused, "^peer refused 54 GateClosed$"), eight([]).initiate() as session:
                await asyncio.wait_for(arun(session, reader, writer), SECONDS)

    async def test_peer_that_is_silent(self) -> None:
        """A limit of the caller ends the wait, and the set can be used on."""
        held = eight([b"a"])

        async def answer(reader: asyncio.StreamReader, _writer: asyncio.StreamWriter) -> None:
            await reader.read()

        async with pair(answer) as (reader, writer):
            with held.initiate() as session, self.assertRaises(asyncio.TimeoutError):
                await asyncio.wait_for(arun(session, reader, writer), 0.1)
        self.assertEqual((held.insert(b"b"), len(held)), (True, 2))


class Compared(unittest.TestCase):
    """A set as it is filled, iterated and compared."""

    def test_update(self) -> None:
        held = large()
        self.assertEqual((held.update(iter(HERE)), held.update(THERE), held.update(())), (2980, 20, 0))
        self.assertEqual((len(held), set(held)), (3000, HERE | THERE))

    def test_update_that_fails(self) -> None:
        for bad, number in (b"", 71), (b"x" * 65, 72):
            held = eight()
            with self.assertRaises(Refused) as raised:
                held.update([b"a", bad, b"b"])
            self.assertEqual((raised.exception.number, list(held)), (number, [b"a"]))
        held = eight()
        with self.assertRaisesRegex(Refused, "^refused 40 Full$"):
            held.update(bytes([number]) for number in range(9))
        self.assertEqual(list(held), [bytes([number]) for number in range(8)])

        def breaks() -> Iterator[bytes]:
            yield b"a"
            raise OSError("the store is gone")

        held = eight()
        self.assertRaisesRegex(OSError, "the store is gone", held.update, breaks())
        self.assertEqual(list(held), [b"a"])

    def test_update_makes_no_list(self) -> None:
        """Of 20,000 items no more than 100,000 bytes are held by Python at any time."""
        held = large()
        tracemalloc.start()
        held.update(b"%060d" % number for number in range(20_000))
        most = tracemalloc.get_traced_memory()[1]
        tracemalloc.stop()
        self.assertLess(most, 100_000)

    def test_iterated(self) -> None:
        held = eight([b"c", b"a"])
        items = iter(held)
        self.assertEqual(next(items), b"a")
        held.insert(b"b")
        self.assertEqual((list(items), list(held)), ([b"c"], [b"a", b"b", b"c"]))
        self.assertEqual(list(eight()), [])

    def test_compared(self) -> None:
        here, there = large(HERE), large(THERE)
        ours, theirs = sorted(HERE - THERE), sorted(THERE - HERE)
        unequal: list[Iterable[bytes]] = [there, there.version(), THERE, list(THERE) * 2]
        for other in unequal:
            self.assertEqual(here.compare(other), Learned(ours, theirs))
            self.assertEqual((here.same(other), here.version().same(other)), (False, False))
        self.assertEqual(there.version().compare(here), Learned(theirs, ours))
        equal: list[Iterable[bytes]] = [large(HERE), here, here.version(), HERE, list(HERE) * 2]
        for other in equal:
            self.assertEqual((here.compare(other), here.same(other)), (Learned([], []), True))
        self.assertEqual(eight().compare([b"a"]), Learned([], [b"a"]))
        self.assertEqual((eight([b"a"]).compare([]), eight().same([])), (Learned([b"a"], []), True))
        self.assertTrue(eight([b"a"]) != eight([b"a"]))
        self.assertRaises(TypeError, eight().compare, ["text"])

    def test_closed(self) -> None:
        held = eight([b"a"])
        held.close()
        for call in (lambda: held.update([b"b"]), lambda: list(held), lambda: held.same([])):
            self.assertRaisesRegex(ValueError, "this Set is closed", call)

    def test_copied(self) -> None:
        """What is given back once can be copied in no way."""
        calls: list[Callable[[object], object]] = [copy.copy, copy.deepcopy, pickle.dumps]
        for held in Strategy(EIGHT), eight(), eight().version(), eight().initiate(), Shards(Strategy(EIGHT), 1):
            for call in calls:
                self.assertRaisesRegex(TypeError, "can be neither copied nor pickled", call, held)


class Refusals(unittest.TestCase):
    def test_causes(self) -> None:
        """Each number that has a name has a cause, which is one sentence."""
        numbers = [number for number in range(256) if Refused(number).name]
        self.assertEqual(len(numbers), 56)
        for number in numbers:
            self.assertRegex(Refused(number).cause, r"^[a-zT][^.]*[^.]$")
        self.assertEqual((Refused(200).name, Refused(200, True).cause), ("", ""))

    def test_pickled(self) -> None:
        fault = pickle.loads(pickle.dumps(Refused(40, True)))
        self.assertEqual((fault.number, fault.name, fault.by_peer), (40, "Full", True))
        self.assertRegex(fault.cause, "^the set has as many items as its strategy's cap")

    def test_named_by_the_package(self) -> None:
        self.assertEqual((Refused.__module__, BadItem.__module__), ("rangesync", "rangesync"))


class Values(unittest.TestCase):
    """Sets of values by the codecs of the package, and by one of the caller."""

    def learns(self, here: TypedSet[object], there: TypedSet[object], wanted: LearnedValues[object]) -> None:
        """Sees that a session between the two finds this."""
        with here.items.initiate() as one, there.items.respond() as other:
            while pieces := [(other, piece) for piece in one.pulls()] + [(one, piece) for piece in other.pulls()]:
                for session, piece in pieces:
                    session.push(piece)
            self.assertEqual(here.learned(one), wanted)

    def test_texts(self) -> None:
        here: TypedSet[object] = TypedSet(eight(), Texts())  # type: ignore[arg-type]
        there: TypedSet[object] = TypedSet(eight(), Texts())  # type: ignore[arg-type]
        self.assertEqual((here.update(["a", "b", "a"]), there.insert("b"), there.insert("\u00e4")), (2, True, True))
        self.learns(here, there, LearnedValues(["a"], ["\u00e4"]))
        self.assertEqual((list(here), "a" in here, "c" in here, len(here)), (["a", "b"], True, False, 2))
        self.assertRaisesRegex(Refused, "71", here.insert, "")
        self.assertRaisesRegex(Refused, "72", here.insert, "\u00e4" * 33)
        self.assertRaises(UnicodeEncodeError, here.insert, "\udcff")
        self.assertEqual(Texts("surrogateescape").decode(b"a\xff"), os.fsdecode(b"a\xff"))

    def test_uuids(self) -> None:
        values = [uuid.uuid5(uuid.NAMESPACE_DNS, str(number)) for number in range(3)]
        here, there = TypedSet(eight(), Uuids()), TypedSet(eight(), Uuids())
        here.update(values[:2])
        there.update(values[1:])
        self.learns(here, there, LearnedValues([values[0]], [values[2]]))  # type: ignore[arg-type]
        self.assertEqual(sorted(here), sorted(values[:2]))

    def test_integers(self) -> None:
        for codec, values in (Integers(), [0, 255, 256, 2**64 - 1]), (Integers(2, True), [-32768, -1, 0, 32767]):
            held = TypedSet(eight(), codec)
            held.update(reversed(values))
            self.assertEqual((list(held), list(map(codec.decode, map(codec.encode, values)))), (values, values))
            self.assertRaises(OverflowError, held.insert, values[-1] + 1)
            self.assertRaises(OverflowError, held.insert, values[0] - 1)

    def test_items_of_no_value(self) -> None:
        for codec, item in (Texts(), b"\xff"), (Uuids(), b"short"), (Integers(4), b"12345"):
            held: TypedSet[object] = TypedSet(eight([item]), codec)  # type: ignore[arg-type]
            calls: list[Callable[[], object]] = [
                lambda held=held: list(held),  # type: ignore[misc]
                lambda held=held, item=item: held.value(item),  # type: ignore[misc]
                lambda held=held, item=item: held.values(Learned([], [item])),  # type: ignore[misc]
            ]
            for call in calls:
                with self.assertRaisesRegex(BadItem, item.hex()) as raised:
                    call()
                self.assertEqual(raised.exception.item, item)
                self.assertIsInstance(raised.exception.__cause__, ValueError)

    def test_codec_of_the_caller(self) -> None:
        class Pairs:
            """A point, in two bytes."""

            def encode(self, value: tuple[int, int], /) -> bytes:
                return bytes(value)

            def decode(self, item: bytes, /) -> tuple[int, int]:
                one, other = item
                return one, other

        held: TypedSet[tuple[int, int]] = TypedSet(eight(), Pairs())
        held.update([(3, 4), (1, 2)])
        self.assertEqual((list(held), (1, 2) in held), ([(1, 2), (3, 4)], True))
        self.assertRaises(BadItem, held.value, b"abc")


class Told(unittest.TestCase):
    def test_each_public_thing_is_told(self) -> None:
        """By pydoc: each has a text, and so has each of its public methods."""
        page = pydoc.plain(pydoc.render_doc(rangesync))
        for name in rangesync.__all__:
            thing = getattr(rangesync, name)
            self.assertTrue(thing.__doc__, name)
            self.assertRegex(page, rf"\b{name}\b")
            for part, value in vars(thing).items() if isinstance(thing, type) else ():
                if callable(value) and not part.startswith("_"):
                    self.assertTrue(value.__doc__, f"{name}.{part}")

    def test_each_public_thing_is_on_the_page(self) -> None:
        page = (TOP / "python/README.md").read_text(encoding="utf-8")
        names = set(re.findall(r"\b\w+\b", page))
        self.assertEqual([name for name in rangesync.__all__ if name not in names], [])


if __name__ == "__main__":
    sys.exit(main(__name__))
