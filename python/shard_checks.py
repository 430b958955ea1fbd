"""Tests of sets in shards: two of them over sockets, in threads and in processes, and one over bytes that are given.

    python3 python/shard_checks.py

It takes Python 3.11 and the library (c/build makes it), and no program. What is expected is typed in, or reckoned by
hashlib, or is a difference of Python's own sets, or a worked case of docs/vectors. The last line is 'N passed, M
failed'.
"""

from __future__ import annotations

import functools
import hashlib
import pickle
import socket
import subprocess
import sys
import threading
import tomllib
import unittest
from collections.abc import Callable, Iterable, Iterator
from pathlib import Path
from typing import Any, Union

from counted import main
from rangesync import Answered, Incomplete, Learned, Reconciled, Refused, Set, Shards, Strategy
from rangesync import run, shard_of
from shard_peers import SECONDS, Counted, Near, Played, entry, number_of, outcome_of, refusal_of

TOP = Path(__file__).resolve().parent.parent
EIGHT = Strategy((TOP / "examples/eight.toml").read_bytes())
ALL_ROUND = Strategy((TOP / "examples/all-round.toml").read_bytes())
large = functools.partial(Shards, ALL_ROUND)
NOTHING = bytes(32)


def items_of(numbers: Iterable[int]) -> set[bytes]:
    """Items of 4 to 64 bytes all over the order, one for each number."""
    return {hashlib.sha512(b"%d" % number).digest()[: 4 + number % 61] for number in numbers}


HERE, THERE = items_of(range(20, 3000)), items_of(range(2985))
OURS, THEIRS = HERE - THERE, THERE - HERE


def differing(bits: int) -> int:
    """How many shards of HERE and THERE differ."""
    return len({number_of(item, bits) for item in OURS | THEIRS})


class Check(unittest.TestCase):
    def refuses(self, text: str, call: Callable[[], object]) -> Refused:
        """Sees that a call is refused in these words."""
        with self.assertRaises(Refused) as raised:
            call()
        self.assertEqual(str(raised.exception), text)
        return raised.exception


class Kept(Check):
    """A set in shards without a peer."""

    def test_shard_of(self) -> None:
        """The digests of a, b and c begin with ca9, 3e2 and 2e7."""
        for item, twelve, two, one in (b"a", 0xCA9, 3, 1), (b"b", 0x3E2, 0, 0), (b"c", 0x2E7, 0, 0):
            self.assertEqual([shard_of(item, bits) for bits in (12, 2, 1, 0)], [twelve, two, one, 0])
        self.assertEqual(shard_of(bytearray(b"a"), 12), 3241)
        self.assertRaises(TypeError, shard_of, "a", 2)

    def test_held(self) -> None:
        for bits in (0, 1, 4, 12):
            with large(bits, iter(HERE), b"name") as held:
                self.assertEqual((len(held), sorted(held), held.bits, held.name), (2980, sorted(HERE), bits, b"name"))
                self.assertEqual((next(iter(THEIRS)) in held, next(iter(OURS)) in held), (False, True))
                self.assertEqual((held.update(THERE), held.update(THERE), len(held)), (20, 0, 3000))
        held = large(4)
        self.assertEqual((len(held), list(held)), (0, []))
        self.assertEqual((held.insert(b"a"), held.insert(memoryview(b"a")), len(held)), (True, False, 1))
        self.assertEqual(list(large(1, [memoryview(b"abcdef")[::2]])), [b"ace"])

    def test_items_that_are_none(self) -> None:
        held = large(2)
        for item, text in (b"", "refused 71 Empty"), (b"x" * 65, "refused 72 TooLong"):
            self.refuses(text, lambda item=item: large(2, [b"a", item]))  # type: ignore[misc]
            self.refuses(text, lambda item=item: held.insert(item))  # type: ignore[misc]
            self.refuses(text, lambda item=item: item in held)  # type: ignore[misc]
            self.refuses(text, lambda item=item: held.update([b"a", item, b"b"]))  # type: ignore[misc]
        self.assertEqual(list(held), [b"a"])
        self.assertRaises(TypeError, held.insert, "text")

    def test_a_shard_without_room(self) -> None:
        """Of the letters, those whose digests have these first bits: nine in shard 1 of two, under a cap of eight."""
        letters = [b"%d" % number for number in range(100)]
        ones = [item for item in letters if hashlib.sha256(item).digest()[0] >= 0x80]
        noughts = [item for item in letters if hashlib.sha256(item).digest()[0] < 0x80]
        fault = self.refuses("refused 82 TooManyItems in shard 1", lambda: Shards(EIGHT, 1, ones[:9] + noughts[:8]))
        self.assertEqual((fault.number, fault.shard, fault.by_peer), (82, 1, False))
        first = self.refuses("refused 82 TooManyItems in shard 0", lambda: Shards(EIGHT, 1, ones[:9] + noughts[:9]))
        self.assertEqual(pickle.loads(pickle.dumps(first)).shard, 0)
        full = Shards(EIGHT, 1, ones[:8])
        self.refuses("refused 40 Full in shard 1", lambda: full.update([noughts[0], ones[8], noughts[1]]))
        self.assertEqual((len(full), noughts[0] in full, noughts[1] in full), (9, True, False))
        self.assertIsNone(self.refuses("refused 71 Empty", lambda: full.insert(b"")).shard)

    def test_a_shard_of_65536_items(self) -> None:
        items = [b"%d" % number for number in range(65_537)]
        self.assertEqual(len(large(0, items[1:])), 65_536)
        self.refuses("refused 82 TooManyItems in shard 0", lambda: large(0, items))

    def test_a_directory_without_room(self) -> None:
        """The cap holds for the directory too: 16 entries are more than 8."""
        self.assertIsNone(self.refuses("refused 82 TooManyItems", lambda: Shards(EIGHT, 4)).shard)
        self.assertEqual(len(Shards(EIGHT, 3)), 0)

    def test_out_of_range(self) -> None:
        for bits in (-1, 13):
            self.assertRaisesRegex(ValueError, "^bits is to be 0 to 12$", large, bits)
        self.assertRaisesRegex(ValueError, "at most 64 bytes", large, 1, [], b"n" * 65)
        self.assertEqual(large(1, [], b"n" * 64).name, b"n" * 64)
        for only in [], [4], [-1], [0, 0xFFFF]:
            self.assertRaisesRegex(ValueError, "of 0 to 3$", functools.partial(large, 2, [], b"", only))
        self.assertRaises(TypeError, large, 1, [], "text")
        self.assertRaisesRegex(ValueError, "at_once", functools.partial(large(1).reconcile, Near(print).connect, 1, 0))
        self.refuses("refused 98 NotThere", lambda: large(1).reconcile(Near(print).connect, 3))

    def test_some_of_the_shards(self) -> None:
        """The item a is in shard 3 of four, b and c in shard 0."""
        some = large(2, [b"a"], b"", [3, 1])
        for call in (lambda: some.insert(b"b"), lambda: large(2, [b"a", b"b"], b"", [3])):
            self.assertRaisesRegex(ValueError, "^shard 0 is not kept here$", call)
        self.assertEqual((b"b" in some, b"a" in some, list(some)), (False, True, [b"a"]))

    def test_closed(self) -> None:
        with large(2, [b"a"]) as held:
            pass
        calls: list[Callable[[], object]] = [lambda: held.insert(b"b"), lambda: list(held), lambda: b"a" in held]
        calls += [lambda: held.reconcile(Near(print).connect), held.__len__]
        calls.append(lambda: held.answer(Played(bytes.fromhex("5252534e0002ffff") + b"RRS1")))
        for call in calls:
            self.assertRaises(ValueError, call)


class Between(Check):
    """HERE on this side and THERE on the other, over socket pairs."""

    def finds(self, found: Reconciled, bits: int) -> None:
        """Sees that the differences were found, each item once, rising."""
        differ = differing(bits) if bits else 1
        self.assertEqual(found, Reconciled(sorted(OURS), sorted(THEIRS), differ))

    def test_by_bits(self) -> None:
        """In both profiles, one session after the other and eight at once: a connection each."""
        for bits in (0, 1, 4, 12):
            here, there = large(bits, HERE, b"set"), large(bits, THERE, b"set")
            for profile, at_once in (1, 1), (2, 8):
                with self.subTest(bits=bits, profile=profile), Near(there.answer) as near:
                    self.finds(here.reconcile(near.connect, profile, at_once), bits)
                    self.assertEqual(len(near.made), 1 + differing(bits) if bits else 1)
                self.answered(near.came, bits)
            self.assertEqual((sorted(here), sorted(there)), (sorted(HERE), sorted(THERE)))

    def answered(self, came: list[object], bits: int) -> None:
        """Sees what the other side learned: of the directory nothing, and all of the shards together."""
        told = [each for each in came if isinstance(each, Answered)]
        self.assertEqual(len(told), len(came))
        directories = [each.learned for each in told if each.shard is None]
        self.assertEqual(directories, [Learned([], [])] if bits else [])
        shards = [each for each in told if each.shard is not None]
        for each in shards:
            self.assertEqual({number_of(item, bits) for item in each.learned.ours + each.learned.theirs}, {each.shard})
        self.assertEqual(sorted(item for each in shards for item in each.learned.ours), sorted(THEIRS))
        self.assertEqual(sorted(item for each in shards for item in each.learned.theirs), sorted(OURS))

    def test_equal_sets(self) -> None:
        """The session over the directories alone: 57 bytes in profile 1, 61 in profile 2, and the selector."""
        for bits in (0, 1, 4, 12):
            here, there = large(bits, HERE), large(bits, HERE)
            for profile, size in (1, 57 + 8), (2, 61 + 8):
                with Near(there.answer) as near:
                    self.assertEqual(here.reconcile(near.connect, profile), Reconciled([], [], 0))
                self.assertEqual([each.bytes for each in near.made], [size])
        with Near(large(4, HERE, b"n" * 64).answer) as near:
            large(4, HERE, b"n" * 64).reconcile(near.connect)
        self.assertEqual([each.bytes for each in near.made], [57 + 8 + 64])

    def test_parts(self) -> None:
        """The items between two bounds, from one on, or before one; of the last part nothing differs."""
        middle = sorted(OURS)[7]
        one = middle, middle + b"\0"
        for start, end in (b"\x40", b"\xc0"), (middle, b""), (b"", middle), one, (b"\xff" * 64, b""):

            def within(items: Iterable[bytes]) -> list[bytes]:
                return sorted(item for item in items if start <= item and (not end or item < end))

            ours, theirs = within(OURS), within(THEIRS)
            for bits in (0, 1, 4):
                here, there = large(bits, HERE, b"set"), large(bits, THERE, b"set")
                differ = len({number_of(item, bits) for item in ours + theirs})
                for profile, at_once in (1, 1), (2, 8):
                    with self.subTest(bits=bits, profile=profile, start=start), Near(there.answer) as near:
                        found = here.reconcile(near.connect, profile, at_once, start, end)
                    self.assertEqual(found, Reconciled(ours, theirs, differ))
                    self.assertEqual(len(near.made), 1 + differ if bits else 1)

    def test_bounds_that_are_none(self) -> None:
        here = large(2, HERE)
        for start, end, text in [
            (b"x" * 65, b"", "refused 72 TooLong"),
            (b"", b"x" * 65, "refused 72 TooLong"),
            (b"b", b"b", "refused 73 EmptyRange"),
            (b"ba", b"b", "refused 73 EmptyRange"),
        ]:
            with Near(print) as near:
                asked = functools.partial(here.reconcile, near.connect, 1, 1, start, end)
                self.refuses(text, asked)
            self.assertEqual(near.made, [])
        self.assertRaises(TypeError, here.reconcile, near.connect, 1, 1, "text")

    def test_a_part_of_what_is_not_kept(self) -> None:
        """The number is judged before the bounds, whether they come or not."""
        some = large(2, [], b"", [1])
        for asked, outcome in [
            ("52525350 00 02 0001", "refused 3"),
            ("52525350 00 02 0000", "refused 55"),
            ("52525350 00 02 0000 01 62 00 52525331", "refused 55"),
            ("52525350 00 02 0001 01 62 00 52525333", "refused 1"),
        ]:
            connection = Played(bytes.fromhex(asked))
            self.assertEqual(outcome_of(functools.partial(some.answer, connection)), outcome)

    def test_each_takes_in(self) -> None:
        """What was found is put in on both sides, after which the directories are equal."""
        here, there = large(4, HERE), large(4, THERE)

        def answer(connection: socket.socket) -> int:
            return there.update(there.answer(connection).learned.theirs)

        with Near(answer) as near:
            self.assertEqual(here.update(here.reconcile(near.connect).theirs), len(THEIRS))
        self.assertEqual(sum(each for each in near.came if isinstance(each, int)), len(OURS))
        self.assertEqual((set(here), set(there)), (HERE | THERE, HERE | THERE))
        with Near(there.answer) as near:
            self.assertEqual(here.reconcile(near.connect), Reconciled([], [], 0))
        there.insert(b"new")
        with Near(there.answer) as near:
            self.assertEqual(here.reconcile(near.connect), Reconciled([], [b"new"], 1))

    def test_of_the_time_of_the_call(self) -> None:
        """What is put in while the sessions run is not found."""
        here, there = large(2, HERE), large(2, THERE)
        with Near(there.answer) as near:

            def connect() -> Counted:
                here.insert(b"new %d" % len(near.made))
                return near.connect()

            self.finds(here.reconcile(connect), 2)
        self.assertEqual(len(here), len(HERE) + 5)

    def test_some_of_the_shards(self) -> None:
        """Three sides that keep some of 16 shards each, and one that has all; either speaks first."""
        whole = large(4, THERE)
        owners = [[number for number in range(16) if number % 3 == place] for place in range(3)]
        for only in owners:
            items = {item for item in HERE if number_of(item, 4) in only}
            some = large(4, items, b"", only)
            ours = sorted(item for item in OURS if number_of(item, 4) in only)
            theirs = sorted(item for item in THEIRS if number_of(item, 4) in only)
            with Near(whole.answer) as near:
                found = some.reconcile(near.connect)
            self.assertEqual((found.ours, found.theirs), (ours, theirs))
            first = min(set(range(16)) - set(only))
            with Near(some.answer) as near:
                fault = self.refuses(f"refused 56 NoShard in shard {first}", lambda: whole.reconcile(near.connect))
            self.assertEqual((fault.number, fault.shard, fault.by_peer, len(near.made)), (56, first, False, 1))

    def test_a_process(self) -> None:
        """The other side is another process, and has the shards of THERE."""
        lines = "import contextlib, hashlib, socket, sys; sys.path.insert(0, sys.argv[1])\n"
        lines += "from rangesync import Refused, Shards, Strategy\n"
        lines += "names = (hashlib.sha512(b'%d' % n).digest()[: 4 + n % 61] for n in range(2985))\n"
        lines += "held = Shards(Strategy(open(sys.argv[2], 'rb').read()), int(sys.argv[3]), names, b'far')\n"
        lines += "listener = socket.create_server(('127.0.0.1', 0)); print(listener.getsockname()[1], flush=True)\n"
        lines += "while True:\n    with listener.accept()[0] as connection, contextlib.suppress(Refused):\n"
        lines += "        held.answer(connection)\n"
        for bits in (0, 1, 4, 12):
            call = [sys.executable, "-c", lines, str(TOP / "python"), str(TOP / "examples/all-round.toml"), str(bits)]
            with subprocess.Popen(call, stdout=subprocess.PIPE) as process:
                try:
                    assert process.stdout
                    address = ("127.0.0.1", int(process.stdout.readline()))
                    connect = functools.partial(socket.create_connection, address, SECONDS)
                    self.finds(large(bits, HERE, b"far").reconcile(connect), bits)
                    self.refuses("peer refused 55 WrongSet", lambda: large(bits, HERE, b"near").reconcile(connect))
                finally:
                    process.kill()

    def test_threads(self) -> None:
        """Eight sides ask one that grows meanwhile."""
        there = large(4, THERE)
        with Near(there.answer) as near:
            found: list[Reconciled] = []

            def ask() -> None:
                found.append(large(4, HERE).reconcile(near.connect, 1, 2))

            threads = [threading.Thread(target=ask) for _ in range(8)]
            for thread in threads:
                thread.start()
            self.assertEqual(there.update(b"new %d" % number for number in range(500)), 500)
            for thread in threads:
                thread.join(SECONDS)
        self.assertEqual(len(found), 8)
        for each in found:
            self.assertEqual(each.ours, sorted(OURS))
            self.assertEqual(set(each.theirs) - {b"new %d" % number for number in range(500)}, THEIRS)


class Broken(Check):
    """Peers that stop, that refuse, or that have no directory."""

    def test_a_peer_that_stops(self) -> None:
        """It answers the directory and three shards. What was learned of these is kept, and nobody else is asked."""
        here, there = large(4, HERE), large(4, THERE)
        numbers = sorted({number_of(item, 4) for item in OURS | THEIRS})
        tries: list[None] = []
        with Near(there.answer) as near:

            def connect() -> Counted:
                tries.append(None)
                if len(tries) > 4:
                    raise ConnectionRefusedError("nobody is there")
                return near.connect()

            with self.assertRaises(Incomplete) as raised:
                here.reconcile(connect)
        fault = raised.exception
        done = [item for item in OURS if number_of(item, 4) in numbers[:3]]
        others = [item for item in THEIRS if number_of(item, 4) in numbers[:3]]
        self.assertEqual(fault.found, Reconciled(sorted(done), sorted(others), len(numbers)))
        self.assertEqual((list(fault.faults), len(tries)), (numbers[3:], 5))
        self.assertEqual({type(each) for each in fault.faults.values()}, {ConnectionRefusedError})
        self.assertIs(fault.__cause__, fault.faults[numbers[3]])
        words = f"{len(numbers) - 3} of {len(numbers)} shards that differ are not reconciled; "
        self.assertEqual(str(fault), f"{words}shard {numbers[3]}: nobody is there")
        again = pickle.loads(pickle.dumps(fault))
        self.assertEqual((again.found, list(again.faults), str(again)), (fault.found, numbers[3:], str(fault)))

    def test_a_session_that_breaks_off(self) -> None:
        """The second shard's connection ends after the hello; the others are reconciled, several at once too."""
        here, there = large(4, HERE), large(4, THERE)
        numbers = sorted({number_of(item, 4) for item in OURS | THEIRS})

        def answer(connection: socket.socket) -> None:
            asked = connection.recv(8, socket.MSG_PEEK)
            if asked[6:] == numbers[1].to_bytes(2, "big"):
                connection.sendall(b"RRS1")
                connection.shutdown(socket.SHUT_WR)
                while connection.recv(65_536):
                    pass
            else:
                there.answer(connection)

        for at_once in (1, 4):
            with Near(answer) as near, self.assertRaises(Incomplete) as raised:
                here.reconcile(near.connect, 1, at_once)
            found, faults = raised.exception.found, raised.exception.faults
            told = {number: str(each) for number, each in faults.items()}
            self.assertEqual(told, {numbers[1]: "refused 3 Truncated"})
            self.assertEqual(found.ours, sorted(item for item in OURS if number_of(item, 4) != numbers[1]))
            self.assertEqual(found.theirs, sorted(item for item in THEIRS if number_of(item, 4) != numbers[1]))

    def test_before_the_directory(self) -> None:
        """Nothing is known then: the fault itself is raised. With bits 0 there is one session, and the same holds."""
        for bits in (0, 4):
            here = large(bits, HERE)

            def connect() -> Counted:
                raise ConnectionRefusedError("nobody is there")

            self.assertRaisesRegex(ConnectionRefusedError, "nobody", functools.partial(here.reconcile, connect))
            with Near(lambda connection: connection.recv(65_536)) as near:
                self.refuses("refused 3 Truncated", functools.partial(here.reconcile, near.connect))
                self.assertEqual(len(near.made), 1)
            silent, other = socket.socketpair()
            silent.settimeout(0.05)
            with other:
                self.assertRaises(TimeoutError, here.reconcile, lambda silent=silent: silent)

    def test_directories_that_are_none(self) -> None:
        """The peer has a plain set of what it says are its entries. Nothing is learned, and no shard is asked for."""
        good = [entry(number, 0, NOTHING) for number in range(4)]
        for bad, reason in [
            ([good[3][:37]], "it has 37 bytes, not 38"),
            ([good[3] + b"\0"], "it has 39 bytes, not 38"),
            ([b"\0"], "it has 1 bytes, not 38"),
            ([entry(4, 1, NOTHING)], "it is of shard 4, and there are 4"),
            ([entry(0xFFFF, 1, NOTHING)], "it is of shard 65535, and there are 4"),
            ([entry(3, 65_537, NOTHING)], "its shard has 65537 items, above 65536"),
            ([entry(3, 2**32 - 1, NOTHING)], "its shard has 4294967295 items, above 65536"),
            ([entry(3, 1, NOTHING), entry(3, 2, NOTHING)], "shard 3 has another one"),
        ]:
            directory = Set(ALL_ROUND, [*good, *bad])

            def answer(connection: socket.socket) -> Learned:
                self.assertEqual(connection.recv(8, socket.MSG_WAITALL).hex(), "5252534e0002ffff")
                with directory.respond() as session:
                    return run(session, connection)

            for items in [b"b"], []:
                with self.subTest(reason), Near(answer) as near:
                    fault = self.refuses("refused 57 BadEntry", lambda: large(2, items).reconcile(near.connect))
                    self.assertEqual(len(near.made), 1)
                self.assertRegex(str(fault.__cause__), f"^{bad[-1].hex()} is no entry: {reason}$")

    def test_a_count_of_the_most(self) -> None:
        """65,536 items are none too many: the shard is asked for."""
        directory = Set(ALL_ROUND, [entry(0, 65_536, NOTHING), entry(1, 0, NOTHING)])

        def answer(connection: socket.socket) -> None:
            if connection.recv(8, socket.MSG_WAITALL)[6:] == b"\xff\xff":
                run(directory.respond(), connection)

        with Near(answer) as near, self.assertRaises(Incomplete) as raised:
            large(1).reconcile(near.connect)
        self.assertEqual((list(raised.exception.faults), len(near.made)), ([0], 2))

    def test_wrong_sets(self) -> None:
        """Both sides say so."""
        there = large(2, THERE, b"name")
        for bits, name in (2, b""), (2, b"nam"), (2, b"names"), (2, b"game"), (3, b"name"), (0, b"name"):
            for profile in 1, 2:
                with Near(there.answer) as near:
                    asked = functools.partial(large(bits, HERE, name).reconcile, near.connect, profile)
                    self.refuses("peer refused 55 WrongSet", asked)
                self.assertEqual([str(each) for each in near.came], ["refused 55 WrongSet"])

    def test_a_peer_that_cannot_be_told(self) -> None:
        class Shut(Played):
            def sendall(self, data: bytes, /) -> None:
                raise BrokenPipeError("closed")

        self.refuses("refused 55 WrongSet", lambda: large(2).answer(Shut(bytes.fromhex("5252534e0003"))))
        self.refuses("refused 1 BadHello", lambda: large(2).answer(Shut(b"GET / HTTP/1.1")))

    def test_plain_sides(self) -> None:
        """One side is a `Set`, which speaks of no shards."""
        plain = Set(ALL_ROUND, HERE)
        with Near(lambda connection: run(plain.respond(), connection)) as near:
            self.refuses("peer refused 1 BadHello", lambda: large(0, HERE).reconcile(near.connect))
        for profile in 1, 2:
            with Near(large(0, HERE).answer) as near, near.connect() as connection:
                self.refuses("peer refused 1 BadHello", functools.partial(run, plain.initiate(profile), connection))
            self.assertEqual([str(each) for each in near.came], ["refused 1 BadHello"])


Ended = tuple[str, Union[Reconciled, None], dict[str, str]]


class Worked(Check):
    """The worked cases of docs/vectors."""

    def worked(self, folder: str, least: int) -> Iterator[tuple[str, dict[str, Any]]]:
        """The cases of a folder, at least so many, by the names of their files. The library speaks no compact profile."""
        files = sorted((TOP / "docs/vectors" / folder).glob("*.toml"))
        paths = [path for path in files if "compact-" not in path.stem]
        self.assertGreaterEqual(len(paths), least)
        for path in paths:
            with self.subTest(path.stem):
                yield path.stem, tomllib.loads(path.read_text())

    def held(self, case: dict[str, Any], side: dict[str, Any]) -> Shards:
        table = (TOP / f"docs/vectors/tables/{side['table']}.toml").read_bytes()
        items = map(bytes.fromhex, side["items"])
        return Shards(Strategy(table), case["bits"], items, bytes.fromhex(case.get("name", "")))

    def answers(self, held: Shards, came: bytes, wanted: tuple[str, str]) -> None:
        """Sees how a connection on which these bytes come is answered, in pieces of any size."""
        for most in (1, 7, 65_536):
            connection = Played(came, most)
            self.assertEqual((outcome_of(lambda: held.answer(connection)), connection.wrote.hex()), wanted)

    def test_selectors(self) -> None:
        for _name, case in self.worked("selectors", 67):
            held, selector = self.held(case, case), bytes.fromhex(case["selector"])
            wanted = case["outcome"], bytes.fromhex(case["reply"]).hex()
            self.answers(held, selector + bytes.fromhex(case["message"]), wanted)
            for length in range(len(selector)) if case["outcome"] == "ended" else ():
                self.answers(held, selector[:length], ("refused 3", "52525331000000020503"))

    def test_parts(self) -> None:
        """Of a responder that has neither a name nor shards those that bring a selector of a part: with b = 0 and no
        name all is the same."""
        for _name, case in self.worked("parts", 69):
            if "bits" not in case and not case["selector"].strip().startswith("52525350"):
                continue
            held, selector = self.held({"bits": 0, **case}, case), bytes.fromhex(case["selector"])
            wanted = case["outcome"], bytes.fromhex(case["reply"]).hex()
            self.answers(held, selector + bytes.fromhex(case["message"]), wanted)
            for length in range(len(selector)) if case["outcome"] == "ended" else ():
                self.answers(held, selector[:length], ("refused 3", "52525331000000020503"))

    def test_directories(self) -> None:
        """The entries are what a plain set learns that has none."""
        for _name, case in self.worked("directories", 5):
            held = self.held(case, {**case, "table": "lists-all"})
            with Near(held.answer) as near, near.connect() as connection, Set(ALL_ROUND).initiate() as session:
                connection.sendall(b"RRSN\0" + bytes([case["bits"]]) + b"\xff\xff")
                self.assertEqual(run(session, connection).theirs, list(map(bytes.fromhex, case["entries"])))

    def test_initiators(self) -> None:
        for _name, case in self.worked("shards", 34):
            own, talks = case["initiator"], case["session"]
            connections = [Played(bytes.fromhex(talk["responder"])) for talk in talks]
            waiting = iter(connections)
            outcome, found, faults = self.reconciled(self.held(case, own), lambda: next(waiting), case["profile"])
            self.assertEqual((outcome, faults), (own["outcome"], own.get("faults", {})))
            if found is not None:
                learned = [item.hex() for item in found.ours], [item.hex() for item in found.theirs]
                self.assertEqual((*learned, found.differ), (own["ours"], own["theirs"], own["differ"]))
            wrote = [bytes.fromhex(talk["selector"] + talk["initiator"]).hex() for talk in talks]
            self.assertEqual([each.wrote.hex() for each in connections], wrote)

    def reconciled(self, held: Shards, connect: Callable[[], Played], profile: int) -> Ended:
        """How it ended, what was found, and the refusals by the numbers of the shards."""
        try:
            return "ended", held.reconcile(connect, profile), {}
        except Incomplete as fault:
            told = {str(number): refusal_of(each) for number, each in fault.faults.items()}
            return "incomplete", fault.found, told
        except Refused as fault:
            return refusal_of(fault), None, {}

    def test_responders(self) -> None:
        for _name, case in self.worked("shards", 34):
            for talk in case["session"] if "responder" in case else ():
                came, wanted = bytes.fromhex(talk["selector"] + talk["initiator"]), bytes.fromhex(talk["responder"])
                self.answers(self.held(case, case["responder"]), came, ("ended", wanted.hex()))


if __name__ == "__main__":
    sys.exit(main(__name__))
