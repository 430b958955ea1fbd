"""Tests of rangesync.py: sessions with the program's `serve` and `sync` over the loopback, and calls without them.

    python3 python/checks.py

It takes Python 3.11, the library (c/build makes it) and the program (./build makes it; RANGESYNC names another). What
is expected is typed in, or is a difference of Python's own sets, or a worked case of docs/vectors. The last line is
'N passed, M failed'.
"""

from __future__ import annotations

import contextlib
import functools
import hashlib
import os
import re
import socket
import subprocess
import sys
import tempfile
import threading
import tomllib
import unittest
from collections.abc import Callable, Iterable, Iterator
from concurrent.futures import ThreadPoolExecutor
from pathlib import Path
from typing import Any

from counted import main
from rangesync import Learned, Refused, Session, Set, State, Strategy, run

TOP = Path(__file__).resolve().parent.parent
PROGRAM = os.environ.get("RANGESYNC") or str(TOP / "crates/rangesync/out/rangesync")
ALL_ROUND = TOP / "examples/all-round.toml"
EIGHT = (TOP / "examples/eight.toml").read_bytes()
# Sets of at most 8 and of at most 65,536 items.
eight = functools.partial(Set, Strategy(EIGHT))
large = functools.partial(Set, Strategy(ALL_ROUND.read_bytes()))
SECONDS = 60  # How long a test waits for a peer.


def items_of(numbers: Iterable[int]) -> set[bytes]:
    """Items of 4 to 64 bytes all over the order, one for each number."""
    return {hashlib.sha512(b"%d" % number).digest()[: 4 + number % 61] for number in numbers}


HERE, THERE = items_of(range(20, 1000)), items_of(range(985))
OURS, THEIRS = HERE - THERE, THERE - HERE


def speak(one: Session, other: Session, most: int = 65_536) -> int:
    """Moves what is due from each to the other until nothing is, in pieces of at most so many; how many bytes."""
    moved = 0
    while pieces := [(other, piece) for piece in one.pulls(most)] + [(one, piece) for piece in other.pulls(most)]:
        moved += sum(session.push(piece) for session, piece in pieces)
    return moved


def outcome(session: Session) -> str:
    """`open`, `ended`, `refused NUMBER` or `peer refused NUMBER`."""
    words = session.state.name.lower().replace("_", " ")
    return words if session.refusal is None else f"{words} {session.refusal}"


def worked_set(case: dict[str, Any]) -> Set:
    """The items of a case of docs/vectors, under its table."""
    table = (TOP / f"docs/vectors/tables/{case['table']}.toml").read_bytes()
    return Set(Strategy(table), map(bytes.fromhex, case["items"]))


@contextlib.contextmanager
def program(*words: str) -> Iterator[subprocess.Popen[str]]:
    """The program as it runs; it is ended in every case."""
    with subprocess.Popen([PROGRAM, *words], stdout=subprocess.PIPE, stderr=subprocess.PIPE, text=True) as process:
        alarm = threading.Timer(SECONDS, process.kill)
        alarm.start()
        try:
            yield process
        finally:
            alarm.cancel()
            process.kill()


def port_of(server: subprocess.Popen[str]) -> int:
    """The port at which a server says that it listens."""
    assert server.stderr is not None
    return int(server.stderr.readline().rpartition(":")[2])


def difference_lines(ours: set[bytes], theirs: set[bytes]) -> list[str]:
    """What the program prints of a difference."""
    return [f"ours {item.hex()}" for item in sorted(ours)] + [f"theirs {item.hex()}" for item in sorted(theirs)]


class Check(unittest.TestCase):
    def refuses(self, text: str, call: Callable[[], object]) -> None:
        """Sees that a call is refused by this number and name."""
        with self.assertRaises(Refused) as raised:
            call()
        self.assertEqual(str(raised.exception), text)

    def finds(self, learned: Learned, ours: set[bytes], theirs: set[bytes]) -> None:
        """Sees that this was learned, each item once, rising."""
        self.assertEqual(learned, Learned(sorted(ours), sorted(theirs)))


class WithTheProgram(Check):
    """Sessions of HERE, which is on this side, and THERE, which is on the program's."""

    def setUp(self) -> None:
        folder = tempfile.TemporaryDirectory()
        self.addCleanup(folder.cleanup)
        items, self.report = Path(folder.name, "items"), Path(folder.name, "report")
        items.write_text("".join(f"{item.hex()}\n" for item in THERE))
        self.words = ["--table", str(ALL_ROUND), str(items)]

    def first(self, profile: int, most: int) -> None:
        """This side speaks first, to `serve`."""
        words = ["--addr", "127.0.0.1:0", "--sessions", "1", "--workers", "1", "--report", str(self.report)]
        with program("serve", *words, *self.words) as process, large(HERE).initiate(profile) as session:
            with socket.create_connection(("127.0.0.1", port_of(process)), SECONDS) as connection:
                self.finds(run(session, connection, most), OURS, THEIRS)
            said = process.communicate(timeout=SECONDS)[0].splitlines()
            sent = int(said[1].rpartition(" ")[2])
            self.assertIn(session.sent - sent, (0, 1))
        totals = f"opened 1 ended 1 refused 0 io 0 memory 0 messages {sent}"
        self.assertEqual((said[1:], process.returncode), ([totals, f"items {len(HERE | THERE)}"], 0))
        found = [f"session 1 version {len(THERE)} sent {sent}", *difference_lines(THEIRS, OURS)]
        self.assertEqual(self.report.read_text().splitlines(), found)

    test_first_in_profile_1_by_1_byte = functools.partialmethod(first, 1, 1)
    test_first_in_profile_1_by_1000_bytes = functools.partialmethod(first, 1, 1000)
    test_first_in_profile_2_by_1_byte = functools.partialmethod(first, 2, 1)
    test_first_in_profile_2_by_1000_bytes = functools.partialmethod(first, 2, 1000)

    def second(self, profile: int, most: int) -> None:
        """This side is spoken to first, by `sync`."""
        with socket.create_server(("127.0.0.1", 0)) as listener, large(HERE).respond(profile) as session:
            listener.settimeout(SECONDS)
            words = ["--addr", f"127.0.0.1:{listener.getsockname()[1]}", "--profile", str(profile)]
            with program("sync", *words, *self.words) as process:
                with listener.accept()[0] as connection:
                    connection.settimeout(SECONDS)
                    self.finds(run(session, connection, most), OURS, THEIRS)
                said = process.communicate(timeout=SECONDS)[0].splitlines()
            self.assertIn(int(said[1].removeprefix("sent ")) - session.sent, (0, 1))
        found = [f"version {len(THERE)}", *difference_lines(THEIRS, OURS)]
        self.assertEqual(([said[0], *said[2:]], process.returncode), (found, 0))

    test_second_in_profile_1_by_1_byte = functools.partialmethod(second, 1, 1)
    test_second_in_profile_1_by_1000_bytes = functools.partialmethod(second, 1, 1000)
    test_second_in_profile_2_by_1_byte = functools.partialmethod(second, 2, 1)
    test_second_in_profile_2_by_1000_bytes = functools.partialmethod(second, 2, 1000)

    def test_part_with_serve(self) -> None:
        """A session over a part, after its selector: the server answers for its own items there."""
        lower, upper = b"\x40", b"\xc0"
        inside = {item for item in HERE | THERE if lower <= item < upper}
        words = ["--addr", "127.0.0.1:0", "--sessions", "1", "--workers", "1"]
        part = large(HERE).version().part(lower, upper)
        with program("serve", *words, *self.words) as process, part.initiate() as session:
            with socket.create_connection(("127.0.0.1", port_of(process)), SECONDS) as connection:
                connection.sendall(b"RRSP" + bytes(4) + b"\x01" + lower + b"\x01" + upper)
                self.finds(run(session, connection), OURS & inside, THEIRS & inside)
            said = process.communicate(timeout=SECONDS)[0].splitlines()
        self.assertEqual((said[2], process.returncode), (f"items {len(THERE | HERE & inside)}", 0))

    def test_both_profiles_at_once(self) -> None:
        """One server, and two connections that take turns, one in each profile."""
        words = ["--addr", "127.0.0.1:0", "--sessions", "2", "--workers", "2"]
        with program("serve", *words, *self.words) as process, contextlib.ExitStack() as held:
            address = ("127.0.0.1", port_of(process))
            sessions = [held.enter_context(large(HERE).initiate(profile)) for profile in (1, 2)]
            connections = [held.enter_context(socket.create_connection(address, SECONDS)) for _ in sessions]
            open_sessions = [2]
            while open_sessions[-1]:
                for session, connection in zip(sessions, connections):
                    if session.state is State.OPEN:
                        connection.sendall(b"".join(session.pulls()))
                        came = connection.recv(65_536)
                        self.assertTrue(came)
                        self.assertEqual(session.push(came), len(came))
                open_sessions.append(sum(session.state is State.OPEN for session in sessions))
            for session, connection in zip(sessions, connections):
                connection.sendall(b"".join(session.pulls()))
                self.finds(session.learned(), OURS, THEIRS)
            said = process.communicate(timeout=SECONDS)[0].splitlines()
        self.assertEqual(open_sessions[1], 2)
        self.assertEqual(said[1].rpartition(" messages ")[0], "opened 2 ended 2 refused 0 io 0 memory 0")
        self.assertEqual((said[2], process.returncode), (f"items {len(HERE | THERE)}", 0))

    def test_refused_by_serve(self) -> None:
        with program("serve", "--addr", "127.0.0.1:0", *self.words) as process, large(HERE).initiate() as session:
            with socket.create_connection(("127.0.0.1", port_of(process)), SECONDS) as connection:
                connection.sendall(session.pull() + bytes.fromhex("00000000"))
                self.refuses("peer refused 2 FrameLength", lambda: run(session, connection))


class WithoutTheProgram(Check):
    """Two sessions that speak to each other in this process, one that is given bytes, and single calls."""

    def test_pairs(self) -> None:
        for profile, most in (1, 1), (1, 1000), (2, 1), (2, 1000):
            with large(HERE).initiate(profile) as one, large(THERE).respond(profile) as other:
                speak(one, other, most)
                self.finds(one.learned(), OURS, THEIRS)
                self.finds(other.learned(), THEIRS, OURS)
                self.assertEqual((list(one.ours()), list(one.theirs())), (sorted(OURS), sorted(THEIRS)))
                self.assertIn(one.sent - other.sent, (0, 1))

    def test_equal_sets(self) -> None:
        for profile, size in (1, 57), (2, 61):
            one, other = large(HERE).initiate(profile), large(HERE).respond(profile)
            self.assertEqual(speak(one, other), size)
            self.assertEqual((one.learned(), other.learned()), (Learned([], []), Learned([], [])))

    def test_bounds(self) -> None:
        """The steps of examples/eight.toml are 1 2 4 8: so 8 items have the rank 3, and 2 items 1."""
        for held, rank in (eight(bytes([number]) for number in range(8)), 3), (eight([b"a", b"b"]), 1):
            self.assertEqual((held.initiate().bound, held.respond().bound), (rank + 2, rank + 1))

    def worked(self, folder: str, least: int) -> Iterator[tuple[str, dict[str, Any]]]:
        """The cases of a folder of docs/vectors, at least so many, by the names of their files.

        The library does not speak the compact profile.
        """
        files = sorted((TOP / "docs/vectors" / folder).glob("*.toml"))
        paths = [path for path in files if "compact-" not in path.stem]
        self.assertGreaterEqual(len(paths), least)
        return ((path.stem, tomllib.loads(path.read_text())) for path in paths)

    def worked_cases(self, folder: str) -> None:
        """The cases of such a folder: each side that has a table, over all that the other side writes."""
        for name, case in self.worked(folder, 20):
            for role, peer in ("initiator", "responder"), ("responder", "initiator"):
                for most in (1, 1000) if "table" in case[role] else ():
                    with self.subTest(name, role=role, most=most):
                        self.worked_case(role, case[role], bytes.fromhex(case[peer]["writes"]), most)

    def worked_case(self, role: str, side: dict[str, Any], came: bytes, most: int) -> None:
        held, writes = worked_set(side), bytes.fromhex(side["writes"])
        profile = {b"RRS1": 1, b"RRS2": 2}[writes[:4]]
        session = held.initiate(profile) if role == "initiator" else held.respond(profile)
        wrote = b""
        for at in range(0, len(came), most):
            session.push(came[at : at + most])
            wrote += session.pull(most)
        session.finish()
        wrote += b"".join(session.pulls(most))
        self.assertEqual((wrote.hex(), outcome(session), session.sent), (writes.hex(), side["outcome"], side["sent"]))
        if session.state is State.ENDED:
            ours, theirs = (list(map(bytes.fromhex, side[key])) for key in ("ours", "theirs"))
            self.finds(session.learned(), set(ours), set(theirs))
            self.assertEqual(session._items("rs_session_ours", len(ours)), ours)
            self.assertEqual(session._items("rs_session_theirs", len(theirs)), theirs)

    test_worked_sessions = functools.partialmethod(worked_cases, "sessions")
    test_worked_faults = functools.partialmethod(worked_cases, "faults")

    def test_worked_replies(self) -> None:
        """A responder that has had the hello of profile 1 is given a first message. A reply of no parts ends it."""
        end = bytes.fromhex("00000001 04")
        for name, case in self.worked("replies", 12):
            message = bytes.fromhex(case["message"])
            if "refused" in case:
                wanted = bytes([0, 0, 0, 2, 5, case["refused"]]), f"refused {case['refused']}", 0
            else:
                reply = bytes.fromhex(case["reply"])
                wanted = reply, "ended" if reply == end else "open", 1
            for most in (1, 1000):
                with self.subTest(name, most=most), worked_set(case).respond() as session:
                    session.push(b"RRS1")
                    self.assertEqual(b"".join(session.pulls()), b"RRS1")
                    for at in range(0, len(message), most):
                        session.push(message[at : at + most])
                    self.assertEqual((b"".join(session.pulls(most)), outcome(session), session.sent), wanted)

    def test_worked_fingerprints(self) -> None:
        """The hello of an initiator, and a first message of one Sum over everything."""
        for name, case in self.worked("fingerprints", 7):
            for profile, front in (1, "52525331 00000023 0100ff"), (2, "52525332 00000027 0100ff"):
                first = bytes.fromhex(f"{front} {case[f'profile_{profile}']} 00000001 04")
                held = large(map(bytes.fromhex, case["items"]))
                with self.subTest(name, profile=profile), held.initiate(profile) as session:
                    self.assertEqual((b"".join(session.pulls()), session.sent), (first, 1))

    def test_other_hellos(self) -> None:
        for came in b"RRS2", b"GET / HTTP/1.1\r\n\r\n", bytes(100):
            session = eight([b"abc"]).respond(1)
            self.assertEqual((session.push(came[:3]), outcome(session)), (3, "open"))
            self.assertEqual((session.push(came[3:]), outcome(session)), (len(came) - 3, "refused 1"))
            self.assertEqual((session.pull(), session.pull()), (b"RRS1" + bytes.fromhex("000000020501"), b""))
            self.refuses("refused 1 BadHello", session.learned)

    def test_finished_early(self) -> None:
        session = eight([]).initiate(2)
        first = bytes.fromhex(f"52525332 00000027 0100ff 00000000 {'00' * 32} 00000001 04")
        self.assertEqual(b"".join(session.pulls(10)), first)
        session.finish()
        self.assertEqual((outcome(session), session.pull()), ("refused 3", bytes.fromhex("00000002 0503")))
        self.refuses("refused 3 Truncated", session.theirs)

    def test_told_by_the_peer(self) -> None:
        for number, name in (54, " GateClosed"), (200, ""):
            session = eight([]).respond()
            self.assertEqual(session.push(b"RRS1" + bytes([0, 0, 0, 2, 5, number]) + b"and more"), 18)
            self.assertEqual((session.state, session.refusal), (State.PEER_REFUSED, number))
            self.refuses(f"peer refused {number}{name}", session.learned)

    def test_peer_that_is_gone(self) -> None:
        one, other = socket.socketpair()
        with one, other, eight([]).respond() as session:
            other.sendall(b"RRS1")
            other.shutdown(socket.SHUT_WR)
            self.refuses("refused 3 Truncated", lambda: run(session, one))
            self.assertEqual(other.recv(99), b"RRS1" + bytes.fromhex("000000020503"))
        one, other = socket.socketpair()
        with one, other, eight([]).respond() as session:
            other.sendall(session.pull()[:3] + b"?")
            other.close()
            self.refuses("refused 1 BadHello", lambda: run(session, one))
            self.assertRaises(OSError, run, eight([]).respond(), one)

    def test_strategies(self) -> None:
        list_1, halves = "{upto = 1, list = true}", "{upto = 8, split = [1, 1]}"
        for text, cap, limit, rounds, rows in [
            ("refused 30 NotToml", "", 1, 3, f"{list_1}, {halves}"),
            ("refused 31 Missing", 8, 1, 3, ""),
            ("refused 32 BadNumber", "8.0", 1, 3, f"{list_1}, {halves}"),
            ("refused 33 RowOrder", 8, 1, 3, f"{list_1}, {list_1}"),
            ("refused 34 RowAction", 8, 8, 3, "{upto = 8, list = false}"),
            ("refused 35 CapMismatch", 9, 1, 3, f"{list_1}, {halves}"),
            ("refused 29 BadBounds", "8\nbounds = 'long'", 1, 3, f"{list_1}, {halves}"),
            ("refused 29 BadBounds", 8, 1, 3, "{upto = 8, list = true, bounds = 'short'}"),
            ("refused 36 NoDescent", 8, 1, 3, f"{list_1}, {{upto = 8, split = [1, 15]}}"),
            ("refused 37 ListTooLong", 8, 0, 3, f"{list_1}, {halves}"),
            ("refused 38 TooDeep", 8, 1, 2, f"{list_1}, {halves}"),
        ]:
            table = f"cap = {cap}\nlimit = {limit}\nrounds = {rounds}\nrow = [{rows}]"
            self.refuses(text, functools.partial(Strategy, table.encode()))

    def test_items(self) -> None:
        small = eight([b"x" * 64])
        for item, text in (b"", "refused 71 Empty"), (b"x" * 65, "refused 72 TooLong"):
            self.refuses(text, functools.partial(eight, [b"a", item]))
            self.refuses(text, functools.partial(small.insert, item))
            self.refuses(text, functools.partial(small.__contains__, item))
        self.refuses("refused 82 TooManyItems", lambda: eight(bytes([number]) for number in range(9)))
        self.assertRaises(TypeError, small.insert, "text")
        self.assertEqual((len(small), b"x" * 64 in small, b"x" * 63 in small), (1, True, False))

    def test_item_files(self) -> None:
        strategy = Strategy(EIGHT)
        hexes, texts = Set.read(strategy, b"6100\n\n 6B\t\r\n6b"), Set.read(strategy, b"a b\n0x00ff\n", text=True)
        self.assertEqual((len(hexes), b"a\0" in hexes, b"k" in hexes), (2, True, True))
        self.assertEqual((len(texts), b"a b" in texts, b"\x00\xff" in texts), (2, True, True))
        self.refuses("refused 81 BadItemLine", lambda: Set.read(strategy, b"61\n6g\n"))

    def test_full_set(self) -> None:
        full = eight(bytes([number]) for number in range(7))
        self.assertEqual((full.insert(bytearray(b"a")), full.insert(memoryview(b"a")), len(full)), (True, False, 8))
        self.refuses("refused 40 Full", lambda: full.insert(b"b"))
        self.assertEqual((full.insert(b"\x06"), len(full), b"b" in full), (False, 8, False))

    def test_versions_stay(self) -> None:
        grows = eight([b"a"])
        old, session, is_new, new = grows.version(), grows.initiate(), grows.insert(b"b"), grows.version()
        self.assertEqual((is_new, len(old), len(new), len(grows)), (True, 1, 2, 2))
        self.assertEqual((b"b" in old, b"b" in new, b"b" in grows, b"a" in old), (False, True, True, True))
        speak(session, new.respond())
        self.assertEqual(session.learned(), Learned([], [b"b"]))

    def test_ranges(self) -> None:
        version = large(HERE).version()
        rising = sorted(HERE)
        bounds = (b"", b""), (rising[7], b""), (b"", rising[9]), (rising[3], rising[500]), (b"\x40", b"\x40\0")
        for lower, upper in bounds:
            wanted = [item for item in rising if lower <= item and (not upper or item < upper)]
            self.assertEqual((list(version.items(lower, upper)), version.count(lower, upper)), (wanted, len(wanted)))
        self.assertEqual(list(version), rising)
        for lower, upper, text in [
            (b"b", b"b", "refused 73 EmptyRange"),
            (b"b", b"a", "refused 73 EmptyRange"),
            (b"b" * 65, b"", "refused 72 TooLong"),
            (b"", b"b" * 65, "refused 72 TooLong"),
        ]:
            self.refuses(text, functools.partial(version.count, lower, upper))

    def test_parts(self) -> None:
        """Two parts are compared, and the whole keeps its other items."""
        here, there, rising = large(HERE).version(), large(THERE).version(), sorted(HERE | THERE)
        bounds = (None, None), (rising[7], b""), (b"", rising[9]), (rising[3], rising[500]), (b"\x40", b"\x40\0")
        for start, end in bounds:
            inside = {item for item in rising if (start or b"") <= item and (not end or item < end)}
            one, other = here.part(start, end), there.part(start=start, end=end)
            self.assertEqual((list(one), list(other)), (sorted(HERE & inside), sorted(THERE & inside)))
            for profile in 1, 2:
                speak(session := one.initiate(profile), peer := other.respond(profile))
                self.finds(session.learned(), OURS & inside, THEIRS & inside)
                self.finds(peer.learned(), THEIRS & inside, OURS & inside)
        self.assertEqual((list(here), list(there)), (sorted(HERE), sorted(THERE)))
        for start, end, text in [
            (b"b", b"b", "refused 73 EmptyRange"),
            (b"b" * 65, None, "refused 72 TooLong"),
            (None, b"b" * 65, "refused 72 TooLong"),
        ]:
            self.refuses(text, functools.partial(here.part, start, end))
        for text in "b", "":
            self.assertRaises(TypeError, here.part, text)

    def test_before_the_end(self) -> None:
        session = eight([b"a"]).initiate()
        for call in session.learned, session.ours, session.theirs:
            self.refuses("refused 98 NotThere", call)
        self.assertEqual((session.state, session.refusal, session.sent), (State.OPEN, None, 1))
        for profile in 0, 3, 2**32 + 1:
            self.refuses("refused 98 NotThere", functools.partial(eight([]).respond, profile))
        for role in 2, 2**32:
            self.refuses("refused 98 NotThere", functools.partial(Session, eight([]).version(), role, 1))
        for most in 0, -1:
            self.assertRaises(ValueError, session.pull, most)

    def test_closed(self) -> None:
        with Strategy(EIGHT) as strategy, Set(strategy, [b"a"]) as held:
            with held.version() as version, version.initiate() as session:
                other = held.respond()
        session.close()
        self.assertRaisesRegex(ValueError, "this Strategy is closed", Set, strategy)
        calls: list[Callable[[], object]] = [held.version, version.__len__, version.respond, session.pull, session.ours]
        for call in calls:
            self.assertRaises(ValueError, call)
        for told in held.insert, held.__contains__, version.__contains__, session.push:
            self.assertRaises(ValueError, told, b"b")
        speak(eight([b"b"]).initiate(), other)
        self.assertEqual(other.learned(), Learned([b"a"], [b"b"]))

    def test_threads(self) -> None:
        """Threads share two sets, one of which grows meanwhile by the items that the other alone had."""
        here, there, more = large(HERE), large(THERE), sorted(THEIRS)

        def learn(profile: int) -> tuple[int, Learned]:
            version = here.version()
            speak(session := version.initiate(profile), there.respond(profile))
            return len(version) - len(HERE), session.learned()

        with ThreadPoolExecutor(4) as threads:
            waiting = [threads.submit(learn, 1 + number % 2) for number in range(40)]
            self.assertTrue(all(map(here.insert, more)))
            for added, learned in (each.result() for each in waiting):
                self.finds(learned, OURS, set(more[added:]))

    def test_names(self) -> None:
        rows = re.findall(r"^\| (\d+) \| (\w+) \|", (TOP / "docs/PROTOCOL.md").read_text(), re.MULTILINE)
        self.assertEqual([(number, Refused(int(number)).name) for number, _name in rows], rows)
        self.assertIn(("54", "GateClosed"), rows)


if __name__ == "__main__":
    sys.exit(main(__name__))
