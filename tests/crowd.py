"""Many peers of a server at once: silent ones, those that drip, floods, and sessions that are recorded and said again.

`strangers`, `watched`, `long/soak`, `long/soak-shards` and `bench/peers` use it.
"""

from __future__ import annotations

import contextlib
import multiprocessing
import os
import resource
import signal
import socket
import subprocess
import threading
import time
from collections.abc import Callable, Iterator, Sequence
from concurrent.futures import ThreadPoolExecutor
from dataclasses import dataclass

import wire

SECONDS = 20.0
"""How long a call of a peer waits that has no time of its own."""
MOST_SUMS = 130_000
"""The Sums of a flood: the most parts of a message, but for those that the reply has more."""
BAD_LENGTH = bytes(4)
"""The beginning of a frame without a body, which is refused 2."""
PIECE = 1 << 16
ONE_ADDRESS = ("--peers-of-one", "65535")
"""The words of a server that lets one address have all places: all peers here come from one, if none is given."""

FIRST = {profile: hello + wire.sum_frame(b"", None, profile) + wire.END for profile, hello in wire.HELLOS.items()}
"""The hello and the first message of a peer whose set is no set of the server's, by profile."""


def allow_descriptors(count: int) -> bool:
    """Lets this process, and those that it starts, open as many files as the system allows; whether it is enough."""
    _, most = resource.getrlimit(resource.RLIMIT_NOFILE)
    resource.setrlimit(resource.RLIMIT_NOFILE, (most, most))
    return most == resource.RLIM_INFINITY or most >= count


def descriptors(process: int) -> int:
    """How many files and sockets the process has open."""
    return len(os.listdir(wire.process_folder(process) / "fd"))


def wrong_items(wanted: set[str], has: set[str], where: str) -> list[str]:
    """What is lost there, and what nobody brought."""
    lost, more = sorted(wanted - has), sorted(has - wanted)
    return [f"not in {where}: {one}" for one in lost[:5]] + [f"in {where}, of nobody: {one}" for one in more[:5]]


def shares(seconds: float, count: int) -> Iterator[str]:
    """Waits these seconds in so many parts, and says after each how many are over."""
    for share in range(1, count + 1):
        time.sleep(seconds / count)
        yield f"after {seconds * share / count:,.0f} s"


@dataclass(frozen=True)
class Served:
    """A server that runs: its process and its address."""

    process: int
    address: str


@contextlib.contextmanager
def served(program: str, table: str, *words: str) -> Iterator[Served]:
    """`serve` of this program, at a port that the system chooses. It is ended in any case."""
    call = [program, "serve", "--table", table, "--addr", "127.0.0.1:0", *words]
    with subprocess.Popen(call, stdout=subprocess.DEVNULL, stderr=subprocess.PIPE, text=True) as server:
        try:
            assert server.stderr is not None
            line = server.stderr.readline()
            if not line.startswith("listening "):
                raise SystemExit(f"{program} does not listen: {line}")
            yield Served(server.pid, line.split()[1])
        finally:
            server.kill()


Crowd = Callable[[], contextlib.AbstractContextManager[object]]


def stay(crowd: Crowd) -> None:
    with crowd():
        while True:
            signal.pause()


@contextlib.contextmanager
def apart(crowd: Crowd) -> Iterator[None]:
    """Keeps a crowd in a process of its own, so that it takes nothing from the threads of this one."""
    process = multiprocessing.get_context("fork").Process(target=stay, args=(crowd,), daemon=True)
    process.start()
    try:
        yield
    finally:
        process.kill()
        process.join()


# Silent ones, and those that drip.


def knock(address: str, count: int, seconds: float = SECONDS, source: str | None = None) -> list[socket.socket]:
    """Connects so often, one after the other, for at most these seconds: the connections that came about."""
    last = time.monotonic() + seconds
    peers: list[socket.socket] = []
    with contextlib.suppress(TimeoutError):
        while len(peers) < count and (left := last - time.monotonic()) > 0:
            peers.append(wire.connected(address, left, source=source))
    return peers


@contextlib.contextmanager
def knocking(
    address: str, count: int, seconds: float = SECONDS, source: str | None = None
) -> Iterator[list[socket.socket]]:
    """So many connections that say nothing, from this address if one is given, closed in any case."""
    peers = knock(address, count, seconds, source)
    try:
        yield peers
    finally:
        for peer in peers:
            peer.close()


def is_closed(peer: socket.socket) -> bool:
    """Whether the server has closed this connection. What it wrote before is read, and lost."""
    peer.setblocking(False)
    try:
        while peer.recv(PIECE):
            pass
    except BlockingIOError:
        return False
    except OSError:
        return True
    return True


def count_closed(peers: Sequence[socket.socket]) -> int:
    return sum(map(is_closed, peers))


class Drips:
    """Sends the bytes of a text to the server on each of these connections, one byte after a pause, in a thread."""

    def __init__(self, peers: Sequence[socket.socket], text: bytes, pause: float) -> None:
        self.peers, self.text, self.pause = peers, text, pause
        self.lost = 0
        """Bytes that no server took."""
        self.ends = threading.Event()
        self.thread = threading.Thread(target=self.run, daemon=True)
        self.thread.start()

    def run(self) -> None:
        for at in range(len(self.text)):
            if self.ends.wait(self.pause):
                return
            for peer in self.peers:
                try:
                    peer.send(self.text[at : at + 1])
                except OSError:
                    self.lost += 1

    def wait(self) -> None:
        """Waits until all bytes are sent."""
        self.thread.join()

    def end(self) -> None:
        self.ends.set()
        self.thread.join()


@contextlib.contextmanager
def dripping(peers: Sequence[socket.socket], text: bytes, pause: float) -> Iterator[Drips]:
    drips = Drips(peers, text, pause)
    try:
        yield drips
    finally:
        drips.end()


# Floods.


Ranges = tuple[tuple[bytes, bytes | None], ...]


class Flood:
    """What peers of this profile say once they have read the server's first reply. It is made of the ranges of that
    reply, and kept while these stay the same."""

    def __init__(self, profile: int, make: Callable[[Ranges], bytes]) -> None:
        self.profile, self.make = profile, make
        self.ranges: Ranges = ()
        self.kept = b""
        self.lock = threading.Lock()

    def text(self, parts: Sequence[bytes]) -> bytes:
        """What is said to a reply of these parts."""
        ranges = tuple(map(wire.bounds, parts))
        with self.lock:
            if ranges != self.ranges:
                self.ranges, self.kept = ranges, self.make(ranges)
            return self.kept


def flood_of_sums(profile: int) -> Flood:
    """A message that cuts the server's ranges into as many Sums as a message may have."""

    def make(ranges: Ranges) -> bytes:
        frames: list[bytes] = []
        for lower, upper in ranges:
            cuts = [lower, *wire.inside(lower, upper, MOST_SUMS // len(ranges) - 1)]
            frames.extend(wire.sum_frame(*pair, profile) for pair in zip(cuts, [*cuts[1:], upper]))
        return b"".join(frames) + wire.END

    return Flood(profile, make)


def flood_of_lists(profile: int, each: int, last: bytes) -> Flood:
    """Lists of so many items of 8 bytes for each of the server's ranges, and these last bytes."""

    def make(ranges: Ranges) -> bytes:
        return b"".join(wire.list_frame(*pair, wire.inside(*pair, each)) for pair in ranges) + last

    return Flood(profile, make)


def four_floods() -> dict[Flood, str]:
    """The two kinds of floods in both profiles, and how each of them ends."""
    some = {flood_of_sums(profile): "answered" for profile in wire.HELLOS}
    return some | {flood_of_lists(profile, 60_000, BAD_LENGTH): "refused 2" for profile in wire.HELLOS}


def greet(peer: wire.Peer, profile: int) -> list[bytes]:
    """Begins a session, and gives the parts of the server's first reply."""
    peer.send(FIRST[profile])
    peer.bytes(len(wire.HELLOS[profile]))
    return peer.message()


class Flooding:
    """One peer that floods a server; it can be ended by another thread."""

    def __init__(self, address: str, seconds: float = SECONDS) -> None:
        self.peer = wire.Peer(address, seconds)

    def end(self) -> None:
        with contextlib.suppress(OSError):
            self.peer.socket.shutdown(socket.SHUT_RDWR)

    def ending(self, flood: Flood) -> str:
        """How a flood ended: `answered`, `refused N`, or `cut off`."""
        with contextlib.closing(self.peer):
            try:
                text = flood.text(greet(self.peer, flood.profile))
                # What the server refuses comes while we still write.
                with contextlib.suppress(ConnectionError):
                    self.peer.send(text)
                self.peer.message()
            except wire.Refused as refused:
                return f"refused {refused}"
            except (EOFError, OSError):
                return "cut off"
        return "answered"


class Floods:
    """Peers that flood a server again and again, a thread for each, until they are ended."""

    def __init__(self, address: str, floods: Sequence[Flood]) -> None:
        self.address = address
        self.endings: list[tuple[Flood, str]] = []
        """How each one ended."""
        self.ends = threading.Event()
        self.now: dict[int, Flooding] = {}
        self.threads = [
            threading.Thread(target=self.again_and_again, args=(number, flood), daemon=True)
            for number, flood in enumerate(floods)
        ]
        for thread in self.threads:
            thread.start()

    def again_and_again(self, number: int, flood: Flood) -> None:
        while not self.ends.is_set():
            try:
                self.now[number] = Flooding(self.address)
            except OSError:
                time.sleep(0.01)
                continue
            ending = self.now[number].ending(flood)
            if not self.ends.is_set():
                self.endings.append((flood, ending))

    def end(self) -> None:
        self.ends.set()
        while any(thread.is_alive() for thread in self.threads):
            for one in list(self.now.values()):
                one.end()
            time.sleep(0.01)


@contextlib.contextmanager
def flooding(address: str, floods: Sequence[Flood]) -> Iterator[Floods]:
    some = Floods(address, floods)
    try:
        yield some
    finally:
        some.end()


# Sessions that are said again.


@dataclass(frozen=True)
class Recorded:
    """A session: all that was said to the server, and all that it said."""

    said: bytes
    heard: bytes


def passed_on(source: socket.socket, target: socket.socket) -> bytes:
    """All that comes, once it has been passed on."""
    pieces = []
    while piece := source.recv(PIECE):
        pieces.append(piece)
        target.sendall(piece)
    with contextlib.suppress(OSError):
        target.shutdown(socket.SHUT_WR)
    return b"".join(pieces)


def relayed(listener: socket.socket, address: str) -> Recorded:
    """Passes on one connection both ways."""
    near, _ = listener.accept()
    near.settimeout(SECONDS)
    with near, wire.connected(address, SECONDS) as far, ThreadPoolExecutor(1) as pool:
        heard = pool.submit(passed_on, far, near)
        said = passed_on(near, far)
        return Recorded(said, heard.result())


def record(address: str, dial: Callable[[str], object]) -> Recorded:
    """Records the session that is dialled at another address, at which the server is met too."""
    with socket.create_server(("127.0.0.1", 0)) as listener, ThreadPoolExecutor(1) as pool:
        listener.settimeout(SECONDS)
        host, port = listener.getsockname()
        session = pool.submit(relayed, listener, address)
        dial(f"{host}:{port}")
        return session.result()


# A server that is far away.


def passed_late(source: socket.socket, target: socket.socket, seconds: float) -> None:
    """Passes on all that comes, each piece so much later."""
    with contextlib.suppress(OSError):
        while piece := source.recv(PIECE):
            time.sleep(seconds)
            target.sendall(piece)
        time.sleep(seconds)
        target.shutdown(socket.SHUT_WR)


def relayed_late(near: socket.socket, address: str, seconds: float) -> None:
    """Passes on one connection both ways, each piece so much later."""
    with near, wire.connected(address, SECONDS) as far:
        near.settimeout(SECONDS)
        back = threading.Thread(target=passed_late, args=(far, near, seconds), daemon=True)
        back.start()
        passed_late(near, far, seconds)
        back.join()


def accept_late(listener: socket.socket, address: str, seconds: float) -> None:
    """Passes on all connections, each in a thread, until the listener is closed."""
    with contextlib.suppress(OSError):
        while True:
            near, _ = listener.accept()
            threading.Thread(target=relayed_late, args=(near, address, seconds), daemon=True).start()


@contextlib.contextmanager
def far_away(address: str, seconds: float) -> Iterator[str]:
    """Another address of a server, from which each piece comes so much later, both ways."""
    with socket.create_server(("127.0.0.1", 0), backlog=128) as listener:
        threading.Thread(target=accept_late, args=(listener, address, seconds), daemon=True).start()
        host, port = listener.getsockname()
        try:
            yield f"{host}:{port}"
        finally:
            with contextlib.suppress(OSError):
                listener.shutdown(socket.SHUT_RDWR)


def say_again(address: str, text: bytes, shuts: bool = False, seconds: float = SECONDS) -> bytes:
    """What the server says, to its end, to a peer that says this at once, and may then shut its writing half."""
    with wire.connected(address, seconds) as peer:
        peer.sendall(text)
        if shuts:
            peer.shutdown(socket.SHUT_WR)
        return wire.read_to_end(peer)
