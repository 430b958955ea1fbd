"""`examples/dask/reconcile` on a cluster of a scheduler and three workers, each of them a process on this machine."""

from __future__ import annotations

import contextlib
import hashlib
import json
import os
import socket
import subprocess
import sys
import threading
import time
from collections.abc import Iterator, Sequence
from dataclasses import dataclass, field
from pathlib import Path

from common import ALL_ROUND, SECONDS, TOP, Count, Said, own_folder, wait_until
from store_servers import WORLD, ended, free_port, ran, served

BITS, WORKERS, EACH = 6, 3, 20
NAME = "items of a cluster"
Sets = tuple[set[bytes], set[bytes]]
"""What the cluster keeps, and what the peer has."""
SCRIPT = str(TOP / "examples/dask/reconcile")


def item_of(number: int) -> bytes:
    return hashlib.sha256(b"%d" % number).digest()[:16]


def shard_of(item: bytes) -> int:
    """The first six bits of the digest."""
    return hashlib.sha256(item).digest()[0] >> 2


def python_with_dask() -> str | None:
    """A Python that has dask.distributed: this one, or that of the system."""
    lines = "import importlib.util, sys; sys.exit(importlib.util.find_spec('distributed') is None)"
    for python in (sys.executable, "/usr/bin/python3"):
        if os.access(python, os.X_OK) and subprocess.run([python, "-c", lines], check=False).returncode == 0:
            return python
    return None


@dataclass
class Cluster:
    """A scheduler and its workers."""

    python: str
    folder: Path
    processes: list[subprocess.Popen[bytes]] = field(default_factory=list)

    def start(self, name: str, *words: str) -> None:
        call = [self.python, "-m", f"distributed.cli.dask_{name}", "--scheduler-file", str(self.folder / "scheduler")]
        call += ["--host", "127.0.0.1", "--no-dashboard", *words]
        with (self.folder / f"{len(self.processes)}.log").open("wb") as log:
            none, folder = subprocess.DEVNULL, self.folder
            self.processes.append(subprocess.Popen(call, cwd=folder, stdin=none, stdout=log, stderr=log, env=WORLD))

    def start_all(self) -> None:
        self.start("scheduler", "--port", "0")
        if not wait_until(lambda: bool(self.address()), 60):
            raise RuntimeError("the scheduler does not start")
        for _ in range(WORKERS):
            self.start("worker", "--no-nanny", "--nthreads", "1", "--local-directory", str(self.folder))

    def address(self) -> str:
        """The scheduler's address, once it listens."""
        with contextlib.suppress(OSError, ValueError):
            return str(json.loads((self.folder / "scheduler").read_text())["address"])
        return ""

    def kill_one(self) -> None:
        """As a machine that stops: SIGKILL, for the last worker."""
        self.processes[-1].kill()

    def compares(self, peer: str, files: Sequence[Path], *words: str) -> Said:
        call = [self.python, SCRIPT, "compare", "--bits", str(BITS), "--workers", str(WORKERS), *words]
        return ran([*call, self.address(), peer, *map(str, files)], seconds=300)


@contextlib.contextmanager
def cluster(python: str, folder: Path) -> Iterator[Cluster]:
    """Such a cluster, which is ended in any case."""
    folder.mkdir()
    one = Cluster(python, folder)
    try:
        one.start_all()
        yield one
    finally:
        for process in reversed(one.processes):
            ended(process, 15)


class Peer:
    """A peer in this process that keeps what it has, and once ends a worker at its `at`th connection."""

    def __init__(self, items: set[bytes], one: Cluster, at: int) -> None:
        sys.path.append(str(TOP / "python"))
        os.environ.setdefault("RANGESYNC_LIBRARY", WORLD["RANGESYNC_LIBRARY"])
        from rangesync import Refused, Shards, Strategy

        self.faults = Refused, OSError
        self.held = Shards(Strategy(ALL_ROUND.read_bytes()), BITS, items)
        self.one, self.at, self.made = one, at, 0
        self.listener = socket.create_server(("127.0.0.1", 0), backlog=100)
        self.address = f"127.0.0.1:{self.listener.getsockname()[1]}"
        threading.Thread(target=self.accept, daemon=True).start()

    def accept(self) -> None:
        with contextlib.suppress(OSError):
            while True:
                connection = self.listener.accept()[0]
                self.made += 1
                if self.made == self.at:
                    self.one.kill_one()
                threading.Thread(target=self.answer, args=(connection,), daemon=True).start()

    def answer(self, connection: socket.socket) -> None:
        with connection, contextlib.suppress(*self.faults):
            connection.settimeout(SECONDS)
            self.held.answer(connection)

    def close(self) -> None:
        with contextlib.suppress(OSError):
            self.listener.shutdown(socket.SHUT_RDWR)  # So that the thread that accepts ends.
        self.listener.close()


def lines_of(turn: int, ours: set[bytes], theirs: set[bytes]) -> list[str]:
    """What is printed of a round."""
    differ = len({shard_of(item) for item in ours | theirs})
    lines = [f"round {turn} shards {1 << BITS} differ {differ}"]
    lines += [f"ours {item.hex()}" for item in sorted(ours)]
    return lines + [f"theirs {item.hex()}" for item in sorted(theirs)]


def item_files(folder: Path, name: str, items: list[bytes], files: int) -> list[Path]:
    """The items in so many files."""
    paths = [folder / f"{name}-{place}.items" for place in range(files)]
    for place, path in enumerate(paths):
        path.write_text("".join(f"{item.hex()}\n" for item in items[place::files]))
    return paths


def dask(count: Count, is_full: bool) -> None:
    python = python_with_dask()
    if python is None:
        count.not_run("dask: dask.distributed is not installed (Debian: python3-distributed)")
        return
    items = 1_000_000 if is_full else 20_000
    every = [item_of(number) for number in range(items + EACH)]
    here, there = set(every[EACH:]), set(every[:-EACH])
    with own_folder() as folder:
        mine, other = item_files(folder, "here", every[EACH:], 8), item_files(folder, "there", every[:-EACH], 1)
        with cluster(python, folder / "cluster") as one:
            rounds(count, one, mine, other, (here, there))
            faults(count, one, mine)
            lost_worker(count, one, mine, (here, there))


def rounds(count: Count, one: Cluster, mine: list[Path], other: list[Path], sets: Sets) -> None:
    """The first round finds the differences, and both sides put them in; the second one finds none."""
    here, there = sets
    words = ["--bits", str(BITS), "--name", NAME]
    with served(one.folder, [one.python, SCRIPT, "serve", *words, "--addr", "127.0.0.1:0", *map(str, other)]) as server:
        began = time.monotonic()
        said = one.compares(server.address, mine, "--name", NAME, "--rounds", "2")
        seconds = time.monotonic() - began
        wanted = lines_of(1, here - there, there - here) + lines_of(2, set(), set())
        count.same("dask: two rounds", (0, wanted, ""), (said.status, said.output.splitlines(), said.error))
        print(f"dask, {WORKERS} workers, {len(here)} items, {1 << BITS} shards: {seconds:.1f} seconds", flush=True)
        said = one.compares(server.address, mine, "--name", "another name")
        wanted = ["reconcile: round 1: the directory: peer refused 55 WrongSet"] * WORKERS
        count.same("dask: another name", (1, lines_of(1, set(), set()), wanted), told(said))
        wanted = ["reconcile: a connection ended by refused 55 WrongSet"] * WORKERS
        count.same("dask: another name, at the peer", wanted, server.error().splitlines())


def told(said: Said) -> tuple[int | str, list[str], list[str]]:
    return said.status, said.output.splitlines(), said.error.splitlines()


def faults(count: Count, one: Cluster, mine: list[Path]) -> None:
    """A peer that is not there, and an item file that is none."""
    said = one.compares(f"127.0.0.1:{free_port()}", mine)
    wanted = ["reconcile: round 1: the directory: [Errno 111] Connection refused"] * WORKERS
    count.same("dask: nobody is there", (1, lines_of(1, set(), set()), wanted), told(said))
    bad = one.folder / "bad.items"
    bad.write_text("no hex\n")
    said = one.compares(f"127.0.0.1:{free_port()}", [bad])
    is_told = "reconcile: non-hexadecimal number" in said.error
    count.same("dask: a bad line", (1, "", True), (said.status, said.output, is_told))


def lost_worker(count: Count, one: Cluster, mine: list[Path], sets: Sets) -> None:
    """A worker is killed in the middle. dask makes its shards again on another one, and nothing is missing."""
    here, there = sets
    peer = Peer(there, one, at=8)
    try:
        said = one.compares(peer.address, mine)
    finally:
        peer.close()
    count.same("dask: a lost worker", (0, lines_of(1, here - there, there - here)), told(said)[:2])
    count.holds("dask: it is dead", one.processes[-1].poll() is not None, "its end", "none")
