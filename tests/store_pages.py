"""The ten lines of docs/STORES.md for SQLite and for Redis, over real stores, with a peer in this process."""

from __future__ import annotations

import contextlib
import hashlib
import os
import shutil
import socket
import sqlite3
import sys
import threading
from collections.abc import Callable, Iterator
from pathlib import Path

from common import ALL_ROUND, SECONDS, TOP, Count, Said, own_folder
from pages import blocks_of
from store_servers import WORLD, ran, redis

PAGE = TOP / "docs/STORES.md"
COMMON, EACH = 2000, 7


def id_of(number: int) -> bytes:
    return hashlib.sha256(b"%d" % number).digest()[:16]


HERE, THERE = set(map(id_of, range(COMMON))), set(map(id_of, range(EACH, COMMON + EACH)))


def block_of(word: str) -> str:
    """The block of the page that has this word."""
    (only,) = (block.text for block in blocks_of(PAGE) if word in block.text)
    return only


@contextlib.contextmanager
def peer(items: set[bytes], learned: list[set[bytes]], is_cut: bool) -> Iterator[int]:
    """The port of a peer that has these items, for one session; one that is cut ends after its first message."""
    sys.path.append(str(TOP / "python"))
    os.environ.setdefault("RANGESYNC_LIBRARY", WORLD["RANGESYNC_LIBRARY"])
    from rangesync import Set, Strategy, run

    def answer() -> None:
        connection = listener.accept()[0]
        with connection, held.respond() as session:
            connection.settimeout(SECONDS)
            if is_cut:
                session.push(connection.recv(65_536))
                connection.sendall(b"".join(session.pulls()))
                connection.shutdown(socket.SHUT_WR)
                while connection.recv(65_536):
                    pass
            else:
                learned.append(set(run(session, connection).theirs))

    held = Set(Strategy(ALL_ROUND.read_bytes()), items)
    with socket.create_server(("127.0.0.1", 0)) as listener:
        listener.settimeout(SECONDS)
        thread = threading.Thread(target=answer, daemon=True)
        thread.start()
        yield int(listener.getsockname()[1])
        thread.join(SECONDS)


def run_block(text: str, folder: Path, changes: dict[str, str]) -> Said:
    """Runs a block in a folder that looks like the top, with these texts in place of others."""
    for old, new in changes.items():
        if old not in text:
            raise ValueError(f"the block has no {old}")
        text = text.replace(old, new)
    with contextlib.suppress(FileExistsError):
        (folder / "examples").symlink_to(TOP / "examples")
    return ran([sys.executable, "-c", text], folder=folder)


Kept = Callable[[], set[bytes]]
"""What the store has."""


def try_block(count: Count, name: str, folder: Path, changes: dict[str, str], kept: Kept) -> None:
    """Runs a block with a peer that ends in the middle, which changes nothing, and then with one that does not."""
    text = block_of({"SQLite": "sqlite3", "Redis": "redis-cli"}[name])
    count.holds(f"{name}: ten lines", text.count("\n") <= 10, 10, text.count("\n"))
    with peer(THERE, [], is_cut=True) as port:
        said = run_block(text, folder, {**changes, "7700": str(port)})
    told = said.status, said.error.splitlines()[-1:]
    count.same(f"{name}: a peer that ends is told", (1, ["rangesync.Refused: refused 3 Truncated"]), told)
    count.same(f"{name}: and nothing is written", HERE, kept())
    learned: list[set[bytes]] = []
    with peer(THERE, learned, is_cut=False) as port:
        said = run_block(text, folder, {**changes, "7700": str(port)})
    count.same(f"{name}: run", (0, ""), (said.status, said.error))
    count.same(f"{name}: the peer learned", [HERE - THERE], learned)
    count.same(f"{name}: the store has all", HERE | THERE, kept())


def sqlite(count: Count, _is_full: bool) -> None:
    with own_folder() as folder:
        file = folder / "messages.db"
        with sqlite3.connect(file) as db:
            db.execute("CREATE TABLE messages (id BLOB PRIMARY KEY)")
            db.executemany("INSERT INTO messages VALUES (?)", ((item,) for item in HERE))

        def kept() -> set[bytes]:
            return {row[0] for row in db.execute("SELECT id FROM messages")}

        with contextlib.closing(db):
            try_block(count, "SQLite", folder, {}, kept)


def redis_set(count: Count, _is_full: bool) -> None:
    with own_folder() as folder, redis(folder) as port:
        if isinstance(port, str):
            count.not_run(f"redis: {port}")
            return
        cli = [str(shutil.which("redis-cli")), "--raw", "-p", str(port)]
        ran(cli, "".join(f"SADD ids {item.hex()}\n" for item in HERE).encode())

        def kept() -> set[bytes]:
            return set(map(bytes.fromhex, ran([*cli, "SMEMBERS", "ids"]).output.split()))

        try_block(count, "Redis", folder, {"6379": str(port)}, kept)
