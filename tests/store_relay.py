"""Four of `examples/relay`, one of which is killed and started again, beside the ids of all messages."""

from __future__ import annotations

import hashlib
import json
import shutil
import socket
import sqlite3
import sys
import time
from pathlib import Path
from typing import Any

from common import SECONDS, TOP, Count, Said, own_folder, wait_until
from store_servers import Served, example, free_port, ran, served

EVERY = 0.5
"""How many seconds a relay waits between two sessions with another."""
ROUNDS = 8
Stat = dict[str, Any]


def text_of(number: int) -> bytes:
    return b"message %d " % number + b"x" * (number % 200)


def fill(file: Path, messages: int) -> None:
    """A database of so many messages."""
    with sqlite3.connect(file) as db:
        db.execute("CREATE TABLE messages (id BLOB PRIMARY KEY, text BLOB NOT NULL)")
        rows = ((hashlib.sha256(text).digest(), text) for text in map(text_of, range(messages)))
        db.executemany("INSERT INTO messages VALUES (?, ?)", rows)
    db.close()


def ids_in(file: Path) -> set[bytes]:
    """The ids in a database, as SQLite has them. Each text has to have its id."""
    db = sqlite3.connect(file)
    rows = db.execute("SELECT id, text FROM messages").fetchall()
    db.close()
    return {number for number, text in rows if hashlib.sha256(text).digest() == number}


class Relays:
    """Four relays, each of which pulls from the three others."""

    def __init__(self, folder: Path) -> None:
        self.folder = folder
        self.addresses = [f"127.0.0.1:{free_port()}" for _ in range(4)]
        self.running: dict[int, Served] = {}
        self.before: list[Stat] = []

    def file(self, number: int) -> Path:
        return self.folder / f"{number}.db"

    def start(self, number: int) -> None:
        others = [each for each in self.addresses if each != self.addresses[number]]
        words = ["serve", "--addr", self.addresses[number], "--every", str(EVERY), str(self.file(number)), *others]
        self.running[number] = Served(self.folder, [*example("relay"), *words])

    def kill(self, number: int) -> None:
        """As a machine that stops: SIGKILL."""
        self.before.append(self.stat(number))
        self.running[number].process.kill()
        self.running.pop(number).end()

    def put(self, number: int, texts: list[bytes]) -> bool:
        """Gives a relay messages; whether it says that it has them."""
        lengths = [len(text).to_bytes(4, "big") for text in texts]
        pairs = b"".join(length + text for length, text in zip(lengths, texts))
        return self.ask(number, b"put\n" + len(texts).to_bytes(4, "big") + pairs) == b"new %d\n" % len(texts)

    def stat(self, number: int) -> Stat:
        stat: Stat = json.loads(self.ask(number, b"stat\n"))
        return stat

    def ask(self, number: int, text: bytes) -> bytes:
        """What a relay answers to these bytes."""
        host, _, port = self.addresses[number].rpartition(":")
        with socket.create_connection((host, int(port)), SECONDS) as connection:
            connection.sendall(text)
            return b"".join(iter(lambda: connection.recv(65_536), b""))

    def are_equal(self, count: int) -> bool:
        stats = [self.stat(number) for number in range(4)]
        return {stat["count"] for stat in stats} == {count} and len({stat["ids"] for stat in stats}) == 1


def converges(count: Count, relays: Relays, messages: int) -> None:
    """New messages come to all of them; the third is killed in the middle, and started again three rounds later."""
    number = messages
    said = []
    began = time.monotonic()
    for turn in range(ROUNDS):
        if turn == 2:
            relays.kill(2)
        if turn == 5:
            relays.start(2)
        for relay in sorted(relays.running):
            said.append(relays.put(relay, [text_of(number + place) for place in range(5)]))
            number += 5
        time.sleep(EVERY)
    count.same("relay: each took what it was given", [True] * (4 * ROUNDS - 3), said)
    texts_in = time.monotonic()
    count.holds("relay: all are equal", wait_until(lambda: relays.are_equal(number), 60), number, "none in 60 seconds")
    seconds = time.monotonic() - texts_in
    stats = [relays.stat(each) for each in range(4)] + relays.before
    keys = ("asking", "all", "content", "sessions")
    asked, instead, content, sessions = (sum(stat[key] for stat in stats) for key in keys)
    print(
        f"relay, 4 of {messages} messages, {number - messages} new, one killed: equal {seconds:.1f} seconds after the"
        f" last; in {texts_in - began + seconds:.1f} seconds sessions {sessions} bytes {asked}, contents {content};"
        f" all ids in each session: bytes {instead}",
        flush=True,
    )
    count.holds("relay: less than all ids", asked < instead / 4, f"less than {instead / 4}", asked)
    errors = relays.running[0].error()
    count.holds("relay: that one is not there is told", relays.addresses[2] in errors, relays.addresses[2], errors)
    for each in range(4):
        relays.running[each].process.kill()
        relays.running.pop(each).end()
    wanted = {hashlib.sha256(text_of(each)).digest() for each in range(number)}
    for each in range(4):
        came = ids_in(relays.file(each))
        count.holds(f"relay: database {each}, by SQL", came == wanted, len(wanted), (len(came), len(came & wanted)))


def full_relay(count: Count, folder: Path) -> None:
    """A relay that has room for two more messages takes three not at all, and then two."""
    file = folder / "full.db"
    fill(file, 10)
    lines = "import sys, importlib.machinery as machinery, importlib.util as util; sys.dont_write_bytecode = True; "
    lines += f"sys.path.insert(0, {str(TOP / 'examples')!r}); "
    lines += f"loader = machinery.SourceFileLoader('relay', {str(TOP / 'examples/relay')!r}); "
    lines += "relay = util.module_from_spec(util.spec_from_loader('relay', loader)); loader.exec_module(relay); "
    lines += f"relay.MOST = 12; sys.argv = ['relay', 'serve', '--addr', '127.0.0.1:0', {str(file)!r}]; relay.run()"
    with served(folder, [sys.executable, "-c", lines]) as server:
        put, stat = ([*example("relay"), word, server.address] for word in ("put", "stat"))
        said = ran(put, b"one\ntwo\nthree")
        wanted = "relay: the relay did not answer; it may have none, some or all of the messages\n"
        count.same("relay, full: told", Said(1, "", wanted), said)
        is_so = "this relay has 10 messages, and no room for 3 more" in server.error()
        count.holds("relay, full: told there", is_so, "no room for 3 more", server.error())
        count.same("relay, full: none is taken", (10, 10), (len(ids_in(file)), json.loads(ran(stat).output)["count"]))
        count.same("relay, full: two are taken", Said(0, "new 2\n", ""), ran(put, b"one\ntwo"))
    count.same("relay, full: the database", 12, len(ids_in(file)))


A, LINE, LACKED = (
    "ca978112ca1bbdcafac231b39a23dc4da786eff8147c4e72b9807785afee48bb",
    "39af0a22a179e37a7a40ccd5f5f5508f010dca361b4d20a3f5ca5be54a6848c5",
    "f" * 64,
)
"""The SHA-256 of `a` and of `a longer line`, by sha256sum, and one of no known text."""


def fetched(count: Count, folder: Path) -> None:
    """Messages by their ids: as words and from standard input, in both forms, in this order; and those that lack."""
    with served(folder, [*example("relay"), "serve", "--addr", "127.0.0.1:0", str(folder / "fetched.db")]) as server:
        put, get = ([*example("relay"), word, server.address] for word in ("put", "get"))
        count.same("relay get: two are there", Said(0, "new 2\n", ""), ran(put, b"a\na longer line\n"))
        count.same("relay get: by words", Said(0, "a longer line\na\n", ""), ran([*get, f"0x{LINE}", A]))
        lines = f"{A}\n0x{LINE}\n0x{A.upper()}\n".encode()
        count.same("relay get: by lines", Said(0, "a\na longer line\na\n", ""), ran(get, lines))
        wanted = Said(1, "a\n", f"relay: not there: {LACKED}\n")
        count.same("relay get: one that lacks", wanted, ran([*get, LACKED, A]))
        count.same("relay get: none", Said(0, "", ""), ran(get))
        for bad in (A[1:], A + "00", f"{A[1:]}g", "0x" + A[2:], f"+{A[1:]}"):
            wanted = Said(1, "", f"relay: {bad} is no SHA-256 in hex\n")
            count.same(f"relay get: {bad}", wanted, ran([*get, bad]))
        many = [b"%d" % number for number in range(600)]
        ran(put, b"\n".join(many))
        ids = "\n".join(hashlib.sha256(text).hexdigest() for text in many).encode()
        count.same("relay get: more than at once", b"\n".join([*many, b""]).decode(), ran(get, ids).output)


def relay(count: Count, is_full: bool) -> None:
    messages = 50_000 if is_full else 5_000
    with own_folder() as folder:
        relays = Relays(folder)
        fill(relays.file(0), messages)
        for number in 1, 2, 3:
            shutil.copy(relays.file(0), relays.file(number))
        try:
            for number in range(4):
                relays.start(number)
            converges(count, relays, messages)
            full_relay(count, folder)
            fetched(count, folder)
        finally:
            for each in relays.running.values():
                each.end()
