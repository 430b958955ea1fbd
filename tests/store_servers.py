"""What tests/stores starts and ends: PostgreSQL, Redis, the examples, and a proxy between two sides of one."""

from __future__ import annotations

import contextlib
import os
import pwd
import shutil
import socket
import subprocess
import sys
import threading
import time
from collections.abc import Callable, Iterator, Sequence
from dataclasses import dataclass
from pathlib import Path

from common import SECONDS, TOP, Said, wait_until

POSTGRES_FOLDERS = sorted(Path("/usr/lib/postgresql").glob("*/bin"), reverse=True)
LONG = 600.0
"""How many seconds a run of an example may take at the full sizes."""
WORLD = {**os.environ, "PYTHONPATH": str(TOP / "python")}
WORLD.setdefault("RANGESYNC_LIBRARY", str(TOP / "c/out/librangesync.so.1"))

Changes = dict[str, object]


@dataclass(frozen=True)
class User:
    """How a command is run as a user who is not root: the words before it, and what `Popen` takes."""

    before: Sequence[str]
    changes: Changes

    def run(self, call: Sequence[str]) -> None:
        out = subprocess.DEVNULL
        words = [*self.before, *call]
        subprocess.run(words, check=True, cwd="/", stdout=out, **self.changes)  # type: ignore[call-overload]


def plain_user() -> User | None:
    """A user as whom PostgreSQL can run, which refuses root; None if there is none.

    Root takes the user of Debian's package. Who is root in a world of its own alone takes a further such world.
    """
    if os.geteuid() != 0:
        return User([], {})
    for name in ("postgres", "nobody"):
        with contextlib.suppress(KeyError, OSError, subprocess.SubprocessError):
            known = pwd.getpwnam(name)
            changes: Changes = {"user": known.pw_uid, "group": known.pw_gid, "extra_groups": []}
            before = ["unshare", f"--map-user={known.pw_uid}", f"--map-group={known.pw_gid}"]
            user = User([], changes) if may_change_user() else User(before, {})
            user.run(["true"])
            return user
    return None


def may_change_user() -> bool:
    """Whether root is root of all users, and not only of this one."""
    lines = Path("/proc/self/uid_map").read_text(encoding="ascii").split()
    return int(lines[2]) > 1


def tool(name: str) -> str | None:
    """A tool of PostgreSQL, which Debian keeps out of the path."""
    places = os.pathsep.join([*map(str, POSTGRES_FOLDERS), os.environ.get("PATH", "")])
    return shutil.which(name, path=places)


def ended(process: subprocess.Popen[bytes], signal_first: int | None = None) -> None:
    """Ends a process that was started here, with its children if it ends them by this signal."""
    if process.poll() is None and signal_first is not None:
        process.send_signal(signal_first)
        with contextlib.suppress(subprocess.TimeoutExpired):
            process.wait(SECONDS)
    if process.poll() is None:
        process.kill()
    process.wait()


class Postgres:
    """A PostgreSQL server at a unix socket in a folder of its own, which forgets all if the machine stops."""

    def __init__(self, folder: Path, user: User, like: Postgres | None = None) -> None:
        self.data, self.folder, self.user = folder / "data", folder, user
        folder.mkdir(mode=0o711)
        if user.changes:
            os.chown(folder, int(str(user.changes["user"])), int(str(user.changes["group"])))
        call = [str(tool("initdb")), "-D", str(self.data), "-A", "trust", "-E", "UTF8", "--locale=C", "--no-sync"]
        if like is not None:
            call = ["cp", "-r", str(like.data), str(self.data)]
        user.run([*call, "-U", "postgres"] if like is None else call)
        self.db = f"host={folder} user=postgres dbname=postgres"

    def start(self) -> None:
        options = {"listen_addresses": "", "unix_socket_directories": str(self.folder), "fsync": "off"}
        options.update({"max_connections": "20", "shared_buffers": "32MB", "autovacuum": "off"})
        call = [*self.user.before, str(tool("postgres")), "-D", str(self.data)]
        for name, value in options.items():
            call += ["-c", f"{name}={value}"]
        with (self.folder / "log").open("ab") as log:
            self.process: subprocess.Popen[bytes] = subprocess.Popen(  # type: ignore[call-overload]
                call, cwd="/", stdin=subprocess.DEVNULL, stdout=log, stderr=log, **self.user.changes
            )
        if not wait_until(lambda: self.sql("SELECT 1", check=False).status == 0):
            raise RuntimeError(f"PostgreSQL does not start: {(self.folder / 'log').read_text()[-300:]}")

    def stop(self) -> None:
        """A fast shutdown: it ends what runs."""
        ended(self.process, 2)

    def sql(self, text: str, check: bool = True) -> Said:
        """Runs statements."""
        said = ran(["psql", "-XqAt", "-v", "ON_ERROR_STOP=1", "-d", self.db, "-f", "-"], text.encode())
        if check and said.status != 0:
            raise RuntimeError(said.error)
        return said

    def file(self, path: Path) -> Said:
        """Runs a file of statements as a person does."""
        return ran(["psql", "-Xq", "-d", self.db, "-f", str(path)])


@contextlib.contextmanager
def two_postgres(folder: Path) -> Iterator[tuple[Postgres, Postgres] | str]:
    """Two servers; or why there are none."""
    user = plain_user()
    if not tool("postgres") or not tool("initdb") or not shutil.which("psql"):
        yield "PostgreSQL is not installed (Debian: postgresql)"
    elif user is None:
        yield "there is no user to run PostgreSQL as, which refuses root"
    else:
        one = Postgres(folder / "one", user)
        other = Postgres(folder / "other", user, one)
        started = []
        try:
            for each in one, other:
                started.append(each)
                each.start()
            yield one, other
        finally:
            for each in started:
                each.stop()


@contextlib.contextmanager
def redis(folder: Path) -> Iterator[int | str]:
    """A Redis server at a free port of the loopback, by its port; or why there is none."""
    if not shutil.which("redis-server") or not shutil.which("redis-cli"):
        yield "Redis is not installed (Debian: redis-server)"
        return
    port = free_port()
    call = ["redis-server", "--port", str(port), "--bind", "127.0.0.1", "--save", "", "--dir", str(folder)]
    process = subprocess.Popen(call, stdin=subprocess.DEVNULL, stdout=subprocess.DEVNULL)
    try:
        if not wait_until(lambda: ran(["redis-cli", "-p", str(port), "ping"]).output == "PONG\n"):
            raise RuntimeError("Redis does not start")
        yield port
    finally:
        ended(process, 15)


def free_port() -> int:
    with socket.socket() as one:
        one.bind(("127.0.0.1", 0))
        return int(one.getsockname()[1])


def ran(
    call: Sequence[str], text: bytes = b"", seconds: float = LONG, folder: Path | None = None, **changes: object
) -> Said:
    """Runs any command to its end."""
    ends = {"input": text, "stdout": subprocess.PIPE, "stderr": subprocess.PIPE, "cwd": folder, "env": WORLD}
    try:
        said = subprocess.run(call, timeout=seconds, check=False, **{**ends, **changes})  # type: ignore[call-overload]
    except subprocess.TimeoutExpired:
        return Said(f"no end within {seconds} seconds", "", "")
    out, err = (part.decode(errors="surrogateescape") for part in (said.stdout, said.stderr))
    return Said(said.returncode, out, err)


def example(name: str) -> list[str]:
    return [sys.executable, str(TOP / "examples" / name)]


class Served:
    """An example that serves at a port that the system chooses."""

    def __init__(self, folder: Path, call: Sequence[str], **changes: object) -> None:
        self.err = folder / f"served-{time.monotonic_ns()}.err"
        with self.err.open("wb") as error:
            self.process: subprocess.Popen[bytes] = subprocess.Popen(  # type: ignore[call-overload]
                call, stdin=subprocess.DEVNULL, stdout=subprocess.PIPE, stderr=error, env=WORLD, **changes
            )
        assert self.process.stdout
        line = self.process.stdout.readline().decode()
        if not line.startswith("listening "):
            ended(self.process)
            raise RuntimeError(f"it does not listen: {line!r} {self.error()!r}")
        self.address = line.split()[1]

    def error(self) -> str:
        return self.err.read_text(errors="backslashreplace")

    def end(self) -> None:
        ended(self.process, 15)
        assert self.process.stdout
        self.process.stdout.close()


@contextlib.contextmanager
def served(folder: Path, call: Sequence[str], **changes: object) -> Iterator[Served]:
    """Such an example, which is ended in any case."""
    server = Served(folder, call, **changes)
    try:
        yield server
    finally:
        server.end()


class Proxy:
    """Passes connections on to an address, and tells a test what the first bytes of each are.

    `heard` is called with what a connection begins with, before it goes on, and once `after` bytes came back with the
    bytes that came.
    """

    def __init__(self, address: str, heard: Callable[[bytes], None], came: Callable[[int], None]) -> None:
        self.address, self.heard, self.came = address, heard, came
        self.listener = socket.create_server(("127.0.0.1", 0))
        self.listening = f"127.0.0.1:{self.listener.getsockname()[1]}"
        threading.Thread(target=self.accept, daemon=True).start()

    def accept(self) -> None:
        with contextlib.suppress(OSError):
            while True:
                client = self.listener.accept()[0]
                threading.Thread(target=self.pass_on, args=(client,), daemon=True).start()

    def pass_on(self, client: socket.socket) -> None:
        with contextlib.suppress(OSError), client:
            try:
                self.to_server(client)
            finally:
                # The other thread still reads from it, so a close alone would not be seen.
                client.shutdown(socket.SHUT_RDWR)

    def to_server(self, client: socket.socket) -> None:
        first = client.recv(65_536)
        self.heard(first)
        host, _, port = self.address.rpartition(":")
        with socket.create_connection((host, int(port)), SECONDS) as server:
            server.sendall(first)
            threading.Thread(target=self.forward, args=(client, server), daemon=True).start()
            total = 0
            while came := server.recv(65_536):
                client.sendall(came)
                total += len(came)
                self.came(total)

    def forward(self, client: socket.socket, server: socket.socket) -> None:
        with contextlib.suppress(OSError):
            while came := client.recv(65_536):
                server.sendall(came)

    def close(self) -> None:
        with contextlib.suppress(OSError):
            self.listener.shutdown(socket.SHUT_RDWR)  # So that the thread that accepts ends.
        self.listener.close()


@contextlib.contextmanager
def proxy(
    address: str, heard: Callable[[bytes], None] = lambda first: None, came: Callable[[int], None] = lambda total: None
) -> Iterator[str]:
    """The address of a proxy to this address."""
    passing = Proxy(address, heard, came)
    try:
        yield passing.listening
    finally:
        passing.close()
