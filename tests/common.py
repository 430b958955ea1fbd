"""What the parts of the tests share: the program and its runs, servers, small disks, and the count of cases."""

from __future__ import annotations

import contextlib
import fcntl
import http.client
import itertools
import os
import shutil
import signal
import socket
import struct
import subprocess
import sys
import tempfile
import threading
import time
from collections.abc import Callable, Iterator, Sequence
from dataclasses import dataclass
from pathlib import Path

TOP = Path(__file__).resolve().parent.parent
EIGHT = TOP / "examples/eight.toml"
ALL_ROUND = TOP / "examples/all-round.toml"
WHOLE_LIST = TOP / "examples/whole-list.toml"
SECONDS = 20.0
"""How long anything is waited for that has no time of its own."""



def program() -> str:
    """The path of the program that is tested: $RANGESYNC, or that of ./rangesync, which is built if there is none."""
    if given := os.environ.get("RANGESYNC"):
        return str(Path(given).resolve())
    return subprocess.run([TOP / "release", "--program"], stdout=subprocess.PIPE, text=True, check=False).stdout.strip()


# Scripts that this one starts test the same one.
PROGRAM = os.environ["RANGESYNC"] = program()

# A network and mounts of its own.

WORLD = "RANGESYNC_TESTS_WORLD"
"""The variable that says in which world a script runs: `own` or `shared`."""


def enter_own_world() -> None:
    """Runs this script once more with mounts and a loopback of its own, if the system lets it."""
    if WORLD not in os.environ:
        os.environ[WORLD] = "own"
        for words in (["unshare", "-m", "-n"], ["unshare", "-r", "-m", "-n"]):
            if shutil.which(words[0]) and subprocess.run([*words, "true"], stderr=subprocess.DEVNULL).returncode == 0:
                os.execvp(words[0], [*words, sys.executable, *sys.argv])
        os.environ[WORLD] = "shared"
    if has_own_world():
        raise_loopback()


def has_own_world() -> bool:
    return os.environ.get(WORLD) == "own"


def raise_loopback() -> None:
    set_flags, is_up = 0x8914, 1
    with socket.socket(socket.AF_INET, socket.SOCK_DGRAM) as any_socket:
        fcntl.ioctl(any_socket, set_flags, struct.pack("16sh14x", b"lo", is_up))


@contextlib.contextmanager
def small_disk(folder: Path, kib: int) -> Iterator[bool]:
    """A disk of this size at the folder; whether there is one. It is unmounted in any case."""
    words = ["mount", "-t", "tmpfs", "-o", f"size={kib}k", "none", str(folder)]
    is_there = bool(shutil.which("mount")) and subprocess.run(words, stderr=subprocess.DEVNULL).returncode == 0
    try:
        yield is_there
    finally:
        if is_there:
            subprocess.run(["umount", "-l", str(folder)], check=False)


@contextlib.contextmanager
def own_folder() -> Iterator[Path]:
    with tempfile.TemporaryDirectory(prefix="rangesync-tests-", ignore_cleanup_errors=True) as name:
        yield Path(name)


# Cases.


class Count:
    """Counts the cases of a part, and says which failed."""

    def __init__(self, part: str) -> None:
        self.part = part
        self.passed = 0
        self.failed = 0
        self.lock = threading.Lock()

    def holds(self, case: str, is_so: bool, wanted: object, came: object) -> bool:
        """Counts a case; whether it passed."""
        with self.lock:
            if is_so:
                self.passed += 1
            else:
                self.failed += 1
                print(f"FAILED {self.part}: {case}: wanted {shown(wanted)}, came {shown(came)}", flush=True)
        return is_so

    def same(self, case: str, wanted: object, came: object) -> bool:
        return self.holds(case, wanted == came, wanted, came)

    def not_run(self, what: str) -> None:
        print(f"not run: {self.part}: {what}", flush=True)

    def tries(self, case: str, test: Callable[[Count], None]) -> None:
        """Runs the cases of a function. One that ends by an exception has failed."""
        try:
            test(self)
        except Exception as fault:  # noqa: BLE001
            self.holds(case, False, "an end", f"{type(fault).__name__}: {fault}")

    def end(self) -> int:
        """Prints what was counted, and gives the status."""
        print(f"{self.passed} passed, {self.failed} failed", flush=True)
        return 1 if self.failed else 0


def shown(value: object) -> str:
    text = value if isinstance(value, Shown) else repr(value)
    return text if len(text) <= 600 else f"{text[:600]}.."


class Shown(str):
    """A text that is shown as it is."""


# Runs.


@dataclass(frozen=True)
class Said:
    """How a process ended, and what it wrote."""

    status: int | str
    output: str
    error: str


def run(
    words: Sequence[str],
    *,
    before: Sequence[str] = (),
    text: bytes = b"",
    folder: Path | None = None,
    output: int = subprocess.PIPE,
    seconds: float = SECONDS,
    started: Callable[[subprocess.Popen[bytes]], None] = lambda process: None,
) -> Said:
    """Runs the program on these words and this input. The words before it are those of a program that starts it.

    Without such words it has the name `rangesync`, which usage texts show, whatever the name of its file is.
    """
    call, program = ([*before, PROGRAM, *words], None) if before else (["rangesync", *words], PROGRAM)
    pipe = subprocess.PIPE
    with subprocess.Popen(call, executable=program, cwd=folder, stdin=pipe, stdout=output, stderr=pipe) as process:
        try:
            started(process)
            said = process.communicate(text, seconds)
            status: int | str = process.returncode
        except subprocess.TimeoutExpired:
            process.kill()
            said = process.communicate()
            status = f"no end within {seconds} seconds"
    out, err = ((part or b"").decode(errors="backslashreplace") for part in said)
    return Said(status, out, err)


def sync(address: str, lines: str = "", *words: str, table: Path = ALL_ROUND, seconds: float = SECONDS) -> Said:
    """Runs `sync` at the address with the items of these lines."""
    call = ["sync", "--table", str(table), "--addr", address, *words, "-"]
    return run(call, text=lines.encode(), seconds=seconds)


def theirs_of(said: Said) -> list[str]:
    """The items of the server that `sync` printed."""
    return [line.removeprefix("theirs ") for line in said.output.splitlines() if line.startswith("theirs ")]


def wait_until(is_so: Callable[[], bool], seconds: float = SECONDS) -> bool:
    """Waits until this is so; whether it was in time."""
    last = time.monotonic() + seconds
    while not is_so():
        if time.monotonic() > last:
            return False
        time.sleep(0.01)
    return True


def is_listening(path: Path) -> bool:
    """Whether a server takes connections at this Unix socket. Its file is there before that."""
    with socket.socket(socket.AF_UNIX) as own:
        try:
            own.connect(str(path))
        except OSError:
            return False
    return True


NUMBERS = itertools.count(1)


ANY_PORT = "127.0.0.1:0"
PORT = 7700
"""Where `serve` listens and `sync` connects without --addr."""


def port_is_free() -> bool:
    """Whether nobody listens at the port that is taken without --addr."""
    with contextlib.suppress(OSError), socket.socket() as one:
        one.setsockopt(socket.SOL_SOCKET, socket.SO_REUSEADDR, 1)
        one.bind(("127.0.0.1", PORT))
        return True
    return False


IN_MEMORY = "kept in memory alone: --keep FILE keeps it\n"
"""What a server says that may learn, and writes that to no file."""


class Server:
    """`serve` as it runs, at this address, whose port 0 is one that the system chooses."""

    def __init__(
        self, folder: Path, words: Sequence[str], table: Path, before: Sequence[str] = (), address: str = ANY_PORT
    ) -> None:
        number = next(NUMBERS)
        self.out, self.err = folder / f"{number}.out", folder / f"{number}.err"
        call = [*before, PROGRAM, "serve", "--table", str(table), "--addr", address, *words]
        with self.out.open("wb") as out, self.err.open("wb") as err:
            self.process = subprocess.Popen(call, cwd=folder, stdin=subprocess.DEVNULL, stdout=out, stderr=err)

    def error(self) -> str:
        """What is on standard error, but for the lines with the real addresses, and that of a set in memory alone."""
        lines = self.err.read_text(errors="backslashreplace").splitlines(keepends=True)
        told = "listening ", "websocket ", "metrics ", "control ", IN_MEMORY
        return "".join(line for line in lines if not line.startswith(told))

    def address(self) -> str:
        """The real address, once it listens."""
        return self.told("listening")

    def told(self, word: str) -> str:
        """The real address that is told after this word, once it listens there."""
        found: list[str] = []

        def is_known() -> bool:
            lines = self.err.read_text().splitlines(keepends=True)
            found.extend(line.split()[1] for line in lines if line.startswith(f"{word} ") and line.endswith("\n"))
            return bool(found) or self.process.poll() is not None

        wait_until(is_known)
        if not found:
            raise RuntimeError(f"the server does not listen: status {self.process.poll()}, {self.error()!r}")
        return found[0]

    def ended(self, seconds: float = SECONDS) -> Said:
        """What it said, once it has ended by itself."""
        try:
            status: int | str = self.process.wait(seconds)
        except subprocess.TimeoutExpired:
            status = f"no end within {seconds} seconds"
        return Said(status, self.out.read_text(), self.error())

    def kill(self, number: signal.Signals = signal.SIGKILL) -> None:
        self.process.send_signal(number)
        try:
            self.process.wait(SECONDS)
        except subprocess.TimeoutExpired:
            self.process.kill()
            self.process.wait()


@contextlib.contextmanager
def serve(
    folder: Path, *words: str, table: Path = EIGHT, before: Sequence[str] = (), address: str = ANY_PORT
) -> Iterator[Server]:
    """A server that is ended in any case."""
    server = Server(folder, words, table, before, address)
    try:
        yield server
    finally:
        server.kill()


# The door of a server.


@dataclass(frozen=True)
class Came:
    """An answer: its status, its fields by their names in small letters, and its body."""

    status: int
    fields: dict[str, str]
    text: str


class UnixConnection(http.client.HTTPConnection):
    """A connection to a Unix socket."""

    def __init__(self, path: Path) -> None:
        super().__init__("localhost", timeout=SECONDS)
        self.path = path

    def connect(self) -> None:
        self.sock = socket.socket(socket.AF_UNIX)
        self.sock.settimeout(SECONDS)
        self.sock.connect(str(self.path))


class Door:
    """The door of a server at the Unix socket of this path."""

    def __init__(self, path: Path) -> None:
        self.path = path
        self.word = f"unix:{path}"

    def ask(self, method: str, target: str, body: bytes | None = None, **fields: str) -> Came:
        connection = UnixConnection(self.path)
        try:
            connection.request(method, target, body, {name.replace("_", "-"): text for name, text in fields.items()})
            answer = connection.getresponse()
            text = answer.read().decode()
            return Came(answer.status, {name.lower(): value for name, value in answer.getheaders()}, text)
        finally:
            connection.close()

    def put(self, lines: str, target: str = "/items") -> Came:
        return self.ask("POST", target, lines.encode())


def main(part: str, *tests: Callable[[Count], None]) -> None:
    """Runs the tests of a part as a script."""
    enter_own_world()
    count = Count(part)
    for test in tests:
        count.tries(test.__name__, test)
    sys.exit(count.end())
