"""Nodes that keep their sets equal, each a server with a door, on the loopback or each in a network namespace.

`nodes`, `long/nodes`, `long/machines` and `bench/nodes` use it.
"""

from __future__ import annotations

import contextlib
import http.client
import json
import random
import re
import shutil
import socket
import subprocess
from collections.abc import Callable, Iterable, Iterator, Sequence
from pathlib import Path

from common import ALL_ROUND, Door, Server, has_own_world, wait_until

Shape = Callable[[int, int], list[int]]
"""Whom a node of this number calls, of so many nodes."""

SHAPES: dict[str, Shape] = {
    "ring": lambda own, count: [(own + 1) % count],
    "star": lambda own, count: list(range(1, count)) if own == 0 else [0],
    "line": lambda own, count: [other for other in (own - 1, own + 1) if 0 <= other < count],
    "mesh": lambda own, count: [other for other in range(count) if other != own],
}


# Where nodes are.


def is_free(port: int) -> bool:
    with contextlib.suppress(OSError), socket.socket() as one:
        one.bind(("127.0.0.1", port))
        return True
    return False


def free_ports(count: int) -> list[int]:
    """Ports of the loopback that nobody has, of those that the system gives to no connection."""
    ports: list[int] = []
    while len(ports) < count:
        port = random.randrange(10_000, 30_000)
        if port not in ports and is_free(port):
            ports.append(port)
    return ports


class Loopback:
    """One machine, on which each node has a port of its own."""

    may_cut = False

    def __init__(self, count: int) -> None:
        self.ports = free_ports(count)

    def address(self, number: int) -> str:
        return f"127.0.0.1:{self.ports[number]}"

    def before(self, number: int) -> list[str]:  # noqa: ARG002
        """The words that start a program on the machine of this number."""
        return []


class Machines:
    """The machines 192.0.2.1, 192.0.2.2 and so on, each a network namespace, on one switch or on two that are apart."""

    may_cut = True

    def __init__(self, count: int) -> None:
        self.count = count
        self.apart: list[int] = []

    def address(self, number: int) -> str:
        return f"192.0.2.{number + 1}:7700"

    def before(self, number: int) -> list[str]:
        return ["ip", "netns", "exec", f"m{number}"]

    def cut(self, some: Iterable[int]) -> None:
        """Puts these machines on the second switch."""
        self.apart = list(some)
        run_ip(*(f"link set port{number} master switch1" for number in self.apart))

    def join(self) -> None:
        """Puts all on the first one."""
        run_ip(*(f"link set port{number} master switch0" for number in self.apart))
        self.apart = []


Place = Loopback | Machines


def run_ip(*lines: str, machine: int | None = None) -> bool:
    """Runs these commands of `ip`, on a machine if one is named; whether all were done."""
    call = ["ip", *([] if machine is None else ["-n", f"m{machine}"]), "-batch", "-"]
    text = "".join(f"{line}\n" for line in lines)
    return subprocess.run(call, input=text, text=True, capture_output=True).returncode == 0


def make_machines(count: int) -> bool:
    """Makes the namespaces and the switches; whether the system lets it."""
    lines = [f"link add switch{side} type bridge" for side in (0, 1)]
    lines += [f"link set switch{side} up" for side in (0, 1)]
    for number in range(count):
        lines += [f"netns add m{number}", f"link add port{number} type veth peer name eth0 netns m{number}"]
        lines.append(f"link set port{number} up master switch0")
    up = ["link set eth0 up", "link set lo up"]
    own = [f"addr add 192.0.2.{number + 1}/24 dev eth0" for number in range(count)]
    return run_ip(*lines) and all(run_ip(line, *up, machine=number) for number, line in enumerate(own))


@contextlib.contextmanager
def machines(count: int) -> Iterator[Machines | None]:
    """So many machines, if this script has a world of its own and the system lets it make them. They go in any case."""
    if not has_own_world() or not shutil.which("ip"):
        yield None
        return
    # A folder for namespaces that is gone with this script.
    own_run = ["mount", "-t", "tmpfs", "none", "/run"]
    is_there = subprocess.run(own_run, capture_output=True).returncode == 0
    try:
        yield Machines(count) if is_there and make_machines(count) else None
    finally:
        for line in [f"netns del m{number}" for number in range(count)] + ["link del switch0", "link del switch1"]:
            run_ip(line)
        if is_there:
            subprocess.run(["umount", "-l", "/run"], check=False)


# Nodes.


def values_at(path: Path, *metrics: str) -> list[float]:
    """For each of these metrics of the socket of this path the sum of its values over all labels, as they are at one
    time; -1 where it has none.
    """
    parts = []
    with contextlib.suppress(OSError), socket.socket(socket.AF_UNIX) as caller:
        caller.connect(str(path))
        caller.sendall(b"GET /metrics HTTP/1.1\r\nHost: x\r\nConnection: close\r\n\r\n")
        while part := caller.recv(65_536):
            parts.append(part)
    text = b"".join(parts).decode()
    found = [re.findall(rf"^{metric}(?:\{{[^}}]*\}})? (\S+)$", text, re.MULTILINE) for metric in metrics]
    return [sum(map(float, values)) if values else -1.0 for values in found]


class Node:
    """A server with a door, which can be killed and started again with the same words. It has a folder of its own."""

    def __init__(self, folder: Path, place: Place, number: int, words: Sequence[str], table: Path = ALL_ROUND) -> None:
        self.name, self.folder, self.table = f"node {number}", folder / str(number), table
        self.folder.mkdir(exist_ok=True)
        self.address, self.before = place.address(number), place.before(number)
        self.door = Door(self.folder / "control")
        self.words = ["--control", self.door.word, "--metrics", f"unix:{self.folder}/metrics", *words]
        self.servers: list[Server] = []

    def start(self) -> None:
        self.servers.append(Server(self.folder, self.words, self.table, self.before, self.address))

    def is_open(self) -> bool:
        """Whether its door is open, or it has ended."""
        last = self.servers[-1]
        return "control " in last.out.read_text() or last.process.poll() is not None

    def kill(self) -> None:
        if self.servers:
            self.servers[-1].kill()

    def put(self, items: Iterable[str]) -> bool:
        """Puts in these items; whether it was answered that they are kept."""
        with contextlib.suppress(OSError, http.client.HTTPException):
            return self.door.put("".join(f"{item}\n" for item in items)).status == 200
        return False

    def has(self, item: str) -> bool:
        with contextlib.suppress(OSError, http.client.HTTPException):
            return self.door.ask("GET", f"/items/{item}").status == 200
        return False

    def items(self) -> list[str] | None:
        """Its set in order, if it answers."""
        with contextlib.suppress(OSError, http.client.HTTPException):
            came = self.door.ask("GET", "/items")
            return came.text.split() if came.status == 200 else None
        return None

    def status(self, name: str) -> int:
        """A number of its status; -1 if it does not answer."""
        with contextlib.suppress(OSError, http.client.HTTPException):
            return int(json.loads(self.door.ask("GET", "/status").text)[name])
        return -1

    def metrics(self, *names: str) -> list[float]:
        """For each of these metrics the sum of its values."""
        return values_at(self.folder / "metrics", *names)

    def error(self) -> str:
        """What it wrote on standard error, over all its starts."""
        return "".join(server.error() for server in self.servers)


@contextlib.contextmanager
def running(nodes: Sequence[Node]) -> Iterator[None]:
    """All these nodes, which are ended in any case."""
    try:
        for node in nodes:
            node.start()
        wait_until(lambda: all(node.is_open() for node in nodes))
        yield
    finally:
        for node in nodes:
            node.kill()


def calls(place: Place, shape: Shape, number: int, count: int) -> list[str]:
    """The words by which a node calls those that the shape says, if it calls any."""
    others = [place.address(other) for other in shape(number, count)]
    return ["--with", ",".join(others)] if others else []
