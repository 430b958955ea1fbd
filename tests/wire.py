"""Frames of the wire format for the scripts that speak to a server as a peer would that is not honest.

The tests use it, `crowd.py`, `long/soak`, `long/soak-shards`, and `flood`, `parts`, `peers` and `programs` of `bench`.
It checks nothing that it reads.
"""

from __future__ import annotations

import bisect
import contextlib
import hashlib
import os
import socket
from collections.abc import Sequence
from pathlib import Path

HELLOS = {1: b"RRS1", 2: b"RRS2"}
HELLO = HELLOS[1]
END = b"\x00\x00\x00\x01\x04"
# Under this table a server of 65,536 items cuts its set into 32 ranges, and half of one of them into 16.
TABLE = """cap = 65536
limit = 64
rounds = 3
row = [
  {upto = 64, list = true},
  {upto = 1024, split = [1, 1, 1, 1, 1, 1, 1, 1, 1, 1, 1, 1, 1, 1, 1, 1]},
  {upto = 65536, split = [1, 1, 1, 1, 1, 1, 1, 1, 1, 1, 1, 1, 1, 1, 1, 1, 1, 1, 1, 1, 1, 1, 1, 1, 1, 1, 1, 1, 1, 1, 1, 1]},
]
"""


def set_in_files(folder: str, name: str, count: int) -> tuple[list[bytes], str, str]:
    """So many items of 64 bytes, in order; the file of them, and that of TABLE, in the folder."""
    os.makedirs(folder, exist_ok=True)
    path, table = Path(folder, f"{name}.items"), Path(folder, f"{name}.toml")
    items = sorted(hashlib.sha512(str(number).encode()).digest() for number in range(count))
    path.write_text("".join(f"{item.hex()}\n" for item in items))
    table.write_text(TABLE)
    return items, str(path), str(table)


def frame(body: bytes) -> bytes:
    return len(body).to_bytes(4, "big") + body


def range_bytes(lower: bytes, upper: bytes | None) -> bytes:
    """A range from the lower bound (no bytes are the start) up to the other (None is the end)."""
    last = b"\xff" if upper is None else bytes([len(upper)]) + upper
    return bytes([len(lower)]) + lower + last


def items_bytes(items: Sequence[bytes]) -> bytes:
    return len(items).to_bytes(4, "big") + b"".join(bytes([len(item)]) + item for item in items)


def sum_frame(lower: bytes, upper: bytes | None, profile: int = 1) -> bytes:
    """A Sum that is the fingerprint of no set that the server has."""
    return frame(b"\x01" + range_bytes(lower, upper) + b"\x01" * (32 if profile == 1 else 36))


def list_frame(lower: bytes, upper: bytes | None, items: Sequence[bytes]) -> bytes:
    return frame(b"\x02" + range_bytes(lower, upper) + items_bytes(items))


def answer_frame(lower: bytes, upper: bytes | None, count: int, items: Sequence[bytes]) -> bytes:
    """An Answer to a List of this many items that lacks none of them."""
    marks = count.to_bytes(4, "big") + b"\0" * ((count + 7) // 8)
    return frame(b"\x03" + range_bytes(lower, upper) + marks + items_bytes(items))


def fault_frame(number: int) -> bytes:
    return frame(bytes([5, number]))


def bounds(body: bytes) -> tuple[bytes, bytes | None]:
    """The bounds of a part."""
    end = 2 + body[1]
    lower = body[2:end]
    if body[end] == 0xFF:
        return lower, None
    return lower, body[end + 1 : end + 1 + body[end]]


def listed(body: bytes) -> int:
    """How many items a List has."""
    at = 2 + body[1]
    at += 1 if body[at] == 0xFF else 1 + body[at]
    return int.from_bytes(body[at : at + 4], "big")


def inside(lower: bytes, upper: bytes | None, number: int) -> list[bytes]:
    """Items of 8 bytes in the range, rising: 5 of its middle, and a number."""
    low = int.from_bytes(lower[:8].ljust(8, b"\0"), "big")
    high = 2**64 if upper is None else int.from_bytes(upper[:8].ljust(8, b"\0"), "big")
    front = ((low + high) // 2).to_bytes(8, "big")[:5]
    return [front + each.to_bytes(3, "big") for each in range(number)]


def connected(
    address: str, seconds: float | None = None, room: int | None = None, source: str | None = None
) -> socket.socket:
    """A connection of which no call takes longer than these seconds, and whose system holds about so many bytes that
    were not read; from this address, if one is given."""
    host, port = address.rsplit(":", 1)
    peer = socket.socket()
    try:
        if room is not None:
            peer.setsockopt(socket.SOL_SOCKET, socket.SO_RCVBUF, room)
        if source is not None:
            peer.bind((source, 0))
        peer.settimeout(seconds)
        peer.setsockopt(socket.IPPROTO_TCP, socket.TCP_NODELAY, 1)
        peer.connect((host, int(port)))
    except BaseException:
        peer.close()
        raise
    return peer


def read_to_end(peer: socket.socket) -> bytes:
    pieces = []
    while piece := peer.recv(1 << 20):
        pieces.append(piece)
    return b"".join(pieces)


class Refused(Exception):
    """The server refuses with this number."""


Text = bytes
"""What `bytes` is called in a class that has a function of that name."""


class Peer:
    def __init__(self, address: str, seconds: float | None = None, room: int | None = None) -> None:
        self.socket = connected(address, seconds, room)
        self.input = self.socket.makefile("rb")

    def close(self) -> None:
        self.input.close()
        self.socket.close()

    def send(self, text: bytes) -> None:
        self.socket.sendall(text)

    def bytes(self, count: int) -> Text:
        text = self.input.read(count)
        if len(text) < count:
            raise EOFError("the server closed the connection")
        return text

    def message(self) -> list[Text]:
        """The bodies of the parts of the next message."""
        parts: list[Text] = []
        while True:
            body = self.bytes(int.from_bytes(self.bytes(4), "big"))
            if body[0] == 5:
                raise Refused(body[1])
            if body[0] == 4:
                return parts
            parts.append(body)


def halves(lower: bytes, upper: bytes | None, items: Sequence[bytes]) -> bytes:
    """Two Sums which partition a range of these items of the server."""
    first = bisect.bisect_left(items, lower)
    last = len(items) if upper is None else bisect.bisect_left(items, upper)
    middle = items[(first + last) // 2]
    return sum_frame(lower, middle) + sum_frame(middle, upper)


def split_again(peer: Peer, parts: Sequence[bytes], items: Sequence[bytes]) -> list[bytes]:
    """Answers each of these Sums by its two halves, and gives the parts of the server's next message."""
    for body in parts:
        peer.send(halves(*bounds(body), items))
    peer.send(END)
    return peer.message()


def begin(peer: Peer, items: Sequence[bytes]) -> list[bytes]:
    """Speaks until the server has sent a Sum of each range of 64 items, and gives these parts."""
    peer.send(HELLO + sum_frame(b"", None) + END)
    assert peer.bytes(4) == HELLO
    return split_again(peer, peer.message(), items)


def lines_of(status: Path) -> dict[str, str]:
    """The lines of a status file of /proc by their names; none if the process is gone."""
    try:
        return dict(line.split(":", 1) for line in status.read_text().splitlines())
    except OSError:
        return {}


def process_folder(pid: int) -> Path:
    """The folder of /proc for a process of this world, whose numbers may be its own: then /proc has others."""
    own = os.readlink("/proc/self/ns/pid")
    for folder in Path("/proc").glob("[0-9]*"):
        if lines_of(folder / "status").get("NSpid", "").split()[-1:] != [str(pid)]:
            continue
        with contextlib.suppress(OSError):
            if os.readlink(folder / "ns/pid") == own:
                return folder
    raise FileNotFoundError(f"no process {pid}")


def resident(pid: int) -> tuple[int, int]:
    """The resident size of the process, and its greatest one since it was last forgotten, in kilobytes."""
    lines = lines_of(process_folder(pid) / "status")
    return int(lines["VmRSS"].split()[0]), int(lines["VmHWM"].split()[0])


def forget_greatest(pid: int) -> None:
    """Forgets the greatest resident size."""
    (process_folder(pid) / "clear_refs").write_text("5")
