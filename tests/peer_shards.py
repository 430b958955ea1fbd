"""A peer that keeps a set in shards, or is asked for a part of one, by docs/PROTOCOL.md: over `peer.py`, which has one
session."""

import hashlib
from dataclasses import dataclass, field

from peer import Input, Refused, Side, dial, fingerprint, is_inside, profile_of, read_hello, require, serve

WHOLE_MARK, PART_MARK, DIRECTORY, ENTRY, MOST_IN_A_SHARD = b"RRSN", b"RRSP", 0xFFFF, 38, 65_536
LONGEST = 64
ALL = b"", None
"""The bounds of the range of all items."""


def after_selector(peer):
    """What is left of a peer's bytes once a selector is taken off, whatever set it names."""
    source = Input(peer)
    # How many bytes stand behind the bytes of each length.
    behind = {WHOLE_MARK: (3,), PART_MARK: (3, 0, 0)}.get(peer[:4])
    if behind is None:
        return peer
    try:
        source.take(4)
        for more in behind:
            length = source.take(1)[0]
            if length > LONGEST:
                break
            source.take(length + more)
    except Refused:
        return b""
    return source.rest


def bound(source):
    """Reads a bound of a part."""
    length = source.take(1)[0]
    require(length <= LONGEST, 55)
    return source.take(length)


def bounds(source):
    """Reads both bounds of a part."""
    lower, upper = bound(source), bound(source)
    require(lower < upper or (lower and not upper), 55)
    return lower, upper or None


def serve_plain(profile, table, items, peer):
    """The session of a responder that has neither a name nor shards: over a part, if the peer asks for one."""
    if peer.startswith(PART_MARK):
        return Shards(b"", 0, table, items).serve(peer)
    return serve(profile, table, items, peer)


@dataclass
class Shards:
    """A set in 2 ** bits shards, under a table; its name may be of no bytes."""

    name: bytes
    bits: int
    table: dict
    items: list

    def shard(self, number, lower, upper):
        """The items of a shard in a range: those whose digests begin with the bits of its number."""
        own = (item for item in self.items if is_inside(item, lower, upper))
        digests = ((item, int.from_bytes(hashlib.sha256(item).digest(), "big")) for item in own)
        return sorted(item for item, digest in digests if digest >> (256 - self.bits) == number)

    def part(self, number, lower, upper):
        """The items of a session: those of a shard in a range, or the entries of all shards, of their items there."""
        if number != DIRECTORY:
            return self.shard(number, lower, upper)
        shards = [self.shard(number, lower, upper) for number in range(2**self.bits)]
        return [
            number.to_bytes(2, "big") + len(items).to_bytes(4, "big") + fingerprint(1, items)
            for number, items in enumerate(shards)
        ]

    def front(self, mark):
        """A selector up to its number."""
        return mark + bytes([len(self.name)]) + self.name + bytes([self.bits])

    def selector(self, number, lower=b"", upper=None):
        mark, after = WHOLE_MARK, b""
        if (lower, upper) != ALL:
            mark, after = PART_MARK, b"".join(bytes([len(each)]) + each for each in (lower, upper or b""))
        return self.front(mark) + number.to_bytes(2, "big") + after

    def selected(self, source):
        """Reads a selector: the number of the shard, or of the directory, and the bounds."""
        is_part = source.rest.startswith(PART_MARK)
        for place, byte in enumerate(self.front(PART_MARK if is_part else WHOLE_MARK)):
            require(source.take(1) == bytes([byte]), 1 if place < 4 else 55)
        number = int.from_bytes(source.take(2), "big")
        require(number < 2**self.bits or (number == DIRECTORY and self.bits > 0), 55)
        return number, *(bounds(source) if is_part else ALL)

    def differing(self, ours, theirs):
        """The numbers of the shards that are asked for, by the entries that each side alone has. This side keeps all."""
        ours, theirs = self.numbers(ours), self.numbers(theirs)
        require(ours <= theirs, 56)
        return sorted(theirs)

    def numbers(self, entries):
        """The numbers of the shards that entries of a peer are of."""
        numbers = set()
        for entry in entries:
            require(len(entry) == ENTRY, 57)
            number, count = int.from_bytes(entry[:2], "big"), int.from_bytes(entry[2:6], "big")
            require(number < 2**self.bits and count <= MOST_IN_A_SHARD and number not in numbers, 57)
            numbers.add(number)
        return numbers

    def serve(self, peer):
        """The session of a responder, for what the peer asks. If that is refused, a hello comes before the fault."""
        side = Side(self.table, [], after_selector(peer))

        def begin():
            try:
                side.items = self.part(*self.selected(Input(peer)))
            except Refused:
                side.own_hello(profile_of(side.source.rest[:4]) or 1)
                raise
            read_hello(side)

        return side.run(begin)

    def dial(self, profile, peer, number, lower=b"", upper=None):
        """The session of an initiator, over a shard or the directory. What it wrote has no selector."""
        return dial(profile, self.table, self.part(number, lower, upper), peer)

    def reconcile(self, profile, peers):
        """All sessions of an initiator, the shards in rising order, over what the peer writes in each of them."""
        found, talks = Found(), iter(peers)
        numbers = [0]
        if self.bits > 0:
            first = self.dial(profile, next(talks), DIRECTORY)
            found.sessions.append((DIRECTORY, first))
            found.text = first.text
            try:
                numbers = self.differing(first.ours, first.theirs)
            except Refused as fault:
                found.text, numbers = f"refused {fault.number}", []
        for number in numbers:
            found.takes(number, self.dial(profile, next(talks), number))
        if self.bits == 0 and found.faults:
            # The one session is all that there is.
            return Found(found.faults[0], found.sessions)
        return found


@dataclass
class Found:
    """What came of all sessions of an initiator, by the numbers of their shards; `incomplete` if some failed."""

    text: str = "ended"
    sessions: list = field(default_factory=list)
    ours: list = field(default_factory=list)
    theirs: list = field(default_factory=list)
    differ: int = 0
    faults: dict = field(default_factory=dict)

    def takes(self, number, outcome):
        """Adds the session over a shard."""
        self.sessions.append((number, outcome))
        self.ours = sorted({*self.ours, *outcome.ours})
        self.theirs = sorted({*self.theirs, *outcome.theirs})
        # With b = 0 no directory says whether the one shard differs.
        self.differ += len(self.sessions) > 1 or bool(outcome.ours or outcome.theirs)
        if outcome.text != "ended":
            self.text, self.faults[number] = "incomplete", outcome.text
