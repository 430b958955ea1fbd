"""A peer by docs/PROTOCOL.md: its messages, what it refuses and what it learns, from bytes to bytes.

It is written from that page with Python's standard library alone, and nothing of the program is used. `tests/run peer`
checks the worked cases of docs/vectors by it.
"""

import hashlib
import itertools
from bisect import bisect_left
from dataclasses import dataclass

LONGEST_BODY = 8_388_608
MOST_PARTS = 131_072
MOST_NUMBER = 8_388_864
COMPACT = "compact"
HELLOS = {1: b"RRS1", 2: b"RRS2", COMPACT: b"RRS4"}
SUM, LIST, ANSWER, END, FAULT = range(1, 6)
LIST_ALL = {"cap": 65_536, "limit": 65_536, "rounds": 0, "row": [{"upto": 65_536, "list": True}]}


class Refused(Exception):
    """The number of the refusal."""

    def __init__(self, number):
        super().__init__(number)
        self.number = number


class PeerRefused(Exception):
    """The number of the peer's fault frame."""

    def __init__(self, number):
        super().__init__(number)
        self.number = number


def require(holds, number):
    if not holds:
        raise Refused(number)


# Ranges and fingerprints. The upper bound None is the end.


def is_inside(item, lower, upper):
    return lower <= item and (upper is None or item < upper)


def fingerprint(profile, items):
    """The fingerprint of different items, as it is written."""
    digests = [hashlib.sha256(item).digest() for item in items]
    lanes = [sum(int.from_bytes(digest[at : at + 16], "big") for digest in digests) % 2**128 for at in (0, 16)]
    text = b"".join(lane.to_bytes(16, "big") for lane in lanes)
    if profile == 1:
        return text
    text = (len(digests) % 2**32).to_bytes(4, "big") + text
    return text if profile == 2 else hashlib.sha256(text).digest()[:12]


@dataclass
class Part:
    """A part of a message; what its kind does not have is empty."""

    kind: int
    lower: bytes
    upper: bytes | None
    fingerprint: bytes = b""
    marks: tuple = ()
    items: tuple = ()

    @property
    def range(self):
        return self.lower, self.upper

    @property
    def is_open(self):
        return self.kind != ANSWER


# What comes of a peer.


class Input:
    """What is left of the bytes of a peer, which may come in pieces."""

    def __init__(self, peer):
        self.rest, self.pieces = (peer, iter(())) if isinstance(peer, bytes) else (b"", iter(peer))

    def take(self, count):
        while len(self.rest) < count:
            piece = next(self.pieces, None)
            require(piece is not None, 3)
            self.rest += piece
        taken, self.rest = self.rest[:count], self.rest[count:]
        return taken


class Limited:
    """What is left of bytes whose number was told. A field that goes on behind them is refused."""

    def __init__(self, rest):
        self.rest = rest

    def take(self, count):
        require(count <= len(self.rest), 2)
        taken, self.rest = self.rest[:count], self.rest[count:]
        return taken

    def byte(self):
        return self.take(1)[0]


# A spelling writes a message and a fault, and reads the parts of one message. If a fault comes, reading ends as refused
# by the peer.


def packed(marks):
    """The bytes that hold these marks."""
    return sum(2**at for at, mark in enumerate(marks) if mark).to_bytes((len(marks) + 7) // 8, "little")


def unpacked(count, held):
    """So many marks, which these bytes hold."""
    bits = [byte >> at & 1 for byte in held for at in range(8)]
    require(not any(bits[count:]), 10)
    return tuple(map(bool, bits[:count]))


# Frames: the spelling of profiles 1 and 2.


def frame(body):
    return len(body).to_bytes(4, "big") + body


def body_of(part):
    """The body of a part's frame."""
    upper = b"\xff" if part.upper is None else bytes([len(part.upper)]) + part.upper
    body = bytes([part.kind, len(part.lower)]) + part.lower + upper + part.fingerprint
    if part.kind == ANSWER:
        body += len(part.marks).to_bytes(4, "big") + packed(part.marks)
    if part.kind != SUM:
        body += len(part.items).to_bytes(4, "big") + b"".join(bytes([len(item)]) + item for item in part.items)
    return body


def message_text(parts):
    return b"".join(frame(body_of(part)) for part in parts) + frame(bytes([END]))


class Body(Limited):
    """What is left of a frame's body."""

    def number(self):
        return int.from_bytes(self.take(4), "big")

    def lower(self):
        length = self.byte()
        require(length <= 64, 5)
        return self.take(length)

    def upper(self):
        length = self.byte()
        if length == 0xFF:
            return None
        require(1 <= length <= 64, 5)
        return self.take(length)

    def marks(self):
        count = self.number()
        return unpacked(count, self.take((count + 7) // 8))

    def items(self, lower, upper):
        items = []
        for _ in range(self.number()):
            length = self.byte()
            require(1 <= length <= 64, 7)
            item = self.take(length)
            require(not items or items[-1] < item, 8)
            require(is_inside(item, lower, upper), 9)
            items.append(item)
        return tuple(items)


class Frames:
    """The spelling of a profile that has frames."""

    def __init__(self, profile):
        self.size = 32 if profile == 1 else 36

    def message(self, parts):
        return message_text(parts)

    def fault(self, number):
        return frame(bytes([FAULT, number]))

    def read(self, source, in_session=True):
        while (part := self.part(source, in_session)) is not None:
            yield part

    def part(self, source, in_session):
        """The next part; None at the end of the message."""
        length = int.from_bytes(source.take(4), "big")
        require(1 <= length <= LONGEST_BODY, 2)
        body = Body(source.take(length))
        kind, part, fault = body.byte(), None, None
        require(SUM <= kind <= (FAULT if in_session else END), 4)
        if kind == FAULT:
            fault = body.byte()
        elif kind != END:
            part = self.part_of(kind, body)
        require(not body.rest, 11)
        if fault is not None:
            raise PeerRefused(fault)
        return part

    def part_of(self, kind, body):
        lower, upper = body.lower(), body.upper()
        require(upper is None or lower < upper, 6)
        part = Part(kind, lower, upper)
        if kind == SUM:
            part.fingerprint = body.take(self.size)
        if kind == ANSWER:
            part.marks = body.marks()
        if kind != SUM:
            part.items = body.items(lower, upper)
        return part


def read_message(text):
    """The parts of one message of profile 1 that is read alone."""
    source, parts = Input(text), []
    for part in Frames(1).read(source, in_session=False):
        require(len(parts) < MOST_PARTS, 12)
        parts.append(part)
    require(not source.rest, 11)
    return parts


# The compact spelling. A bound is written against the one before it, an item against the item before it.

SKIP = 0
ESCAPE = 7
"""In a head, a length of so many bytes or more, which a byte of its own gives."""
END_BYTE, FAULT_BYTE = 0x00, 0x08


def shared(one, other):
    """How many first bytes two byte strings have alike."""
    pairs = itertools.takewhile(lambda pair: pair[0] == pair[1], zip(one, other))
    return sum(1 for _ in pairs)


def compact_bound(kind, before, bound):
    if bound is None:
        return bytes([64 * kind])
    share = shared(before, bound)
    lengths = share, len(bound) - share
    head = 64 * kind + 8 * min(lengths[0], ESCAPE) + min(lengths[1], ESCAPE)
    return bytes([head, *(length for length in lengths if length >= ESCAPE)]) + bound[share:]


def compact_number(number):
    """Seven bits a byte, the highest first."""
    text = bytes([number & 0x7F])
    while number := number >> 7:
        text = bytes([0x80 | number & 0x7F]) + text
    return text


def compact_items(lower, items):
    lengths = set(map(len, items))
    text = bytes([lengths.pop() if len(lengths) == 1 else 0]) if items else b""
    for before, item in itertools.pairwise((lower, *items)):
        share = shared(before, item)
        rest = item[share:]
        text += bytes([share, len(rest)] if text[0] == 0 else [share]) + rest
    return text


class Compact:
    """The spelling of the compact profile."""

    def message(self, parts):
        return b"".join(self.pieces(parts)) + bytes([END_BYTE])

    def pieces(self, parts):
        before = b""
        for part in parts:
            if part.lower != before:
                yield compact_bound(SKIP, before, part.lower)
            yield compact_bound(part.kind, part.lower, part.upper)
            yield part.fingerprint if part.kind == SUM else self.body(part)
            before = part.upper

    def body(self, part):
        """The marks of an Answer and the items, behind the number of their bytes."""
        text = compact_items(part.lower, part.items)
        if part.kind == ANSWER:
            text = compact_number(len(part.marks)) + packed(part.marks) + text
        return compact_number(len(text)) + text

    def fault(self, number):
        return bytes([FAULT_BYTE, number])

    def read(self, source):
        reader = CompactReader(source)
        while (part := reader.part()) is not None:
            yield part


class CompactReader:
    """Reads one message, each field as soon as it has come."""

    def __init__(self, source):
        self.source = source
        self.bound = b""
        """That which the next one is written against; None at the end."""

    def byte(self):
        return self.source.take(1)[0]

    def part(self):
        """The next part; None at the end of the message."""
        head = self.byte()
        if head == END_BYTE:
            return None
        if head == FAULT_BYTE:
            raise PeerRefused(self.byte())
        lower, upper = self.bound, self.after(self.bound, head)
        if head >> 6 == SKIP:
            head = self.byte()
            require(head >> 6 != SKIP, 4)
            lower, upper = upper, self.after(upper, head)
        part, self.bound = Part(head >> 6, lower, upper), upper
        if part.kind == SUM:
            part.fingerprint = self.source.take(12)
            return part
        body = Limited(self.source.take(self.number(self.source)))
        if part.kind == ANSWER:
            count = self.number(body)
            part.marks = unpacked(count, body.take((count + 7) // 8))
        part.items = tuple(self.items(body, *part.range))
        require(len(body_of(part)) <= LONGEST_BODY, 2)
        return part

    def after(self, before, head):
        """Reads the rest of the bound after this one, which begins with this head."""
        kind, share, length = head >> 6, head >> 3 & 7, head & 7
        require(kind != SKIP or length > 0, 4)
        require(share == 0 or length > 0, 5)
        require(before is not None, 6)
        if length == 0:
            return None
        if share == ESCAPE:
            share = self.byte()
            require(share >= ESCAPE, 5)
        require(share <= min(63, len(before)), 5)
        if length == ESCAPE:
            length = self.byte()
            require(length >= ESCAPE, 5)
        require(share + length <= 64, 5)
        others = self.source.take(length)
        require(share == len(before) or others[0] > before[share], 6)
        return before[:share] + others

    def number(self, source):
        number = 0
        for place in range(4):
            byte = source.take(1)[0]
            require(place > 0 or byte != 0x80, 2)
            number = number << 7 | byte & 0x7F
            if byte < 0x80:
                require(number <= MOST_NUMBER, 2)
                return number
        raise Refused(2)

    def items(self, body, lower, upper):
        if not body.rest:
            return
        same, before, lengths = body.byte(), lower, set()
        require(same <= 64, 7)
        while body.rest or not lengths:
            share = body.byte()
            require(share <= len(before) and (share <= same or same == 0), 7)
            length = same - share if same else body.byte()
            require(1 <= share + length <= 64, 7)
            item = before[:share] + body.take(length)
            require(before < item or (before == item and not lengths), 8)
            require(share == shared(before, item), 8)
            require(is_inside(item, lower, upper), 9)
            yield item
            before = item
            lengths.add(len(item))
        require(same or len(lengths) > 1, 7)


def spelling_of(profile):
    return Compact() if profile == COMPACT else Frames(profile)


# Replies.


class Own:
    """The items of a peer, its table, and the profile in which it speaks."""

    def __init__(self, profile, table, items):
        self.profile = profile
        self.items = sorted(set(items))
        self.rows = table["row"]
        self.tops = [row["upto"] for row in self.rows]
        self.bounds = table.get("bounds", "items")
        self.is_cut_first = profile == COMPACT and table.get("opening", "sum") == "split"

    def within(self, lower, upper):
        return tuple(item for item in self.items if is_inside(item, lower, upper))

    def sum(self, lower, upper):
        return Part(SUM, lower, upper, fingerprint(self.profile, self.within(lower, upper)))

    def cuts(self, count):
        """The places at which the parts of a range begin, but the first one's; None if the range is listed."""
        row = self.rows[bisect_left(self.tops, count)]
        if row.get("list"):
            return None
        if "peel" in row:
            return [row["peel"]] if count > row["peel"] else []
        whole = sum(row["split"])
        cuts = (count * front // whole for front in itertools.accumulate(row["split"]))
        return sorted({cut for cut in cuts if 0 < cut < count})

    def bound(self, own, place):
        """The lower bound of a part that begins at this place, from 1 on, of the own items of a range."""
        item = own[place]
        if self.bounds == "items":
            return item
        return next(item[:length] for length in range(1, len(item) + 1) if item[:length] > own[place - 1])

    def first(self):
        """The parts of a first message."""
        cuts = self.cuts(len(self.items)) if self.is_cut_first else []
        return self.sums(b"", None, self.items, cuts or [])

    def sums(self, lower, upper, own, cuts):
        """The Sums of the parts of a range of these own items."""
        bounds = [lower, *(self.bound(own, cut) for cut in cuts), upper]
        return [self.sum(*pair) for pair in itertools.pairwise(bounds)]

    def reply(self, part):
        """The parts that reply to a part."""
        own = self.within(*part.range)
        if part.kind == LIST:
            marks = tuple(item not in own for item in part.items)
            return [Part(ANSWER, *part.range, marks=marks, items=tuple(item for item in own if item not in part.items))]
        if part.kind == ANSWER or part.fingerprint == fingerprint(self.profile, own):
            return []
        cuts = self.cuts(len(own))
        if cuts is None:
            return [Part(LIST, *part.range, items=own)]
        return self.sums(*part.range, own, cuts)


def answer(items, text):
    """The reply to one message that is read alone, under the table that lists everything."""
    parts = read_message(text)
    require(all(part.kind == SUM for part in parts), 20)
    own = Own(1, LIST_ALL, items)
    return message_text([reply for part in parts for reply in own.reply(part)])


# Placing.


class Partition:
    """The place of the parts of a partition, or outside of one."""

    def __init__(self):
        self.inside = None
        """Inside a partition: where it has come to, and where it ends."""

    def goes_on(self, part):
        come, end = self.inside
        require(part.kind == SUM and part.lower == come, 22)
        require(end is None or (part.upper is not None and part.upper <= end), 22)
        self.inside = None if part.upper == end else (part.upper, end)

    def finish(self):
        require(self.inside is None, 22)


class Opening(Partition):
    """The place of the parts of a first message: one Sum, or Sums that partition its range where it may be cut."""

    def __init__(self, may_be_cut=False):
        super().__init__()
        self.may_be_cut, self.has_come = may_be_cut, False

    def next(self, part):
        if self.inside is not None:
            self.goes_on(part)
            return
        require(not self.has_come and part.kind == SUM and part.lower == b"", 20)
        require(part.upper is None or self.may_be_cut, 20)
        self.has_come = True
        if part.upper is not None:
            self.inside = part.upper, None

    def finish(self):
        require(self.has_come, 20)
        super().finish()


class Place(Partition):
    """The place of the parts of a message that answers these parts."""

    def __init__(self, sent):
        super().__init__()
        self.left = [part for part in sent if part.is_open]

    def next(self, part):
        if self.inside is not None:
            self.goes_on(part)
            return
        while True:
            require(self.left, 20)
            own = self.left[0]
            if own.kind == LIST:
                self.answers(own, part)
            elif part.kind == LIST and part.range == own.range:
                self.left.pop(0)
            elif part.kind == SUM and part.lower == own.lower:
                self.begins(own, part)
            else:
                self.left.pop(0)
                continue
            return

    def answers(self, own, part):
        require(part.kind == ANSWER, 23)
        require(part.range == own.range, 20)
        require(len(part.marks) == len(own.items), 24)
        require(not set(part.items) & set(own.items), 25)
        self.left.pop(0)

    def begins(self, own, part):
        require(part.upper != own.upper, 21)
        require(part.upper is not None and (own.upper is None or part.upper < own.upper), 20)
        self.left.pop(0)
        self.inside = part.upper, own.upper

    def finish(self):
        super().finish()
        require(all(part.kind != LIST for part in self.left), 23)


# Sessions.


@dataclass
class Outcome:
    """How a session ended for one side, and what it wrote."""

    text: str
    """`ended`, `refused` and the number, or `peer refused` and the number."""
    sent: int
    ours: list
    theirs: list
    written: bytes


class Side:
    """One side of a session over the bytes of a peer."""

    def __init__(self, table, items, peer):
        self.table, self.items = table, items
        self.source = Input(peer)
        self.written = b""
        self.sent, self.last = 0, None
        self.ours, self.theirs = [], []

    def own_hello(self, profile):
        self.own = Own(profile, self.table, self.items)
        self.profile, self.spelling = profile, spelling_of(profile)
        self.written += HELLOS[profile]

    def say(self, parts):
        self.written += self.spelling.message(parts)
        self.sent += 1
        self.last = parts

    def learns(self, part):
        own = self.own.within(*part.range)
        if part.kind == LIST:
            self.theirs += [item for item in part.items if item not in own]
            self.ours += [item for item in own if item not in part.items]
        if part.kind == ANSWER:
            self.theirs += part.items
            listed = next(mine.items for mine in self.last if mine.kind == LIST and mine.range == part.range)
            self.ours += [item for item, mark in zip(listed, part.marks) if mark]

    def hear(self):
        """Takes one message, and replies to it: whether the session goes on."""
        place = Opening(self.profile == COMPACT) if self.last is None else Place(self.last)
        heard, reply = [], []
        for part in self.spelling.read(self.source):
            require(len(heard) < MOST_PARTS, 12)
            place.next(part)
            heard.append(part)
            reply += self.own.reply(part)
        place.finish()
        goes_on = any(part.is_open for part in heard)
        require(not goes_on or len(reply) <= MOST_PARTS, 12)
        for part in heard:
            self.learns(part)
        if goes_on:
            self.say(reply)
        return goes_on and any(part.is_open for part in reply)

    def run(self, begin):
        """The session, from its beginning on."""
        try:
            begin()
            while self.hear():
                pass
        except Refused as fault:
            if not self.written:
                self.own_hello(1)
            self.written += self.spelling.fault(fault.number)
            return Outcome(f"refused {fault.number}", self.sent, [], [], self.written)
        except PeerRefused as fault:
            return Outcome(f"peer refused {fault.number}", self.sent, [], [], self.written)
        return Outcome("ended", self.sent, self.ours, self.theirs, self.written)


def serve(_profile, table, items, peer):
    """The session of a responder, in the profile of the peer's hello."""
    side = Side(table, items, peer)
    return side.run(lambda: read_hello(side))


def profile_of(hello):
    """The profile of a hello; None if it is no hello."""
    return next((profile for profile, own in HELLOS.items() if own == hello), None)


def read_hello(side):
    """Reads the hello of an initiator, and writes that of the responder."""
    profile = profile_of(side.source.take(4))
    require(profile is not None, 1)
    side.own_hello(profile)


def dial(profile, table, items, peer):
    """The session of an initiator."""
    side = Side(table, items, peer)

    def begin():
        side.own_hello(profile)
        side.say(side.own.first())
        require(side.source.take(4) == HELLOS[profile], 1)

    return side.run(begin)
