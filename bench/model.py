"""A model of a session: its messages, their parts and their bytes, counted by docs/PROTOCOL.md.

Nothing is hashed and nothing is sent. Two sets have one fingerprint in a range where they are equal there, so a clash
of fingerprints is not in the model. The items of both sets are numbered in their order, and a bound is the number of
the first item that is not before it, with its own length in bytes. As a lower bound (0, 0) is S, and as an upper bound
the number of all items with 0 is E.

`bench/strategies check` compares what the model counts with what the program itself counts.
"""

import functools
import itertools
import tomllib
from bisect import bisect_left

FRAME = 4 + 1
"""The length of a frame and its kind; the frame that ends a message has nothing more."""
FINGERPRINT = 32
COMPACT_FINGERPRINT = 12
HELLO = 4


class Table:
    """What is done with a range, by the number of its items: listed, or cut into shares."""

    def __init__(self, cap, rows, bounds="items", opening="sum"):
        self.cap = cap
        self.opening = opening
        self.tops = [row["upto"] for row in rows]
        self.rows = rows
        self.bounds = bounds
        self.kept = {}

    @staticmethod
    def read(path):
        with open(path, "rb") as file:
            text = tomllib.load(file)
        return Table(text["cap"], text["row"], text.get("bounds", "items"), text.get("opening", "sum"))

    def cuts(self, count):
        """The places of a range's items at which its parts begin, but the first part's; None where it is listed."""
        if count not in self.kept:
            self.kept[count] = self.cuts_of(count)
        return self.kept[count]

    def cuts_of(self, count):
        row = self.rows[bisect_left(self.tops, count)]
        if row.get("list"):
            return None
        if "peel" in row:
            return [row["peel"]] if count > row["peel"] else []
        total = sum(row["split"])
        sums = [count * weights // total for weights in itertools.accumulate(row["split"])]
        return sorted({cut for cut in sums if 0 < cut < count})

    def steps(self):
        """The staircase of the least ranks, as the command `check` prints it; None where a range would not get less."""
        ranks, steps = [0], []
        for count in range(self.cap + 1):
            rank = ranks[-1]
            cuts = self.cuts_of(count)
            if cuts == []:
                return None
            if cuts is not None:
                greatest = max(high - low for low, high in itertools.pairwise([0, *cuts, count]))
                rank = max(rank, ranks[greatest] + 1)
            if rank > ranks[-1]:
                steps.append(count - 1)
            ranks[count:] = [rank]
        return [*steps, self.cap]


def shared(one, other):
    """How many bytes two byte strings begin with alike."""
    differ = (place for place, (byte, next_byte) in enumerate(zip(one, other)) if byte != next_byte)
    return next(differ, min(len(one), len(other)))


def separator_length(item, next_item):
    """The length of the shortest byte string that is after an item and not after the next one."""
    return shared(item, next_item) + 1


def number_length(number):
    """The bytes of a number of which each byte has seven bits."""
    return max(1, (number.bit_length() + 6) // 7)


def compact_bound(before, bound):
    """The bytes of a bound in the compact profile, written against the one before; None is the end."""
    if bound is None:
        return 1
    same = shared(before, bound)
    return 1 + (same >= 7) + (len(bound) - same >= 7) + len(bound) - same


def compact_items(lower, items):
    """The bytes of items in the compact profile, of which the first is written against the lower bound."""
    if not items:
        return 0
    per_item = 1 + (len({len(item) for item in items}) > 1)
    return 1 + sum(per_item + len(item) - shared(before, item) for before, item in itertools.pairwise([lower, *items]))


class Side:
    """The items of one side among those of both: how many stand before each number, and where each one stands."""

    def __init__(self, everything, own):
        own = set(own)
        has = [item in own for item in everything]
        self.everything = everything
        self.places = [place for place, is_own in enumerate(has) if is_own]
        self.before = [0, *itertools.accumulate(has)]
        self.written = [0, *itertools.accumulate(len(item) + 1 if own else 0 for item, own in zip(everything, has))]

    @functools.cached_property
    def items_bounds(self):
        """For each own item the bound that is the item itself."""
        return [(place, len(self.everything[place])) for place in self.places]

    @functools.cached_property
    def short_bounds(self):
        """For each own item the short bound between the own item before it and it; the first one has none."""
        bounds = [None]
        for before, place in itertools.pairwise(self.places):
            item = self.everything[place]
            length = separator_length(self.everything[before], item)
            bounds.append((bisect_left(self.everything, item[:length], before + 1, place), length))
        return bounds

    def bounds(self, kind):
        return self.short_bounds if kind == "short" else self.items_bounds


class Pair:
    """Two sets of items, as byte strings: the initiator's and the responder's."""

    def __init__(self, initiator, responder):
        self.everything = sorted(set(initiator) | set(responder))
        self.sides = [Side(self.everything, initiator), Side(self.everything, responder)]
        has, other = (side.before for side in self.sides)
        changes = [has[at + 1] - has[at] - other[at + 1] + other[at] for at in range(len(self.everything))]
        self.differing = [0, *itertools.accumulate(map(abs, changes))]
        lengths = [len(item) + 1 for item in self.everything]
        self.only = [
            [0, *itertools.accumulate(length * (change == own) for length, change in zip(lengths, changes))]
            for own in (1, -1)
        ]

    def items(self, side, low, high):
        """The bytes of a side's items in a range, with their number."""
        written = self.sides[side].written
        return 4 + written[high] - written[low]

    def lacked(self, side, low, high):
        """The bytes of the items in a range that the side has and the other lacks, with their number."""
        return 4 + self.only[side][high] - self.only[side][low]

    def bytes_of(self, side, part):
        """The bytes of a part that the side sends."""
        kind, (low, lower_length), (high, upper_length) = part
        size = FRAME + 1 + lower_length + 1 + upper_length
        if kind == "sum":
            return size + FINGERPRINT
        if kind == "list":
            return size + self.items(side, low, high)
        before = self.sides[1 - side].before
        listed = before[high] - before[low]
        return size + 4 + (listed + 7) // 8 + self.lacked(side, low, high)

    def text_of(self, bound):
        """A bound as bytes; None is the end."""
        place, length = bound
        if place == len(self.everything):
            return None
        return self.everything[place][:length]

    def compact_bytes_of(self, side, part, come_to):
        """The same in the compact profile, after the bound that the message has come to, and the part's upper bound."""
        kind, lower_bound, upper_bound = part
        lower, upper = self.text_of(lower_bound) or b"", self.text_of(upper_bound)
        size = (lower != come_to and compact_bound(come_to, lower)) + compact_bound(lower, upper)
        low, high = lower_bound[0], upper_bound[0]
        has, other = self.sides[side].before, self.sides[1 - side].before
        own = [at for at in range(low, high) if has[at + 1] > has[at]] if kind != "sum" else []
        if kind == "sum":
            return size + COMPACT_FINGERPRINT, upper
        if kind == "list":
            field = compact_items(lower, [self.everything[at] for at in own])
        else:
            marks = other[high] - other[low]
            lacked = [self.everything[at] for at in own if other[at + 1] == other[at]]
            field = number_length(marks) + (marks + 7) // 8 + compact_items(lower, lacked)
        return size + number_length(field) + field, upper

    def opening(self, table, profile):
        """The parts that a session begins with."""
        everything = ("sum", (0, 0), (len(self.everything), 0))
        if profile != "compact" or table.opening != "split":
            return [everything]
        return self.cut(0, table, everything) or [everything]

    def cut(self, side, table, part):
        """The parts that the side cuts a range into, or None where it lists it."""
        _, lower, upper = part
        own = self.sides[side]
        first = own.before[lower[0]]
        cuts = table.cuts(own.before[upper[0]] - first)
        if cuts is None:
            return None
        places = own.bounds(table.bounds)
        bounds = [lower, *(places[first + cut] for cut in cuts), upper]
        return [("sum", *pair) for pair in itertools.pairwise(bounds)]

    def reply(self, side, table, part):
        """The parts that the side sends in reply to a part of the other."""
        kind, lower, upper = part
        if kind == "list":
            return [("answer", lower, upper)]
        low, high = lower[0], upper[0]
        if kind == "answer" or self.differing[low] == self.differing[high]:
            return []
        return self.cut(side, table, part) or [("list", lower, upper)]


class Message:
    """The bytes of a message, and its number of parts."""

    def __init__(self, pair, side, parts, profile=1):
        self.parts = len(parts)
        if profile == "compact":
            self.bytes, come_to = 1, b""
            for part in parts:
                size, come_to = pair.compact_bytes_of(side, part, come_to)
                self.bytes += size
        else:
            self.bytes = FRAME + sum(pair.bytes_of(side, part) for part in parts)


def session(pair, tables, profile=1):
    """The messages of a session in profile 1 or the compact one between the two sides, under the table of each."""
    parts = pair.opening(tables[0], profile)
    messages = [Message(pair, 0, parts, profile)]
    while any(kind != "answer" for kind, _, _ in parts):
        side = len(messages) % 2
        parts = [reply for part in parts for reply in pair.reply(side, tables[side], part)]
        messages.append(Message(pair, side, parts, profile))
    return messages


def read_items(path):
    """The items of an item file that has one in hex on each line."""
    with open(path, encoding="ascii") as file:
        return [bytes.fromhex(line) for line in file]


WINDOW = 14600
"""The bytes that TCP sends at first without an answer: ten segments. Each round trip with as much doubles them."""


class Cost:
    """What a session over a connection costs: bytes both ways with both hellos, messages, parts of the greatest one."""

    def __init__(self, messages):
        self.sizes = [message.bytes for message in messages]
        self.bytes = 2 * HELLO + sum(self.sizes)
        self.messages = len(messages)
        self.parts = max(message.parts for message in messages)

    def seconds(self, round_trip, megabits):
        """The seconds on a line that loses nothing: a round trip to connect, and then one message after the other."""
        windows = [WINDOW, WINDOW]
        seconds = round_trip
        for number, left in enumerate(self.sizes):
            side = number % 2
            while left > windows[side] and windows[side] * 8 / (megabits * 1e6) < round_trip:
                seconds += round_trip
                left -= windows[side]
                windows[side] *= 2
            seconds += round_trip / 2 + left * 8 / (megabits * 1e6)
        return seconds


class Negentropy:
    """A model of negentropy's messages (protocol version 1), to compare with. Nothing of that program is run.

    The ids are the items, all with one time. A message is a byte, and then ranges in their order, each with its upper
    bound, a byte for its mode, and what that has: a fingerprint of 16 bytes, or a number and ids. A bound is a byte for
    the time, a byte for a length, and the shortest beginning of an id that serves. Ranges of which nothing is said are
    one range that is skipped; what is skipped at the end is left out. A range that differs is cut into 16 of equally
    many own ids, or listed if there are fewer than 32. Only the side that began learns the result: from a list of the
    other side, or from the one that answers its own.
    """

    PARTS = 16
    FINGERPRINT = 16

    def __init__(self, pair):
        self.pair = pair
        self.sizes = []
        everything = (len(pair.everything), 0)
        ranges = self.split(0, (0, 0), everything)
        while ranges:
            side = len(self.sizes) % 2
            self.sizes.append(self.size(side, ranges))
            ranges = [reply for part in ranges for reply in self.reply(1 - side, part)]
        if len(self.sizes) % 2:
            self.sizes.append(1)
        self.bytes = sum(self.sizes)
        self.messages = len(self.sizes)

    def split(self, side, lower, upper):
        """The ranges that a side says of one that differs."""
        own = self.pair.sides[side]
        first = own.before[lower[0]]
        count = own.before[upper[0]] - first
        if count < 2 * self.PARTS:
            return [("list", lower, upper)]
        whole, more = divmod(count, self.PARTS)
        cuts = [first + at * whole + min(at, more) for at in range(1, self.PARTS)]
        bounds = [lower, *(own.short_bounds[cut] for cut in cuts), upper]
        return [("sum", *ends) for ends in itertools.pairwise(bounds)]

    def reply(self, side, part):
        kind, lower, upper = part
        if kind == "list":
            return [("end", lower, upper)] if side == 1 else []
        if kind == "end" or self.pair.differing[lower[0]] == self.pair.differing[upper[0]]:
            return []
        return self.split(side, lower, upper)

    def size(self, side, ranges):
        """The bytes of a message; a range that begins past the end of the one before has one that is skipped first."""
        size, come = 1, (0, 0)
        own = self.pair.sides[side]
        for kind, lower, upper in ranges:
            if lower != come:
                size += 2 + lower[1] + 1
            size += 2 + upper[1] + 1
            if kind == "sum":
                size += self.FINGERPRINT
            else:
                ids = own.before[upper[0]] - own.before[lower[0]]
                # What is written of an item in a List has a byte for its length, which an id has not.
                size += number_length(ids) + own.written[upper[0]] - own.written[lower[0]] - ids
            come = upper
        return size
