"""What is refused: the numbers of docs/PROTOCOL.md, their names and what each means."""

from __future__ import annotations

# docs/PROTOCOL.md says what each means; 98 and 99 are of c/rangesync.h.
_KNOWN = {
    1: ("BadHello", "the peer's first four bytes are those of another protocol, or of another wire profile"),
    2: ("FrameLength", "a frame's length is 0 or above 8,388,608, or a body ends before its fields do"),
    3: ("Truncated", "the peer's bytes ended before the session did"),
    4: ("BadKind", "a frame is of a kind that is not allowed there"),
    5: ("BadBound", "the length byte of a bound is none that a bound can have"),
    6: ("EmptyRange", "a range's lower bound is not below its upper one"),
    7: ("ItemLength", "an item on the wire has no byte, or more than 64"),
    8: ("ItemOrder", "an item on the wire is not greater than the one before it"),
    9: ("ItemOutside", "an item on the wire is outside the range of its part"),
    10: ("MarkPadding", "a bit after the last mark is set"),
    11: ("Trailing", "bytes are left after the last field of a frame"),
    12: ("TooManyParts", "a message has more than 131,072 parts"),
    20: ("Misplaced", "a part is not allowed there"),
    21: ("Stall", "the peer asks for the very range again that was asked of it"),
    22: ("Gap", "the parts of a message leave out a piece of the range that they are to cover"),
    23: ("MissingAnswer", "a list of the peer is not followed by its answer"),
    24: ("MarkCount", "an answer has more or fewer marks than there are listed items"),
    25: ("AnswerRepeats", "an answer has an item that was listed"),
    26: ("Spent", "the session is over, or was refused before"),
    28: ("BadOpening", 'the opening of a strategy is neither "sum" nor "split", or stands in a row'),
    29: ("BadBounds", 'the bounds of a strategy are neither "items" nor "short", or stand in a row'),
    30: ("NotToml", "the text of a strategy is no TOML"),
    31: ("Missing", "a key of a strategy is missing, or it has no row"),
    32: ("BadNumber", "a number of a strategy is no whole number, or is out of its range"),
    33: ("RowOrder", "a row's `upto` is not above that of the row before"),
    34: ("RowAction", "a row of a strategy does not say rightly what it does"),
    35: ("CapMismatch", "the last row's `upto` is not the cap"),
    36: ("NoDescent", "a number of items is split into fewer than two shares"),
    37: ("ListTooLong", "a row lists, with an `upto` above the limit"),
    38: ("TooDeep", "a number of items needs more rounds than the strategy has"),
    39: ("BadCertificate", "the numbers of a strategy's certificate do not serve a number of items"),
    40: ("Full", "the set has as many items as its strategy's cap, and the item is new"),
    41: ("Busy", "another call held the lock of a set"),
    42: ("WritersSpent", "no number for one more writer is left"),
    50: ("TableFull", "the peer has as many sessions as it can have"),
    51: ("Unknown", "there is no session of this number"),
    52: ("OverBound", "the session has sent as many messages as it may"),
    53: ("SerialsSpent", "no number for one more session is left"),
    54: ("GateClosed", "the peer does not let the session go on"),
    55: ("WrongSet", "there is no such set: it has another name, or other bits, or the shard is not kept there"),
    56: ("NoShard", "a shard that is kept here has no entry in the peer's directory: the peer does not keep it"),
    57: ("BadEntry", "an item of the peer's directory is no entry of a shard"),
    60: ("Bind", "the address is none, or is in use, or may not be listened at"),
    61: ("Connect", "nobody listens at the address, or nobody answered in time"),
    62: ("Accept", "a connection was not accepted, after all tries"),
    71: ("Empty", "an item has no byte"),
    72: ("TooLong", "an item or a bound has more than 64 bytes: name a longer one by its hash"),
    73: ("EmptyRange", "a range's lower bound is not below its upper one"),
    80: ("CannotRead", "a file cannot be opened or read, or is too large, or is locked by another process"),
    81: ("BadItemLine", "a line of an item file is no item"),
    82: ("TooManyItems", "there are more different items than the strategy's cap: split them into several sets"),
    83: ("BadScenario", "a scenario has not all that it needs, or has it in another form"),
    84: ("BadStep", "a step of a scenario has no form that there is"),
    90: ("Memory", "memory ran out"),
    98: ("NotThere", "there is no such thing yet: the session has not ended, or no such profile"),
    99: ("OtherKind", "the handle is of another kind"),
}


class Refused(Exception):
    """A call or a session was refused, by this side or by its peer.

    `number` is that of docs/PROTOCOL.md, and `name` its name, `cause` a sentence that says what was wrong, without a
    full stop. Both are empty for a number that has none, as a peer may send. `by_peer` says that the peer refused.
    `shard` is the number of the shard that has no room, or that the peer does not keep, where one of `Shards` is
    refused for that, and None otherwise.

        >>> fault = Refused(40)
        >>> fault.number, fault.name, fault.by_peer
        (40, 'Full', False)
        >>> print(fault)
        refused 40 Full
        >>> print(fault.cause)
        the set has as many items as its strategy's cap, and the item is new
    """

    __module__ = "rangesync"

    number: int
    name: str
    cause: str
    by_peer: bool
    shard: int | None

    def __init__(self, number: int, by_peer: bool = False, shard: int | None = None) -> None:
        super().__init__(number, by_peer, shard)
        self.number = number
        self.name, self.cause = _KNOWN.get(number, ("", ""))
        self.by_peer = by_peer
        self.shard = shard

    def __str__(self) -> str:
        who = "peer refused" if self.by_peer else "refused"
        where = "" if self.shard is None else f" in shard {self.shard}"
        return f"{who} {self.number} {self.name}".rstrip() + where
