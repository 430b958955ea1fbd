"""The blocks of a page: lines that are indented by four spaces, or that stand between fences."""

from __future__ import annotations

import re
from dataclasses import dataclass
from pathlib import Path

BLOCK = re.compile(r"^```.*\n((?:.*\n)*?)^```$|(?<=\n\n)(?:\n*^ {4}.*\n)+", re.MULTILINE)
INDENT = re.compile(r"^ {4}", re.MULTILINE)


@dataclass(frozen=True)
class Block:
    """A block: the number of its first line, its text, and what stands between it and the blocks around it."""

    line: int
    text: str
    before: str
    after: str


def blocks_of(page: Path) -> list[Block]:
    text = page.read_text(encoding="utf-8")
    found = list(BLOCK.finditer(text))
    ends, starts = [0, *(each.end() for each in found)], [*(each.start() for each in found), len(text)]
    between = [text[end:start] for end, start in zip(ends, starts)]
    blocks = []
    for each, before, after in zip(found, between, between[1:]):
        own = INDENT.sub("", each[0]) if each[1] is None else each[1]
        blocks.append(Block(text.count("\n", 0, each.start()) + 1, own, before, after))
    return blocks
