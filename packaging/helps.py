"""What the program's own help says of its commands and of their words."""

from __future__ import annotations

import functools
import os
import re
import subprocess
from dataclasses import dataclass
from pathlib import Path

TOP = Path(__file__).resolve().parent.parent
PROGRAM = os.environ.get("RANGESYNC") or str(TOP / "rangesync")
FILES = ("FILE", "ITEMS")
"""The values that are paths of files, by the names that help gives to them."""


@dataclass(frozen=True)
class Option:
    """A word that begins with `--`, its short form, the name of its value (none if it takes none), and its help."""

    name: str
    short: str
    value: str
    help: str

    @property
    def names(self) -> list[str]:
        return [name for name in (self.short, self.name) if name]

    @property
    def is_file(self) -> bool:
        return self.value in FILES


@dataclass(frozen=True)
class Command:
    """A command, or the program itself, whose name is empty."""

    name: str
    about: str
    usage: str
    placed: str
    """The name of its value that has no option before it, or nothing."""
    options: tuple[Option, ...]


@functools.cache
def said(*words: str) -> str:
    """What the program prints."""
    return subprocess.run([PROGRAM, *words], check=True, stdout=subprocess.PIPE, text=True).stdout


def section(text: str, title: str) -> list[str]:
    """The lines of a section of a help text."""
    found = re.search(rf"^{title}:\n((?:  .*\n)*)", text, re.M)
    return found[1].splitlines() if found else []


def option_of(line: str) -> Option:
    found = re.fullmatch(r"\s+(?:(-\w), )?(--[\w-]+)(?: <([\w,.-]+)>)?\s{2,}(.*)", line)
    if found is None:
        raise ValueError(f"this line of a help text is no option: {line!r}")
    return Option(found[2], found[1] or "", found[3] or "", found[4])


def command_of(name: str, text: str) -> Command:
    """A command by its help text."""
    usage = re.search(r"^Usage: (.*)$", text, re.M)
    placed = [re.split(r"[<>\[\]]", line)[1] for line in section(text, "Arguments")]
    options = tuple(option_of(line) for line in section(text, "Options"))
    return Command(name, text.split("\n", 1)[0], usage[1] if usage else "", "".join(placed), options)


def program() -> Command:
    return command_of("", said("--help"))


def abouts() -> dict[str, str]:
    """The names of all commands, and what each does; `help` is one of them."""
    lines = section(said("--help"), "Commands")
    return dict(line.strip().split(maxsplit=1) for line in lines)


def commands() -> list[Command]:
    """All commands but `help`, which prints the texts of the others."""
    return [command_of(name, said(name, "--help")) for name in abouts() if name != "help"]


def version() -> str:
    """The version that the program says."""
    return said("--version").split()[1]
