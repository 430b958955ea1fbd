"""The worked cases of docs/vectors, for the parts that run them. docs/vectors/README.md has their fields."""

from __future__ import annotations

import tomllib
from concurrent.futures import ThreadPoolExecutor
from functools import partial
from typing import Any, Protocol

from common import TOP, Count

CASES = TOP / "docs/vectors"
AT_ONCE = 8

Case = dict[str, Any]


def bytes_of(texts: list[str]) -> list[bytes]:
    """The bytes that each of these texts spells."""
    return [bytes.fromhex(text) for text in texts]


def worked_cases(folder: str) -> dict[str, Case]:
    """The cases of a folder by the names of their files."""
    return {path.stem: tomllib.loads(path.read_text()) for path in sorted((CASES / folder).glob("*.toml"))}


class CaseTest(Protocol):
    """Runs one case."""

    def __call__(self, count: Count, *, name: str, case: Case) -> None: ...


def run_cases(count: Count, folder: str, test: CaseTest) -> None:
    """Runs a test on each case of a folder, some at once. A folder has a case."""
    cases = worked_cases(folder)
    count.holds(f"docs/vectors/{folder}", bool(cases), "a case", "none")
    with ThreadPoolExecutor(AT_ONCE) as pool:
        names = [f"{folder}/{name}" for name in cases]
        tests = [partial(test, name=name, case=case) for name, case in zip(names, cases.values())]
        list(pool.map(count.tries, names, tests))
