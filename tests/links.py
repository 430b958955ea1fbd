"""Finds the links that lead nowhere: in pages of Markdown, and on a site of HTML."""

from __future__ import annotations

import re
from collections import Counter
from collections.abc import Iterable, Iterator
from html.parser import HTMLParser
from pathlib import Path
from urllib.parse import unquote, urlsplit

FENCE = re.compile(r"(?ms)^ *```.*?^ *```$")
INDENTED = re.compile(r"(?m)^ {4}.*$")
SPAN = re.compile(r"(?s)(`+)(?!`).+?(?<!`)\1(?!`)")
LINK = re.compile(r"\]\(([^)\s]*)\)")
HEADING = re.compile(r"(?m)^#+ +(.+)$")
LOADED = re.compile(r"""(?:url\(|@import )["']?(?:\w+:)?//""")


def links_of(text: str) -> list[str]:
    """Where the links and pictures of a page lead, but for those that stand in code."""
    return LINK.findall(SPAN.sub("``", INDENTED.sub("", FENCE.sub("", text))))


def anchors_of(text: str) -> set[str]:
    """The names of a page's headings, as forges make them: a name that is taken gets a number."""
    taken: Counter[str] = Counter()
    names = set()
    for heading in HEADING.findall(FENCE.sub("", text)):
        said = re.sub(r"\[([^]]*)\]\([^)]*\)", r"\1", heading).strip().lower()
        name = re.sub(r"[^\w\- ]", "", said).replace(" ", "-")
        names.add(f"{name}-{taken[name]}" if taken[name] else name)
        taken[name] += 1
    return names


def dead_in_pages(top: Path, pages: Iterable[Path]) -> list[str]:
    """The links of pages to what is not there, is not below the top, or is no heading of the page that is there."""
    dead = []
    for page in pages:
        for link in links_of(page.read_text(encoding="utf-8")):
            to = urlsplit(link)
            if to.scheme:
                continue
            path = (page.parent / to.path).resolve() if to.path else page
            is_there = path.is_relative_to(top.resolve()) and (path.is_file() if to.fragment else path.exists())
            if not is_there or to.fragment and to.fragment not in anchors_of(path.read_text(encoding="utf-8")):
                dead.append(f"{page.relative_to(top)}: {link}")
    return dead


class Html(HTMLParser):
    """A page of a site: the names in it, where its links lead, and what it loads."""

    def __init__(self, path: Path) -> None:
        super().__init__()
        self.names: set[str] = set()
        self.links: list[str] = []
        self.loads: list[str] = []
        self.feed(path.read_text(encoding="utf-8"))

    def handle_starttag(self, tag: str, attrs: list[tuple[str, str | None]]) -> None:
        for key, value in attrs:
            if key == "id" or (tag, key) == ("a", "name"):
                self.names.add(value or "")
            elif key in ("href", "src"):
                (self.links if tag == "a" else self.loads).append(value or "")


def dead_on_site(folder: Path) -> list[str]:
    """The links of a site that lead nowhere or begin at the root, and what its pages load from another host."""
    pages = {path.resolve(): Html(path) for path in sorted(folder.rglob("*.html"))}

    def is_dead(path: Path, link: str) -> bool:
        to = urlsplit(link)
        target = (path.parent / unquote(to.path)).resolve() if to.path else path
        if to.scheme or link.startswith("/") or not target.is_relative_to(folder.resolve()) or not target.is_file():
            return True
        return bool(to.fragment) and (target not in pages or unquote(to.fragment) not in pages[target].names)

    def dead() -> Iterator[str]:
        for path, page in pages.items():
            own = [link for link in page.links if not urlsplit(link).scheme]
            yield from (f"{path.name}: {link}" for link in [*own, *page.loads] if is_dead(path, link))
        for path in sorted(folder.rglob("*.css")):
            yield from (f"{path.name}: {load}" for load in LOADED.findall(path.read_text(encoding="utf-8")))

    return list(dead())
