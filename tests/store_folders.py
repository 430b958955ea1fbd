"""`examples/folders` between two folders, beside the truth by `diff -r`."""

from __future__ import annotations

import functools
import hashlib
import os
import re
import shutil
import subprocess
import time
from collections.abc import Callable
from pathlib import Path

from common import Count, Said, own_folder
from store_servers import example, proxy, ran, served

ODD = [b"caf\xe9", b"new\nline", b"#number", b";semicolon", b" blank ", b"-dash", b"back\\slash", b"'quote\"", b"*"]
ODD += [b"a/#b"]
"""Names that a shell, a list of lines or rsync could take for something else."""
Words = list[str]


def fill(folder: Path, files: int) -> None:
    """So many files of 100 to 3,300 bytes, 100 in a folder."""
    for number in range(files):
        path = folder / f"{number // 100:03}" / f"{number:05}.txt"
        if number % 100 == 0:
            path.parent.mkdir(parents=True)
        digest = hashlib.sha256(b"%d" % number).digest()
        path.write_bytes(digest.hex().encode() * (2 + digest[0] // 5))


def change(folder: Path, files: int) -> None:
    """Changes 50 files: 20 have other contents, 5 of them the size and time of before; 15 are gone, 15 are new."""
    step = files // 20
    for place in range(20):
        path = folder / f"{place * step // 100:03}" / f"{place * step:05}.txt"
        before, size = path.stat(), path.stat().st_size
        path.write_bytes(b"x" * (size if place < 5 else size + place))
        if place < 5:
            os.utime(path, ns=(before.st_atime_ns, before.st_mtime_ns))
    for place in range(15):
        number = place * step + 1
        (folder / f"{number // 100:03}" / f"{number:05}.txt").unlink()
        (folder / f"new{place % 3}").mkdir(exist_ok=True)
        (folder / f"new{place % 3}" / f"{place}.txt").write_bytes(b"new %d" % place)


def truth(here: Path, there: Path) -> list[str]:
    """What `diff -r` says of two folders, as `compare` prints it. The names are of letters and digits."""
    lines = []
    for line in ran(["diff", "-rq", "--no-dereference", str(here), str(there)]).output.splitlines():
        if only := re.fullmatch(r"Only in (\S+): (\S+)", line):
            path = Path(only[1], only[2])
            side, top = ("ours", here) if path.is_relative_to(here) else ("theirs", there)
            below = [each for each in path.rglob("*") if each.is_file()] if path.is_dir() else [path]
            lines += [f"{side} {each.relative_to(top)}" for each in below]
        elif differ := re.fullmatch(r"Files (\S+) and \S+ differ", line):
            lines.append(f"differs {Path(differ[1]).relative_to(here)}")
        else:
            raise ValueError(f"diff says {line!r}")
    return sorted(lines)


def found(said: Said) -> list[str]:
    return [line for line in said.output.splitlines() if not line.startswith(("files ", "fetched "))]


def serve_words(folder: Path) -> Words:
    return [*example("folders"), "serve", str(folder), "--addr", "127.0.0.1:0"]


def compare_words(here: Path, address: str, source: Path | None = None, check: bool = False) -> Words:
    options = [*(["--fetch", str(source)] if source else []), *(["--check"] if check else [])]
    return [*example("folders"), "compare", str(here), *options, address]


def rsync_only(here: Path, there: Path, words: str) -> str:
    """What `rsync -n` costs."""
    began = time.monotonic()
    said = ran(["rsync", words, "--stats", f"{there}/", f"{here}/"])
    seconds = time.monotonic() - began
    sizes = re.findall(r"^Total bytes (?:sent|received): ([\d,]+)", said.output, re.M)
    return f"bytes {sum(int(size.replace(',', '')) for size in sizes)} seconds {seconds:.1f}"


def many(count: Count, folder: Path, files: int) -> None:
    """Many files of which 50 differ, compared and fetched."""
    here, there = folder / "here", folder / "there"
    fill(here, files)
    subprocess.run(["cp", "-a", str(here), str(there)], check=True)
    change(there, files)
    wanted = truth(here, there)
    kinds = [sum(line.startswith(word) for line in wanted) for word in ("ours ", "theirs ", "differs ")]
    count.same("many: the truth has 50", [15, 15, 20], kinds)
    with served(folder, serve_words(there)) as server:
        said = ran(compare_words(here, server.address))
        count.same("many: what is printed", (0, wanted, ""), (said.status, found(said), said.error))
        print(f"folders, {files} files, 50 differ: {said.output.splitlines()[-1]}")
        for words in "-an", "-anc":
            print(f"folders, {files} files, rsync {words}: {rsync_only(here, there, words)}", flush=True)
        said = ran(compare_words(here, server.address, there))
        count.same("many: fetched", (0, wanted, ""), (said.status, found(said), said.error))
        print(f"folders, {files} files: {said.output.splitlines()[-1]}")
        left = [line for line in wanted if line.startswith("ours ")]
        count.same("many: what is left, by diff", left, truth(here, there))
        said = ran(compare_words(here, server.address, there))
        count.same("many: compared once more", (0, left, ""), (said.status, found(said), said.error))


def odd_names(count: Count, folder: Path) -> None:
    """Names in no UTF-8, with line feeds, and such; links, a pipe, empty folders."""
    here, there = folder / "odd-here", folder / "odd-there"
    for top in here, there:
        os.makedirs(os.path.join(os.fsencode(top), b"a"))
    for name in ODD:
        with open(os.path.join(os.fsencode(there), name), "wb") as file:
            file.write(b"contents of " + name)
    os.symlink("nowhere", there / "link")
    os.symlink("there", here / "link")
    os.mkfifo(there / "pipe")
    (there / "empty").mkdir()
    with served(folder, serve_words(there)) as server:
        said = ran(compare_words(here, server.address, there))
        wanted = [r"caf\xe9", r"new\x0aline", "#number", ";semicolon", " blank ", "-dash", r"back\\slash", "'quote\""]
        wanted += ["*", "a/#b"]
        lines = sorted([*(f"theirs {name}" for name in wanted), "differs link"])
        count.same("odd names: found and fetched", (0, lines, ""), (said.status, found(said), said.error))
        came = {name: (Path(os.fsdecode(os.path.join(os.fsencode(here), name)))).read_bytes() for name in ODD}
        count.same("odd names: their contents", {name: b"contents of " + name for name in ODD}, came)
        count.same("odd names: the link", "nowhere", os.readlink(here / "link"))
        said = ran(compare_words(here, server.address))
        count.same("odd names: compared once more", (0, [], ""), (said.status, found(said), said.error))


def unread(count: Count, folder: Path) -> None:
    """Files and folders that cannot be read, here or there: told, and neither compared nor fetched."""
    as_user = ["setpriv", "--bounding-set=-dac_override,-dac_read_search"] if os.geteuid() == 0 else []
    if as_user and (not shutil.which("setpriv") or ran([*as_user, "true"]).status != 0):
        count.not_run("folders: files that cannot be read, since root reads all (setpriv)")
        return
    here, there = folder / "unread-here", folder / "unread-there"
    for top in here, there:
        (top / "closed").mkdir(parents=True)
        (top / "shut").mkdir()
    for name in ("both", "locked-here", "locked-there", "closed/file", "shut/file"):
        (here / name).write_text("here")
        (there / name).write_text("there, which is longer")
    (here / "shut/mine").write_text("mine")
    closed = [here / "locked-here", there / "locked-there", here / "closed", there / "shut"]
    for path in closed:
        path.chmod(0)
    try:
        with served(folder, [*as_user, *serve_words(there)]) as server:
            said = ran([*as_user, *compare_words(here, server.address, there)])
            again = ran([*as_user, *compare_words(here, server.address, check=True)])
    finally:
        for path in closed:
            path.chmod(0o755)
    count.same("unread: found", (0, ["differs both"]), (said.status, found(said)))
    count.same("unread: with --check, where nothing that was read differs", (1, []), (again.status, found(again)))
    wanted = [
        "folders: not compared: closed cannot be read here (Permission denied)",
        "folders: not compared: locked-here cannot be read here (Permission denied)",
        "folders: not compared: locked-there cannot be read there",
        "folders: not compared: shut cannot be read there",
    ]
    count.same("unread: told", wanted, said.error.splitlines())
    came = {str(path.relative_to(here)): path.read_text()[:5] for path in here.rglob("*") if path.is_file()}
    wanted_here = dict.fromkeys(["locked-here", "locked-there", "closed/file", "shut/file"], "here")
    count.same("unread: nothing wrong is fetched", {**wanted_here, "shut/mine": "mine", "both": "there"}, came)


def checked(count: Count, folder: Path) -> None:
    """The statuses with `--check`: 0 if both sides are equal, and 4 if they differ."""
    here, there = folder / "checked-here", folder / "checked-there"
    for top in here, there:
        top.mkdir()
        (top / "same").write_text("same")
        (top / "other").write_text("old")
    with served(folder, serve_words(there)) as server:
        said = ran(compare_words(here, server.address, check=True))
        count.same("checked: equal", (0, [], ""), (said.status, found(said), said.error))
        (there / "other").write_text("new")
        said = ran(compare_words(here, server.address, check=True))
        count.same("checked: different", (4, ["differs other"], ""), (said.status, found(said), said.error))
        said = ran(compare_words(here, server.address, there, check=True))
        count.same("checked: fetched", (4, ["differs other"], ""), (said.status, found(said), said.error))
        said = ran(compare_words(here, server.address, check=True))
        count.same("checked: equal since it was fetched", (0, [], ""), (said.status, found(said), said.error))
        (here / "mine").write_text("mine")
        said = ran(compare_words(here, server.address, check=True))
        count.same("checked: a file here alone", (4, ["ours mine"], ""), (said.status, found(said), said.error))


def changed_meanwhile(count: Count, folder: Path) -> None:
    """A file that changes there, or is gone, between the comparison and rsync."""
    here, there = folder / "moving-here", folder / "moving-there"
    for top, text in (here, "old"), (there, "new text"):
        top.mkdir()
        for name in ("a", "b", "c"):
            (top / name).write_text(text)

    def heard(first: bytes) -> None:
        if b'"tell"' in first:
            (there / "a").write_text("newer")
            (there / "b").unlink()

    with served(folder, serve_words(there)) as server, proxy(server.address, heard) as address:
        said = ran(compare_words(here, address, there))
    count.same("changed meanwhile: found", (1, ["differs a", "differs b", "differs c"]), (said.status, found(said)))
    wanted = ["not as it was compared: a", "not as it was compared: b", "rsync ended with status 23"]
    lines = [line for line in said.error.splitlines() if line.startswith("folders: ")]
    count.same("changed meanwhile: told", [f"folders: {line}" for line in wanted], lines)
    came = [(here / name).read_text() for name in ("a", "b", "c")]
    count.same("changed meanwhile: the files", ["newer", "old", "new text"], came)


def stopped(count: Count, folder: Path) -> None:
    """A server that is killed in the middle of a session, or that tells a path that was not asked for."""
    here, there = folder / "here", folder / "there"
    for number in range(0, 1000, 3):
        (there / f"{number // 100:03}" / f"{number:05}.txt").write_text("stopped")
    before = truth(here, there)
    with served(folder, serve_words(there)) as server:
        asked: list[bytes] = []

        def kill(total: int) -> None:
            if total > 3000 and b'"session"' in asked[-1]:
                server.process.kill()

        with proxy(server.address, asked.append, kill) as address:
            said = ran(compare_words(here, address, there))
    is_so = said.status == 1 and re.fullmatch("folders: stopped by .*; nothing was written\n", said.error)
    count.holds("killed in a session: told", bool(is_so), "one line", said)
    count.same("killed in a session: nothing is fetched", before, truth(here, there))


def folders(count: Count, is_full: bool) -> None:
    if not shutil.which("rsync") or not shutil.which("diff"):
        count.not_run("folders: rsync or diff is not installed (Debian: rsync, diffutils)")
        return
    with own_folder() as folder:
        count.tries("folders: many", lambda count: many(count, folder, 50_000 if is_full else 5_000))
        for test in odd_names, unread, checked, changed_meanwhile, stopped:
            count.tries(f"folders: {test.__name__}", functools.partial(call_with, test, folder))


def call_with(test: Callable[[Count, Path], None], folder: Path, count: Count) -> None:
    test(count, folder)
