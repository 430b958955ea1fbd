"""The library of c/build, the tools of other languages, and variables by which these make all in one folder."""

from __future__ import annotations

import shutil
from pathlib import Path

from common import PROGRAM, TOP, Count, has_own_world

LIBRARIES = TOP / "c/out"
STATIC, SHARED = LIBRARIES / "librangesync.a", LIBRARIES / "librangesync.so"


def missing(need: str) -> str:
    """What is missing of the library (`library`), a world of its own that may be changed (`world`), or a program."""
    if need == "library":
        return "" if STATIC.is_file() and SHARED.is_file() else "there is no library; c/build makes it"
    if need == "world":
        return "" if has_own_world() and shutil.which("ip") else "there is no network of its own (unshare, ip)"
    return "" if shutil.which(need) else f"there is no {need}"


def lacks(count: Count, what: str, *needs: str) -> bool:
    """Whether something is missing for a test, which is then told."""
    why = next(filter(None, map(missing, needs)), "")
    if why:
        count.not_run(f"{what}: {why}")
    return bool(why)


def go_world(folder: Path) -> dict[str, str]:
    """Variables by which Go makes all that it makes in a folder, and asks no network."""
    made = {name: str(folder / name.lower()) for name in ("GOCACHE", "GOPATH", "GOTMPDIR", "HOME")}
    (folder / "gotmpdir").mkdir()
    quiet = {"GOFLAGS": "-mod=mod", "GOPROXY": "off", "GOENV": "off", "GOTOOLCHAIN": "local", "CGO_ENABLED": "1"}
    return {**made, **quiet, "TMPDIR": str(folder), "RANGESYNC": str(Path(PROGRAM).resolve())}


def rust_world(folder: Path) -> dict[str, str]:
    """Variables by which cargo makes all that it makes in a folder."""
    made = {"CARGO_HOME": str(folder / "home"), "CARGO_TARGET_DIR": str(folder / "target"), "TMPDIR": str(folder)}
    return {**made, "RANGESYNC": str(Path(PROGRAM).resolve())}
