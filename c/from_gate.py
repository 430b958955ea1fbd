#!/usr/bin/env python3
"""Builds c/out/alone.a over the libraries that `rt ci` has just proved and left in crates/*/out.

`rt lib` takes none of them, since the gate keeps nothing of its checks, and would prove every crate once more.
"""

import os
import pathlib
import shutil
import subprocess
import sys

TOP = pathlib.Path(__file__).resolve().parent.parent
KIT = pathlib.Path(shutil.which("rt") or "rt").resolve().parent.parent
LIBRARY = "rangesync_c"


def read_uses() -> dict[str, list[str]]:
    """What the library and each crate below it uses."""
    lines = subprocess.run([TOP / "below", LIBRARY], stdout=subprocess.PIPE, text=True, check=True).stdout.splitlines()
    return {name.split()[0]: used.split() for name, _, used in (line.partition(":") for line in lines)}


def library_of(name: str, uses: dict[str, list[str]]) -> pathlib.Path:
    if name in uses:
        return TOP / "crates" / name / "out" / "rlib" / f"{name}.rlib"
    return KIT / "rlibs" / f"{name}.rlib"


def main() -> int:
    uses = read_uses()
    words = [str(KIT / "bin" / "rattle"), "build", "--crate-name", LIBRARY, "src/lib.rt", "--crate-type", "staticlib"]
    for name in dict.fromkeys(["std", *uses[LIBRARY]]):
        words += ["--extern", f"{name}={library_of(name, uses)}"]
    words += ["-L", f"dependency={KIT / 'rlibs'}"]
    for name in [it for it in uses if it != LIBRARY]:
        words += ["-L", f"dependency={library_of(name, uses).parent}"]
    words += ["--antt-project", str(KIT / "rattle/logic/antt-project.json"), "--logic-built", str(KIT / "logic_built")]
    words += ["--links", f"{LIBRARY}=", "--jobs", str(os.cpu_count() or 1)]
    words += ["--toolchain", str(KIT / "toolchain"), "--backend", "llvm"]
    out = TOP / "c" / "out"
    out.mkdir(exist_ok=True)
    words += ["-o", str(out / "alone.a")]
    return subprocess.run(words, cwd=TOP / "crates" / LIBRARY, check=False).returncode


if __name__ == "__main__":
    sys.exit(main())
