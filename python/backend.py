"""Builds the Python package of rangesync for pip (PEP 517), with no other package.

    pip install ./python
    pip wheel ./python

A wheel has the package rangesync and the library librangesync.so.1 side by side. The library is what the repository's
c/build makes: the released one if it is of these sources, or else one that is proved and built here, which takes about
as long as ./build. The variable RANGESYNC_LIBRARY names another file.
"""

from __future__ import annotations

import base64
import hashlib
import io
import os
import re
import subprocess
import tarfile
import zipfile
from collections.abc import Mapping
from pathlib import Path

HERE = Path(__file__).resolve().parent
TOP = HERE.parent
LIBRARY = TOP / "c" / "out" / "librangesync.so.1"
# The library needs nothing of one Python. Of the system it needs memmove, memcpy, memset, malloc, realloc and free, as
# glibc has had them since 2.14; 2.17 is the first one that tools for wheels know by its number.
TAG = "py3-none-manylinux_2_17_x86_64"
CHECKS = ["checks.py", "more_checks.py", "shard_checks.py", "shard_peers.py"]
SOURCES = ["README.md", "backend.py", *CHECKS, "pyproject.toml"]
LICENSES = ["LICENSE-APACHE", "LICENSE-MIT"]

Settings = Mapping[str, object]


def project() -> dict[str, str]:
    """What pyproject.toml says in lines of the form `key = "text"`. Python has had a reader of TOML only since 3.11."""
    text = (HERE / "pyproject.toml").read_text(encoding="utf-8")
    return dict(re.findall(r'^([a-z-]+) = "(.*)"$', text, re.MULTILINE))


def title() -> str:
    """The name and the version, as the names of files have them."""
    return "{name}-{version}".format(**project())


def package() -> dict[str, bytes]:
    """The files of the package, by their names from this folder on."""
    paths = [*sorted((HERE / "rangesync").glob("*.py")), HERE / "rangesync" / "py.typed"]
    return {f"rangesync/{path.name}": path.read_bytes() for path in paths}


def need_repository() -> None:
    """Ends where this folder was taken out of its repository: the library is built there."""
    if not (TOP / "c" / "build").is_file():
        raise SystemExit(f"{HERE} has no ../c/build beside it: install the folder python of a clone of rangesync")


def library() -> bytes:
    """The bytes of the library that RANGESYNC_LIBRARY names, or of the one that c/build makes."""
    named = os.environ.get("RANGESYNC_LIBRARY")
    if named:
        return Path(named).read_bytes()
    ended = subprocess.run([str(TOP / "c" / "build"), "--no-examples"], check=False).returncode
    if ended != 0:
        raise SystemExit(f"c/build ended with status {ended}; the lines above say why")
    return LIBRARY.read_bytes()


def metadata() -> bytes:
    """What the package says of itself, in METADATA and PKG-INFO."""
    known = project()
    lines = [
        "Metadata-Version: 2.4",
        f"Name: {known['name']}",
        f"Version: {known['version']}",
        f"Summary: {known['description']}",
        f"Requires-Python: {known['requires-python']}",
        f"License-Expression: {known['license']}",
        *(f"License-File: {name}" for name in LICENSES),
    ]
    return "".join(f"{line}\n" for line in lines).encode()


def record_line(name: str, text: bytes) -> str:
    """A file's line in RECORD: its name, its hash and its size."""
    digest = base64.urlsafe_b64encode(hashlib.sha256(text).digest()).rstrip(b"=").decode()
    return f"{name},sha256={digest},{len(text)}\n"


def get_requires_for_build_wheel(config_settings: Settings | None = None) -> list[str]:
    """It takes no other package."""
    return []


def build_wheel(
    wheel_directory: str, config_settings: Settings | None = None, metadata_directory: str | None = None
) -> str:
    """Writes the wheel, and returns its name."""
    need_repository()
    info = f"{title()}.dist-info"
    files = {LIBRARY.name: library(), **package()}
    files.update({f"{info}/licenses/{name}": (TOP / name).read_bytes() for name in LICENSES})
    files[f"{info}/METADATA"] = metadata()
    files[f"{info}/WHEEL"] = f"Wheel-Version: 1.0\nGenerator: rangesync\nRoot-Is-Purelib: false\nTag: {TAG}\n".encode()
    record = "".join(record_line(name, text) for name, text in files.items()) + f"{info}/RECORD,,\n"
    files[f"{info}/RECORD"] = record.encode()
    wheel = f"{title()}-{TAG}.whl"
    with zipfile.ZipFile(Path(wheel_directory) / wheel, "w") as archive:
        for name, text in files.items():
            # The time of each file is 1980, so wheels of the same files are the same.
            entry = zipfile.ZipInfo(name)
            entry.external_attr = 0o100644 << 16
            archive.writestr(entry, text, zipfile.ZIP_DEFLATED)
    return wheel


def build_sdist(sdist_directory: str, config_settings: Settings | None = None) -> str:
    """Writes the archive of the sources of this folder, and returns its name. It is no repository, and builds none."""
    need_repository()
    files = {**{name: (HERE / name).read_bytes() for name in SOURCES}, **package()}
    files.update({name: (TOP / name).read_bytes() for name in LICENSES})
    files["PKG-INFO"] = metadata()
    sources = f"{title()}.tar.gz"
    with tarfile.open(Path(sdist_directory) / sources, "w:gz", format=tarfile.PAX_FORMAT) as archive:
        for name, text in files.items():
            entry = tarfile.TarInfo(f"{title()}/{name}")
            entry.size = len(text)
            archive.addfile(entry, io.BytesIO(text))
    return sources
