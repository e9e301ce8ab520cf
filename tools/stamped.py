"""Stamps the libraries that `rt ci` proved and left in crates/*/out, so that `rt lib` takes them.

`rt ci` leaves a library without the stamp by which `rt lib` and `rt check` know what it was made of, and they would
prove it again. Here one that is newer than all of its crate's sources, and whose libraries below are stamped or were,
gets the stamp that `rt lib` would give it. With a kit that has no such stamps, nothing is done.
"""
from __future__ import annotations

import os
import shutil
import sys
from importlib import import_module
from pathlib import Path
from types import ModuleType
from typing import Any

TOP = Path(__file__).resolve().parents[1]


def kit() -> ModuleType | None:
    """The part of the kit's command that knows of stamps."""
    command = shutil.which("rt")
    if command is None:
        return None
    sys.path.insert(0, str(Path(command).resolve().parent))
    sys.dont_write_bytecode = True
    try:
        rtlib = import_module("rtlib")
    except ImportError:
        return None
    return rtlib if hasattr(rtlib, "crates_below") and hasattr(rtlib.Crate, "stamp") else None


def is_newer(library: Path, crate: Path) -> bool:
    """Whether the library is there, and no source of the crate changed after it was put there."""
    files = [path for part in ("src", "specs", "proofs") for path in (crate / part).rglob("*") if path.is_file()]
    sources = [*files, TOP / "crates.txt"]
    return library.is_dir() and all(path.stat().st_mtime <= library.stat().st_mtime for path in sources)


def stamp(crate: Any) -> None:
    folder = Path(crate.folder)
    room = folder / "out/rlib"
    if not (room / "stamp").exists() and is_newer(room / f"{crate.name}.rlib", folder):
        (room / "stamp").write_text(crate.stamp())


def main() -> None:
    os.chdir(TOP)
    rt = kit()
    for crate in rt.crates_below(str(TOP)) if rt else []:
        stamp(crate)


if __name__ == "__main__":
    main()
