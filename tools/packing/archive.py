"""Files put below a folder, or into a compressed archive whose bytes depend on them and on a date alone."""

from __future__ import annotations

import gzip
import io
import os
import tarfile
from pathlib import Path, PurePosixPath

from .placed import Placed


def archive(placed: list[Placed], name: str, date: int) -> bytes:
    """A tar archive, compressed, with all of it in a folder of this name."""
    packed = io.BytesIO()
    with tarfile.open(fileobj=packed, mode="w", format=tarfile.GNU_FORMAT) as tar:
        for folder in [name, *(f"{name}/{folder}" for folder in folders(placed))]:
            add(tar, folder, tarfile.DIRTYPE, 0o755, date)
        for each in placed:
            path = f"{name}/{each.path}"
            if each.target is None:
                add(tar, path, tarfile.REGTYPE, each.mode(), date, each.content)
            else:
                add(tar, path, tarfile.SYMTYPE, 0o777, date, target=each.target)
    return compressed(packed.getvalue())


def add(
    tar: tarfile.TarFile, path: str, kind: bytes, mode: int, date: int, content: bytes = b"", target: str = ""
) -> None:
    """Adds an entry that belongs to root."""
    entry = tarfile.TarInfo(path)
    entry.type, entry.mode, entry.mtime, entry.size, entry.linkname = kind, mode, date, len(content), target
    entry.uname = entry.gname = "root"
    tar.addfile(entry, io.BytesIO(content))


def compressed(content: bytes) -> bytes:
    """With no name and no date."""
    return gzip.compress(content, 9, mtime=0)


def folders(placed: list[Placed]) -> list[str]:
    """The folders of these files, each after the one that it is in."""
    return sorted({str(folder) for each in placed for folder in PurePosixPath(each.path).parents} - {"."})


def install(placed: list[Placed], prefix: Path) -> None:
    """Puts them below the prefix, each in place of what is there; what runs from there goes on with the old file."""
    for folder in [".", *folders(placed)]:
        (prefix / folder).mkdir(mode=0o755, parents=True, exist_ok=True)
    for each in placed:
        path = prefix / each.path
        beside = path.with_name(f".{path.name}.new")
        beside.unlink(missing_ok=True)
        if each.target is None:
            beside.write_bytes(each.content)
            beside.chmod(each.mode())
        else:
            beside.symlink_to(each.target)
        os.replace(beside, path)
