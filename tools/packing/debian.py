"""A Debian package of what is installed, made by dpkg-deb."""

from __future__ import annotations

import hashlib
import os
import shutil
import struct
import subprocess
import tempfile
import time
from pathlib import Path

from .archive import compressed, folders, install
from .bindings import loaded, wheels
from .layout import MANUAL, PAGES
from .placed import Placed
from .source import Source

NAME = "grove"
ARCHITECTURE = "amd64"
# Which making of this version it is.
REVISION = "1"
PROGRAM = "bin/grove"
PREFIX = "/usr"
# Below it: the folder that Python's modules stand in, and what Python makes of them.
OWN = "lib/grove"
# The kind of a section of an ELF file.
SYMBOLS = 2

CONTROL = """\
Package: grove
Version: {version}
Section: database
Priority: optional
Architecture: {architecture}
Maintainer: {author}
Installed-Size: {kibibytes}
Depends: libc6 (>= {libc}), python3:any (>= 3.11)
Recommends: python3-grpcio, python3-protobuf
Suggests: etcd-server
Description: in-memory record store over a tree, with a lock planner
 grove keeps records at the nodes of a rooted tree, and decides where each lock
 of a transaction is taken and released, so that no legal plan costs less. It
 plans, draws, checks and judges plans, runs batches of transactions in
 threads, serves a store over TCP or HTTP, and audits the history of a run.
 Each of its functions was proved to meet its contract.
 .
 The programs grove-* run such plans on an etcd cluster. They need the packages
 that are recommended.
"""

CHANGES = """\
grove ({version}) unstable; urgency=medium

  * Version {upstream}; /usr/share/doc/grove/changelog.gz says what is new.

 -- {author}  {date}
"""

# What is true of it and no more: the repository has no file with a licence.
COPYRIGHT = """\
This package is made of the sources of grove {upstream} by tools/package, which
is one of them.

Copyright (C) {year} {authors}, as the history of these sources
names their authors.

License: the sources state none.
"""

# lintian wants programs without symbols. This one isn't changed after it was proved and tried.
OVERRIDES = """\
# The program is, byte for byte, the one that was proved and tried.
grove: unstripped-binary-or-object [usr/bin/grove]
"""

# Before it is removed: its services end, and what Python keeps beside its modules goes.
BEFORE_REMOVAL = """\
#!/bin/sh
set -e
if [ "$1" = remove ] && [ -d /run/systemd/system ]; then
    deb-systemd-invoke stop {units} || true
fi
find {modules} -depth -type d -name __pycache__ -exec rm -r {{}} +
"""


def debian_package(source: Source, placed: list[Placed], out: Path) -> Path:
    """Makes the package in this folder, from what is installed below /usr."""
    file = out / f"{NAME}_{source.version()}-{REVISION}_{ARCHITECTURE}.deb"
    with tempfile.TemporaryDirectory(prefix="grove-package-") as room:
        tree = Path(room, "tree")
        files = [below_usr(each) for each in placed] + documents(source)
        if has_symbols(content_of(placed, PROGRAM)):
            files.append(Placed("usr/share/lintian/overrides/grove", OVERRIDES.encode()))
        install(files, tree)
        write_control(source, placed, files, tree / "DEBIAN")
        settle(tree, source.date())
        fresh = Path(room, file.name)
        words: list[str | Path] = ["dpkg-deb", "--root-owner-group", "-Zxz", "--build", tree, fresh]
        # One thread: how many there are shows in what xz writes.
        surroundings = {**os.environ, "SOURCE_DATE_EPOCH": str(source.date()), "DPKG_DEB_THREADS_MAX": "1"}
        subprocess.run(words, check=True, stdout=subprocess.DEVNULL, env=surroundings)
        shutil.copyfile(fresh, file)
    return file


def below_usr(each: Placed) -> Placed:
    """As Debian has it: manual pages and the change log are compressed, and zsh has another folder for packages."""
    path = each.path.replace("share/zsh/site-functions", "share/zsh/vendor-completions")
    content, target = each.content, each.target
    if path.startswith(MANUAL):
        path, content, target = f"{path}.gz", compressed(content), target and f"{target}.gz"
    if path == f"{PAGES}/CHANGELOG.md":
        path, content = f"{PAGES}/changelog.gz", compressed(content)
    return Placed(f"usr/{path}", content, each.is_program, target)


def documents(source: Source) -> list[Placed]:
    """What Debian wants of each package."""
    date = time.strftime("%a, %d %b %Y %H:%M:%S +0000", time.gmtime(source.date()))
    values = {"version": version(source), "upstream": source.version(), "author": source.author(), "date": date}
    values |= {"year": date.split()[3], "authors": source.author().partition(" <")[0]}
    return [
        Placed(f"usr/{PAGES}/copyright", COPYRIGHT.format(**values).encode()),
        Placed(f"usr/{PAGES}/changelog.Debian.gz", compressed(CHANGES.format(**values).encode())),
    ]


def write_control(source: Source, placed: list[Placed], files: list[Placed], folder: Path) -> None:
    kibibytes = sum((len(each.content) + 1023) // 1024 for each in files) + len(folders(files))
    control = CONTROL.format(
        version=version(source),
        architecture=ARCHITECTURE,
        author=source.author(),
        kibibytes=kibibytes,
        libc=libc_of(content_of(placed, PROGRAM), content_of(placed, loaded(source.version()))),
    )
    sums = [f"{hashlib.md5(each.content).hexdigest()}  {each.path}\n" for each in files if each.target is None]
    services = " ".join(Path(each.path).name for each in placed if each.path.endswith((".service", ".timer")))
    before = BEFORE_REMOVAL.format(units=services, modules=f"{PREFIX}/{OWN}")
    install(
        [
            Placed("control", control.encode()),
            Placed("md5sums", "".join(sorted(sums, key=lambda line: line.split("  ", 1)[1])).encode()),
            Placed("prerm", before.encode(), True),
        ],
        folder,
    )


def version(source: Source) -> str:
    return f"{source.version()}-{REVISION}"


def content_of(placed: list[Placed], path: str) -> bytes:
    (content,) = (each.content for each in placed if each.path == path)
    return content


def has_symbols(program: bytes) -> bool:
    """Does this ELF file have a section of symbols that nothing needs when it runs?"""
    (offset,) = struct.unpack_from("<Q", program, 0x28)
    size, count = struct.unpack_from("<HH", program, 0x3A)
    kinds = [struct.unpack_from("<I", program, offset + size * at + 4)[0] for at in range(count)]
    return SYMBOLS in kinds


def libc_of(*binaries: bytes) -> str:
    """The oldest C library that has all that they ask of it."""
    return ".".join(map(str, max(map(wheels.libc_of, binaries))))


def settle(tree: Path, date: int) -> None:
    """Gives all files one date."""
    for folder, folders_in, names in os.walk(tree):
        for name in [".", *folders_in, *names]:
            os.utime(Path(folder, name), (date, date), follow_symlinks=False)
