"""Packages made in two copies of the checkout, and folders to try them in."""

from __future__ import annotations

import os
import re
import shutil
import subprocess
import sys
import tarfile
from dataclasses import dataclass
from pathlib import Path

TOP = Path(__file__).resolve().parents[2]
PROGRAM = "crates/grove/out/grove"
LIBRARIES = ("out/library/libgrove.a", "out/library/libgrove.so")
# Where the archive is unpacked in a root of its own.
USUAL_PREFIX = "usr/local"
# The longest that the making of a package may take.
SECONDS = 600.0


class Unmade(Exception):
    """There are no packages to try."""


def called(*words: str | Path, **how) -> subprocess.CompletedProcess:
    """Runs a command, and keeps what it prints."""
    how = {"stdin": subprocess.DEVNULL, "timeout": SECONDS, "text": True, **how}
    return subprocess.run(list(map(str, words)), stdout=subprocess.PIPE, stderr=subprocess.PIPE, check=False, **how)


def copy_of_checkout(program: Path, folder: Path) -> Path:
    """A clone with the files as they stand here, and the program and the library, which are newer than they are."""
    cloned = called("git", "clone", "-q", TOP, folder)
    if cloned.returncode:
        raise Unmade(f"git clone: {cloned.stderr.strip()}")
    kinds = ["--cached", "--others", "--exclude-standard"]
    files = called("git", "-C", TOP, "ls-files", "-z", *kinds).stdout.split("\0")
    for file in filter(None, files):
        (folder / file).parent.mkdir(parents=True, exist_ok=True)
        (folder / file).unlink(missing_ok=True)
        if (TOP / file).is_file():
            shutil.copy(TOP / file, folder / file)
    for made, file in [(program, PROGRAM), *((TOP / file, file) for file in LIBRARIES)]:
        (folder / file).parent.mkdir(parents=True, exist_ok=True)
        shutil.copy(made, folder / file)
    return folder


def package(copy: Path, *words: str, **how) -> subprocess.CompletedProcess:
    return called(sys.executable, copy / "tools/package", *words, **how)


@dataclass(frozen=True)
class Packages:
    """What was made, the copy that it was made in, and a prefix that the same was installed below."""

    copy: Path
    archive: Path
    debian: Path | None
    wheel: Path
    cluster_wheel: Path
    crate: Path
    prefix: Path

    @property
    def all(self) -> list[Path]:
        made = self.archive, self.debian, self.wheel, self.cluster_wheel, self.crate
        return [path for path in made if path]

    @property
    def version(self) -> str:
        return re.fullmatch(r"grove-(.*)-x86_64-linux\.tar\.gz", self.archive.name)[1]

    def unpacked(self, folder: Path) -> Path:
        """The archive below a folder, without the one that all of it is in."""
        folder.mkdir(parents=True)
        with tarfile.open(self.archive) as tar:
            for entry in tar.getmembers():
                _, _, entry.name = entry.name.partition("/")
                if entry.name:
                    tar.extract(entry, folder, set_attrs=True)
        return folder


def make(copy: Path, prefix: Path) -> Packages:
    made = package(copy)
    paths = {kind_of(Path(line).name): copy / line for line in made.stdout.splitlines()}
    if made.returncode or not paths:
        raise Unmade(f"tools/package: status {made.returncode}, {made.stdout}{made.stderr}")
    installed = package(copy, "--install", str(prefix))
    if installed.returncode:
        raise Unmade(f"tools/package --install: {installed.stderr}")
    wheels = paths["pickbracken.whl"], paths["grove_etcd.whl"]
    return Packages(copy, paths[".gz"], paths.get(".deb"), *wheels, paths[".crate"], prefix)


def kind_of(name: str) -> str:
    """The suffix of a package, and of a wheel also what it is of."""
    suffix = Path(name).suffix
    return name.partition("-")[0] + suffix if suffix == ".whl" else suffix


def library_of_checkout() -> None:
    """Has the library made that is packaged."""
    made = called(TOP / "tools/library")
    if made.returncode:
        raise Unmade(f"tools/library: {made.stderr.strip()}")


class Root:
    """A folder with what the archive has and the C library, and nothing else; programs are run in it as their root."""

    def __init__(self, packages: Packages, folder: Path):
        self.folder = folder
        self.pages = f"/{USUAL_PREFIX}/share/doc/grove"
        packages.unpacked(folder / USUAL_PREFIX)
        for library in libraries(folder / USUAL_PREFIX / "bin/grove"):
            (folder / library.relative_to("/")).parent.mkdir(parents=True, exist_ok=True)
            shutil.copy(library, folder / library.relative_to("/"))

    def words(self, *words: str) -> list[str]:
        """The command that runs the program there."""
        entered = ["chroot"] if os.geteuid() == 0 else ["unshare", "--map-root-user", "chroot"]
        return [*entered, str(self.folder), f"/{USUAL_PREFIX}/bin/grove", *words]


def libraries(program: Path) -> list[Path]:
    """The files that the program is linked with: the C library's, and what loads them."""
    return [Path(path) for path in re.findall(r"(/\S+) \(0x", called("ldd", program).stdout)]
