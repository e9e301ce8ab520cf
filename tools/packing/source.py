"""The checkout: its version, its commit's date, the files that git knows, and the proved program."""

from __future__ import annotations

import os
import re
import subprocess
from dataclasses import dataclass
from pathlib import Path

VERSION_FILE = "crates/grove_words/src/definitions.rt"
PROGRAM = "crates/grove/out/grove"
WRAPPER = "grove"
# What an ELF file for x86_64 has at byte 18.
X86_64 = b"\x3e\x00"


class Unfit(Exception):
    """Nothing can be made of this checkout; the text says why."""


@dataclass(frozen=True)
class Source:
    top: Path

    def version(self) -> str:
        return self.only(VERSION_FILE, r'^const VERSION: &str = "([0-9.]+)";$')

    def server_memory(self) -> str:
        """What the wrapper sets for a server."""
        return self.only(WRAPPER, r"^server_memory=(\S+)$")

    def only(self, file: str, pattern: str) -> str:
        """What the only line of this form in a file has."""
        found = re.findall(pattern, (self.top / file).read_text(encoding="utf-8"), re.M)
        if len(found) != 1:
            raise Unfit(f"{file} has {len(found)} lines of the form {pattern}")
        return found[0]

    def git(self, *words: str) -> str:
        ran = subprocess.run(["git", "-C", str(self.top), *words], capture_output=True, text=True)
        if ran.returncode:
            raise Unfit(f"git {words[0]} says: {ran.stderr.strip()}")
        return ran.stdout

    def files(self, *below: str) -> list[str]:
        """The files that git knows, sorted."""
        return sorted(filter(None, self.git("ls-files", "-z", "--", *below).split("\0")))

    def date(self) -> int:
        """That of the commit, unless SOURCE_DATE_EPOCH says another."""
        given = os.environ.get("SOURCE_DATE_EPOCH", "")
        return int(given) if given.isdigit() else int(self.git("log", "-1", "--format=%ct"))

    def author(self) -> str:
        return self.git("log", "-1", "--format=%an <%ae>").strip()

    def is_changed(self) -> bool:
        """Is there something that isn't committed?"""
        return bool(self.git("status", "--porcelain", "--untracked-files=no"))

    def read(self, file: str) -> bytes:
        return (self.top / file).read_bytes()

    def is_program(self, file: str) -> bool:
        return os.access(self.top / file, os.X_OK)


def proved_program(source: Source) -> Path:
    """The program, as long as it is that of the sources that stand here."""
    program = source.top / PROGRAM
    if not os.access(program, os.X_OK):
        raise Unfit(f"there is no proved program at {PROGRAM}; ./grove prove makes it")
    need_new(source.top, program, "the proved program; ./grove prove")
    with program.open("rb") as it:
        head = it.read(20)
    if not head.startswith(b"\x7fELF") or head[18:] != X86_64:
        raise Unfit(f"{PROGRAM} isn't a program for Linux on x86_64")
    ran = subprocess.run([program, "--version"], stdin=subprocess.DEVNULL, capture_output=True, text=True)
    told, wanted = ran.stdout.strip(), f"grove {source.version()}"
    if told != wanted:
        raise Unfit(f"the program says {told!r}, and the sources {wanted!r}; ./grove prove makes it anew")
    return program


def need_new(top: Path, made: Path, what: str) -> None:
    """Refuses a file that is older than a source; `what` it is, and what makes it."""
    newer = first_newer(top, made.stat().st_mtime_ns)
    if newer:
        raise Unfit(f"{newer} is newer than {what} makes it anew")


def first_newer(top: Path, made: int) -> str | None:
    """A source that is newer than the program, as ./grove finds it."""
    for folder, folders, names in os.walk(top / "crates"):
        folders[:] = sorted(name for name in folders if name != "out")
        for name in sorted(names):
            file = Path(folder, name)
            if (name == "crates.txt" or file.suffix in (".rt", ".antt")) and file.stat().st_mtime_ns > made:
                return str(file.relative_to(top))
    return "crates.txt" if (top / "crates.txt").stat().st_mtime_ns > made else None
