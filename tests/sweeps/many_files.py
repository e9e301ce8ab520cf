"""A program that is started once and reads many files, each in a copy of it that `many_files.c` makes."""

from __future__ import annotations

import os
import struct
import subprocess
from pathlib import Path

from sweeps.program import SECONDS, Ran

TOLD = struct.Struct("<qqq")
STOPPED = 99


class ManyFiles:
    """The program with these words, which name the file, for as long as it is entered."""

    def __init__(self, program: str, library: str, file: Path, *words: str):
        seconds = {"READ_FILE": str(file), "READ_SECONDS": f"{SECONDS:.0f}"}
        surroundings = {**os.environ, "LD_PRELOAD": library, **seconds}
        pipe = subprocess.PIPE
        self.started = subprocess.Popen([program, *words], env=surroundings, stdin=pipe, stdout=pipe)
        assert self.started.stdin and self.started.stdout
        self.asked, self.told = self.started.stdin, self.started.stdout

    def __enter__(self) -> ManyFiles:
        return self

    def __exit__(self, *_) -> None:
        self.asked.close()
        self.told.close()
        self.started.wait()

    def read(self, data: bytes | None) -> Ran:
        """How a copy of the program ends that finds these bytes in the file, or no file."""
        self.asked.write(struct.pack("<q", -1 if data is None else len(data)) + (data or b""))
        self.asked.flush()
        status, out, err = TOLD.unpack(self.bytes(TOLD.size))
        return Ran(status, self.bytes(out), self.bytes(err))

    def bytes(self, size: int) -> bytes:
        found = self.told.read(size)
        if len(found) < size:
            raise EOFError("the program that reads files has ended")
        return found
