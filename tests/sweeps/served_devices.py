"""A server that reads and writes a connection byte by byte, and each read and write that fails in turn, alone: the
session ends there, and just what was due before went out. The next session is whole, over the store that it left. A
call that is interrupted is made again."""

from __future__ import annotations

import json
import os
from contextlib import contextmanager
from functools import partial
from typing import Iterator

from server import Serving, talk_in_turn
from store import Store

from sweeps.documents import EXAMPLES
from sweeps.growths import is_told
from sweeps.preloaded import library_of
from sweeps.program import Tally, Try, run
from sweeps.talks import note_replies
from sweeps.ten_lines import REPLIES, TEXT, TREE

TRIED = "reads and writes of a server that failed, each alone, and sessions with many of them interrupted"
LINES = TEXT.splitlines(keepends=True)
RIGHT = REPLIES.splitlines(keepends=True)
# No server here takes more reads, or more writes, for ten lines.
MOST_CALLS = 20_000
# Each part has every call of so many.
PARTS = 4
BYTE_BY_BYTE = {"READ_AT_MOST": "1", "WRITE_AT_MOST": "1"}


def tries(program: str, room: str) -> list[Try]:
    library = library_of("fail_device", room)
    failing = [
        Try(f"each {PARTS}th {kind} from {first} on", partial(fail_each, program, library, kind, first))
        for kind in ("read", "write")
        for first in range(1, PARTS + 1)
    ]
    return failing + [Try("interrupted reads and writes", partial(interrupt_each, program, library))]


def fail_each(program: str, library: str, kind: str, first: int, tally: Tally) -> None:
    for number in range(first, MOST_CALLS, PARTS):
        where = f"{kind} {number} failed"
        with failing(library, kind, number) as (how, ends), Serving(program, TREE, **how) as server:
            came = talk_in_turn(server.port, LINES)
            if not is_told(ends):
                tally.blame(where, None if came == REPLIES else f"nothing failed; came {came!r}")
                return
            wanted, done = due(kind, number)
            tally.note(where, None if came == wanted else f"wanted {wanted!r}; came {came!r}")
            ask_next(server, done, f"{where}, after it", tally)
    tally.blame(f"{kind} {number} failed", "there are still more of them")


def interrupt_each(program: str, library: str, tally: Tally) -> None:
    """Of all reads and writes, standard input's and output's among them, each second or third is interrupted."""
    document = (EXAMPLES / "two-leaves.json").read_bytes()
    wanted = run(program, "judge", text=document)
    for each in (2, 3):
        calls = {"LD_PRELOAD": library, **BYTE_BY_BYTE, "INTERRUPTED_EACH": str(each)}
        surroundings = {**os.environ, **calls}
        with Serving(program, TREE, env=surroundings) as server:
            came = talk_in_turn(server.port, LINES)
        tally.note(f"each of {each} interrupted", None if came == REPLIES else f"wanted {REPLIES!r}; came {came!r}")
        judged = run(program, "judge", text=document, env=surroundings)
        tally.compare(f"judge, each of {each} interrupted", judged, wanted)


def ask_next(server: Serving, done: int, where: str, tally: Tally) -> None:
    """The next session has each reply, over the store that so many of the ten lines left."""
    store = Store(json.loads(TREE))
    lines = Tally()
    try:
        note_replies(store, b"".join(LINES[:done]), b"".join(RIGHT[:done]), where, lines)
        note_replies(store, TEXT, server.talk(TEXT), where, lines)
    finally:
        for fault in lines.faults:
            tally.blame(where, fault)


def due(kind: str, number: int) -> tuple[bytes, int]:
    """What goes out before the read or write of this number, each of one byte, fails; and how many lines are done
    then."""
    if kind == "write":
        out = REPLIES[: number - 1]
        return out, out.count(b"\n") + 1
    done = TEXT[: number - 1].count(b"\n")
    return b"".join(RIGHT[:done]), done


@contextmanager
def failing(library: str, kind: str, number: int, pieces: dict = BYTE_BY_BYTE) -> Iterator[tuple[dict, int]]:
    """How to start a program of which one call fails, and the pipe on which that is reported."""
    ends, tell = os.pipe()
    calls = {"LD_PRELOAD": library, **pieces, f"FAILED_{kind.upper()}": str(number), "FAILED_TELL": str(tell)}
    surroundings = {**os.environ, **calls}
    try:
        os.set_blocking(ends, False)
        yield {"env": surroundings, "pass_fds": (tell,)}, ends
    finally:
        os.close(ends)
        os.close(tell)
