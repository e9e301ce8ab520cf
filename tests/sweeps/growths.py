"""Each allocation of a run refused, alone: the whole answer, or `memory` with nothing on standard output."""

from __future__ import annotations

import contextlib
import os
from functools import partial
from typing import Iterator

from sweeps.documents import EXAMPLES, Asked, certified_examples, examples, helped, refused, wrong_words
from sweeps.preloaded import library_of
from sweeps.program import MEMORY, Ran, Tally, Try, run

TRIED = "growths refused, each alone"
# No run here takes more growths.
MOST_GROWTHS = 20_000


def tries(program: str, room: str) -> list[Try]:
    library = library_of("refuse_growth", room)
    return [Try(asked.name, partial(refuse_each, program, library, asked)) for asked in all_asked()]


def all_asked() -> list[Asked]:
    named = Asked("a named file", ("judge", str(EXAMPLES / "two-leaves.json")), b"", 0)
    return examples() + certified_examples() + refused() + [named] + helped() + wrong_words()


def refuse_each(program: str, library: str, asked: Asked, tally: Tally) -> None:
    """Refuses the growths of a run in turn, until a run has no growth of that number."""
    right = run(program, *asked.words, text=asked.text)
    fault = asked.fault(right)
    if fault:
        tally.blame("no growth refused", fault)
        return
    for number in range(1, MOST_GROWTHS + 1):
        ran, was_refused = run_refusing(program, library, number, asked)
        if not was_refused:
            tally.blame("no growth of that number", None if ran == right else f"wanted {right}; came {ran}")
            return
        is_well = ran in (right, MEMORY)
        tally.note(f"growth {number} refused", None if is_well else f"wanted {right}, or {MEMORY}; came {ran}")
    tally.blame(f"growth {MOST_GROWTHS} refused", "there are still more of them")


def run_refusing(program: str, library: str, number: int, asked: Asked) -> tuple[Ran, bool]:
    """Runs the program with one growth refused, and returns whether there was one of that number."""
    with refusing(library, number) as (how, ends):
        return run(program, *asked.words, text=asked.text, **how), is_told(ends)


@contextlib.contextmanager
def refusing(library: str, number: int) -> Iterator[tuple[dict, int]]:
    """How to start a program that is refused one growth, and the pipe on which that is reported."""
    ends, tell = os.pipe()
    surroundings = {**os.environ, "LD_PRELOAD": library, "REFUSED_GROWTH": str(number), "REFUSED_TELL": str(tell)}
    try:
        os.set_blocking(ends, False)
        yield {"env": surroundings, "pass_fds": (tell,)}, ends
    finally:
        os.close(ends)
        os.close(tell)


def is_told(ends: int) -> bool:
    try:
        return os.read(ends, 1) == b"x"
    except BlockingIOError:
        return False
