"""The growths of a server refused, each alone, in parts: one part has every eighth of them."""

from __future__ import annotations

from collections.abc import Callable
from functools import partial

from sweeps.growths import is_told, refusing
from sweeps.program import Tally, Try

# No server of a sweep takes more growths for what it is asked.
MOST_GROWTHS = 20_000
PARTS = 8

# Starts a server so, asks it, and says where something was wrong.
Ask = Callable[[str, dict, str, Tally], None]


def parts_of(program: str, library: str, ask: Ask, how: str = "") -> list[Try]:
    """A part for each growth that is the first, with how the server is asked behind its name."""
    return [
        Try(f"each {PARTS}th growth from {first} on{how}", partial(refuse_each, program, library, first, ask))
        for first in range(1, PARTS + 1)
    ]


def refuse_each(program: str, library: str, first: int, ask: Ask, tally: Tally) -> None:
    for number in range(first, MOST_GROWTHS, PARTS):
        with refusing(library, number) as (how, ends):
            ask(program, how, f"growth {number} refused", tally)
            if not is_told(ends):
                return
    tally.blame(f"growth {number} refused", "there are still more of them")
