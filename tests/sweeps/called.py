"""Parts of sweeps that go by the calls of `grove_bench`."""

from __future__ import annotations

from functools import partial
from pathlib import Path
from typing import Callable

from calls import NotBuilt, proved_program

from sweeps.program import Tally, Try


def tries_of(parts: dict[str, Callable[[Path, Tally], None]]) -> list[Try]:
    """Each part by its name; if the program can't be proved and built, each is a fault."""
    try:
        bench = proved_program()
    except NotBuilt as why:
        return [Try(name, partial(blame, str(why))) for name in parts]
    return [Try(name, partial(part, bench)) for name, part in parts.items()]


def blame(why: str, tally: Tally) -> None:
    tally.blame("grove_bench", why)
