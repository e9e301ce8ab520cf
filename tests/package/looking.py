"""How a trial notes what it finds."""

from __future__ import annotations

import os
import subprocess
from pathlib import Path

from sweeps.program import Tally

COMMANDS = ["judge", "check", "plan", "draw", "run", "audit", "tree", "serve", "page", "data", "ask", "save"]


def note_equal(tally: Tally, what: str, came: object, wanted: object) -> None:
    tally.note(what, None if came == wanted else f"wanted {wanted!r}; came {came!r}")


def note_silent(tally: Tally, what: str, ran: subprocess.CompletedProcess) -> None:
    """It has nothing to say, and ends well."""
    is_well = not (ran.returncode or ran.stdout or ran.stderr)
    tally.note(what, None if is_well else f"status {ran.returncode}, {(ran.stdout + ran.stderr)[:2000]}")


def below(folder: Path) -> set[str]:
    """The files below a folder."""
    return {str(path.relative_to(folder)) for path in folder.rglob("*") if path.is_symlink() or not path.is_dir()}


def with_manual(prefix: Path) -> dict[str, str]:
    """An environment in which `man` finds the pages of this prefix alone, and shows them as plain text."""
    how = {"MANWIDTH": "100", "MANPAGER": "cat", "MAN_KEEP_FORMATTING": "", "LC_ALL": "C.UTF-8"}
    return {**os.environ, "MANPATH": str(prefix / "share/man"), **how}
