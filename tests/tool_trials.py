"""Trials that need tools. What is missing is installed if that may be done; what is missing all the same is named."""

from __future__ import annotations

import os
import subprocess
import sys
import tempfile
import time
from collections.abc import Callable, Iterable
from dataclasses import dataclass
from pathlib import Path
from typing import Generic, TypeVar

from sweeps.program import Tally, Try

Given = TypeVar("Given")
INSTALL = Path(__file__).resolve().parent / "install"


@dataclass(frozen=True)
class Trial(Generic[Given]):
    """Something to try of what is given, the tools that it needs, and what names anything else that isn't there."""

    name: str
    call: Callable[[Given, Path, Tally], None]
    needs: tuple[str, ...] = ()
    is_absent: Callable[[], str] = str

    def absent(self, missing: frozenset[str]) -> str:
        """What is needed and isn't there; nothing if it can be run."""
        return ", ".join(tool for tool in self.needs if tool in missing) or self.is_absent()


def missing_for(trials: Iterable[Trial[Given]]) -> frozenset[str]:
    """The tools that these trials need and that aren't there, once what may be installed is."""
    tools = sorted({tool for trial in trials for tool in trial.needs})
    ran = subprocess.run([INSTALL, *tools], stdout=subprocess.PIPE, text=True, check=False)
    if ran.returncode not in (0, 1):
        sys.exit(f"{INSTALL} ended with status {ran.returncode}")
    return frozenset(ran.stdout.split())


def tried(trial: Trial[Given], given: Given, missing: frozenset[str]) -> bool | None:
    """Whether a trial passed, in a folder of its own; none if it wasn't run, which is no failure but under CI."""
    started = time.monotonic()
    absent = trial.absent(missing)
    if absent:
        is_wanted = bool(os.environ.get("CI"))
        print(f"{'FAILED ' if is_wanted else ''}{trial.name}: not run, without {absent}", flush=True)
        return False if is_wanted else None
    with tempfile.TemporaryDirectory(prefix="grove-trial-") as room:
        tally = Try(trial.name, lambda tally: trial.call(given, Path(room), tally)).tally()
    took = time.monotonic() - started
    lines = [f"{trial.name}: {tally.tried} things tried, {len(tally.faults)} wrong; {took:.1f} s"]
    lines += [f"FAILED {trial.name}: {fault}" for fault in tally.faults]
    print("\n".join(lines), flush=True)
    return not tally.faults


def told(wells: list[bool | None]) -> int:
    """Prints how many trials passed and how many failed; the status is 0 only if something was tried."""
    passed, failed = wells.count(True), wells.count(False)
    print(f"{passed} passed, {failed} failed")
    return 1 if failed or not passed else 0
