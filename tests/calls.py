"""The program grove_bench, which makes calls that no command of `grove` makes, and what it reads: numbers and words."""

from __future__ import annotations

import os
import shutil
import subprocess
from pathlib import Path
from typing import Iterable, Optional

TOP = Path(__file__).resolve().parents[1]
CRATE = TOP / "crates/grove_bench"
PROGRAM = CRATE / "out/grove_bench"
# From nothing its crate is proved in minutes, those below it not among them.
SECONDS_TO_PROVE = 7200
# The largest jobs: how many chains hang below the root, with how many nodes each.
CHAINS, DEPTH = 64, 32

Row = tuple[Optional[int], int]
Access = tuple[int, int]
Step = tuple[str, int]


class NotBuilt(Exception):
    """The program isn't there, and can't be proved and built."""


def proved_program() -> Path:
    """The program, proved and built anew if it isn't there, or if a source of it is newer."""
    if is_built():
        return PROGRAM
    if not shutil.which("rt"):
        raise NotBuilt("grove_bench isn't built, and rt isn't on the path")
    ran = subprocess.run(["rt", "run"], cwd=CRATE, capture_output=True, timeout=SECONDS_TO_PROVE, check=False)
    if ran.returncode != 0:
        last = (ran.stdout + ran.stderr).decode(errors="replace").splitlines()[-3:]
        raise NotBuilt(f"grove_bench isn't proved: status {ran.returncode}, {last}")
    # If no source has changed but in its time, the program is the one that was there.
    PROGRAM.touch()
    return PROGRAM


def is_built() -> bool:
    if not os.access(PROGRAM, os.X_OK):
        return False
    built = PROGRAM.stat().st_mtime
    return all(source.stat().st_mtime <= built for crate in crates_of("grove_bench") for source in sources_of(crate))


def crates_of(name: str) -> set[str]:
    """The crate, and those of this repository that it stands on."""
    lines = (line.split(":") for line in (TOP / "crates.txt").read_text().splitlines() if not line.startswith("#"))
    below = {words[0].split()[0]: words[1].split() for words in lines}
    found, left = set(), [name]
    while left:
        crate = left.pop()
        if crate in below and crate not in found:
            found.add(crate)
            left += below[crate]
    return found


def sources_of(crate: str) -> Iterable[Path]:
    for folder, names, files in os.walk(TOP / "crates" / crate):
        if "out" in names:
            names.remove("out")
        yield from (Path(folder) / file for file in files if file.endswith((".rt", ".antt")))


# ---- what it reads


def counted(texts: list[str]) -> str:
    return "\n".join([str(len(texts)), *texts])


def tree_numbers(rows: list[Row]) -> str:
    """How many nodes there are; of each its parent, the root's its own number, and its weight."""
    return counted([f"{number if parent is None else parent} {weight}" for number, (parent, weight) in enumerate(rows)])


def list_numbers(accesses: list[Access]) -> str:
    """How many accesses there are; of each its node and its length."""
    return counted([f"{node} {length}" for node, length in accesses])


def job_numbers(accesses: list[Access], steps: list[Step]) -> str:
    """A list, how many steps its plan has, and each: what it does, and its node or the number of its access."""
    return list_numbers(accesses) + "\n" + counted([f"{what} {number}" for what, number in steps])


Arc = tuple[int, int, int]


def network_numbers(arcs: list[Arc], needs: list[int], start: list[int], top: int) -> str:
    """The numbers of variables and of arcs; of each arc where it begins, where it ends and its least; each variable's
    need; each one's place to begin from; the highest place."""
    lines = [(len(needs), len(arcs)), *arcs, needs, start, (top,)]
    return "\n".join(" ".join(map(str, line)) for line in lines)


# ---- the largest jobs


def chain_ends() -> list[Access]:
    """An access of the end of each chain."""
    return [(chain * DEPTH, 1) for chain in range(1, CHAINS + 1)]


def chain_steps() -> list[Step]:
    """Locks the root and the first node of each chain, lets the root go, and goes down one chain after the other, each
    node let go when the next is locked."""
    firsts = [1 + chain * DEPTH for chain in range(CHAINS)]
    steps = [("lock", 0), *(("lock", first) for first in firsts), ("unlock", 0)]
    for number, first in enumerate(firsts):
        for node in range(first, first + DEPTH - 1):
            steps += [("lock", node + 1), ("unlock", node)]
        steps += [("access", number), ("unlock", first + DEPTH - 1)]
    return steps


def chains() -> list[Row]:
    """A root with the chains below it, numbered chain by chain."""
    rows: list[Row] = [(None, 1)]
    for number in range(1, CHAINS * DEPTH + 1):
        rows.append((0 if number % DEPTH == 1 else number - 1, 1 + number % 1000))
    return rows
