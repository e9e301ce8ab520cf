"""What the proof of the program took: the table in tools/proof_times.txt, and the crates below each."""

from __future__ import annotations

import re
from dataclasses import dataclass
from functools import cache
from pathlib import Path

TOP = Path(__file__).resolve().parent.parent
TABLE = TOP / "tools/proof_times.txt"
# The processor seconds that a line of a crate takes that the table doesn't have.
SECONDS_A_LINE = 0.1


@dataclass(frozen=True)
class ProofTimes:
    """A whole proof: by the clock and of each crate, in seconds; of how many processors other work took so many %."""

    clock: int
    processors: int
    others: int
    crates: dict[str, float]

    @property
    def minutes(self) -> int:
        return round(self.clock / 60)

    @property
    def processor_minutes(self) -> int:
        return round(sum(self.crates.values()) / 60)

    def of(self, crate: str) -> float:
        """What a crate takes; by its lines, if it is new."""
        return self.crates.get(crate) or max(1.0, SECONDS_A_LINE * lines_of(crate))


def read_times(table: Path = TABLE) -> ProofTimes:
    rows = dict(re.findall(r"^(\w+) ([\d.]+)$", table.read_text(encoding="utf-8"), re.M))
    clock, processors, others = (int(rows.pop(name)) for name in ("clock", "processors", "others"))
    return ProofTimes(clock, processors, others, {name: float(seconds) for name, seconds in rows.items()})


@cache
def lines_of(crate: str) -> int:
    files = [path for path in (TOP / "crates" / crate).rglob("*") if path.suffix in (".rt", ".antt")]
    return sum(path.read_bytes().count(b"\n") for path in files if "out" not in path.relative_to(TOP).parts)


def below(text: str) -> dict[str, set[str]]:
    """All crates that each stands on, lowest first, by the text of crates.txt."""
    found: dict[str, set[str]] = {}
    for line in text.splitlines():
        if line.startswith("#") or ":" not in line:
            continue
        named, _, uses = line.partition(":")
        lower = {crate for crate in uses.split() if crate in found}
        found[named.split()[0]] = lower.union(*(found[crate] for crate in lower))
    return found
