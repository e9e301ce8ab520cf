"""Networks through the search, which the planner itself asks only if its proposal fails: some whose answers were worked
out by hand, and general ones.

Of the general ones each has up to six rows, arcs both ways between any variables, and a directed cycle of arcs that are
tight whatever the places, as no list's network has one. Places come first, and arcs ask for what these give or for
less, so the network can be solved: the needs go along the rows' own arcs. `grove_bench` solves them, and tests each
answer.
"""

from __future__ import annotations

import random
import subprocess
from dataclasses import dataclass
from functools import partial
from pathlib import Path

from calls import Arc, counted, network_numbers

from sweeps.called import tries_of
from sweeps.program import Tally, Try, short

TRIED = "networks, most of them general ones with tight cycles"
PARTS = 8
EACH = 250
SECONDS = 600
# The places of a general network are below this.
HIGHEST = 1 << 20


@dataclass(frozen=True)
class Worked:
    """A network, what has to be said of its amounts and places, if there is only one answer, and the latest places."""

    arcs: list[Arc]
    needs: list[int]
    start: list[int]
    top: int
    settled: list[int]
    amounts: list[int] | None = None
    places: list[int] | None = None

    def lines(self) -> list[str]:
        told = {"amounts": self.amounts, "places": self.places, "settled": self.settled}
        return [f"{name} {numbers}" for name, numbers in told.items() if numbers is not None]


# The network of reads of two leaves below a root, each of a slot: of each row its lock and its release, and the base.
TWO_LEAVES = [
    (0, 1, 0),
    *[(0, 2, 0), (2, 1, 0), (2, 6, 0), (6, 3, 1), (2, 3, 0)],
    *[(0, 4, 0), (4, 1, 0), (4, 6, -1), (6, 5, 2), (4, 5, 0)],
]
FROM_END_TO_END = [0, 2, 0, 2, 0, 2, 0]
WORKED = {
    "no rows": Worked([], [0], [0], 0, [0], [], [0]),
    "one row": Worked(
        [(0, 2, 0), (2, 1, 1), (0, 1, 0)], [-1, 1, 0], [0, 1, 0], 1, [0, 1, 0], [1, 1, 0], [0, 1, 0]
    ),
    "a light root": Worked(TWO_LEAVES, [-1, 1, -1, 1, -1, 1, 0], FROM_END_TO_END, 2, [0, 1, 0, 1, 1, 2, 0]),
    "a heavy root": Worked(TWO_LEAVES, [-5, 5, -1, 1, -1, 1, 0], FROM_END_TO_END, 2, [0, 0, 0, 1, 0, 2, 0]),
}


def tries(program: str, room: str) -> list[Try]:
    worked = {name: partial(solve_worked, each) for name, each in WORKED.items()}
    general = {f"seed {seed}": partial(solve_general, seed) for seed in range(1, PARTS + 1)}
    return tries_of({**worked, **general})


def solve_worked(worked: Worked, bench: Path, tally: Tally) -> None:
    status, lines, came = solved(bench, [network_numbers(worked.arcs, worked.needs, worked.start, worked.top)])
    well = status == 0 and set(worked.lines()) <= set(lines)
    tally.note("its answer", None if well else f"wanted {worked.lines()}; came {came}")


def solve_general(seed: int, bench: Path, tally: Tally) -> None:
    rng = random.Random(seed)
    status, lines, came = solved(bench, [network(rng) for _ in range(EACH)])
    tested = sum(line.startswith("test ") for line in lines)
    for number in range(tested):
        tally.note(f"network {number}", None)
    well = status == 0 and tested == EACH and lines[-1:] == [f"{EACH} networks solved"]
    tally.blame(f"network {tested}", None if well else came)


def solved(bench: Path, networks: list[str]) -> tuple[int, list[str], str]:
    """The status, the lines, and what came in short."""
    text = counted(networks).encode()
    ran = subprocess.run([bench, "solve"], input=text, capture_output=True, timeout=SECONDS, check=False)
    lines = ran.stdout.decode(errors="replace").splitlines()
    return ran.returncode, lines, f"status {ran.returncode}, {short(ran.stdout)}, {short(ran.stderr)}"


def network(rng: random.Random) -> str:
    rows = rng.randint(1, 6)
    count = 2 * rows + 1
    places = [rng.randint(0, 20) for _ in range(count)]
    arcs = [arc(rng, places, 2 * k, 2 * k + 1) for k in range(rows)] + tight_cycle(rng, places)
    for _ in range(rng.randint(0, 4 * rows)):
        arcs.append(arc(rng, places, *rng.sample(range(count), 2)))
    rng.shuffle(arcs)
    weights = [rng.choice((1, rng.randint(1, 9), rng.randint(1, 1000))) for _ in range(rows)]
    needs = [need for weight in weights for need in (-weight, weight)] + [0]
    return network_numbers(arcs, needs, places, HIGHEST)


def arc(rng: random.Random, places: list[int], start: int, end: int) -> Arc:
    """An arc that the places meet, tightly every other time."""
    slack = rng.choice((0, rng.randint(1, 9)))
    return (start, end, places[end] - places[start] - slack)


def tight_cycle(rng: random.Random, places: list[int]) -> list[Arc]:
    """Round some of the variables, each arc as long as its ends are apart. In all they ask for 0, so they stay
    tight."""
    way = rng.sample(range(len(places)), rng.randint(2, len(places)))
    return [(v, w, places[w] - places[v]) for v, w in zip(way, way[1:] + way[:1])]
