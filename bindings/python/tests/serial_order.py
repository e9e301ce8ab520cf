"""Whether transactions that ran side by side replied what they reply one after the other."""

from __future__ import annotations

import os
import random
from collections import Counter, defaultdict
from dataclasses import dataclass, field
from typing import Dict, List, Tuple

# A group of 8 leaves weighs as much as they.
LEAVES = [f"/g{number % 8}/leaf{number}" for number in range(64)]
GROUPS = [f"/g{number}" for number in range(8)]
WEIGHTS = {"/": 64, **dict.fromkeys(GROUPS, 8), **dict.fromkeys(LEAVES, 1)}
# How many transactions a stress test makes; 200,000 in a soak.
TRANSACTIONS = int(os.environ.get("GROVE_TRANSACTIONS", "10000"))


@dataclass
class Run:
    """What a transaction did: at each node so much was added, and that was replied."""

    done: List[Tuple[str, int, int]] = field(default_factory=list)


@dataclass
class Records:
    """Numbers at the nodes, and for each node the runs that were there, in their order. Nothing here is locked."""

    numbers: Dict[str, int] = field(default_factory=lambda: dict.fromkeys(WEIGHTS, 0))
    visits: Dict[str, List[int]] = field(default_factory=lambda: defaultdict(list))
    runs: List[Run] = field(default_factory=list)
    ended: "Counter[str]" = field(default_factory=Counter)

    def add(self, run: Run, path: str, amount: int, before: int) -> None:
        """Writes what a run makes of the number that it has read."""
        self.numbers[path] = before + amount
        self.visits[path].append(id(run))
        run.done.append((path, amount, before + amount))

    def fault(self) -> str:
        """Why this isn't what the runs do in some order, one after the other; empty if it is."""
        order = self.order()
        if len(order) < len(self.runs):
            return f"{len(self.runs) - len(order)} runs were before one another"
        numbers = dict.fromkeys(WEIGHTS, 0)
        for run in order:
            for path, amount, reply in run.done:
                numbers[path] += amount
                if numbers[path] != reply:
                    return f"at {path} a run had {reply}, and has {numbers[path]} in the serial order"
        return "" if numbers == self.numbers else "the numbers are others in the end"

    def order(self) -> List[Run]:
        """The runs, each behind those that were at one of its nodes before it; without those in a circle."""
        after: Dict[int, List[int]] = defaultdict(list)
        waits: "Counter[int]" = Counter()
        for visits in self.visits.values():
            for first, second in zip(visits, visits[1:]):
                if first != second:
                    after[first].append(second)
                    waits[second] += 1
        by_name = {id(run): run for run in self.runs}
        free = [name for name in by_name if not waits[name]]
        order = []
        while free:
            name = free.pop()
            order.append(by_name[name])
            for later in after[name]:
                waits[later] -= 1
                if not waits[later]:
                    free.append(later)
        return order


def drawn_paths(drawn: random.Random) -> List[str]:
    """Two leaves most of the time; or up to six nodes, some of them twice, some of them above others."""
    if drawn.random() < 0.8:
        return drawn.sample(LEAVES, 2)
    return [drawn.choice(LEAVES if drawn.random() < 0.8 else GROUPS) for _ in range(drawn.randrange(1, 7))]
