"""Plans over trees of any size:

    plans = Plans({"/": 20, "/north": 5, "/north/a": 1, "/north/b": 1})
    print(plans.plan(["/north/a", ("/north/b", 3)]).cost)
"""

from __future__ import annotations

from typing import Iterable, List, Mapping, Sequence, Tuple

from .library import STEP, Settled
from .lists import Lists, Wanted
from .planning import Plan
from .shapes import Shapes, settled_with_flow
from .weights import need_waits

__all__ = ["Plans"]


class Plans(Lists[Plan]):
    """Settled plans of lists over a tree of any size, each made once and then kept, within a bound.

    The tree has the nodes of these paths and all above them, whose names are free, each with its weight (1 to 1,000,
    and 1 if it isn't named). A plan takes as long as the ways down to its nodes are, however large the tree is. Any
    number of threads may ask for plans."""

    def __init__(self, weights: Mapping[str, int]) -> None:
        super().__init__(weights)
        self.shapes: Shapes[Settled] = Shapes(settled_with_flow, lambda settled: settled[1])

    def plan(self, wanted: Iterable[Wanted]) -> Plan:
        """The settled plan of accesses of these nodes in this order, with its flow: paths, or paths with the slots that
        they take."""
        key = tuple(wanted)
        return self.kept.made.get(key) or self.keep(key, lambda weights: self.planned(key, weights))

    def planned(self, wanted: Sequence[Wanted], weights: List[int]) -> Tuple[Plan, int]:
        if not wanted:
            return Plan(0, (), ()), 0
        _, nodes, shape = self.cut(wanted, weights)
        settled, paths = self.shapes.made(shape), self.tree.paths
        return Plan.of(settled, [paths[node] for node in nodes]), len(settled[1]) // STEP

    def reweigh(self, waits: Mapping[str, int]) -> int:
        """Makes new weights of the old ones and of how often each node was waited for: not at all if it isn't named
        (docs/PROTOCOL.md has the rule). Gives how many have changed; later plans go by them."""
        counts = {path: need_waits(path, count) for path, count in waits.items()}
        with self.making:
            return self.weigh(counts)
