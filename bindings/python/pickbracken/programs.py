"""Plans with the locks of their nodes, kept by their lists; and the weights that they are made by."""

from __future__ import annotations

from itertools import islice
from typing import Any, Callable, Dict, Generic, List, Mapping, Protocol, Sequence, Tuple, TypeVar

from .lists import Lists, Wanted
from .shapes import Numbers, Planner, Shapes
from .steps import ACCESS, LOCK
from .weights import MOST_WAITS

# What locks the node, or else what unlocks it, or else neither; and the node, or the access's number and its path. A
# node has its two steps once for all programs.
Action = Tuple[Any, Any, Any]
# Stands before a list whose nodes are held to the end.
WHOLE = None


class AnyNode(Protocol):
    """A node that steps lock. `waits` counts how often it was waited for."""

    path: str
    waits: int
    locking: Action
    unlocking: Action


Each = TypeVar("Each", bound=AnyNode)


class Program(Generic[Each]):
    """The steps of a list, how many accesses it has, and whether nodes are held when the last step is done."""

    __slots__ = ("accesses", "stays", "steps")

    def __init__(self, steps: Tuple[Action, ...], accesses: int, stays: bool) -> None:
        self.steps, self.accesses, self.stays = steps, accesses, stays

    def held_after(self, count: int) -> List[Each]:
        """The nodes that are held after so many steps, the last that was locked first."""
        held: Dict[Each, None] = {}
        for locks, unlocks, of in islice(self.steps, count):
            if locks is not None:
                held[of] = None
            elif unlocks is not None:
                del held[of]
        return list(reversed(held))


class Programs(Lists[Program[Each]]):
    """The nodes of a tree, each with its lock, and the programs of lists over them."""

    def __init__(self, weights: Mapping[str, int], node_of: Callable[[str], Each], planner: Planner) -> None:
        super().__init__(weights)
        self.plans: Shapes[Numbers] = Shapes(planner, lambda numbers: numbers)
        self.node_of = node_of
        self.nodes: Dict[str, Each] = {}
        self.seen: Dict[str, int] = {}

    def waits(self) -> Dict[str, int]:
        """How often each node was waited for since the last reweighing, of those that were, and 1,000 at most."""
        counts = {node.path: node.waits - self.seen.get(node.path, 0) for node in list(self.nodes.values())}
        return {path: min(count, MOST_WAITS) for path, count in counts.items() if count}

    def reweigh(self) -> int:
        """Makes new weights of the old ones and the waits (docs/PROTOCOL.md has the rule), and gives how many have
        changed. Transactions that have begun go on by their plans, which are legal by any weights."""
        with self.making:
            waits = self.waits()
            self.seen = {node.path: node.waits for node in list(self.nodes.values())}
            return self.weigh(waits)

    def program(self, wanted: Tuple[Wanted, ...], whole: bool) -> Program[Each]:
        """The program of a list that has none yet."""
        return self.keep((WHOLE, *wanted) if whole else wanted, lambda weights: self.made(wanted, whole, weights))

    def made(self, wanted: Sequence[Wanted], whole: bool, weights: List[int]) -> Tuple[Program[Each], int]:
        if not wanted:
            return Program((), 0, False), 0
        paths, nodes, shape = self.cut(wanted, weights)
        numbers = iter(self.plans.made(shape))
        late = set(paths) if whole else set()
        steps: List[Action] = []
        for kind, of in zip(numbers, numbers):
            if kind == ACCESS:
                steps.append((None, None, (of, paths[of])))
                continue
            node = self.node(self.tree.paths[nodes[of]])
            # To hold a node longer is no breach of the protocol.
            if kind == LOCK:
                steps.append(node.locking)
            elif node.path not in late:
                steps.append(node.unlocking)
        return Program(tuple(steps), len(paths), whole), len(steps)

    def node(self, path: str) -> Each:
        """The node of a path, with its lock, both made when it is first needed."""
        found = self.nodes.get(path)
        if found is None:
            found = self.nodes[path] = self.node_of(path)
        return found
