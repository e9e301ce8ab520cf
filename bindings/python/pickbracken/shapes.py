"""Plans of lists over trees of any size.

A list is cut to a part of its tree: the nodes on the ways from the root down to the accessed ones. Plans over such a
part are proved to be those over the whole tree. They depend on its nodes, on their weights and on the lengths, but on
no name. So a plan is kept in numbers for each shape of these.
"""

from __future__ import annotations

from array import array
from typing import Callable, Dict, Generic, List, Mapping, NamedTuple, Sequence, Tuple, TypeVar

from .faults import NoNode, Refused
from .library import PART, STEP, Settled, plan_part
from .steps import ACCESS, LOCK, NUMBERS, UNLOCK
from .tree import names_of

__all__ = ["ACCESS", "LOCK", "MOST_DEPTH", "NUMBERS", "UNLOCK", "Nodes", "Numbers", "Planner", "Shape", "settled"]

# So many shapes are kept, and of their plans so many steps; then all are forgotten.
MOST_SHAPES, MOST_STEPS = 1_024, 1_048_576
# A node that is accessed is at most so far below the root.
MOST_DEPTH = 32
ROOT = 0


class Shape(NamedTuple):
    """What a plan depends on: of nodes in preorder, the first of which is the root, the places of their parents among
    them and their weights; and of each access the place of its node, and its length."""

    parents: Tuple[int, ...]
    weights: Tuple[int, ...]
    places: Tuple[int, ...]
    lengths: Tuple[int, ...]


# The steps of a plan, two numbers each: what it does, and the place of its node, or the number of its access.
Numbers = Sequence[int]
# What makes a plan of a shape.
Planner = Callable[[Shape], Numbers]


def settled(shape: Shape) -> Numbers:
    """The settled plan of a shape, by the library."""
    return planned(shape, wants_flow=False)[1]


def settled_with_flow(shape: Shape) -> Settled:
    """The same with its cost, and with the flow that proves it."""
    return planned(shape, wants_flow=True)


def planned(shape: Shape, wants_flow: bool) -> Settled:
    nodes = range(len(shape.parents))
    part = array("I", bytes(12 * len(nodes)))
    part[::PART], part[1::PART], part[2::PART] = array("I", nodes), array("I", shape.parents), array("I", shape.weights)
    return plan_part(part, array("I", shape.places), array("I", shape.lengths), wants_flow)


Made = TypeVar("Made")


class Shapes(Generic[Made]):
    """What is made of shapes, each when it is first asked for, and the numbers of the steps that it has. Any number of
    threads may ask at once; what two ask for at the same time may be made twice."""

    def __init__(self, make: Callable[[Shape], Made], steps_of: Callable[[Made], Numbers]) -> None:
        self.make, self.steps_of = make, steps_of
        self.kept: Dict[Shape, Made] = {}
        self.steps = 0

    def made(self, shape: Shape) -> Made:
        found = self.kept.get(shape)
        if found is None:
            found = self.make(shape)
            steps = len(self.steps_of(found)) // STEP
            self.steps += steps
            if len(self.kept) >= MOST_SHAPES or self.steps > MOST_STEPS:
                self.kept, self.steps = {}, steps
            self.kept[shape] = found
        return found


class Nodes:
    """The nodes of these paths and all above them, by their numbers in preorder."""

    def __init__(self, paths: Mapping[str, object]) -> None:
        self.paths = sorted(with_ways(paths), key=names_of)
        self.number_of = {path: number for number, path in enumerate(self.paths)}
        # The root has itself above it.
        self.parents = [self.number_of[path[: path.rindex("/")] or "/"] for path in self.paths]
        self.depths = [0] * len(self.paths)
        for number, parent in enumerate(self.parents[1:], 1):
            self.depths[number] = self.depths[parent] + 1

    def number(self, path: str) -> int:
        found = self.number_of.get(path)
        if found is None:
            raise NoNode(f"no node has the path {path!r}")
        return found

    def cut(self, numbers: Sequence[int]) -> List[int]:
        """The nodes on the ways from the root down to these, in preorder."""
        parents, cut = self.parents, {ROOT}
        for number in numbers:
            while number not in cut:
                cut.add(number)
                number = parents[number]
        return sorted(cut)

    def shape(
        self, cut: Sequence[int], weights: Sequence[int], numbers: Sequence[int], lengths: Sequence[int]
    ) -> Shape:
        """The shape of accesses of the nodes of these numbers, over the part of the tree that is cut."""
        depths, parents, place_of = self.depths, self.parents, {number: place for place, number in enumerate(cut)}
        for place, number in enumerate(cut):
            if depths[number] > MOST_DEPTH:
                raise Refused(f"row {place} too-deep")
        return Shape(
            tuple([place_of[parents[number]] for number in cut]),
            tuple([weights[number] for number in cut]),
            tuple([place_of[number] for number in numbers]),
            tuple(lengths),
        )


def with_ways(paths: Mapping[str, object]) -> Dict[str, None]:
    """These paths and all above them."""
    found = {"/": None}
    for path in paths:
        names_of(path)
        while path not in found:
            found[path] = None
            path = path[: path.rindex("/")] or "/"
    return found
