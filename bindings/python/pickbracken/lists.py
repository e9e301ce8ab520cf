"""What is made of lists over a tree of any size, by the weights that it has; it is kept by the lists."""

from __future__ import annotations

from threading import Lock
from typing import (
    Callable,
    Dict,
    Generic,
    Iterable,
    Iterator,
    List,
    Mapping,
    NamedTuple,
    Sequence,
    Tuple,
    TypeVar,
    Union,
)

from .accesses import MOST_ACCESSES, is_length
from .faults import Refused
from .shapes import MOST_STEPS, Nodes, Shape
from .weights import need_weight, new_weight

# So much is kept that was made of lists, of MOST_STEPS steps at most; then all is forgotten.
MOST_LISTS = 4_096

# A path, or a path and the slots that its access takes.
Wanted = Union[str, Tuple[str, int]]
# A list, and whatever else makes a difference to what is made of it.
Key = Tuple[object, ...]
Made = TypeVar("Made")


class Cut(NamedTuple):
    """A list over the part of the tree that has the ways down to its nodes: the paths of the accesses, the numbers of
    the part's nodes, and the shape."""

    paths: List[str]
    nodes: List[int]
    shape: Shape


class Kept(Generic[Made]):
    """The weights of a time, and what was made of lists by them."""

    def __init__(self, weights: List[int]) -> None:
        self.weights = weights
        self.made: Dict[Key, Made] = {}
        self.steps = 0


class Lists(Generic[Made]):
    """A tree of the nodes of these paths and all above them, as many as there are, each with its weight, which is 1 if
    it isn't named; and what is made of lists over it."""

    def __init__(self, weights: Mapping[str, int]) -> None:
        self.tree = Nodes(weights)
        self.kept: Kept[Made] = Kept([need_weight(path, weights.get(path, 1)) for path in self.tree.paths])
        self.making = Lock()

    def weights(self) -> Dict[str, int]:
        """The weight of each node."""
        return dict(zip(self.tree.paths, self.kept.weights))

    def weigh(self, waits: Mapping[str, int]) -> int:
        """Makes new weights of the old ones and the waits, for who has `making`, and gives how many have changed."""
        old, number = self.kept.weights, self.tree.number
        new = [new_weight(weight, 0) for weight in old]
        for path, count in waits.items():
            new[number(path)] = new_weight(old[number(path)], count)
        self.kept = Kept(new)
        return sum(before != after for before, after in zip(old, new))

    def keep(self, key: Key, make: Callable[[List[int]], Tuple[Made, int]]) -> Made:
        """Keeps what is made by the weights of now, with so many steps, for a list that has none yet."""
        with self.making:
            kept = self.kept
            made, steps = make(kept.weights)
            kept.steps += steps
            if len(kept.made) >= MOST_LISTS or kept.steps > MOST_STEPS:
                self.kept = kept = Kept(kept.weights)
                kept.steps = steps
            kept.made[key] = made
        return made

    def cut(self, wanted: Sequence[Wanted], weights: List[int]) -> Cut:
        """A list of an access or more, cut by these weights."""
        paths, lengths = paths_of(wanted), list(lengths_of(wanted))
        if len(paths) > MOST_ACCESSES:
            raise Refused("limit list")
        numbers = [self.tree.number(path) for path in paths]
        nodes = self.tree.cut(numbers)
        return Cut(paths, nodes, self.tree.shape(nodes, weights, numbers, lengths))


def paths_of(wanted: Iterable[Wanted]) -> List[str]:
    return [item if isinstance(item, str) else item[0] for item in wanted]


def lengths_of(wanted: Iterable[Wanted]) -> Iterator[int]:
    for number, item in enumerate(wanted):
        length = 1 if isinstance(item, str) else item[1]
        if not is_length(length):
            raise Refused(f"bad-length list {number}")
        yield length
