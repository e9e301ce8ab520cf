"""Steps of plans and rows of flows: as values, and as the library has them, in numbers."""

from __future__ import annotations

from abc import abstractmethod
from array import array
from dataclasses import dataclass
from enum import Enum
from operator import eq
from typing import Callable, ClassVar, Dict, Iterator, Mapping, Sequence, Tuple, TypeVar, Union, overload

from .faults import NoNode, Refused
from .library import NODE, ROW, STEP


class StepKind(str, Enum):
    """What a step does. Each kind is the text that a document has for it, too."""

    LOCK = "lock"
    UNLOCK = "unlock"
    ACCESS = "access"

    def __str__(self) -> str:
        return self.value

    def __format__(self, form: str) -> str:
        return format(self.value, form)


# The kinds, and their texts, by their numbers.
KINDS = tuple(StepKind)
LOCK, UNLOCK, ACCESS = range(len(KINDS))
NUMBERS: Dict[str, int] = {kind.value: number for number, kind in enumerate(KINDS)}


@dataclass(frozen=True)
class Step:
    """A step of a plan: locks or unlocks the node of a path, or does the access of a number."""

    kind: StepKind
    of: Union[str, int]

    def __post_init__(self) -> None:
        if type(self.kind) is not StepKind:
            # It was given as a text.
            object.__setattr__(self, "kind", StepKind(self.kind))

    @staticmethod
    def lock(path: str) -> Step:
        return Step(StepKind.LOCK, path)

    @staticmethod
    def unlock(path: str) -> Step:
        return Step(StepKind.UNLOCK, path)

    @staticmethod
    def access(number: int) -> Step:
        return Step(StepKind.ACCESS, number)


@dataclass(frozen=True)
class FlowRow:
    """A row of a flow, of one node that every legal plan locks; docs/CERTIFICATE.md has the five amounts."""

    node: str
    above: int
    held: int
    first: int
    last: int
    own: int


Item = TypeVar("Item", Step, FlowRow)


class Numbered(Sequence[Item]):
    """Items that stand in an array as numbers, each made when it is asked for. They equal a tuple of the same, and have
    its hash."""

    __slots__ = ("numbers", "paths")
    # So many numbers an item has.
    EACH: ClassVar[int]

    def __init__(self, numbers: array[int], paths: Sequence[str]) -> None:
        self.numbers, self.paths = numbers, paths

    @abstractmethod
    def item(self, start: int) -> Item:
        """The item whose numbers begin there."""

    def __len__(self) -> int:
        return len(self.numbers) // self.EACH

    @overload
    def __getitem__(self, place: int) -> Item: ...

    @overload
    def __getitem__(self, place: slice) -> Tuple[Item, ...]: ...

    def __getitem__(self, place: Union[int, slice]) -> Union[Item, Tuple[Item, ...]]:
        starts = range(0, len(self.numbers), self.EACH)[place]
        return self.item(starts) if isinstance(starts, int) else tuple(map(self.item, starts))

    def __iter__(self) -> Iterator[Item]:
        return map(self.item, range(0, len(self.numbers), self.EACH))

    def __eq__(self, other: object) -> bool:
        if isinstance(other, Numbered) and other.paths is self.paths and other.numbers == self.numbers:
            return type(other) is type(self)
        if isinstance(other, (tuple, Numbered)):
            return len(self) == len(other) and all(map(eq, self, other))
        return NotImplemented

    def __hash__(self) -> int:
        return hash(tuple(self))

    def __repr__(self) -> str:
        return repr(tuple(self))

    def __reduce__(self) -> Tuple[Callable[..., Tuple[Item, ...]], Tuple[Tuple[Item, ...]]]:
        return tuple, (tuple(self),)


class Steps(Numbered[Step]):
    """The steps of a plan by numbers: of each what it does, and its node or its access."""

    __slots__ = ()
    EACH = STEP

    def item(self, start: int) -> Step:
        kind, number = self.numbers[start], self.numbers[start + 1]
        return Step(KINDS[kind], number if kind == ACCESS else self.paths[number])


class Rows(Numbered[FlowRow]):
    """The rows of a flow by numbers: of each its node, and its five amounts."""

    __slots__ = ()
    EACH = ROW

    def item(self, start: int) -> FlowRow:
        node, above, held, first, last, own = self.numbers[start : start + ROW]
        return FlowRow(self.paths[node & NODE], above, held, first, last, own)


class Names:
    """The paths of the nodes of a tree, by their numbers, and the numbers by the paths."""

    __slots__ = ("number_of", "paths")

    def __init__(self, paths: Sequence[str]) -> None:
        self.paths = paths
        self.number_of: Mapping[str, int] = {path: number for number, path in enumerate(paths)}

    def known(self, path: str) -> int:
        """The number of the node of a path."""
        if path not in self.number_of:
            raise NoNode(f"no node has the path {path!r}")
        return self.number_of[path]

    def node(self, path: object, place: str) -> int:
        """The same for a path that stands at a place, by which it's refused as a document is."""
        if not isinstance(path, str):
            raise Refused(f"shape {place}")
        if path not in self.number_of:
            raise Refused(f"no-path {place}")
        return self.number_of[path]

    def step_numbers(self, steps: Sequence[Step]) -> array[int]:
        """The steps in numbers."""
        if isinstance(steps, Steps) and steps.paths is self.paths:
            return steps.numbers
        numbers = array("I")
        for place, step in enumerate(steps):
            kind = NUMBERS[step.kind]
            is_access = kind == ACCESS
            numbers.append(kind)
            numbers.append(
                below(2**32, step.of, f"plan {place}") if is_access else self.node(step.of, f"plan {place}")
            )
        return numbers

    def row_numbers(self, rows: Sequence[FlowRow]) -> array[int]:
        """The rows in numbers."""
        if isinstance(rows, Rows) and rows.paths is self.paths:
            return rows.numbers
        numbers = array("Q")
        for place, row in enumerate(rows):
            given = (row.above, row.held, row.first, row.last, row.own)
            amounts = [below(2**64, amount, f"flow {place}") for amount in given]
            numbers.append(self.node(row.node, f"flow {place}"))
            numbers.extend(amounts)
        return numbers


def below(bound: int, number: object, place: str) -> int:
    """A number that is below a bound and stands at a place."""
    if not isinstance(number, int) or isinstance(number, bool) or not 0 <= number < bound:
        raise Refused(f"shape {place}")
    return number
