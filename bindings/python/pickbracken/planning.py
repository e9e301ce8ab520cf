"""What is said of lists: their plans, judgements and drawings; and how documents have them."""

from __future__ import annotations

import json
from dataclasses import dataclass
from typing import Any, Dict, Iterable, Optional, Sequence, Tuple, Union

from . import document
from .accesses import Access, Reply
from .library import Settled
from .steps import KINDS, NUMBERS, FlowRow, Rows, Step, Steps


@dataclass(frozen=True)
class Plan:
    """A plan of a list, what it costs, and the flow that proves that no legal plan costs less. Steps and rows of a plan
    that was made are values only once they are read; they equal tuples of the same."""

    cost: int
    steps: Sequence[Step]
    flow: Sequence[FlowRow]

    @staticmethod
    def of(settled: Settled, paths: Sequence[str]) -> Plan:
        """The plan of these numbers, by the paths of their nodes."""
        made = object.__new__(Plan)
        # (To make the views of the numbers at once would take as long as to plan a short list.)
        parts = made.__dict__
        parts["cost"], parts["numbers"] = settled[0], (settled, paths)
        return made

    def __getattr__(self, name: str) -> Any:
        """The steps, or the flow, of a plan of numbers, when they are first asked for."""
        if name not in ("steps", "flow") or "numbers" not in vars(self):
            raise AttributeError(f"a plan has no {name}")
        (_, steps, rows), paths = self.numbers
        view = vars(self)[name] = Steps(steps, paths) if name == "steps" else Rows(rows, paths)
        return view

    def __reduce__(self) -> Tuple[Any, ...]:
        return Plan, (self.cost, tuple(self.steps), tuple(self.flow))


@dataclass(frozen=True)
class Judgement:
    """What a legal plan costs, and what its list replies and leaves when it is done alone: the records, in the tree's
    order."""

    cost: int
    replies: Tuple[Union[int, Reply], ...]
    records: Tuple[int, ...]


@dataclass(frozen=True)
class Drawing:
    """A picture of plans, which a notebook shows; `str` gives the lines for a terminal."""

    svg: str
    text: str

    def _repr_svg_(self) -> str:
        return self.svg

    def __str__(self) -> str:
        return self.text


def drawn(rows: Sequence[Dict[str, object]], accesses: Iterable[Access], steps: Optional[Sequence[Step]]) -> Drawing:
    """The settled plan over a tree of these rows, and above it the steps, if there are any."""
    whole = written(rows, accesses, steps)
    return Drawing(document.draw_svg(whole), document.draw_text(whole))


def written(rows: Sequence[Dict[str, object]], accesses: Iterable[Access], steps: Optional[Sequence[Step]]) -> bytes:
    """The document of a tree and a list, with a plan if there is one."""
    parts = {"version": 2, "nodes": rows, "list": [access.form() for access in accesses], **plan_parts(steps)}
    return json.dumps(parts, separators=(",", ":")).encode()


def plan_parts(steps: Optional[Sequence[Step]], flow: Optional[Sequence[FlowRow]] = None) -> Dict[str, object]:
    """A plan and a flow as a document has them."""
    parts: Dict[str, object] = {}
    if steps is not None:
        parts["plan"] = [[step.kind, step.of] for step in steps]
    if flow is not None:
        parts["flow"] = [vars(row) for row in flow]
    return parts


def plan_of(told: Dict[str, Any]) -> Plan:
    """The plan that a reply has."""
    steps = tuple([Step(KINDS[NUMBERS[kind]], of) for kind, of in told["plan"]])
    return Plan(told["cost"], steps, tuple(FlowRow(**row) for row in told["flow"]))
