"""Plans, checks and judges the values of each document of a stream (valuing.py), and writes the stream of answers: the
lines that the program prints of the document. What isn't there for a call has the status NO_VALUES.

The values of a document are lines of words with tabs between them, and an empty line behind them.
"""

from __future__ import annotations

import json
import sys
from collections.abc import Callable, Iterator
from dataclasses import dataclass, field

from pickbracken import Access, FlowRow, Kind, NoMemory, Plan, Plans, Refused, Step, StepKind, Tree

NO_VALUES = 7


class NoValues(Exception):
    """There are no values for this call."""


@dataclass
class Values:
    """What a document has."""

    weights: dict[str, int] = field(default_factory=dict)
    records: dict[str, int] = field(default_factory=dict)
    accesses: list[Access] = field(default_factory=list)
    steps: list[Step] | None = None
    rows: list[FlowRow] | None = None

    def tree(self) -> Tree:
        return Tree.from_paths(self.weights, self.records)

    def proposal(self) -> list[Step]:
        if self.steps is None:
            raise NoValues
        return self.steps

    def flow(self) -> list[FlowRow]:
        if self.rows is None:
            raise NoValues
        return self.rows

    def read(self, line: str) -> None:
        kind, *words = line.split("\t")
        if kind == "node":
            self.weights[words[0]], self.records[words[0]] = int(words[1]), int(words[2])
        elif kind == "access":
            number = None if words[0] == "get" else int(words[2])
            self.accesses.append(Access(Kind(words[0]), words[1], number, int(words[3])))
        elif kind == "plan":
            self.steps = []
        elif kind == "flow":
            self.rows = []
        elif kind == "step":
            of = int(words[1]) if words[0] == "access" else words[1]
            self.proposal().append(Step(StepKind(words[0]), of))
        else:
            self.flow().append(FlowRow(words[0], *map(int, words[1:])))


def plan_said(values: Values) -> str:
    made = values.tree().plan(values.accesses)
    # A tree of any size is cut to a part for each list. Its siblings stand in the order of their names.
    plans = Plans(values.weights)
    wanted = [(access.path, access.length) for access in values.accesses]
    assert plans.plan(wanted) == Tree.from_paths(plans.weights()).plan(values.accesses)
    steps = [[step.kind, step.of] for step in made.steps]
    rows = [dict(sorted(vars(row).items())) for row in made.flow]
    return f"cost {made.cost}\nplan {compact(steps)}\nflow {compact(rows)}\n"


def check_said(values: Values) -> str:
    tree, given = values.tree(), Plan(0, values.proposal(), values.flow())
    cost = tree.check(values.accesses, given)
    made = tree.plan(values.accesses)
    # The numbers of a plan that was made are taken as they stand.
    assert (made.cost, tree.check(values.accesses, made)) == (cost, cost)
    return f"cost {cost}\n"


def judge_said(values: Values) -> str:
    judged = values.tree().judge(values.accesses, values.proposal())
    replies = [reply if isinstance(reply, int) else reply.value for reply in judged.replies]
    return f"cost {judged.cost}\nreplies {compact(replies)}\nrecords {compact(judged.records)}\n"


def compact(value: object) -> str:
    return json.dumps(value, separators=(",", ":"), ensure_ascii=False)


CALLS = [plan_said, check_said, judge_said]


def answer(call: Callable[[Values], str], values: Values | None) -> tuple[int, str]:
    try:
        if values is None:
            raise NoValues
        return 0, call(values)
    except NoValues:
        return NO_VALUES, ""
    except Refused as refused:
        return 1, refused.text
    except NoMemory as why:
        return 3, str(why)


def documents() -> Iterator[Values | None]:
    """The values of each document, which end where a line is empty."""
    lines: list[str] = []
    for line in sys.stdin.buffer.read().decode().split("\n")[:-1]:
        lines.append(line)
        if not line:
            yield values_of(lines[:-1])
            lines = []


def values_of(lines: list[str]) -> Values | None:
    values = Values()
    try:
        for line in lines:
            values.read(line)
    except (Refused, ValueError):
        # An access that can't be made, or a path that is none.
        return None
    return values if lines else None


def main() -> None:
    sink = sys.stdout.buffer
    for values in documents():
        for call in CALLS:
            status, said = answer(call, values)
            text = said.encode()
            sink.write(bytes([status]) + len(text).to_bytes(8, "little") + text)


if __name__ == "__main__":
    main()
