"""The calls over numbers, by ctypes, compared with those over documents, which print what the program prints."""

from __future__ import annotations

import json
from array import array
from collections.abc import Callable, Iterator
from ctypes import CDLL, Structure, byref, c_char_p, c_size_t, c_uint32, c_uint64, c_void_p
from dataclasses import dataclass
from pathlib import Path
from typing import Any

from comparing import Answer

DONE, REFUSED = 0, 1
KINDS = {"lock": 0, "unlock": 1, "access": 2}
AMOUNTS = ("above", "held", "first", "last", "own")
# The names of the faults by their numbers, from 1 on.
FAULTS = (
    "too-long no-path bad-length strange relock parent-not-held not-held wrong-access access-not-held missing "
    "still-held rows sign too-big lock-balance release-balance value"
).split()
MOST_NODES, MOST_STEPS, MOST = 4_096, 8_256, 2**32

Say = Callable[[str, bytes], Answer]


class Planned(Structure):
    _fields_ = [("cost", c_uint64), ("steps", c_uint32), ("rows", c_uint32), ("place", c_uint32)]


class Checked(Structure):
    _fields_ = [("cost", c_uint64), ("fault", c_uint32), ("place", c_uint32)]


class Row(Structure):
    _fields_ = [("node", c_uint32), *((name, c_uint64) for name in AMOUNTS)]


@dataclass(frozen=True)
class Asked:
    """The numbers of a document: its rows, and the nodes and lengths of its list."""

    paths: dict[str, int]
    parents: list[int]
    weights: list[int]
    nodes: list[int]
    lengths: list[int]

    @property
    def names(self) -> list[str]:
        return list(self.paths)


def numbered(document: dict[str, Any]) -> Asked:
    """The numbers of a document whose tree and whose list are none that is refused for its form."""
    paths: list[str] = []
    for row in document["nodes"]:
        above = "" if row["parent"] in (None, 0) else paths[row["parent"]]
        paths.append("/" if row["parent"] is None else f"{above}/{row['name']}")
    by_path = {path: number for number, path in enumerate(paths)}
    items = document["list"]
    plain = {"get": 2, "set": 3, "add": 3, "take": 3}
    return Asked(
        by_path,
        [row["parent"] or 0 for row in document["nodes"]],
        [row["weight"] for row in document["nodes"]],
        [by_path.get(item[1], MOST_NODES) for item in items],
        [item[plain[item[0]]] if len(item) > plain[item[0]] else 1 for item in items],
    )


class Numbers:
    """The calls over numbers of a library, with a handle of one tree."""

    def __init__(self, library: Path):
        self.calls = CDLL(str(library))
        self.calls.grove_c_tree_close.restype = None
        self.handle = c_void_p()
        self.steps, self.rows = (c_uint32 * (2 * MOST_STEPS))(), (Row * MOST_NODES)()
        self.planned, self.checked = Planned(), Checked()

    def build(self, asked: Asked) -> int:
        return self.calls.grove_c_tree_build(byref(self.handle), *given(asked.parents), *given(asked.weights))

    def close(self) -> None:
        self.calls.grove_c_tree_close(byref(self.handle))

    def find(self, path: str) -> int | None:
        node, raw = c_uint32(), path.encode()
        status = self.calls.grove_c_tree_find(byref(self.handle), c_char_p(raw), c_size_t(len(raw)), byref(node))
        return node.value if status == DONE else None

    def plan(self, asked: Asked) -> int:
        return self.calls.grove_c_tree_plan_nodes(
            byref(self.handle), *given(asked.nodes), *given(asked.lengths), *self.rooms(), byref(self.planned)
        )

    def plan_part(self, part: list[tuple[int, int, int]], asked: Asked) -> int:
        flat, _ = given([number for node in part for number in node])
        return self.calls.grove_c_plan_part(
            flat, c_size_t(len(part)), *given(asked.nodes), *given(asked.lengths), *self.rooms(), byref(self.planned)
        )

    def rooms(self) -> tuple[Any, ...]:
        return self.steps, c_size_t(MOST_STEPS), self.rows, c_size_t(MOST_NODES)

    def check(self, asked: Asked, steps: list[int], rows: list[tuple[int, ...]]) -> int:
        table = (Row * max(1, len(rows)))(*rows)
        return self.calls.grove_c_tree_check_nodes(
            byref(self.handle), *given(asked.nodes), *given(asked.lengths), given(steps)[0], c_size_t(len(steps) // 2),
            table, c_size_t(len(rows)), byref(self.checked),
        )

    def judge(self, asked: Asked, steps: list[int]) -> int:
        return self.calls.grove_c_tree_judge_nodes(
            byref(self.handle), *given(asked.nodes), *given(asked.lengths), given(steps)[0], c_size_t(len(steps) // 2),
            byref(self.checked),
        )

    def said(self, names: list[str]) -> tuple[list, list, int]:
        """The plan, the flow and the cost that were put, as documents write them."""
        flat = iter(self.steps[: 2 * self.planned.steps])
        kinds = list(KINDS)
        plan = [[kinds[kind], number if kind == KINDS["access"] else names[number]] for kind, number in zip(flat, flat)]
        rows = self.rows[: self.planned.rows]
        flow = [{"node": names[row.node], **{name: getattr(row, name) for name in AMOUNTS}} for row in rows]
        return plan, flow, self.planned.cost


def given(numbers: list[int]) -> tuple[Any, c_size_t]:
    """An array and its length."""
    held = array("I", numbers)
    return (c_uint32 * max(1, len(numbers))).from_buffer_copy(held.tobytes() or bytes(4)), c_size_t(len(numbers))


def part_of(asked: Asked) -> tuple[list[tuple[int, int, int]], Asked]:
    """The ways down of the list's nodes, and the list over these."""
    wanted = {0}
    for node in asked.nodes:
        while node not in wanted:
            wanted.add(node)
            node = asked.parents[node]
    places = {node: place for place, node in enumerate(sorted(wanted))}
    part = [(node, places[asked.parents[node]], asked.weights[node]) for node in places]
    return part, Asked(asked.paths, [], [], [places[node] for node in asked.nodes], asked.lengths)


def differences(numbers: Numbers, say: Say, document: bytes) -> Iterator[str | None]:
    """For each call over numbers that can be made of the document: what it says otherwise, or None."""
    status, text = say("grove_c_plan_document", document)
    if status == DONE:
        asked = numbered(json.loads(text))
        yield None if numbers.build(asked) == DONE else "the tree is refused"
        yield from differences_of_plan(numbers, asked, json.loads(text), say, document)
        yield from differences_of_steps(numbers, asked, json.loads(document), say, document)
    elif text.startswith((b"no-path list ", b"bad-length list ")):
        asked = numbered(json.loads(document))
        if not all(0 <= length < MOST for length in asked.lengths):
            return
        numbers.build(asked)
        came = (numbers.plan(asked), numbers.planned.place)
        yield None if came == (REFUSED, int(text.split()[2])) else f"wanted {text!r}; came {came}"


def differences_of_plan(
    numbers: Numbers, asked: Asked, planned: dict[str, Any], say: Say, document: bytes
) -> Iterator[str | None]:
    cost = int(say("grove_c_plan", document)[1].split(b"\n")[0].split()[1])
    wanted = (planned["plan"], planned["flow"], cost)
    for call, given_to in ((numbers.plan, (asked,)), (numbers.plan_part, part_of(asked))):
        status = call(*given_to)
        came = numbers.said(asked.names)
        yield None if (status, came) == (DONE, wanted) else f"wanted {wanted}; came {status}, {came}"


def differences_of_steps(
    numbers: Numbers, asked: Asked, document: dict[str, Any], say: Say, text: bytes
) -> Iterator[str | None]:
    """Of the document's own plan, and of its flow."""
    for command, name, parts in (("judge", "grove_c_judge", ("plan",)), ("check", "grove_c_check", ("plan", "flow"))):
        said = wanted_of(say(name, text), asked) if all(part in document for part in parts) else None
        if said is None:
            continue
        steps = [number for step in document["plan"] for number in (KINDS[step[0]], asked.paths.get(step[1], step[1]))]
        if command == "judge":
            status = numbers.judge(asked, steps)
        else:
            rows = [(asked.paths[row["node"]], *(row[name] for name in AMOUNTS)) for row in document["flow"]]
            status = numbers.check(asked, steps, rows)
        came = (status, numbers.checked.cost, numbers.checked.fault, numbers.checked.place)
        yield None if came == said else f"{command}: wanted {said}; came {came}"


def wanted_of(answer: Answer, asked: Asked) -> tuple[int, int, int, int] | None:
    """Status, cost, fault and place of an answer; None if the document is refused for its form."""
    status, text = answer
    words = text.decode().split()
    if status == DONE:
        return DONE, int(words[1]), 0, 0
    if words[0] in ("step", "access") and len(words) == 3:
        return REFUSED, 0, FAULTS.index(words[2]) + 1, int(words[1])
    if words[0] == "node" and words[-1] == "still-held":
        return REFUSED, 0, FAULTS.index("still-held") + 1, asked.paths[words[1]]
    if words[0] == "value":
        return REFUSED, int(words[1]), FAULTS.index("value") + 1, 0
    if words[0] in FAULTS[11:16]:
        return REFUSED, 0, FAULTS.index(words[0]) + 1, int(words[1])
    return None
