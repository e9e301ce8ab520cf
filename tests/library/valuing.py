"""Documents as values for a program in each language (values.*), one line each, and what that says of them beside what
grove prints of the document."""

from __future__ import annotations

import json
from enum import Enum
from typing import Any

from comparing import CALLS, Answer, Difference
from sweeps.program import Tally

# What a program says of a document that has no values for a call.
NO_VALUES = 7
# The calls over values, in the order of values.*.
VALUED = [("plan",), ("check",), ("judge",)]
AMOUNTS = ("above", "held", "first", "last", "own")
# The names of faults of what values can't be, as they have types, or of names that only documents need.
NO_FAULTS = (b"tree ", b"row ", b"shape ", b"bad-json", b"limit whole")


class Judged(Enum):
    """What a judgement by values tells of a list that is done alone."""

    WHOLE = "its cost, its replies and the records after it"
    COST = "its cost"


class NoValue(Exception):
    """The document has something that no value has."""


def lines_of(document: bytes) -> bytes:
    """The document as lines, behind which a line is empty; just this one if it has no values."""
    try:
        return "".join(f"{line}\n" for line in values_of(read(document))).encode() + b"\n"
    except (NoValue, ValueError, KeyError, TypeError, IndexError, RecursionError):
        return b"\n"


def read(document: bytes) -> dict[str, Any]:
    need(b"-0" not in document)
    whole = json.loads(document.decode(), object_pairs_hook=once)
    need(isinstance(whole, dict))
    return whole


def once(pairs: list[tuple[str, Any]]) -> dict[str, Any]:
    need(len(dict(pairs)) == len(pairs))
    return dict(pairs)


def need(is_so: bool) -> None:
    if not is_so:
        raise NoValue


def values_of(whole: dict[str, Any]) -> list[str]:
    """The tree, then what there is of a list, a plan and a flow."""
    version = whole.get("version", 1)
    need(type(version) is int and version in (1, 2))
    lines = nodes_of(whole["nodes"])
    lines += [access_of(item, version) for item in whole["list"]]
    if "plan" in whole:
        lines += ["plan", *(step_of(item) for item in whole["plan"])]
    if "flow" in whole:
        lines += ["flow", *(row_of(row) for row in whole["flow"])]
    return lines


def nodes_of(rows: list[dict[str, Any]]) -> list[str]:
    paths: list[str] = []
    lines: list[str] = []
    for at, row in enumerate(rows):
        parent, name = row["parent"], row["name"]
        need(isinstance(name, str) and "/" not in name and (at == 0) == (name == ""))
        need(parent is None if at == 0 else type(parent) is int and 0 <= parent < at)
        paths.append(f"{paths[parent] if parent else ''}/{name}" if at else "/")
        lines.append(line_of("node", paths[at], number(row["weight"]), number(row.get("value", 0))))
    need(len(set(paths)) == len(paths))
    return lines


def access_of(item: list[Any], version: int) -> str:
    kind, path, *numbers = item
    given = 0 if kind == "get" else number(numbers.pop(0))
    length = number(numbers.pop(0)) if numbers and version == 2 else 1
    need(not numbers and kind in ("get", "set", "add", "take"))
    return line_of("access", kind, text(path), given, length)


def step_of(item: list[Any]) -> str:
    kind, of = item
    need(kind in ("lock", "unlock", "access"))
    return line_of("step", kind, number(of) if kind == "access" else text(of))


def row_of(row: dict[str, Any]) -> str:
    need(set(row) == {"node", *AMOUNTS})
    return line_of("row", text(row["node"]), *(number(row[name]) for name in AMOUNTS))


def text(value: Any) -> str:
    need(isinstance(value, str))
    return str(value)


def number(value: Any) -> int:
    need(type(value) is int)
    return int(value)


def line_of(*words: str | int) -> str:
    line = "\t".join(map(str, words))
    need(len(line.split("\t")) == len(words) and "\n" not in line)
    return line


def note_values(
    tally: Tally, documents: tuple[bytes, ...], found: list[Answer], wanted: list[Answer], judged: Judged
) -> None:
    """Notes each call of each document of which there are values. Of a plan that isn't proved least the cost is told,
    and not the bound."""
    words, ended = list(CALLS), {0: 0, 1: 0}
    each = len(documents) * len(VALUED)
    tally.blame("answers", None if len(found) == each else f"{len(found)} for {each} calls")
    for at, came in enumerate(found):
        document, call = divmod(at, len(VALUED))
        status, told = wanted[document * len(words) + words.index(VALUED[call])]
        if came[0] == NO_VALUES or status == 1 and told.startswith(NO_FAULTS):
            continue
        if status == 1 and told.startswith(b"value "):
            told = told.rpartition(b" ")[0]
        if status == 0 and VALUED[call] == ("judge",) and judged is Judged.COST:
            told = told[: told.index(b"\n") + 1]
        right = status, told
        fault = None if came == right else str(Difference(document, VALUED[call], came, right))
        tally.note(f"document {document}, {documents[document]!r:.200}: {VALUED[call][0]} of values", fault)
        ended[status] += 1
    # (A step or a row of no node has no number in C, so fewer faults come there.)
    enough = ended[0] > len(documents) // 2 and ended[1] > len(documents) // 60
    tally.blame("plans, and faults", None if enough else f"only {ended}")
