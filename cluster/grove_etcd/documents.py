"""Documents in the form of docs/FORMATS.md, read as the `grove` program reads them: a number is a whole one of 64 bits,
and the first fault is named with its place. A tree here may have any number of nodes."""
from __future__ import annotations

import json
import math
import re
from typing import Any, Sequence

from .refusals import Failed, Refused

NAME = re.compile(r"[a-z0-9_-]{1,32}")
MOST_DEPTH, MOST_WEIGHT, MOST_NESTED = 32, 1000, 127
MOST_UNSIGNED = 2**32 - 1
LEAST, MOST = -(2**63), 2**63 - 1
SURROGATE = re.compile(r"[\ud800-\udfff]")


def read_document(file: str) -> dict[str, Any]:
    try:
        with open(file, "rb") as it:
            return parsed(it.read())
    except OSError as why:
        raise Failed(f"{file}: {why.strerror}") from why


def parsed(content: bytes) -> dict[str, Any]:
    try:
        document = json.loads(content.decode(), parse_int=whole, parse_float=finite, parse_constant=not_json)
        if nests_deeper(document, MOST_NESTED) or has_surrogate(content, document):
            raise ValueError
    except (ValueError, RecursionError) as why:
        raise Refused("bad-json") from why
    if not isinstance(document, dict) or not is_version(document.get("version", 1)):
        raise Refused("shape whole")
    return document


def whole(digits: str) -> int | float:
    """What JSON writes as a whole number. To the `grove` program `-0` and what exceeds 64 bits is a float."""
    if digits == "-0" or len(digits) > 20:
        return finite(digits)
    number = int(digits)
    return number if LEAST <= number < 2**64 else float(number)


def finite(digits: str) -> float:
    number = float(digits)
    if math.isinf(number):
        raise ValueError(digits)
    return number


def not_json(constant: str) -> None:
    raise ValueError(constant)


def has_surrogate(content: bytes, document: object) -> bool:
    return b"\\u" in content and SURROGATE.search(json.dumps(document, ensure_ascii=False)) is not None


def is_version(value: object) -> bool:
    return is_whole(value, 1, 2)


def is_whole(value: object, least: int, most: int) -> bool:
    return isinstance(value, int) and not isinstance(value, bool) and least <= value <= most


def nests_deeper(value: object, most: int) -> bool:
    """Are arrays and objects nested deeper than that?"""
    level, depth = [value], 0
    while level:
        level = [below for each in level for below in children(each) if isinstance(below, (list, dict))]
        depth += 1
        if depth == most and level:
            return True
    return False


def children(value: object) -> Sequence[object]:
    if isinstance(value, dict):
        return list(value.values())
    return value if isinstance(value, list) else []


def array_of(document: dict[str, Any], member: str) -> list[Any]:
    value = document.get(member)
    if not isinstance(value, list):
        raise Refused(f"shape {member}")
    return value


def paths_of(rows: list[Any]) -> list[str]:
    """The path of each row, if the rows are a tree."""
    for number, row in enumerate(rows):
        if not is_row(row):
            raise Refused(f"shape nodes {number}")
    if not rows:
        raise Refused("tree empty")
    paths: list[str] = []
    way: list[int] = []
    names: set[str] = set()
    for number, row in enumerate(rows):
        way = way_to(number, row["parent"], way)
        path = path_below(paths[way[-2]] if number else None, row["name"], number)
        if path in names:
            raise Refused(f"row {number} twice-named")
        if not 1 <= row["weight"] <= MOST_WEIGHT:
            raise Refused(f"row {number} bad-weight")
        names.add(path)
        paths.append(path)
    return paths


def is_row(row: object) -> bool:
    """Has it the form of a row?"""
    if not isinstance(row, dict) or not {"parent", "name", "weight"} <= row.keys():
        return False
    parent_is_well = row["parent"] is None or is_whole(row["parent"], 0, MOST_UNSIGNED)
    weight_is_well = is_whole(row["weight"], 0, MOST_UNSIGNED)
    return (
        parent_is_well
        and weight_is_well
        and isinstance(row["name"], str)
        and is_whole(row.get("value", 0), LEAST, MOST)
    )


def way_to(number: int, parent: int | None, way: list[int]) -> list[int]:
    """The row and those above it, from the root down; `way` is that of the row before it."""
    if number == 0 and parent is None:
        return [0]
    if number == 0 or parent is None or parent not in way:
        raise Refused(f"row {number} bad-parent")
    way = [*way[: way.index(parent) + 1], number]
    if len(way) > MOST_DEPTH + 1:
        raise Refused(f"row {number} too-deep")
    return way


def path_below(above: str | None, name: str, number: int) -> str:
    if not (name == "" if above is None else NAME.fullmatch(name)):
        raise Refused(f"row {number} bad-name")
    return f"{(above or '').rstrip('/')}/{name}"
