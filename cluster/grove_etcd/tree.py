"""Nodes as paths, and the part of a tree above some of its nodes."""
from __future__ import annotations

from functools import lru_cache
from typing import Iterable, Mapping, TypedDict

# Of paths of which the way down is kept.
MOST_KEPT = 16384


class Row(TypedDict):
    """As a document has it (docs/FORMATS.md)."""

    parent: int | None
    name: str
    weight: int
    value: int


def names_of(path: str) -> tuple[str, ...]:
    """The names from below the root down. Paths sorted by them are in preorder; paths sorted by their bytes aren't."""
    return tuple(path[1:].split("/")) if path != "/" else ()


def path_of(names: tuple[str, ...]) -> str:
    return "/" + "/".join(names)


@lru_cache(MOST_KEPT)
def way_down(path: str) -> tuple[str, ...]:
    """The paths of the nodes above a node, and its own as the last."""
    names = names_of(path)
    return tuple(path_of(names[:depth]) for depth in range(len(names) + 1))


def ways_down(paths: Iterable[str]) -> list[str]:
    """All nodes on the ways to these, in preorder."""
    return sorted({above for path in paths for above in way_down(path)}, key=names_of)


def rows_of(paths: list[str], weights: Mapping[str, int], records: Mapping[str, int]) -> list[Row]:
    """The rows of a document for nodes in preorder, all those above them included; a record that isn't given is 0."""
    number_of = {path: number for number, path in enumerate(paths)}
    rows: list[Row] = []
    for path in paths:
        names = names_of(path)
        parent = number_of[path_of(names[:-1])] if names else None
        name = names[-1] if names else ""
        rows.append(Row(parent=parent, name=name, weight=weights[path], value=records.get(path, 0)))
    return rows
