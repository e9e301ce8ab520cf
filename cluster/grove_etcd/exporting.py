"""A store as a document: its nodes with their weights, and with the records that the closed epochs left.

These are the records that audits have passed. What jobs did that are in no closed epoch isn't in them.
"""
from __future__ import annotations

from typing import Iterator

from .chain import left_of
from .head import Head, need_store
from .keys import Keys
from .members import Members
from .past import number_of
from .tree import names_of, rows_of
from .values import written
from .weighing import last_weighing
from .weights import Weight


def export(members: Members, keys: Keys) -> Iterator[str]:
    """The document, piece by piece; the first says at which epoch it stands."""
    head = need_store(members, keys)
    weights, records = nodes(members, keys, head)
    left = left_by_epochs(members, keys, head)
    rows = rows_of(sorted(weights, key=names_of), weights, {**records, **left})
    yield '{"version":2,"nodes":['
    for number, row in enumerate(rows):
        yield ("," if number else "") + written(row)
    yield "]}\n"


def nodes(members: Members, keys: Keys, head: Head) -> tuple[dict[str, int], dict[str, int]]:
    """The weights and the loaded records, by path."""
    weights, records, reweighing = {}, {}, last_weighing(members, keys).number
    for page in members.pages(keys.whole("m"), head.revision):
        for key, entry in page.entries.items():
            weight, path = Weight.read(entry.value), keys.parts(key)[1]
            weights[path], records[path] = weight.at(reweighing), weight.loaded
    return weights, records


def left_by_epochs(members: Members, keys: Keys, head: Head) -> dict[str, int]:
    """The records that the last closed epoch left that names the node."""
    left: dict[str, int] = {}
    for page in members.pages(keys.whole("b"), head.revision):
        for key in sorted(page.entries):
            path = keys.parts(key)[1].rpartition("//")[0]
            if number_of(key) < head.epoch:
                left[path] = left_of(key, page.entries[key].value).record
    return left
