"""Puts a document's tree and records into etcd, in transactions of many nodes; a tree may have millions of nodes.

Until that is done there is no head, so that no job can be submitted. Each transaction is guarded by that, and by the
loader's own token. Of two loaders the later one goes on, and the other changes nothing from then on.
"""
from __future__ import annotations

import uuid
from concurrent.futures import ThreadPoolExecutor
from itertools import islice
from typing import Any, Iterable, Iterator

from .documents import paths_of
from .head import head_text
from .keys import Keys
from .members import MOST_OPERATIONS, Members
from .refusals import Refused
from .weights import Weight
from .wire import Guard, Operation, absent, deleting_below, putting, unchanged

# Transactions that are sent at once, and those that are made ready meanwhile.
AT_ONCE, READY = 8, 32


def load(members: Members, keys: Keys, rows: list[Any]) -> int:
    """Gives the number of nodes."""
    paths = paths_of(rows)
    loader = Loader(members, keys)
    loader.begin()
    loader.make_all(batches(changes(keys, paths, rows)))
    loader.make([putting(keys.head(), head_text(1))])
    return len(paths)


class Loader:
    def __init__(self, members: Members, keys: Keys) -> None:
        self.members, self.keys = members, keys
        self.token = uuid.uuid4().hex
        self.guards: list[Guard] = []

    def begin(self) -> None:
        """From now on no transaction of another loader succeeds."""
        found = self.members.get(self.keys.head(), self.keys.old_head())
        if found.entries:
            raise Refused("loaded")
        no_store = [absent(self.keys.head()), absent(self.keys.old_head())]
        changes = [putting(self.keys.load(), self.token), *(deleting_below(self.keys.whole(kind)) for kind in "mr")]
        if not self.members.write(changes, no_store):
            raise Refused("loaded")
        token = self.members.get(self.keys.load())
        if token.value(self.keys.load()) != self.token:
            raise Refused("other-loader")
        self.guards = [*no_store, unchanged(self.keys.load(), token.revision_of(self.keys.load()))]

    def make(self, changes: list[Operation]) -> None:
        if not self.members.write(changes, self.guards) and not self.is_made():
            raise Refused("other-loader")

    def is_made(self) -> bool:
        """Was the head made by an earlier try of this loader, whose answer was lost?"""
        found = self.members.get(self.keys.head(), self.keys.load())
        return found.value(self.keys.head()) is not None and found.value(self.keys.load()) == self.token

    def make_all(self, batches: Iterable[list[Operation]]) -> None:
        left = iter(batches)
        with ThreadPoolExecutor(AT_ONCE) as pool:
            while ready := list(islice(left, READY)):
                for _ in pool.map(self.make, ready):
                    pass


def changes(keys: Keys, paths: list[str], rows: list[Any]) -> Iterator[Operation]:
    """A weight for each node, and a record for each node whose record isn't 0."""
    for path, row in zip(paths, rows):
        record = row.get("value", 0)
        yield putting(keys.weight(path), Weight(row["weight"], 0, record).text())
        if record:
            yield putting(keys.record(path), str(record))


def batches(wanted: Iterable[Operation]) -> Iterator[list[Operation]]:
    left = iter(wanted)
    while batch := list(islice(left, MOST_OPERATIONS)):
        yield batch
