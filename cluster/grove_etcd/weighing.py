"""New weights from waits, by the rule of docs/PROTOCOL.md."""
from __future__ import annotations

import re
from dataclasses import dataclass, replace
from typing import Iterator, Mapping

from .documents import MOST_WEIGHT
from .head import need_store
from .keys import Keys
from .loading import batches
from .members import MOST_OPERATIONS, Members
from .refusals import Refused
from .values import Value
from .weights import Weight
from .wire import Operation, deleting_below, putting, reading

# A node's waits count up to this number.
MOST_WAITS, WAITS = 1000, re.compile("[0-9]{1,19}")


@dataclass(frozen=True)
class Weighing(Value):
    """The last reweighing: its number, whether it is done, and the epochs whose waits it counts."""

    number: int
    done: bool
    waits: list[int]


def reweigh(members: Members, keys: Keys) -> int:
    """Computes the nodes' new weights from the waits of the epochs audited since the last reweighing; gives how many
    nodes were waited for.

    Only their weights are put. A weight names the reweighing that made it, and has halved in each one since, so that of
    any other node is told by the number of the last one. The next call finishes one that broke off, and no weight is
    changed twice. Jobs that are planned meanwhile have legal plans, with old or new weights."""
    head = need_store(members, keys)
    last = last_weighing(members, keys)
    if last.done:
        last = Weighing(last.number + 1, False, audited_epochs(members, keys, head.epoch))
        members.write([putting(keys.weighing(), last.text())])
    waits: dict[str, int] = {}
    for epoch in last.waits:
        prefix = keys.all_waits(epoch)
        for key, entry in members.below(prefix).entries.items():
            path = key[len(prefix) - 1 :]
            waits[path] = min(MOST_WAITS, waits.get(path, 0) + waits_of(path, entry.value))
    changed = 0
    for batch in batches(new_weights(members, keys, last.number, waits)):
        members.write(batch)
        changed += len(batch)
    done = putting(keys.weighing(), replace(last, done=True).text())
    members.write([done, *(deleting_below(keys.all_waits(epoch)) for epoch in last.waits)])
    return changed


def waits_of(path: str, text: str) -> int:
    if not WAITS.fullmatch(text):
        raise Refused(f"stray-waits {path}")
    return int(text)


def last_weighing(members: Members, keys: Keys) -> Weighing:
    text = members.get(keys.weighing()).value(keys.weighing())
    return Weighing.read(text) if text else Weighing(0, True, [])


def audited_epochs(members: Members, keys: Keys, open_epoch: int) -> list[int]:
    """The closed epochs whose waits stand in etcd; at most as many as one transaction deletes."""
    waited = {key.split("/")[2] for key in members.below(keys.whole("w"), keys_only=True).entries}
    epochs = sorted(int(epoch) for epoch in waited if WAITS.fullmatch(epoch))
    return [epoch for epoch in epochs if epoch < open_epoch][: MOST_OPERATIONS - 1]


def new_weights(members: Members, keys: Keys, number: int, waits: Mapping[str, int]) -> Iterator[Operation]:
    """A put for each node that was waited for, unless this reweighing has made it already."""
    paths = sorted(waits)
    found = members.read_all([reading(keys.weight(path)) for path in paths])
    for path in paths:
        key = keys.weight(path)
        old = Weight.read(found.entries[key].value)
        if old.made_by < number:
            weight = min(MOST_WEIGHT, old.at(number) + waits[path])
            yield putting(key, replace(old, weight=weight, made_by=number).text())
