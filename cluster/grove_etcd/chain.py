"""The chain of records: what an epoch begins with at each node, what it leaves, and that nothing else changed the node.

The groups of all jobs in no closed epoch are followed in the order of their revisions. They give the holder of each
node, how often its owner's key was put, and the revision that put its record last. What stands in etcd has to agree.
"""
from __future__ import annotations

from collections import Counter
from dataclasses import dataclass, field
from typing import Iterable

from .groups import RECORD
from .head import Head
from .jobs import Kind
from .keys import Keys
from .members import Members
from .past import Past, Taken, in_order
from .refusals import NoForm, Refused
from .seeing import window
from .values import Value
from .weights import Weight
from .wire import Entry, Found, reading, reading_last


@dataclass(frozen=True)
class Left(Value):
    """What an epoch, or `load`, left of a node: the record, the revision of the write that left it, and how often the
    owner's key had been put by then."""

    record: int
    revision: int
    hands: int = 0
    # The revision at which the node was unlocked last.
    freed: int = 0


@dataclass
class Passing:
    """What groups did to nodes, followed one after the other."""

    holders: dict[str, str] = field(default_factory=dict)
    # How often each owner's key was put, and the last group that put each record.
    hands: Counter[str] = field(default_factory=Counter)
    writers: dict[str, Taken] = field(default_factory=dict)
    # The revision at which each node was unlocked last.
    freed: dict[str, int] = field(default_factory=dict)

    def go_through(self, groups: Iterable[Taken]) -> None:
        for group in groups:
            self.pass_by(group)
            self.need_mark(group)

    def leave(self, own: Passing) -> None:
        """As if what some of the jobs did, which have ended, had come before."""
        for path, hands in own.hands.items():
            self.hands[path] -= hands
            if not self.hands[path]:
                del self.hands[path]
        for path, group in own.writers.items():
            if self.writers.get(path) is group:
                del self.writers[path]
        for path, revision in own.freed.items():
            if self.freed.get(path) == revision:
                del self.freed[path]

    def pass_by(self, group: Taken) -> None:
        """A group that locks or unlocks a node puts its owner's key. If the node is handed to the next job, that is one
        put, and counts for the group that unlocks it."""
        name = group.job.name
        changing = {step.path for step in group.steps if step.kind is not Kind.ACCESS}
        held = {path for path in changing if self.holders.get(path) == name}
        for step in group.steps:
            if step.kind is Kind.LOCK:
                self.holders[step.path] = name
            elif step.kind is Kind.UNLOCK:
                self.holders.pop(step.path, None)
                self.freed[step.path] = group.revision
        if not group.is_handed:
            for path in changing:
                self.hands[path] += (path in held) != (self.holders.get(path) == name)
        accessed = {step.path for step in group.steps if step.kind is Kind.ACCESS}
        for path in group.event.records:
            if path not in accessed:
                raise Refused(f"stray-record {path}")
            self.writers[path] = group

    def need_mark(self, group: Taken) -> None:
        """Refuses a group without a mark that stopped before a lock whose node another job held. (A group with all the
        steps of its window didn't look at the next step, and neither did one that was handed its node.)"""
        step, name = group.next_step, group.job.name
        if step is None or step.kind is not Kind.LOCK or group.event.mark or group.is_handed:
            return
        if group.event.dropped is not None:
            return
        holder = self.holders.get(step.path)
        if holder not in (None, name) and group.event.takes < len(window(group.job, group.first)):
            raise Refused(f"left-out {name}")


@dataclass(frozen=True)
class Node:
    """A node as it stands: its record, its owner, its weight, what the epoch began with, and what the last epoch
    left."""

    path: str
    record: Entry | None
    owner: Entry | None
    weight: Weight
    opening: Left | None
    last: Left | None
    last_epoch: int


class Chain:
    """An epoch's nodes, with all that was done since the last closed epoch."""

    def __init__(self, head: Head, number: int, nodes: dict[str, Node], epoch: list[Past], every: Passing) -> None:
        """`every` is what all jobs did that are in no closed epoch, which include those of an open epoch."""
        self.head, self.number, self.nodes = head, number, nodes
        self.is_open = number == head.epoch
        self.own, self.all = Passing(), every
        self.own.go_through(in_order(epoch))

    def check(self) -> None:
        for path, node in self.nodes.items():
            self.check_record(path, node)
            self.check_owner(path, node)

    def check_record(self, path: str, node: Node) -> None:
        """Refuses the record unless it was put last by the last group that has it in its event, or if there is none,
        by the last closed epoch, or by `load`."""
        last, put_at = node.last, node.record.put_at if node.record else 0
        if node.record and not RECORD.fullmatch(node.record.value):
            raise Refused(f"stray-record {path}")
        if path in self.all.writers:
            is_well = put_at == self.all.writers[path].revision
        elif last is not None:
            is_well = put_at == last.revision
        else:
            value = int(node.record.value) if node.record else 0
            is_well = put_at <= self.head.loaded_at and value == node.weight.loaded
        if not is_well:
            raise Refused(f"stray-record {path}")

    def check_owner(self, path: str, node: Node) -> None:
        owner = (node.owner.value if node.owner else "") or None
        if owner is not None and owner != self.all.holders.get(path):
            raise Refused(f"left-owner {path}")
        version = node.owner.version if node.owner else 0
        before = node.last.hands if node.last else 0
        if version != before + self.all.hands[path] or owner != self.all.holders.get(path):
            raise Refused(f"left-out {path}")

    def opening(self, path: str) -> int:
        node = self.nodes[path]
        return node.opening.record if node.opening else node.weight.loaded

    def left(self, path: str) -> Left:
        """What the epoch leaves: the standing record, if it is the epoch's, or else that in the last group's event."""
        node = self.nodes[path]
        opening = node.opening or Left(node.weight.loaded, self.loaded_revision(node))
        writer = self.own.writers.get(path)
        revision = writer.revision if writer else opening.revision
        record = writer.event.records[path] if writer else opening.record
        if self.stands(path, node):
            record = int(node.record.value) if node.record else 0
        freed = self.own.freed.get(path, opening.freed)
        return Left(record, revision, opening.hands + self.own.hands[path], freed)

    def was_held(self, path: str, group: Taken) -> bool:
        """Did a job of an earlier epoch unlock the node only after the group? If both are in one transaction, the group
        that begins a job is the first."""
        opening = self.nodes[path].opening
        return opening is not None and (group.revision, group.event.place) < (opening.freed, 1)

    def stands(self, path: str, node: Node) -> bool:
        """Is the standing record the epoch's, not put since, even by a later job in the same transaction?"""
        if self.is_open:
            return self.own.writers.get(path) is self.all.writers.get(path)
        return node.last_epoch == self.number and path not in self.all.writers

    def loaded_revision(self, node: Node) -> int:
        """The revision at which `load` put the record; 0 if it has been put since, when it doesn't matter."""
        is_loaded = node.record is not None and node.record.put_at <= self.head.loaded_at
        return node.record.put_at if node.record and is_loaded else 0


def left_of(key: str, text: str) -> Left:
    try:
        return Left.read(text)
    except NoForm as why:
        raise Refused(f"stray-epoch {key}") from why


def nodes_at(
    members: Members, keys: Keys, paths: Iterable[str], epoch: int, head: Head, closed_at: int
) -> dict[str, Node]:
    """These nodes at the head's revision, with what the last epoch before this one left of each, and the last closed
    epoch. The last epoch was closed at a revision that may be later."""
    at, reads, left_reads = head.revision, [], []
    paths = sorted(paths)
    for path in paths:
        reads += [reading(key, at) for key in (keys.record(path), keys.owner(path), keys.weight(path))]
        left_reads.append(reading_last(keys.all_left(path), keys.left(path, epoch), closed_at))
        left_reads.append(reading_last(keys.all_left(path), keys.left(path, head.epoch), closed_at))
    found = members.read_all(reads, at)
    found.entries.update(members.read_all(left_reads, closed_at).entries)
    left: dict[str, list[tuple[int, Left]]] = {}
    prefix = keys.whole("b")[:-1]
    for key, entry in found.below(keys.whole("b")).items():
        path, _, number = key[len(prefix) :].rpartition("//")
        left.setdefault(path, []).append((int(number), left_of(key, entry.value)))
    return {
        path: node_of(keys, path, found, sorted(left.get(path, []), key=lambda each: each[0]), epoch) for path in paths
    }


def node_of(keys: Keys, path: str, found: Found, left: list[tuple[int, Left]], epoch: int) -> Node:
    weight = found.value(keys.weight(path))
    if weight is None:
        raise Refused(f"no-path {path}")
    try:
        loaded = Weight.read(weight)
    except NoForm as why:
        raise Refused(f"stray-weight {path}") from why
    before = [each for number, each in left if number < epoch]
    return Node(
        path,
        found.entries.get(keys.record(path)),
        found.entries.get(keys.owner(path)),
        loaded,
        before[-1] if before else None,
        left[-1][1] if left else None,
        left[-1][0] if left else 0,
    )
