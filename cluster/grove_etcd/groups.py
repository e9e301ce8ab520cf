"""A group: the next steps of a job that one transaction takes, as far as the nodes are free.

The steps are taken one after the other, in the state in which the nodes were seen. The guards of the transaction cover
all of that state that the steps need. So the rules allow each step at the transaction's revision, too.
"""
from __future__ import annotations

import re
from dataclasses import dataclass, field, replace
from enum import Enum

from .documents import LEAST, MOST
from .jobs import Access, Event, Job, Kind, Progress, Reply, Step
from .keys import Keys
from .refusals import Refused
from .wire import Found

# Each step is at most one change and one compare.
MOST_STEPS = 100
RECORD = re.compile(r"-?[0-9]{1,19}")


class Turn(Enum):
    """Why a group ends before a lock: another job holds the node, or it is free, and an older job waits for it."""

    HELD = "held"
    OTHERS = "others"


@dataclass
class Group:
    """The steps that are taken from a progress on."""

    progress: Progress
    taken: int = 0
    # The nodes that have to be free; and for each node that changes hands, whether it is held in the end.
    locked: list[str] = field(default_factory=list)
    hands: dict[str, bool] = field(default_factory=dict)
    # The final records, and the nodes of those that the group changes.
    records: dict[str, int] = field(default_factory=dict)
    changed: set[str] = field(default_factory=set)
    replies: list[Reply] = field(default_factory=list)
    # The node whose lock comes next but can't be taken yet, and why.
    blocked: str | None = None
    turn: Turn | None = None
    # Among the groups of one transaction.
    place: int = 0

    def lock(self, path: str) -> None:
        self.locked.append(path)
        self.hands[path] = True
        self.taken += 1

    def unlock(self, path: str) -> None:
        if self.hands.get(path):
            del self.hands[path]
        else:
            self.hands[path] = False
        self.taken += 1

    def access(self, path: str, before: int, access: Access) -> None:
        record = self.records.get(path, before)
        self.records[path], reply = answer(record, access)
        if self.records[path] != record:
            self.changed.add(path)
        self.replies.append(reply)
        self.taken += 1

    def stop(self, path: str, turn: Turn) -> None:
        """Ends before the lock of a node."""
        self.blocked, self.turn = path, turn

    @property
    def may_mark(self) -> bool:
        """Is the next step marked if its node is held when the transaction is made?"""
        return self.blocked is not None and (self.taken > 0 or not self.progress.marked)

    @property
    def waits(self) -> bool:
        """Does the group put the job in the line of its next node?"""
        return self.blocked is not None and (self.taken > 0 or not self.progress.waits)

    def does_nothing(self) -> bool:
        ends_empty_plan = not self.progress.steps and not self.progress.groups
        marks = self.turn is Turn.HELD and self.may_mark
        return not (self.taken or marks or self.waits or ends_empty_plan)

    def ends(self) -> bool:
        """Is the job at its end then?"""
        return self.progress.step + self.taken == self.progress.steps

    def after(self, is_held: bool = False) -> Progress:
        """The progress that the group leaves, by whether the next node is held when the transaction is made."""
        old = self.progress
        stays = not self.taken
        marked = (is_held and self.may_mark) or (stays and old.marked)
        waits = self.blocked is not None or (stays and old.waits)
        replies = old.replies + self.replies
        return replace(
            old, step=old.step + self.taken, groups=old.groups + 1, marked=marked, waits=waits, replies=replies
        )

    def event(self, is_held: bool = False) -> Event:
        mark = is_held and self.may_mark
        return Event(self.taken, mark, {path: self.records[path] for path in sorted(self.changed)}, self.place)


@dataclass(frozen=True)
class Limits:
    """What ends a group: whether an access does, since it has work; whether a free node is left to those that have
    waited for it longer; and a node for which the job has to stand in line first, since others came to it."""

    works: bool = False
    queues: bool = True
    contested: str | None = None


def group_of(keys: Keys, job: Job, steps: list[Step], progress: Progress, found: Found, limits: Limits) -> Group:
    """As many of the next steps as can be taken in the state that was seen."""
    group = Group(progress)
    for step in steps:
        if step.kind is Kind.LOCK:
            turn = turn_of(keys, job, step.path, found, limits, progress.waits and not group.taken)
            if turn:
                group.stop(step.path, turn)
                return group
            group.lock(step.path)
        elif step.kind is Kind.UNLOCK:
            group.unlock(step.path)
        elif limits.works and group.taken:
            return group
        else:
            before = record_of(keys, step.path, found)
            group.access(step.path, before, job.accesses[step.access])
    return group


def turn_of(keys: Keys, job: Job, path: str, found: Found, limits: Limits, stands: bool) -> Turn | None:
    """Why the node can't be locked yet, if so. A job in its line goes before those that come later, and after older
    ones."""
    if found.value(keys.owner(path)):
        return Turn.HELD
    if not limits.queues:
        return None
    if stands:
        return Turn.OTHERS if older_waiter(keys, job, path, found) else None
    return Turn.OTHERS if path == limits.contested or found.below(keys.waiters(path)) else None


def older_waiter(keys: Keys, job: Job, path: str, found: Found) -> str | None:
    """The key of the job before this one in the node's line, as it was read."""
    own = keys.waiter(path, job.age, job.name)
    return max((key for key in found.below(keys.waiters(path)) if key < own), default=None)


def record_of(keys: Keys, path: str, found: Found) -> int:
    text = found.value_from_last(keys.record(path)) or "0"
    if not RECORD.fullmatch(text):
        raise Refused(f"stray-record {path}")
    return int(text)


def answer(record: int, access: Access) -> tuple[int, Reply]:
    """What an access leaves of its node's record, and its reply (docs/PROTOCOL.md)."""
    operation = access[0]
    if operation == "get":
        return record, record
    number = int(access[2])
    if operation == "take" and record < number:
        return record, "short"
    after = number if operation == "set" else record + number if operation == "add" else record - number
    if not LEAST <= after <= MOST:
        return record, "range"
    return after, "ok" if operation == "set" else after
