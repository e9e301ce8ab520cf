"""Jobs as they stand in etcd: the list with its plan, the progress, the worker that goes on with it, and the events."""
from __future__ import annotations

import json
import time
from dataclasses import dataclass, field, replace
from enum import Enum
from functools import cached_property
from typing import Any, NamedTuple, Optional, Union

from .values import Value, written

# As in a document: `["add","/a",1]`, `["lock","/a"]`, and 7, "ok", "range" or "short".
Access = list[Union[str, int]]
Reply = Union[int, str]


class Kind(Enum):
    LOCK = "lock"
    UNLOCK = "unlock"
    ACCESS = "access"


# By their names in plans.
KINDS = {kind.value: kind for kind in Kind}


class Step(NamedTuple):
    """A step of a plan, with its node; for an access, the accessed node."""

    kind: Kind
    path: str
    access: int = -1


def path_of_access(access: Access) -> str:
    return str(access[1])


def slots_of(access: Access) -> int:
    """How many slots an access takes."""
    items = 2 if access[0] == "get" else 3
    return int(access[items]) if len(access) > items else 1


@dataclass(frozen=True)
class Job:
    """A list with a legal plan, and a name; `age` is the time of its submission, in microseconds of some clock, and
    `by` the time until which it may be begun. `put_at` is the revision at which its key was put."""

    name: str
    age: int
    accesses: list[Access]
    plan: list[list[Any]]
    by: Optional[int] = None
    put_at: int = 0

    @staticmethod
    def read(name: str, text: str, put_at: int = 0) -> Job:
        fields = json.loads(text)
        return Job(name, fields["age"], fields["list"], fields["plan"], fields.get("by"), put_at)

    def is_late(self) -> bool:
        """May it not be begun any more?"""
        return self.by is not None and time.time_ns() // 1000 > self.by

    def text(self) -> str:
        deadline = {} if self.by is None else {"by": self.by}
        return written({"age": self.age, "list": self.accesses, "plan": self.plan, **deadline})

    @cached_property
    def steps(self) -> list[Step]:
        return [self.step(kind, what) for kind, what in self.plan]

    def step(self, kind: str, what: Any) -> Step:
        if kind == "access":
            return Step(Kind.ACCESS, path_of_access(self.accesses[what]), what)
        return Step(KINDS[kind], what)

    def begins_at(self) -> str:
        """The node of its first lock, by which workers share out jobs."""
        return next((what for kind, what in self.plan if kind == Kind.LOCK.value), "")

    def nodes(self) -> set[str]:
        """The nodes that it locks or accesses."""
        return {step.path for step in self.steps} | set(map(path_of_access, self.accesses))

    def most_events(self) -> int:
        """Each step is an event, and so may be a wait for each lock."""
        return len(self.plan) + sum(step.kind is Kind.LOCK for step in self.steps)

    def held_at(self, step: int) -> list[str]:
        """The nodes that it holds before this step, in the order of their locks."""
        held: dict[str, None] = {}
        for each in self.steps[:step]:
            if each.kind is Kind.LOCK:
                held[each.path] = None
            elif each.kind is Kind.UNLOCK:
                held.pop(each.path, None)
        return list(held)

    def cut(self, step: int) -> Job:
        """The job if it is dropped before this step: its accesses so far, by a plan that then lets go of what it
        holds."""
        done = sum(each.kind is Kind.ACCESS for each in self.steps[:step])
        unlocks = [[Kind.UNLOCK.value, path] for path in reversed(self.held_at(step))]
        return replace(self, accesses=self.accesses[:done], plan=[*self.plan[:step], *unlocks])


@dataclass(frozen=True)
class Progress(Value):
    """How many steps are done, of how many and in how many groups; whether the next step has its mark, and stands in
    the line of its node; the replies; and the step before which the job was dropped, if it was."""

    step: int
    steps: int
    groups: int = 0
    marked: bool = False
    waits: bool = False
    replies: list[Reply] = field(default_factory=list)
    dropped: Optional[int] = None

    def has_ended(self) -> bool:
        return self.step == self.steps

    def drop(self, job: Job) -> Progress:
        """The progress of the job once it is dropped where it is."""
        steps = len(job.cut(self.step).plan)
        return replace(self, steps=steps, groups=self.groups + 1, marked=False, waits=False, dropped=self.step)


@dataclass(frozen=True)
class UnderWay(Value):
    """The worker that goes on with a job, and how often the work of the present access has failed, with the last
    failure. A job with an empty name for its worker is taken up at once, and any other no sooner than `patience`
    seconds after this sign of life. `waits` is the node that the job waits for."""

    by: str
    waits: Optional[str] = None
    fails: int = 0
    why: str = ""
    patience: float = 0.0

    def is_aside(self) -> bool:
        """Was the job set aside by a version that had no key for that?"""
        return bool(self.more.get("aside"))


@dataclass(frozen=True)
class Aside(Value):
    """A job that is set aside, which nobody takes up: why, how often its work has failed, the nodes that it holds, and
    how many groups it has taken."""

    why: str
    fails: int = 0
    holds: list[str] = field(default_factory=list)
    groups: int = 0


@dataclass(frozen=True)
class Event(Value):
    """What a group did: how many steps it took, whether it marked the next one, the records that it left, and its place
    among the groups of its transaction; or why the job was dropped."""

    takes: int
    mark: bool
    records: dict[str, int]
    place: int = 0
    dropped: Optional[str] = None


@dataclass(frozen=True)
class Waiter(Value):
    """A job in a node's line, with what is put for it when the node is handed to it: the number of its event, and its
    progress once it has the lock."""

    group: int
    progress: dict[str, Any]

    @staticmethod
    def after(progress: Progress) -> Waiter:
        locked = replace(progress, step=progress.step + 1, groups=progress.groups + 1, marked=False, waits=False)
        return Waiter(progress.groups, locked.members())
