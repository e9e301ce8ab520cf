"""A group's transaction that is ready to be sent, and the thread that makes it ready while work goes on.

What a group leaves is known before the work of its access, since the work returns nothing. So once the work is done,
the transaction only has to be sent.
"""
from __future__ import annotations

import threading
from dataclasses import dataclass
from queue import SimpleQueue
from typing import Callable

from .groups import Group
from .seeing import Seen
from .sharing import Part
from .wire import Guard, Operation, choosing

# Of operations in the nested transaction of a group that finds out whether a node is held.
MOST_INNER = 3


@dataclass(frozen=True)
class Beginning:
    """A job's first group, for the transaction that ends the job before: taken if the job is still as it was seen. In
    either case it reads what comes next."""

    guards: list[Guard]
    then: list[Operation]
    otherwise: list[Operation]
    # The job as it is if the group is taken, as in `Ready`.
    leaves: Seen | None
    # The nodes and the jobs that it is about.
    about: frozenset[str]

    @property
    def size(self) -> int:
        """How many operations it is, as etcd counts them."""
        return MOST_INNER + max(len(self.guards), len(self.then), len(self.otherwise))

    def operation(self) -> Operation:
        return choosing(self.guards, self.then, self.otherwise)


@dataclass(frozen=True)
class Ready:
    """A group's transaction, and the job as it was seen, by which the group was made."""

    found: Seen
    group: Group
    part: Part
    # The job as the group leaves it, without what the transaction reads; None if the job ends, or if it depends on what
    # the transaction finds.
    leaves: Seen | None
    # How it begins the next job, and whether it reads what comes next.
    begins: Beginning | None
    looks: bool


class MakesReady:
    """Makes one transaction ready at a time. After each `begin` there has to be an `end`. If the system gives it no
    thread, it makes nothing ready."""

    def __init__(self) -> None:
        self.begun: SimpleQueue[Callable[[], Ready]] = SimpleQueue()
        self.ended: SimpleQueue[Ready | None] = SimpleQueue()
        self.has_thread = True
        try:
            threading.Thread(target=self.run, daemon=True).start()
        except RuntimeError:
            self.has_thread = False

    def begin(self, make_ready: Callable[[], Ready]) -> None:
        if self.has_thread:
            self.begun.put(make_ready)

    def end(self) -> Ready | None:
        """Waits for the transaction, and gives it; None if that has failed. Making it again then raises the error."""
        return self.ended.get() if self.has_thread else None

    def run(self) -> None:
        while True:
            self.ended.put(ready_or_none(self.begun.get()))


def ready_or_none(make_ready: Callable[[], Ready]) -> Ready | None:
    try:
        return make_ready()
    except Exception:  # any error is raised again when the group is made again
        return None
