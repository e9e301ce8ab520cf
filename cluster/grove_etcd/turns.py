"""Turns: so many of a worker's jobs go on at once. One that waits for long gives its turn to another. Once it is woken
it needs one again, and comes before jobs that haven't been begun."""
from __future__ import annotations

import threading
import time
from typing import NamedTuple

# How long a job that waits keeps its turn: at nodes where jobs are short, most waits end sooner.
KEPT_SECONDS = 0.5
# For how long no other job is begun at the node for which one waits.
ALONE_SECONDS = 2.0
# How long a job that is woken waits for a turn, before it is left for another worker.
WOKEN_SECONDS = 0.25
FOREVER = 1e6


class Waits(NamedTuple):
    """For which node a job waits, if it is for one, and since when."""

    node: str
    since: float


class Turns:
    def __init__(self, count: int, most_waiting: int) -> None:
        """At most `most_waiting` jobs are begun that wait."""
        self.changed = threading.Condition()
        self.free, self.most_waiting = count, most_waiting
        # By name the jobs that wait without a turn; and how many of them are woken and want one.
        self.waits, self.woken = dict[str, Waits](), 0

    @property
    def waiting(self) -> int:
        return len(self.waits)

    def is_free(self, seconds: float) -> bool:
        """Is there a turn in time that no woken job wants?"""
        with self.changed:
            return self.changed.wait_for(lambda: self.free > self.woken, seconds)

    def take(self, seconds: float = 0.0) -> bool:
        """Takes such a turn for another job, if there is one in time."""
        with self.changed:
            return self.changed.wait_for(lambda: self.free > self.woken, seconds) and self.taken()

    def take_again(self, name: str, seconds: float) -> bool:
        """Takes a turn for a job that is woken, and so waits no more."""
        with self.changed:
            self.woken += 1
            is_there = self.changed.wait_for(lambda: self.free > 0, seconds)
            self.woken -= 1
            self.waits.pop(name, None)
            self.changed.notify_all()
            return is_there and self.taken()

    def taken(self) -> bool:
        self.free -= 1
        return True

    def give(self) -> None:
        with self.changed:
            self.free += 1
            self.changed.notify_all()

    def give_to_wait(self, name: str, node: str) -> None:
        """The turn of a job that begins to wait. Once it is woken, its thread has to take one again."""
        with self.changed:
            self.waits[name] = Waits(node, time.monotonic())
        self.give()

    def kept_for(self) -> float:
        """How long a job that begins to wait keeps its turn: not at all if another one has waited for longer, since
        many may do so."""
        return 0.0 if self.waits else KEPT_SECONDS

    def avoided(self) -> set[str]:
        """The nodes at which a job that is begun would only wait behind another one of this worker, none of which has
        waited for long; or any of them, if no more may wait."""
        with self.changed:
            waits = [each for each in self.waits.values() if each.node]
        long_ago = time.monotonic() - ALONE_SECONDS
        nodes = {each.node for each in waits}
        return nodes if self.is_full() else nodes - {each.node for each in waits if each.since <= long_ago}

    def is_full(self) -> bool:
        return self.waiting >= self.most_waiting

    def is_wanted(self) -> bool:
        """Are there more jobs that are woken than turns for them?"""
        return self.woken > self.free
