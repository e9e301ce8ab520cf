"""Follows what happens in a store as it happens, revision by revision, and audits epochs of the jobs that end.

Every change of the store's keys is checked against the events of its own revision. A change that no event tells of, a
key that is put again, and one that is gone are refused at once, whatever is made of them later. What is kept in memory
are the jobs in no closed epoch that have begun.

From which revision on it follows is kept in etcd. It begins with what stood there, and goes on with a watch. If etcd
has compacted that revision, what happened up to the present wasn't followed, and that is said.
"""
from __future__ import annotations

import time
from collections import deque
from concurrent.futures import Future, ThreadPoolExecutor
from dataclasses import dataclass, replace
from typing import Callable, Optional

from .auditing import Audited, Auditor, forget
from .choosing import MOST_JOBS
from .happening import Happening
from .head import head_at, need_store
from .keys import Keys
from .members import Compacted, Members
from .past import epochs_of
from .stream import Moment, Stream
from .values import Value
from .wire import putting

# How often an epoch is closed at most, unless it is full; how often the revision is kept; and how often the present
# revision is read, in seconds.
EVERY_SECONDS, KEEP_SECONDS, LOOK_SECONDS = 10.0, 1.0, 0.5
# While more has happened than was followed yet, no epoch is closed, unless so many jobs have ended.
MOST_ENDED = 12288


@dataclass(frozen=True)
class Followed(Value):
    """Up to which revision the store was followed."""

    revision: int


@dataclass(frozen=True)
class Behind:
    """By how many revisions, and seconds, it has fallen behind."""

    revisions: int
    seconds: float


class Follower:
    def __init__(
        self,
        members: Members,
        keys: Keys,
        grove: str,
        say: Callable[[Audited], None],
        missed: Callable[[int, int], None],
        every: float = EVERY_SECONDS,
        forgets: bool = False,
        anew: bool = False,
    ) -> None:
        """Each epoch's audit is given to `say`, and to `missed` the revisions between which nothing was followed. If it
        `forgets`, epochs are deleted once they are closed. `anew` it begins with the present."""
        self.members, self.keys, self.grove, self.say, self.every = members, keys, grove, say, every
        self.stopping, self.forgets = False, forgets
        self.auditor, self.revision = self.begin(missed, anew)
        self.happening = Happening(members, keys, self.auditor)
        # Revisions that were the present ones, and when.
        self.present: deque[tuple[int, float]] = deque()
        # Forgets epochs, beside what is followed.
        self.aside = ThreadPoolExecutor(1)
        self.forgetting: Optional[Future[None]] = None
        self.closed_at = self.kept_at = self.looked_at = time.monotonic()

    def begin(self, missed: Callable[[int, int], None], anew: bool) -> tuple[Auditor, int]:
        """From the revision that was kept on, or else from the present one."""
        head = need_store(self.members, self.keys)
        kept = self.members.get(self.keys.followed()).value(self.keys.followed())
        if kept is not None:
            since = Followed.read(kept).revision
            try:
                if not anew:
                    return self.auditor_at(since), since
            except Compacted:
                """Nobody can tell any more what happened then."""
            missed(since, head.revision)
        return self.auditor_at(head.revision), head.revision

    def auditor_at(self, revision: int) -> Auditor:
        auditor = Auditor(self.members, self.keys, self.grove, head_at(self.members, self.keys, revision))
        auditor.written = deque()
        auditor.epochs = {number: of for number, of in auditor.epochs.items() if number == auditor.head.epoch}
        return auditor

    def stop(self) -> None:
        self.stopping = True

    def run(self, look: Callable[[], None] = lambda: None) -> None:
        """Follows until it is stopped, or something is refused. It calls `look` again and again."""
        with Stream(self.members, self.keys, self.revision + 1) as stream:
            while not self.stopping:
                moment = stream.next(LOOK_SECONDS)
                if moment is not None:
                    self.take(moment)
                self.look()
                look()
                if not stream.has_more() or len(self.auditor.ledger.chooser.ended) > MOST_ENDED:
                    self.close_epochs()
        self.aside.shutdown()
        self.keep()

    def take(self, moment: Moment) -> None:
        self.happening.take(moment)
        self.revision = moment.revision
        if time.monotonic() - self.kept_at > KEEP_SECONDS:
            self.keep()

    def keep(self) -> None:
        self.kept_at = time.monotonic()
        self.members.write([putting(self.keys.followed(), Followed(self.revision).text())])

    def look(self) -> None:
        """Reads the present revision now and then."""
        now = time.monotonic()
        if now - self.looked_at >= LOOK_SECONDS:
            self.looked_at = now
            self.present.append((self.members.get(self.keys.head()).revision, now))
        while self.present and self.present[0][0] <= self.revision:
            self.present.popleft()

    def behind(self) -> Behind:
        """Of other stores' changes nothing is followed, so the revisions are at most so many."""
        if not self.present:
            return Behind(0, 0.0)
        return Behind(self.present[-1][0] - self.revision, time.monotonic() - self.present[0][1])

    def close_epochs(self) -> None:
        """One, once there are jobs for a full epoch, or for one and it is time."""
        if len(self.auditor.ledger.chooser.ended) >= MOST_JOBS or time.monotonic() - self.closed_at > self.every:
            self.closed_at = time.monotonic()
            if self.forgets:
                self.forget()
            if not self.auditor.ledger.chooser.ready:
                return
            self.auditor.head = replace(self.auditor.head, revision=self.revision)
            self.auditor.closed_at = max(self.auditor.closed_at, self.revision)
            self.say(self.auditor.audit())

    def forget(self) -> None:
        """Deletes the epochs that are closed, in a thread of its own; what happens is followed meanwhile."""
        if self.forgetting is not None and self.forgetting.done():
            self.forgetting.result()
            self.forgetting = None
        if self.forgetting is None:
            self.forgetting = self.aside.submit(self.forget_until, self.auditor.head.epoch)

    def forget_until(self, epoch: int) -> None:
        epochs = epochs_of(self.members, self.keys)
        for number in sorted(epochs):
            if number < epoch:
                self.happening.forget(number, epochs[number].jobs)
                forget(self.members, self.keys, number)

