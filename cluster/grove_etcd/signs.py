"""Signs of life: those that a worker gives while its jobs wait or have work, and the absence of those of others.

A worker gives them for all its jobs at once, by a key of its own. That key and the one of each job tell for how long
nothing was heard of the worker. Whoever takes up one of its jobs deletes the worker's key, so the worker's next sign
finds that.
"""
from __future__ import annotations

import threading
import time
from contextlib import contextmanager
from dataclasses import dataclass, field
from typing import Iterator, NamedTuple

from .journal import Journal
from .keys import Keys
from .leash import Leash, length_of, now
from .members import Lost, Members
from .refusals import Failed
from .values import Value
from .wire import deleting, putting, reading, request_of, unchanged

# How long a job may be without a sign of life until it is taken up, in seconds. In that time etcd can elect a leader.
PATIENCE = 5.0
# How many signs are given in such a time. So one or two may be lost.
SIGNS = 4
# How often it is looked whether one is due, in the time between two.
LOOKS = 4
# As long as this, at least, a member has for its answer to a sign.
LEAST_ANSWER_SECONDS = 0.5


@dataclass(frozen=True)
class Sign(Value):
    """How patient others are with this worker, and the how manieth sign it is."""

    patience: float
    number: int = 0


class Signs:
    """Puts `s/WORKER` again every so many seconds while jobs of this worker wait, or have work. One thread does so.

    While there is work the process is on the leash, if there is one: it is killed before others may take its jobs up
    by the last sign that etcd has confirmed. They first see a sign after it was sent, so the time counts from there."""

    def __init__(self, members: Members, keys: Keys, worker: str, patience: float, journal: Journal) -> None:
        self.members, self.keys, self.journal = members, keys, journal
        self.key, self.patience = keys.sign(worker), patience
        self.seconds, self.length = patience / SIGNS, length_of(patience)
        self.leash: Leash | None = None
        self.lock = threading.Lock()
        # How many jobs wait or have work, and how many have work.
        self.jobs, self.works = 0, 0
        # The last sign's revision and number, when it was sent, and since when there has been no gap between signs.
        self.revision, self.number = 0, 0
        self.signed_at = self.unbroken_since = 0.0
        self.thread: threading.Thread | None = None
        self.has_ended = threading.Event()

    @contextmanager
    def during(self) -> Iterator[None]:
        """Gives signs while one job waits."""
        with self.lock:
            self.jobs += 1
            if self.thread is None:
                self.thread = threading.Thread(target=self.give, daemon=True)
                self.thread.start()
        try:
            yield
        finally:
            with self.lock:
                self.jobs -= 1

    def give_now(self) -> None:
        """So that others know of this worker."""
        with self.lock:
            self.give_one()

    def is_sure(self, claimed_at: float) -> bool:
        """Is a job still this worker's, if it was when a transaction that put its key was sent at that time, and may
        its work begin? If need be, a sign is given first. From that transaction on others wait for as long as from a
        sign, and by then the signs had begun that have had no gap since."""
        if self.leash is None:
            return True
        with self.lock:
            if now() - self.signed_at > self.length / 2:
                self.give_one()
            is_recent = now() - self.signed_at <= self.length / 2
            return is_recent and claimed_at + self.length >= self.unbroken_since

    def begin(self) -> None:
        """Work begins."""
        with self.lock:
            self.works += 1
            if self.leash is not None and self.works == 1:
                self.leash.arm(self.signed_at + self.length)

    def end(self) -> None:
        with self.lock:
            self.works -= 1
            if self.leash is not None and self.works == 0:
                self.leash.disarm()

    def give(self) -> None:
        while not self.has_ended.wait(self.seconds / LOOKS):
            with self.lock:
                if self.jobs and now() - self.signed_at >= self.seconds:
                    self.give_one()

    def give_one(self) -> None:
        """A member that doesn't answer in time is left for the next one."""
        text, sent_at = Sign(self.patience, self.number + 1).text(), now()
        guard = unchanged(self.key, self.revision)
        request = request_of([guard], [putting(self.key, text)], [reading(self.key)])
        try:
            done = self.members.make(request, max(self.seconds, LEAST_ANSWER_SECONDS))
        except (Lost, Failed) as why:
            self.journal.log("lost", sign=self.number + 1, why=why)
            return
        found = done.found.entries.get(self.key)
        if done.succeeded:
            self.confirm(done.found.revision, sent_at)
        elif found is not None and found.value == text:
            # The answer to the same sign was lost before, although it was given. So it counts from when it was sent.
            self.revision, self.number = found.put_at, self.number + 1
        else:
            self.break_off()

    def confirm(self, revision: int, sent_at: float) -> None:
        if sent_at - self.signed_at > self.length or not self.revision:
            self.unbroken_since = sent_at
        self.revision, self.number, self.signed_at = revision, self.number + 1, sent_at
        if self.leash is not None and self.works:
            self.leash.put_off(sent_at + self.length)

    def break_off(self) -> None:
        """Another worker has taken up one of its jobs."""
        self.journal.log("given_up")
        self.revision, self.signed_at, self.unbroken_since = 0, 0.0, now()
        if self.leash is not None and self.works:
            self.leash.pull()

    def stop(self) -> None:
        """No more signs; nothing of them is left."""
        self.has_ended.set()
        with self.lock:
            if self.revision:
                self.members.write([deleting(self.key)], [unchanged(self.key, self.revision)])
                self.revision = 0


class Abandoned(NamedTuple):
    """A job with which nobody goes on: its name, the revision of the last sign of life of it, and the key and the
    revision of its worker's last one."""

    name: str
    revision: int
    sign: str = ""
    signed: int = 0


@dataclass
class Stills:
    """By its key, when a sign was first seen as it is."""

    since: dict[str, tuple[int, float]] = field(default_factory=dict)

    def is_still(self, key: str, revision: int, patience: float) -> bool:
        """Has this revision been that of the last sign there for as long as `patience` says?"""
        before, since = self.since.get(key, (None, 0.0))
        if before != revision:
            self.since[key] = revision, time.monotonic()
            return False
        return time.monotonic() - since >= patience

    def forget_all_but(self, keys: set[str]) -> None:
        self.since = {key: seen for key, seen in self.since.items() if key in keys}
