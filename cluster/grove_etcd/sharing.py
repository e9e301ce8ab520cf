"""Groups of several jobs in one transaction: those that come while others are sent, as far as they have no node and no
job in common.

Each is a transaction within the one that is sent, with guards of its own. So one whose guards don't hold fails by
itself. What they read comes after all changes, so each sees what stands once the transaction is made.
"""
from __future__ import annotations

import threading
import time
from concurrent.futures import Future, ThreadPoolExecutor
from dataclasses import dataclass, field
from functools import cached_property
from typing import Iterable, Sequence

from .members import MOST_OPERATIONS, Members
from .refusals import Failed
from .wire import Branches, Done, Found, Guard, Operation, Request, request_of, request_of_all

# Of groups in one transaction, of the operations of each, and of the bytes of all.
MOST_PARTS, MOST_SHARED, MOST_BYTES = 8, 100, 1_000_000
# Of transactions that are under way at once.
MOST_SENT = 2


@dataclass(frozen=True)
class Part:
    """What one job's group does if its guards hold, and what is read then, or otherwise."""

    guards: list[Guard]
    changes: list[Operation]
    then: list[Operation]
    otherwise: list[Operation]
    # The nodes and the jobs that it is about.
    about: frozenset[str] = frozenset()
    # How many operations are in the transactions within it.
    inner: int = 0
    # What is read otherwise that no other part changes.
    own: list[Operation] = field(default_factory=list)

    @cached_property
    def request(self) -> Request:
        return request_of(self.guards, [*self.changes, *self.then], [*self.otherwise, *self.own])

    def written(self) -> Part:
        """The same, with its request serialized, so that it only has to be sent."""
        _ = self.request
        return self

    @property
    def size(self) -> int:
        longest = max(len(self.guards), len(self.changes), len(self.then), len(self.otherwise))
        return longest + self.inner

    @property
    def reads(self) -> bool:
        """Does it read what another part may change?"""
        return bool(self.then or self.otherwise)

    def may_share(self) -> bool:
        return self.size <= MOST_SHARED and bool(self.about)


@dataclass
class Sent:
    """Parts of one transaction, each with what its sender waits for."""

    parts: list[Part] = field(default_factory=list)
    waits: list[Future[Done]] = field(default_factory=list)
    about: set[str] = field(default_factory=set)
    size: int = 0

    def take(self, part: Part, wait: Future[Done]) -> bool:
        """Takes one more part, if there is room, and it has nothing in common with the others."""
        is_first, size = not self.parts, self.size + len(part.request)
        fits = len(self.parts) < MOST_PARTS and size <= MOST_BYTES and not self.about & part.about
        if not is_first and not (fits and part.may_share() and self.parts[0].may_share()):
            return False
        self.parts.append(part)
        self.waits.append(wait)
        self.about |= part.about
        self.size = size
        return True


class Commits:
    """Sends groups for all threads of a worker."""

    def __init__(self, members: Members) -> None:
        self.members = members
        self.lock, self.sent = threading.Lock(), 0
        self.left: list[tuple[Part, Future[Done]]] = []
        # How long the last transaction took, in seconds.
        self.seconds = 0.0

    @cached_property
    def senders(self) -> ThreadPoolExecutor:
        return ThreadPoolExecutor(MOST_SENT)

    def make(self, part: Part) -> Done:
        """Makes a group's transaction, by itself or with others, without repeating it."""
        with self.lock:
            is_next = self.sent < MOST_SENT
            self.sent += is_next
            wait: Future[Done] = Future()
            if not is_next:
                self.left.append((part, wait))
        if not is_next:
            return wait.result()
        try:
            return self.made(part.request)
        finally:
            self.go_on()

    def made(self, request: Request) -> Done:
        begun = time.monotonic()
        try:
            return self.members.make(request)
        finally:
            self.seconds = time.monotonic() - begun

    def go_on(self) -> None:
        """Sends what has come meanwhile, if anything has."""
        with self.lock:
            sent = self.next_sent()
            self.sent -= not sent.parts
        if sent.parts:
            self.senders.submit(self.send, sent)

    def next_sent(self) -> Sent:
        sent, left = Sent(), self.left
        self.left = [each for each in left if not sent.take(*each)]
        return sent

    def send(self, sent: Sent) -> None:
        try:
            for wait, done in zip(sent.waits, self.make_all(sent.parts)):
                wait.set_result(done)
        except BaseException as why:  # for those that wait
            for wait in sent.waits:
                if not wait.done():
                    wait.set_exception(why)
        finally:
            self.go_on()

    def make_all(self, parts: Sequence[Part]) -> Iterable[Done]:
        """Makes these in one transaction. If etcd doesn't take it, which of them it was is found one by one."""
        if len(parts) == 1:
            return [self.made(parts[0].request)]
        try:
            return parted(self.made(together(parts)), parts)
        except Failed:
            return map(self.made, (part.request for part in parts))


def together(parts: Sequence[Part]) -> Request:
    """First the changes of all, then what each reads. Guards are of what stands before the transaction, so each holds
    both times, or neither."""
    changes = [Branches(part.guards, part.changes, part.own) for part in parts]
    reads = [Branches(part.guards, part.then, part.otherwise) for part in parts if part.reads]
    return request_of_all([*changes, *reads])


def parted(done: Done, parts: Sequence[Part]) -> list[Done]:
    """What was done of each part."""
    answers = [each.response_txn for each in done.found.responses]
    later = iter(answers[len(parts) :])
    both = [(first, next(later).responses if part.reads else ()) for first, part in zip(answers, parts)]
    return [
        Done(first.succeeded, Found(done.found.revision, responses=[*first.responses, *second]))
        for first, second in both
    ]


assert 2 * MOST_PARTS + MOST_SHARED <= MOST_OPERATIONS
