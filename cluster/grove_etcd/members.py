"""The members of an etcd cluster, of which one is asked; if that is down, the next.

Reads are etcd's linearizable ones: they see all that was written before. A commit without an answer may have been made.
It raises `Lost`, and isn't repeated here.
"""
from __future__ import annotations

import random
import time
from functools import cached_property, partial
from threading import Thread
from typing import Any, Callable, Iterator, Optional, Sequence

from . import etcdrpc
from .brief import Call
from .connecting import Credentials, errors
from .refusals import Failed
from .wire import (
    Done,
    Found,
    Guard,
    Operation,
    Request,
    after,
    at_hand,
    counting,
    done,
    ranging,
    reading,
    request_of,
    text_of,
)

# Of operations in a transaction, and of its compares (etcd's default limit).
MOST_OPERATIONS = 128
# Of transactions within one that have few operations.
MOST_WIDE = 64
# Of transactions that only read, and are on their way at once.
MOST_SIDE_BY_SIDE = 8
# Keys of one answer.
PAGE = 2000
# For how long one member is waited for, and for how long a call is repeated.
CALL_SECONDS = 5.0
GIVE_UP_SECONDS = 60.0
# Between tries; each pause is a random part of the next length.
FIRST_PAUSE_SECONDS, LONGEST_PAUSE_SECONDS = 0.05, 3.0
RANGE, TRANSACT, WATCH = "/etcdserverpb.KV/Range", "/etcdserverpb.KV/Txn", "/etcdserverpb.Watch/Watch"
AUTHENTICATE = "/etcdserverpb.Auth/Authenticate"
# RESOURCE_EXHAUSTED is the answer of a member that has too much to do, or no space left.
NO_ANSWER = {
    "UNAVAILABLE",
    "DEADLINE_EXCEEDED",
    "CANCELLED",
    "UNKNOWN",
    "INTERNAL",
    "ABORTED",
    "RESOURCE_EXHAUSTED",
}


class Unfit(Failed):
    """etcd doesn't take this transaction, whoever sends it: it is too large, or hasn't its form."""


class Compacted(Failed):
    """What was asked for was so long ago that etcd has it no more."""


class Lost(Exception):
    """No member answered; the change may have been made, or not."""


class Member:
    """One member, with a connection of its own. If it is brief, each call has one, until gRPC is needed."""

    def __init__(self, address: str, credentials: Credentials, is_brief: bool = False) -> None:
        self.address, self.credentials = address, credentials
        self.is_brief = is_brief and credentials.cacert is None
        # These take requests that are serialized already.
        self.range = self.unary(RANGE, None, etcdrpc.RangeResponse.FromString)
        self.transact = self.unary(TRANSACT, None, etcdrpc.TxnResponse.FromString)
        self.enter = self.unary(
            AUTHENTICATE, etcdrpc.AuthenticateRequest.SerializeToString, etcdrpc.AuthenticateResponse.FromString
        )
        self.token: tuple[tuple[str, str], ...] = ()

    @cached_property
    def channel(self) -> Any:
        return self.credentials.channel(self.address)

    def unary(self, path: str, serialize: Optional[Callable[[Any], bytes]], parse: Callable[[bytes], Any]) -> Any:
        by_grpc = partial(self.unary_by_grpc, path, serialize, parse)
        return Call(self.address, path, serialize, parse, by_grpc) if self.is_brief else by_grpc()

    def unary_by_grpc(self, path: str, serialize: Any, parse: Any) -> Any:
        return self.channel.unary_unary(path, request_serializer=serialize, response_deserializer=parse)

    @cached_property
    def watch(self) -> Any:
        """Takes a single request: a stream of them would need a thread for each watch."""
        return self.channel.unary_stream(
            WATCH,
            request_serializer=etcdrpc.WatchRequest.SerializeToString,
            response_deserializer=etcdrpc.WatchResponse.FromString,
        )

    def transact_all(self, requests: list[Request], seconds: float, metadata: Any) -> list[Any]:
        """Several transactions, side by side."""
        if self.is_brief:
            return [self.transact(request, seconds, metadata=metadata) for request in requests]
        calls = [self.transact.future(request, seconds, metadata=metadata) for request in requests[1:]]
        first = [self.transact(request, seconds, metadata=metadata) for request in requests[:1]]
        return [*first, *(call.result() for call in calls)]

    def authenticate(self, seconds: float) -> None:
        """Gets a token for the user's name and password, if there is a user."""
        if self.credentials.user is None:
            return
        request = etcdrpc.AuthenticateRequest(name=self.credentials.user, password=self.credentials.password or "")
        answer = self.enter(request, seconds)
        self.token = (("token", answer.token),)

    def ask(self, call: Any, request: Any, seconds: float) -> Any:
        """Calls the member, with a new token if it wants one."""
        if self.credentials.user is not None and not self.token:
            self.authenticate(seconds)
        try:
            return call(request, seconds, metadata=self.token)
        except errors() as error:
            if self.credentials.user is None or not wants_token(error):
                raise
        self.authenticate(seconds)
        return call(request, seconds, metadata=self.token)


def wants_token(error: Any) -> bool:
    return error.code().name == "UNAUTHENTICATED" or "invalid auth token" in (error.details() or "")


class Aside(Thread):
    """A call that goes on beside others. A pool of threads takes long to be loaded."""

    def __init__(self, call: Callable[[], Any]) -> None:
        super().__init__(daemon=True)
        self.call = call
        self.came: Any = None
        self.error: Optional[Exception] = None
        self.start()

    def run(self) -> None:
        try:
            self.came = self.call()
        except Exception as why:  # who waits for it raises it
            self.error = why

    def result(self) -> Any:
        self.join()
        if self.error is not None:
            raise self.error
        return self.came


class Members:
    def __init__(
        self,
        addresses: Sequence[str],
        credentials: Credentials = Credentials(),
        seconds: float = CALL_SECONDS,
        is_brief: bool = False,
    ) -> None:
        """A member is waited for as long as `seconds` says. Who makes a few calls only is brief: it needs no gRPC for
        them."""
        self.seconds = seconds
        # The watches that are waited for at present.
        self.watches: set[Any] = set()
        self.members = [Member(address, credentials, is_brief) for address in addresses]
        random.shuffle(self.members)

    @property
    def asked(self) -> Member:
        """The member that is asked at present."""
        return self.members[0]

    def has_user(self) -> bool:
        """Is there a user, whose rights may be fewer than all?"""
        credentials = self.asked.credentials
        return credentials.user is not None or credentials.cert is not None

    def turn(self, from_member: Member) -> None:
        """Asks the next member from now on, unless that has been done already."""
        if self.members[0] is from_member:
            self.members = [*self.members[1:], from_member]

    def get(self, *keys: str, revision: int = 0) -> Found:
        """These keys, at most 128, all as they stood at one revision; without a revision, as they stand now."""
        return self.read([reading(key, revision) for key in keys])

    def read(self, reads: list[Operation]) -> Found:
        """At most 128 reads, at one revision."""
        return done(self.transact(request_of([], reads, []))).found

    def read_since(self, reads: list[Operation], revision: int) -> Found:
        """The same, at this revision or a later one. If the member that is asked has it, no other one is involved."""
        found = self.read(list(map(at_hand, reads)))
        return found if found.revision >= revision else self.read(reads)

    def read_all(self, reads: Sequence[Operation], revision: int = 0) -> Found:
        """Any number of reads, some transactions side by side; if they all name this revision, at once."""
        whole, size = Found(revision), MOST_SIDE_BY_SIDE * MOST_OPERATIONS
        for start in range(0, len(reads), size):
            whole.entries.update(self.found_by_some(reads[start : start + size]).entries)
        return whole

    def read_side_by_side(self, reads: Sequence[Operation], since: int = 0) -> Found:
        """Any number of reads, some in a transaction, all of which are on their way at once. So each has a revision of
        its own; that of what was found is the least of them. With `since` none is older than that revision, and if the
        member that is asked has it, no other one is involved."""
        if not reads:
            return Found(since)
        if since:
            found = self.found_by_some(list(map(at_hand, reads)))
            if found.revision >= since:
                return found
        return self.found_by_some(reads)

    def found_by_some(self, reads: Sequence[Operation]) -> Found:
        starts = range(0, len(reads), MOST_OPERATIONS)
        requests = [request_of([], list(reads[start : start + MOST_OPERATIONS]), []) for start in starts]
        answers = self.call_until_answered(lambda member: member.ask(member.transact_all, requests, self.seconds))
        revisions = [int(answer.header.revision) for answer in answers]
        return Found(min(revisions, default=0), responses=[each for answer in answers for each in answer.responses])

    def count(self, prefix: str, revision: int = 0, is_at_hand: bool = False) -> int:
        """How many keys have this prefix; by the asked member alone, if that is enough."""
        return int(self.range(counting(prefix, revision, is_at_hand)).count)

    def counts(self, prefixes: Sequence[str], revision: int) -> Callable[[], list[int]]:
        """The same of several, side by side. Gives what waits for them, and something else can be done meanwhile."""
        counts = [Aside(partial(self.count, prefix, revision)) for prefix in prefixes]
        return lambda: [each.result() for each in counts]

    def range(self, request: Any) -> Any:
        return self.call_until_answered(lambda member: member.ask(member.range, request, self.seconds))

    def pages(self, prefix: str, revision: int = 0, keys_only: bool = False) -> Iterator[Found]:
        """The keys with this prefix, page by page, all as they stood at one revision."""
        start, more = prefix, True
        while more:
            answer = self.range(ranging(start, after(prefix), PAGE, revision, keys_only))
            revision = revision or answer.header.revision
            found = Found(revision)
            found.add(answer.kvs)
            yield found
            more = answer.more
            start = text_of(answer.kvs[-1].key) + "\0" if more else start

    def below(self, prefix: str, revision: int = 0, keys_only: bool = False) -> Found:
        """All that `pages` gives, at once."""
        pages = self.pages(prefix, revision, keys_only)
        whole = next(pages)
        for page in pages:
            whole.entries.update(page.entries)
        return whole

    def commit(
        self,
        guards: list[Guard],
        changes: list[Operation],
        then: Sequence[Operation] = (),
        otherwise: Sequence[Operation] = (),
    ) -> Done:
        """Makes the changes if all guards hold, and reads `then`; else reads `otherwise`."""
        return self.make(request_of(guards, [*changes, *then], list(otherwise)))

    def make(self, request: Request, seconds: float | None = None) -> Done:
        """Makes a transaction, without repeating it. The member is waited for as long as `seconds` says, if that is
        less than usual."""
        member = self.asked
        try:
            return done(member.ask(member.transact, request, min(self.seconds, seconds or self.seconds)))
        except errors() as error:
            self.turn(member)
            raise lost(member, error) from error

    def write(self, changes: list[Operation], guards: Sequence[Guard] = ()) -> bool:
        """Makes changes that are harmless if made twice; repeats them until they are made, or a guard doesn't hold."""
        return bool(self.transact(request_of(list(guards), changes, [])).succeeded)

    def write_wide(self, parts: Sequence[Operation]) -> None:
        """Makes transactions that are harmless if made twice, some in one."""
        for start in range(0, len(parts), MOST_WIDE):
            self.write(list(parts[start : start + MOST_WIDE]))

    def transact(self, request: Request) -> Any:
        """Makes a transaction that is harmless if made twice. It repeats it until there is an answer."""
        return self.call_until_answered(lambda member: member.ask(member.transact, request, self.seconds))

    def call_until_answered(self, asked: Callable[[Member], Any]) -> Any:
        """Calls one member after the other until one answers, for a minute."""
        until = time.monotonic() + GIVE_UP_SECONDS
        for pause in pauses():
            member = self.asked
            try:
                return asked(member)
            except errors() as error:
                self.turn(member)
                no_answer = lost(member, error)
                if time.monotonic() > until:
                    raise no_answer from error
            time.sleep(pause)

    def end_watches(self) -> None:
        """Whoever waits for one goes on."""
        for answers in list(self.watches):
            answers.cancel()

    def close(self) -> None:
        for member in self.members:
            member.channel.close()


# What gRPC says of a request that is larger than members take, with the code of a member that has too much to do.
TOO_LARGE = "larger than max"
KINDS = {"INVALID_ARGUMENT": Unfit, "OUT_OF_RANGE": Compacted}


def pauses() -> Iterator[float]:
    """Growing pauses of random length, so that clients don't all return at once."""
    longest = FIRST_PAUSE_SECONDS
    while True:
        yield longest * random.uniform(0.5, 1)
        longest = min(LONGEST_PAUSE_SECONDS, 2 * longest)


def lost(member: Member, error: Any) -> Lost:
    """`Lost`, if the error means that there was no answer; any other one is raised with etcd's own message."""
    if TOO_LARGE in (error.details() or ""):
        raise Unfit(f"etcd at {member.address}: {error.details()}") from error
    code = error.code().name
    if code not in NO_ANSWER:
        raise KINDS.get(code, Failed)(f"etcd at {member.address}: {error.details()}") from error
    return Lost(f"{member.address}: {error.details()}")


def addresses_of(text: str) -> list[str]:
    """The addresses of `HOST:PORT,..`; a wrong one is named."""
    addresses = text.split(",")
    for address in addresses:
        host, _, port = address.rpartition(":")
        if not (host and port.isdecimal() and 0 < int(port) < 65536):
            raise ValueError(f"a member is HOST:PORT, such as 127.0.0.1:2379: {address!r}")
    return addresses
