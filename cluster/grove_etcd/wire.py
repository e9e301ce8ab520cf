"""etcd's messages. Only this module, those of members and of watches, and the table of messages know their form.

Requests are serialized here, piece by piece, as protobuf's wire format has them: a worker's time is largely theirs, and
by the messages of a table each piece is made, copied and then serialized.
"""
from __future__ import annotations

from dataclasses import dataclass
from functools import cached_property
from typing import Any, Iterable, Iterator, NamedTuple, NewType, Sequence

from . import etcdrpc

# A compare of a transaction; and an operation: a read or a change. Both have their length before them.
Guard = NewType("Guard", bytes)
Operation = NewType("Operation", bytes)
# A serialized transaction, or read of keys.
Request = NewType("Request", bytes)

# Before each field of a message stands its number in the table of messages, with 0 if its value is a number, and 2 if
# it is bytes or a message.
COMPARE, THEN, OTHERWISE = b"\x0a", b"\x12", b"\x1a"
RANGE, PUT, DELETE, TRANSACTION = b"\x0a", b"\x12", b"\x1a", b"\x22"
KEY, END, LIMIT, REVISION, ORDER, TARGET = b"\x0a", b"\x12", b"\x18", b"\x20", b"\x28", b"\x30"
AT_HAND, KEYS_ONLY, COUNT_ONLY, SINCE = b"\x38\x01", b"\x40\x01", b"\x48\x01", b"\x50"
PUT_VALUE = b"\x12"
RESULT, COMPARED, COMPARED_KEY, IS_VERSION, IS_MOD, IS_VALUE = b"\x08", b"\x10", b"\x1a", b"\x20", b"\x30", b"\x3a"
# Numbers of one byte.
SMALL = [bytes([number]) for number in range(128)]


def text_of(content: bytes) -> str:
    """What isn't UTF-8, as whoever may put a key can put it, is kept by a character for each byte."""
    return content.decode("utf-8", "surrogateescape")


def bytes_of(text: str) -> bytes:
    return text.encode("utf-8", "surrogateescape")


def whole(number: int) -> bytes:
    """In bytes of 7 bits, the lowest first, each but the last with its eighth bit."""
    if number < 128:
        return SMALL[number]
    parts = []
    while number >= 128:
        parts.append(number & 127 | 128)
        number >>= 7
    return bytes([*parts, number])


def sized(content: bytes) -> bytes:
    """With its length before it."""
    size = len(content)
    return (SMALL[size] if size < 128 else whole(size)) + content


def unsized(content: bytes) -> bytes:
    """The same without its length."""
    start = 0
    while content[start] & 128:
        start += 1
    return content[start + 1 :]


class Entry(NamedTuple):
    """A key's value, the revisions at which it was put last and created, and how often it was put since."""

    value: str
    put_at: int
    made_at: int
    version: int


class Found:
    """Keys that were read, all as they stood at one revision. A member's responses are parsed when they are needed,
    which may be while something else goes on."""

    def __init__(self, revision: int, entries: dict[str, Entry] | None = None, responses: Sequence[Any] = ()) -> None:
        """Known entries take precedence over those of the responses."""
        self.revision, self.known, self.responses = revision, entries or {}, responses

    @cached_property
    def entries(self) -> dict[str, Entry]:
        found = dict(map(entry_of, reversed(list(pairs_from_last(self.responses)))))
        found.update(self.known)
        return found

    def add(self, pairs: Iterable[Any]) -> None:
        self.entries.update(map(entry_of, pairs))

    def with_known(self, entries: dict[str, Entry]) -> Found:
        return Found(self.revision, {**self.known, **entries}, self.responses)

    def value(self, key: str) -> str | None:
        entry = self.entries.get(key)
        return entry.value if entry else None

    def value_from_last(self, key: str) -> str | None:
        """The same. If nothing has been parsed yet, only the responses from the last one back to the key are."""
        if "entries" in vars(self) or key in self.known:
            return self.value(key)
        pairs, wanted = pairs_from_last(self.responses), bytes_of(key)
        return next((text_of(pair.value) for pair in pairs if pair.key == wanted), None)

    def revision_of(self, key: str) -> int:
        """The revision at which the key was put; 0 if it isn't there, as in etcd."""
        entry = self.entries.get(key)
        return entry.put_at if entry else 0

    def version_of(self, key: str) -> int:
        entry = self.entries.get(key)
        return entry.version if entry else 0

    @cached_property
    def lines(self) -> set[str]:
        """The beginnings of keys up to the last two slashes in a row, as of those that wait for a node (keys.py)."""
        return {key[: key.rindex("//") + 2] for key in self.entries if "//" in key}

    def below(self, prefix: str) -> dict[str, Entry]:
        if prefix.endswith("//") and prefix not in self.lines:
            return {}
        return {key: entry for key, entry in self.entries.items() if key.startswith(prefix)}


@dataclass(frozen=True)
class Done:
    """The outcome of a transaction: whether its guards held, and what it read at which revision."""

    succeeded: bool
    found: Found

    def ends_with_then(self) -> bool:
        """Did the guards of the nested transaction hold with which this one ends?"""
        return bool(self.found.responses[-1].response_txn.succeeded)


def after(prefix: str) -> str:
    """The first key after all those with this prefix."""
    return prefix[:-1] + chr(ord(prefix[-1]) + 1)


class Branches(NamedTuple):
    """A transaction: if the guards hold, one, and else the other."""

    guards: list[Guard]
    then: list[Operation]
    otherwise: list[Operation]

    def request(self) -> Request:
        parts = [COMPARE + each for each in self.guards]
        parts += [THEN + each for each in self.then]
        parts += [OTHERWISE + each for each in self.otherwise]
        return Request(b"".join(parts))

    def operation(self) -> Operation:
        """As a transaction within one."""
        return Operation(sized(TRANSACTION + sized(self.request())))


def request_of(guards: list[Guard], then: list[Operation], otherwise: list[Operation]) -> Request:
    return Branches(guards, then, otherwise).request()


def request_of_all(parts: Iterable[Branches]) -> Request:
    """A transaction of these, one after the other, each of which is made by itself."""
    return request_of([], [part.operation() for part in parts], [])


def done(answer: Any) -> Done:
    return Done(answer.succeeded, Found(answer.header.revision, responses=answer.responses))


def pairs_from_last(responses: Sequence[Any]) -> Iterator[Any]:
    """The key-value pairs that were read, those of nested transactions included, in reverse order."""
    for response in reversed(responses):
        kind = response.WhichOneof("response")
        if kind == "response_range":
            yield from reversed(response.response_range.kvs)
        elif kind == "response_txn":
            yield from pairs_from_last(response.response_txn.responses)


def entry_of(pair: Any) -> tuple[str, Entry]:
    entry = Entry(text_of(pair.value), pair.mod_revision, pair.create_revision, pair.version)
    return text_of(pair.key), entry


def ranging(
    start: str, end: str = "", limit: int = 0, revision: int = 0, keys_only: bool = False, more: bytes = b""
) -> Request:
    """Reads the keys from `start` up to `end`, in their order; without an end `start` alone. `more` are fields."""
    content = KEY + sized(bytes_of(start))
    content += END + sized(bytes_of(end)) if end else b""
    content += LIMIT + whole(limit) if limit else b""
    content += REVISION + whole(revision) if revision else b""
    return Request(content + (KEYS_ONLY if keys_only else b"") + more)


def counting(prefix: str, revision: int = 0, is_at_hand: bool = False) -> Request:
    return ranging(prefix, after(prefix), 0, revision, more=COUNT_ONLY + (AT_HAND if is_at_hand else b""))


def reading(key: str, revision: int = 0, keys_only: bool = False) -> Operation:
    return as_operation(ranging(key, revision=revision, keys_only=keys_only))


def as_operation(read: Request) -> Operation:
    return Operation(sized(RANGE + sized(read)))


def at_hand(read: Operation) -> Operation:
    """The same read, answered by the asked member alone (etcd's serializable reads)."""
    return as_operation(Request(unsized(unsized(read)[len(RANGE) :]) + AT_HAND))


def reading_below(prefix: str, limit: int = 0, revision: int = 0, keys_only: bool = False) -> Operation:
    return as_operation(ranging(prefix, after(prefix), limit, revision, keys_only))


def reading_from(start: str, end: str, limit: int = 0) -> Operation:
    """Reads the keys from `start` up to `end`."""
    return as_operation(ranging(start, end, limit))


def reading_last(start: str, end: str, revision: int = 0, keys_only: bool = False) -> Operation:
    """Reads the last key from `start` up to `end`."""
    downwards = ORDER + whole(etcdrpc.DESCENDING) + TARGET + whole(etcdrpc.BY_KEY)
    return as_operation(ranging(start, end, 1, revision, keys_only, downwards))


def putting(key: str, value: str) -> Operation:
    content = KEY + sized(bytes_of(key)) + PUT_VALUE + sized(bytes_of(value))
    return Operation(sized(PUT + sized(content)))


def deleting(key: str) -> Operation:
    return Operation(sized(DELETE + sized(KEY + sized(bytes_of(key)))))


def deleting_from(start: str, end: str) -> Operation:
    content = KEY + sized(bytes_of(start)) + END + sized(bytes_of(end))
    return Operation(sized(DELETE + sized(content)))


def deleting_below(prefix: str) -> Operation:
    return deleting_from(prefix, after(prefix))


def choosing(guards: list[Guard], then: list[Operation], otherwise: list[Operation]) -> Operation:
    """A nested transaction: one or the other."""
    return Branches(guards, then, otherwise).operation()


def comparing(key: str, target: int, result: int, wanted: bytes) -> Guard:
    """What is `wanted` has its field before it."""
    kind = (RESULT + whole(result) if result else b"") + (COMPARED + whole(target) if target else b"")
    return Guard(sized(kind + COMPARED_KEY + sized(bytes_of(key)) + wanted))


def unchanged(key: str, revision: int) -> Guard:
    """The key was last put at this revision; at revision 0, it isn't there."""
    return comparing(key, etcdrpc.MOD, etcdrpc.EQUAL, IS_MOD + whole(revision))


def absent(key: str) -> Guard:
    return unchanged(key, 0)


def put_before(key: str, revision: int) -> Guard:
    """The key was last put before this revision, or isn't there."""
    return comparing(key, etcdrpc.MOD, etcdrpc.LESS, IS_MOD + whole(revision))


def present(key: str) -> Guard:
    return comparing(key, etcdrpc.VERSION, etcdrpc.GREATER, IS_VERSION + whole(0))


def other_than(key: str, value: str) -> Guard:
    """The key is there, with another value."""
    return comparing(key, etcdrpc.VALUE, etcdrpc.NOT_EQUAL, IS_VALUE + sized(bytes_of(value)))


def watching(key: str, end: str | None = None) -> Any:
    """Watches the key, or those from it up to `end`, from now on."""
    create = etcdrpc.WatchCreateRequest(key=bytes_of(key), range_end=bytes_of(end or ""))
    return etcdrpc.WatchRequest(create_request=create)


def following(key: str, end: str, since: int) -> Any:
    """Watches the keys from this one up to `end`, from that revision on, each with what it was before."""
    create = etcdrpc.WatchCreateRequest(
        key=bytes_of(key), range_end=bytes_of(end), start_revision=since, prev_kv=True, progress_notify=True
    )
    return etcdrpc.WatchRequest(create_request=create)


def looking_back(key: str, end: str | None, since: int) -> Request:
    """Reads the key, or those from it up to `end`, if put at this revision or later; answered by the asked member
    alone."""
    return ranging(key, end or "", more=AT_HAND + (SINCE + whole(since) if since else b""))


@dataclass(frozen=True)
class Change:
    """A change that a watch reports: a key that was put at a revision, or deleted, which leaves no value."""

    key: str
    value: str | None
    revision: int


def change(event: Any) -> Change:
    value = None if event.type == etcdrpc.DELETED else text_of(event.kv.value)
    return Change(text_of(event.kv.key), value, event.kv.mod_revision)


def missed(answer: Any, revision: int, there: Iterable[str] = ()) -> list[Change]:
    """By the answer to `looking_back`, what was put after the revision, and those keys of `there` that are gone."""
    put = [Change(text_of(pair.key), text_of(pair.value), pair.mod_revision) for pair in answer.kvs]
    left = {each.key for each in put}
    gone = [Change(key, None, answer.header.revision) for key in there if key not in left]
    return gone + [each for each in put if each.revision > revision]
