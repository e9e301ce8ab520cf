"""Seeded documents for the calls of the library, faults among them, and how they are written into one stream.

A stream has for each document its length, as eight bytes with the lowest first, and its bytes. A stream of answers has
for each document and each call a byte, the status, and then the text in the same form.
"""

from __future__ import annotations

import json
from random import Random
from typing import Any, Callable, Iterator

from sweeps.documents import paths_of, tree

# Numbers that stand at a limit, or beyond it.
STRANGE = [0, -1, 1, 1000, 1001, 2**31, 2**53, 2**63 - 1, -(2**63), 2**63, 2**64, 1.5, True, None, "", "/q", [], {}]

SPOILING = [bytes([byte]) for byte in b'0129-,:[]{}" a/\\\0\xff']

# Gives a document with its settled plan and flow in it; what is refused stays as it is.
Plans = Callable[[bytes], bytes]


def some_document(seed: int, planned: Plans) -> bytes:
    """Each kind of document comes once in eight seeds."""
    random = Random(f"library {seed}")
    kinds = [listed, listed_and_planned, listed_and_planned, cut, altered_list, altered_plan, spoilt, history]
    return kinds[seed % len(kinds)](random, planned)


def with_bounds(planned: Plans) -> Iterator[bytes]:
    """A record at each end of what a record holds, one within it and one beyond; and what accesses make of it."""
    accesses = [["get", "/"], ["add", "/", 1], ["add", "/", -1], ["take", "/", 1], ["set", "/", 0]]
    for end, inwards in ((2**63 - 1, -1), (-(2**63), 1)):
        for record in (end + inwards, end, end - inwards):
            nodes = [{"parent": None, "name": "", "weight": 1, "value": record}]
            yield planned(written({"version": 2, "nodes": nodes, "list": accesses}))


def listed(random: Random, _planned: Plans) -> bytes:
    """A tree and a list, of either version."""
    return written(tree_and_list(random))


def listed_and_planned(random: Random, planned: Plans) -> bytes:
    return planned(written(tree_and_list(random)))


def cut(random: Random, planned: Plans) -> bytes:
    whole = listed_and_planned(random, planned)
    return whole[: random.randrange(len(whole))]


def altered_list(random: Random, _planned: Plans) -> bytes:
    return written(altered(random, tree_and_list(random)))


def altered_plan(random: Random, planned: Plans) -> bytes:
    """Another step, row, amount or place somewhere in a planned document."""
    found = json.loads(listed_and_planned(random, planned))
    part = random.choice(["plan", "flow", "plan", "flow", "list", "nodes"])
    return written({**found, part: altered(random, found[part])} if part in found else altered(random, found))


def spoilt(random: Random, planned: Plans) -> bytes:
    """With a few bytes changed."""
    whole = listed_and_planned(random, planned)
    for _ in range(random.randint(1, 3)):
        whole = spoilt_once(random, whole)
    return whole


def spoilt_once(random: Random, whole: bytes) -> bytes:
    at = random.randrange(len(whole))
    return whole[:at] + random.choice(SPOILING) + whole[at + 1 :]


def history(random: Random, planned: Plans) -> bytes:
    """Jobs by settled plans whose steps interleave, to their ends or not; in one of three something is altered."""
    nodes = tree(random, random.randint(1, 10))
    jobs = [job_on(random, nodes, planned) for _ in range(random.randint(1, 4))]
    events = list(events_of(random, jobs))
    found = {"version": 2, "nodes": nodes, "jobs": jobs, "events": events}
    return written(altered(random, found) if random.randrange(3) == 0 else found)


def tree_and_list(random: Random) -> dict[str, Any]:
    nodes = tree(random, random.randint(1, 24))
    version = random.choice([1, 2])
    return {"version": version, "nodes": nodes, "list": some_list(random, nodes, version)}


def some_list(random: Random, nodes: list[dict], version: int) -> list[list[Any]]:
    paths = paths_of(nodes)
    return [access(random, random.choice(paths), version) for _ in range(random.randint(0, 12))]


def access(random: Random, path: str, version: int) -> list[Any]:
    kind = random.choice(["get", "set", "add", "take"])
    number = [] if kind == "get" else [random.choice([random.randint(-99, 99), 2**63 - 1, -(2**63)])]
    length = [random.choice([1, 2, 3, 1000])] if version == 2 and random.randrange(2) else []
    return [kind, path, *number, *length]


def job_on(random: Random, nodes: list[dict], planned: Plans) -> dict[str, Any]:
    accesses = some_list(random, nodes, 2)
    found = json.loads(planned(written({"version": 2, "nodes": nodes, "list": accesses})))
    return {"list": accesses, "plan": found["plan"]}


def events_of(random: Random, jobs: list[dict]) -> Iterator[list[Any]]:
    """The jobs' steps in some order in which nobody takes what another one holds; now and then the run breaks off."""
    at, owner = [0] * len(jobs), {}
    until = random.choice([None, None, None, random.randint(0, 20)])
    while any(place < len(job["plan"]) for place, job in zip(at, jobs)) and until != 0:
        number = random.choice([number for number, job in enumerate(jobs) if at[number] < len(job["plan"])])
        kind, what = jobs[number]["plan"][at[number]]
        if kind == "lock" and owner.get(what, number) != number:
            continue
        if kind != "access":
            owner[what] = number if kind == "lock" else None
            owner = {path: job for path, job in owner.items() if job is not None}
        at[number] += 1
        until = until and until - 1
        yield ["take", number]


def altered(random: Random, value: Any) -> Any:
    """The value with one thing in it changed: a number, a text, an item dropped, doubled or moved, a member lost."""
    if isinstance(value, dict) and value:
        name = random.choice(sorted(value))
        if random.randrange(6):
            return {**value, name: altered(random, value[name])}
        return {other: each for other, each in value.items() if other != name}
    if isinstance(value, list) and value:
        return altered_items(random, value)
    if type(value) is int and random.randrange(2):
        return value + random.choice([-1, 1])
    return random.choice(STRANGE)


def altered_items(random: Random, items: list[Any]) -> list[Any]:
    at, other = random.randrange(len(items)), random.randrange(len(items))
    how = random.randrange(8)
    if how == 0:
        return items[:at] + items[at + 1 :]
    if how == 1:
        return items[:at] + [items[at]] + items[at:]
    if how == 2:
        swapped = list(items)
        swapped[at], swapped[other] = items[other], items[at]
        return swapped
    return [*items[:at], altered(random, items[at]), *items[at + 1 :]]


def written(value: Any) -> bytes:
    return json.dumps(value).encode()


# Streams


def framed(text: bytes) -> bytes:
    return len(text).to_bytes(8, "little") + text


def answers_in(stream: bytes) -> Iterator[tuple[int, bytes]]:
    """The statuses and the texts of a stream of answers."""
    at = 0
    while at < len(stream):
        end = at + 9 + int.from_bytes(stream[at + 1 : at + 9], "little")
        yield stream[at], stream[at + 9 : end]
        at = end
