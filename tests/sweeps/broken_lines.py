"""Broken session lines by a seeded generator, alone and between good ones, and lines about as long as one may be:
each gets its one reply, the good ones their own, and the store is what the good ones made it."""

from __future__ import annotations

import json
from functools import partial
from random import Random

from server import Serving
from store import MOST_LINE, Store, compact

from sweeps.documents import access, paths_of, put_back, seeded
from sweeps.mutilated import mutilated
from sweeps.program import Tally, Try, run
from sweeps.talks import look, note_replies

TRIED = "session lines, most of them broken"
SEEDED = 16
# How many broken lines are made for each document: between good ones, and alone.
BETWEEN, ALONE = 300, 60
# How long lines are made with blanks.
LENGTHS = [MOST_LINE - 1, MOST_LINE, MOST_LINE + 1, MOST_LINE + 4096, 2 * MOST_LINE]


def tries(program: str, _room: str) -> list[Try]:
    broken = [Try(f"seeded document {seed}", partial(break_lines, program, seed)) for seed in range(SEEDED)]
    return [*broken, Try("long lines", partial(lengthen_lines, program))]


def break_lines(program: str, seed: int, tally: Tally) -> None:
    random = Random(f"lines {seed}")
    document = seeded(seed)
    good = good_lines(program, random, document)
    store = Store(json.loads(document))
    between = b"\n".join(line for _ in range(BETWEEN) for line in (broken(random, good), random.choice(good))) + b"\n"
    with Serving(program, document) as server:
        note_replies(store, between, server.talk(between), "between good ones", tally)
        for number in range(ALONE):
            line = broken(random, good)
            note_replies(store, line, server.talk(line), f"alone, number {number}", tally)
        note_replies(store, look(store), server.talk(look(store)), "at the end", tally)


def lengthen_lines(program: str, tally: Tally) -> None:
    """Each long line has good ones before and behind it, which are sent with it."""
    random = Random("long lines")
    document = seeded(0)
    good = good_lines(program, random, document)
    lines = [line for length in LENGTHS for line in (random.choice(good), random.choice(good).ljust(length))]
    text = b"\n".join([*lines, random.choice(good)]) + b"\n"
    store = Store(json.loads(document))
    with Serving(program, document) as server:
        note_replies(store, text, server.talk(text), "long ones between good ones", tally)
        note_replies(store, look(store), server.talk(look(store)), "at the end", tally)


def broken(random: Random, good: list[bytes]) -> bytes:
    """A good line changed; by chance it may be good again, or have become two lines."""
    return mutilated(random, random.choice(good))


def good_lines(program: str, random: Random, text: bytes) -> list[bytes]:
    """Lines of every kind that ask for something; most of them are batches."""
    document = json.loads(put_back(text, run(program, "plan", text=text).out))
    paths = paths_of(document["nodes"])
    check = {"check": {name: document[name] for name in ("list", "plan", "flow")}}
    batches = [{"batch": [some_list(random, paths) for _ in range(random.randrange(4))]} for _ in range(12)]
    plans = [{"plan": document["list"]}, {"plan": some_list(random, paths)}, {"plan": []}]
    asked = [check, check, {"weights": None}, {"reweigh": None}, *plans, *batches]
    return [compact(request) for request in asked]


def some_list(random: Random, paths: list[str]) -> list:
    accesses = [access(random, random.choice(paths)) for _ in range(random.randrange(5))]
    return accesses + [["take", random.choice(paths), random.randint(-9, 99), random.randint(1, 30)]]
