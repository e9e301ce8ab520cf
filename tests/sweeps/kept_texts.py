"""Texts of replies to `plan` that a store keeps, up to 64 MiB together: a list that is asked for again costs as few
growths as before if these are as many bytes, or one less, and more if they are one more."""

from __future__ import annotations

import contextlib
import json
import os
from collections.abc import Iterator
from functools import partial

from server import Serving, connected

from sweeps.kept import ALONE, ROOT, plan_line, told_so_far
from sweeps.preloaded import library_of
from sweeps.program import Tally, Try, short

TRIED = "texts that are kept"
# So many bytes of texts are kept, and so many texts.
MOST_BYTES, MOST_TEXTS = 67_108_864, 1024
NEAR = (-1, 0, 1)
# Chains of nodes, below which texts are long, and so deep; leaves, by whose names texts differ by few bytes.
CHAINS, DEEP, LETTERS = 60, 32, 32
LEAVES = ["".join(chr(ord("a") + (number + at) % 26) for at in range(number)) for number in range(1, LETTERS + 1)]
LENGTHS = (1, 10, 100, 1000)
# The first list, and short ones.
FIRST = [["get", "/"]]
SMALL = [[["get", f"/{leaf}", length]] for leaf in LEAVES for length in LENGTHS]
# How many chains long lists have. How many bytes more the text of the next one may have.
CHAINS_OF_LISTS, MORE = (CHAINS, 15, 4, 1), 1000
# What short texts are left to fill at least: less than they have together.
LEAST_LEFT = 4_000


def tries(program: str, room: str) -> list[Try]:
    library = library_of("count_growths", room)
    return [Try(f"{MOST_BYTES + more} bytes of texts", partial(fill, program, library, more)) for more in NEAR]


def document() -> bytes:
    """A tree of chains and of leaves, all below the root."""
    rows = [ROOT]
    for chain in range(CHAINS):
        for depth in range(DEEP):
            parent = len(rows) - 1 if depth else 0
            rows.append({"parent": parent, "name": name_in(chain, depth), "weight": 1})
    rows += [{"parent": 0, "name": name, "weight": 1} for name in LEAVES]
    return json.dumps({"nodes": rows}).encode()


def name_in(chain: int, depth: int) -> str:
    return f"{chain}-{depth}-".ljust(LETTERS, "x")


def path_in(chain: int, depth: int) -> str:
    return "".join(f"/{name_in(chain, at)}" for at in range(depth))


class Texts:
    """A server of which lists are asked, and how many bytes the texts of its replies have."""

    def __init__(self, connection, replies, growths: int, tally: Tally):
        self.connection, self.replies, self.growths, self.tally = connection, replies, growths, tally
        self.lengths: dict[str, int] = {}

    def ask(self, asked: list) -> int:
        """How many growths the reply took."""
        told_so_far(self.growths)
        self.connection.sendall(plan_line(asked))
        reply = self.replies.readline()
        self.tally.note(short(plan_line(asked)), None if reply.startswith(b'{"cost":') else f"came {short(reply)}")
        self.lengths[json.dumps(asked)] = len(reply) - 1
        return told_so_far(self.growths)

    def left(self) -> int:
        """For how many bytes there is room."""
        return MOST_BYTES - sum(self.lengths.values())


@contextlib.contextmanager
def served(program: str, library: str, tally: Tally) -> Iterator[Texts]:
    ends, tell = os.pipe()
    surroundings = {**os.environ, "LD_PRELOAD": library, "GROWTHS_TELL": str(tell)}
    os.set_blocking(ends, False)
    try:
        with Serving(program, document(), env=surroundings, pass_fds=(tell,)) as server:
            with connected(server.port) as connection, connection.makefile("rb") as replies:
                yield Texts(connection, replies, ends, tally)
    finally:
        os.close(ends)
        os.close(tell)


def fill(program: str, library: str, more: int, tally: Tally) -> None:
    """Lists are asked for until their texts have so many bytes more than are kept. Those of short ones are known from
    a server before."""
    with served(program, library, tally) as texts:
        for asked in SMALL:
            texts.ask(asked)
        small = texts.lengths
    with served(program, library, tally) as texts:
        for _ in range(ALONE + 1):
            texts.ask(FIRST)
        for chains in CHAINS_OF_LISTS:
            ask_while_there_is_room(texts, lists_of(chains))
        chosen = adding_up(small, texts.left() + more)
        for asked in chosen[:-1]:
            texts.ask(asked)
        again = texts.ask(FIRST)
        texts.ask(chosen[-1])
        at_last = texts.ask(FIRST)
        filled, count = texts.left() + more, len(texts.lengths)
    tally.note("the bytes", f"{filled} are missing" if filled else None)
    tally.note("the texts", None if count < MOST_TEXTS else f"there are {count}")
    is_well = at_last > again if more > 0 else at_last == again
    tally.note("the first one", None if is_well else f"{again} growths again, and {at_last} at last")


def ask_while_there_is_room(texts: Texts, lists: Iterator[list]) -> None:
    """Asks for lists, whose texts have about as many bytes each, as long as there is room for one and short ones."""
    longest = 0
    for asked in lists:
        if texts.left() < longest + LEAST_LEFT:
            return
        texts.ask(asked)
        longest = max(longest, texts.lengths[json.dumps(asked)] + MORE)


def lists_of(chains: int) -> Iterator[list]:
    """Lists of accesses at the ends of so many chains, which differ by the length of one."""
    for length in range(1, 1000):
        ends = [["get", path_in(chain, DEEP - 1)] for chain in range(chains)]
        yield [[*ends[0], length], *ends[1:]]


def adding_up(lengths: dict[str, int], wanted: int) -> list[list]:
    """Lists whose texts have so many bytes together."""
    ways: dict[int, list[str]] = {0: []}
    for asked, length in lengths.items():
        for total, chosen in list(ways.items()):
            if total + length <= wanted:
                ways.setdefault(total + length, [*chosen, asked])
        if wanted in ways:
            return [json.loads(each) for each in ways[wanted]]
    raise AssertionError(f"no short texts have {wanted} bytes")
