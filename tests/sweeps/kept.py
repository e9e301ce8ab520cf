"""Plans that a store keeps: a list that is asked for again costs fewer growths than at first, and as few once 1,024
plans are kept in all. So it isn't planned again; but it is once there was one more."""

from __future__ import annotations

import contextlib
import json
import os
from functools import partial
from typing import Iterable, Iterator

from server import Serving, connected

from sweeps.preloaded import library_of
from sweeps.program import Tally, Try, short

TRIED = "lines whose growths were counted"
# As many plans are kept.
MOST_KEPT = 1024
MOST_LISTS = 256
# Once a client has asked so many lines alone, long ones are read straight.
ALONE = 16
ROOT = {"parent": None, "name": "", "weight": 1}
NODES = [ROOT] + [{"parent": 0, "name": f"n{number}", "weight": 1} for number in range(16)]
DOCUMENT = json.dumps({"nodes": NODES}).encode()
# Two long lists, whose lines have as many bytes.
FIRST = [["get", f"/n{number % 8}"] for number in range(64)]
BEFORE = [["get", f"/n{(number + 1) % 8}"] for number in range(64)]
# With those two, as many as are kept.
OTHERS = [[["get", f"/n{number // 1000}", number % 1000 + 1]] for number in range(MOST_KEPT - 2)]
ONE_MORE = [["get", "/n15"]]


def tries(program: str, room: str) -> list[Try]:
    library = library_of("count_growths", room)
    batches = (OTHERS[at : at + MOST_LISTS] for at in range(0, len(OTHERS), MOST_LISTS))
    return [
        Try("plans", partial(ask_again, program, library, plan_line, map(plan_line, OTHERS))),
        Try("batches", partial(ask_again, program, library, lambda each: batch_line([each]), map(batch_line, batches))),
    ]


def plan_line(asked: list) -> bytes:
    return json.dumps({"plan": asked}).encode() + b"\n"


def batch_line(lists: list) -> bytes:
    return json.dumps({"batch": lists}).encode() + b"\n"


def ask_again(program: str, library: str, line_of, others: Iterable[bytes], tally: Tally) -> None:
    """Asks for a list twice, and once more after the others. What the server needs for a line of that length at all it
    has from the lines before."""
    with asking(program, library) as ask:
        for _ in range(ALONE + 1):
            ask(line_of(BEFORE), tally)
        at_first, again = ask(line_of(FIRST), tally), ask(line_of(FIRST), tally)
        for line in others:
            ask(line, tally)
        at_last = ask(line_of(FIRST), tally)
        ask(line_of(ONE_MORE), tally)
        afterwards = ask(line_of(FIRST), tally)
    tally.blame("again", None if again < at_first else f"{at_first} growths at first, and {again} again")
    tally.blame(f"with {MOST_KEPT} kept", None if at_last == again else f"{again} growths again, and {at_last} at last")
    fault = f"{again} growths again, and {afterwards} afterwards"
    tally.blame("with one more", None if afterwards > again else fault)


@contextlib.contextmanager
def asking(program: str, library: str, document: bytes = DOCUMENT) -> Iterator:
    """A call that has a line answered by a server, and gives the growths that it took."""
    ends, tell = os.pipe()
    surroundings = {**os.environ, "LD_PRELOAD": library, "GROWTHS_TELL": str(tell)}
    try:
        os.set_blocking(ends, False)
        with Serving(program, document, env=surroundings, pass_fds=(tell,)) as server:
            with connected(server.port) as connection, connection.makefile("rb") as replies:
                yield partial(growths_of, connection, replies, ends)
    finally:
        os.close(ends)
        os.close(tell)


def growths_of(connection, replies, ends: int, line: bytes, tally: Tally) -> int:
    told_so_far(ends)
    connection.sendall(line)
    reply = replies.readline()
    tally.note(short(line), None if reply.startswith((b'{"cost":', b'{"places":')) else f"came {short(reply)}")
    return told_so_far(ends)


def told_so_far(ends: int) -> int:
    count = 0
    with contextlib.suppress(BlockingIOError):
        while told := os.read(ends, 1 << 16):
            count += len(told)
    return count
