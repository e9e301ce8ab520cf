"""The turns of lines at the store, by what `/metrics` counts of them. A turn is held until so many lines wait: the next
one has just these, up to sixteen. How long a turn takes is counted in its bucket, by clocks that go faster too. And who
looks for a later round is told soon after it, whatever its number. Long bodies have their turns one body after the
other, and replies go out by 64 KiB."""

from __future__ import annotations

import json
import os
import socket
import time
from contextlib import ExitStack
from functools import partial

from batches import MOST_ACCESSES
from pages import MOST_KEPT
from server import Serving, connected
from store import compact
from web import Client, Response, post, request

from sweeps.doors import DOORS, Door
from sweeps.looks import ADD_ONE, FLAT, comes_to_wait, holding, two_new_lists
from sweeps.metrics import LARGE, LISTS, TIMES, Both, metrics_at, note_bucket
from sweeps.preloaded import library_of
from sweeps.program import Tally, Try, until_well
from sweeps.ten_lines import ADD, TREE, WEIGHTS

TRIED = "turns at the store"
# How many lines come to wait: each bound of a bucket, one more, and one more than a turn has.
COUNTS = (1, 2, 3, 4, 5, 8, 9, 16, 17)
MOST_LINES = 16
LINES = "grove_round_lines"
LINE_BOUNDS = (1, 2, 4, 8, 16)
# How many times as fast clocks go, and how many lists the batches have whose turns are timed: so their times lie close
# to each other, from the first bounds to the last.
CLOCKS = (1, 40, 1000)
MANY_EMPTY = 100 * [b""]
SIZES = sorted({round(1.25**power) for power in range(25)})
# How many rounds are looked for, which is more than there are bells; how soon one is told of; and for how many seconds
# a look waits at most, of which so many pass in one.
ROUNDS, SOON = 20, 0.5
LONGEST_LOOK, LOOK_CLOCK = 30, 10
NEVER = "/nodes?after=18446744073709551615"
# How many bodies come at once, and how often those are tried of which each is to be answered alone.
BODIES, TIMES_LONG = 4, 5
# So many bytes of replies go out together at most, and a reply of a tree of so many nodes has so many of them.
MOST_HELD, NODES, REPLY_BYTES = 65_536, 58, 256
# How many such replies a client asks for ahead, of which the last ones may be with the round that is held.
ASKED, LAST = 600, 16


def tries(program: str, room: str) -> list[Try]:
    held, clock = library_of("hold_threads", room), library_of("fast_clock", room)
    parts = [Try(f"turns of {count} lines", partial(together, program, held, count)) for count in COUNTS]
    parts += [Try("lines that a turn leaves over", partial(left_over, program, held))]
    parts += [Try(f"times by a clock {times} times as fast", partial(timed, program, clock, times)) for times in CLOCKS]
    doors = [door for door in DOORS if door.is_http]
    parts += [Try(f"{door.name}, long bodies at once", partial(long_bodies, program, door)) for door in doors]
    return parts + [
        Try("replies that go out together", partial(sent_together, program, held)),
        Try("how soon a round is told of", partial(told_soon, program)),
        Try("how long a look waits", partial(waits_in_vain, program, clock)),
    ]


def together(program: str, library: str, count: int, tally: Tally) -> None:
    """While a turn is held, so many lines come to wait, each of its own client. They have one turn, but for those
    beyond the most that one has."""
    _, more = behind_a_turn(program, library, count * [ADD_ONE], tally)
    note_sizes([1, min(count, MOST_LINES), *([count - MOST_LINES] if count > MOST_LINES else [])], more, tally)


def left_over(program: str, library: str, tally: Tally) -> None:
    """While a turn is held, a line comes to wait that is answered alone, and then two that add. It has a turn by itself,
    which leaves them over; they have the next one, and their places in it by the order in which they came."""
    (weights, *adds), more = behind_a_turn(program, library, [WEIGHTS, ADD_ONE, ADD_ONE], tally)
    note_sizes([1, 1, 2], more, tally)
    wanted = [{"places": [place], "replies": [[place + 1]], "round": 2} for place in range(2)]
    came = [json.loads(response.body) for response in adds]
    tally.note("the lines that are left", None if came == wanted else f"wanted {wanted}; came {came}")
    is_well = json.loads(weights.body).get("weights") == [1] * len(FLAT)
    tally.note("the line alone", None if is_well else f"came {weights}")


def behind_a_turn(
    program: str, library: str, lines: list[bytes], tally: Tally
) -> tuple[list[Response], dict[str, float]]:
    """Holds a turn while these lines come to wait in turn, each of its own client. Gives the responses to them, and how
    much more is counted of how many lines turns have."""
    count = len(lines)
    with ExitStack() as stack:
        # (A thread of each client, and the one that accepts them.)
        held = stack.enter_context(holding(library, 1 + count + 2))
        seats = ("--http-seats", str(count + 1))
        server = stack.enter_context(Both(program, *seats, document=compact({"nodes": FLAT}), workers=2, **held.how))
        runs, *waiting = [stack.enter_context(Client(server.http)) for _ in range(count + 1)]
        for client in (runs, *waiting):
            client.get("/health")
        before = counted_lines(runs)
        runs.send(post(two_new_lists(0)))
        tally.note("the turn that is held", None if held.is_held() else "it starts no thread")
        for client, line in zip(waiting, lines, strict=True):
            comes_to_wait(server, partial(client.send, post(line)))
        held.let_go(runs)
        responses = [client.next() for client in (runs, *waiting)]
        statuses = [response.status for response in responses]
        tally.note("the responses", None if statuses == [200] * (1 + count) else f"came {statuses}")
        return responses[1:], {key: value - before[key] for key, value in counted_lines(runs).items()}


def note_sizes(sizes: list[int], more: dict[str, float], tally: Tally) -> None:
    """What is counted more is that of turns of so many lines."""
    wanted = {f'{LINES}_bucket{{le="{bound}"}}': sum(size <= bound for size in sizes) for bound in LINE_BOUNDS}
    wanted |= {f'{LINES}_bucket{{le="+Inf"}}': len(sizes), f"{LINES}_count": len(sizes), f"{LINES}_sum": sum(sizes)}
    # Each of them has its time.
    wanted[f"{TIMES}_count"] = len(sizes)
    tally.note("the turns", None if more == wanted else f"wanted {wanted}; came {more}")


def counted_lines(client: Client) -> dict[str, float]:
    """What is counted of how many lines turns have, and how many have a time."""
    text = client.get("/metrics").body.decode()
    rows = [line.rpartition(" ") for line in text.splitlines() if line.startswith((LINES, f"{TIMES}_count"))]
    return {name: float(value) for name, _, value in rows}


def timed(program: str, library: str, times: int, tally: Tally) -> None:
    """Batches of more and more lists, each of which is a turn. At a small store, of more and more accesses, and lines
    that are empty, whose turns are the shortest."""
    surroundings = {**os.environ, "LD_PRELOAD": library, "CLOCK_TIMES": str(times)}
    large = [compact({"batch": LISTS[:size]}) for size in SIZES]
    small = [compact({"batch": [[["get", "/a"]] * count]}) for count in range(MOST_ACCESSES)]
    for document, lines in ((LARGE, large), (TREE, [*small, *MANY_EMPTY])):
        with Both(program, document=document, env=surroundings) as server:
            with connected(server.port) as client, client.makefile("rb") as replies:
                before = metrics_at(server.http)
                for number, line in enumerate(lines):
                    started = time.monotonic()
                    client.sendall(line + b"\n")
                    reply = replies.readline()
                    passed = (time.monotonic() - started) * times
                    before = note_turn(server.http, before, passed, reply, f"line {number}", tally)


def note_turn(
    port: int, before: dict[str, float], passed: float, reply: bytes, where: str, tally: Tally
) -> dict[str, float]:
    """The turn took no longer than what passed, and is counted in the bucket of the least bound that it is within."""
    after = metrics_at(port)
    took = round(after[TIMES + "_sum"] - before[TIMES + "_sum"], 6)
    is_well = 0 < took <= passed and reply.startswith((b'{"places"', b'{"error":"bad-json"'))
    tally.note(where, None if is_well else f"of {passed:.6f} s {took:.6f} s were counted; {reply[:40]!r}")
    note_bucket(TIMES, before, after, took, where, tally)
    return after


# ---- bodies and replies


def long_bodies(program: str, door: Door, tally: Tally) -> None:
    """Of bodies of more than 65,536 bytes one at a time is answered, so all lines of one come before those of another.
    Lines of bodies of so many bytes, or one less, come in between those of others, in one of some tries."""
    for size in (MOST_KEPT - 1, MOST_KEPT, MOST_KEPT + 1):
        with door.serving(program) as server:
            look = partial(one_by_one, server.port, size, tally)
            if size <= MOST_KEPT:
                until_well(look, f"bodies of {size} bytes", tally)
                continue
            for number in range(TIMES_LONG):
                is_well = look() is not None
                tally.note(f"bodies of {size} bytes, time {number}", None if is_well else "lines of two are mixed")


def one_by_one(port: int, size: int, tally: Tally) -> str | None:
    """Whether all lines of each of some bodies that come at once are done before, or behind, those of each other."""
    count = size // len(ADD)
    body = ADD * (count - 1) + ADD.rstrip(b"\n").ljust(size - len(ADD) * (count - 1) - 1) + b"\n"
    with ExitStack() as stack:
        clients = [stack.enter_context(Client(port)) for _ in range(BODIES)]
        for client in clients:
            client.send(post(body))
        each = [[reply_in(line) for line in client.next().body.splitlines()] for client in clients]
    # (Each line adds one to a record, and replies the sum: so the sums say which lines came first.)
    sums = sorted(number for numbers in each for number in numbers)
    is_well = sums == list(range(sums[0], sums[0] + BODIES * count))
    tally.note("the sums", None if is_well else f"{len(sums)}, from {sums[0]} to {sums[-1]}")
    spans = sorted((numbers[0], numbers[-1]) for numbers in each)
    is_apart = all(one[1] < other[0] for one, other in zip(spans, spans[1:]))
    return "the lines of each body are apart" if is_apart else None


def reply_in(line: bytes) -> int:
    return json.loads(line)["replies"][0][0]


def sent_together(program: str, library: str, tally: Tally) -> None:
    """Behind many lines whose replies have 256 bytes comes a round that is held. By then replies went out 257 at a
    time: those that fill 65,536 bytes, with the one for which there was no room. It is tried until the server has read
    all of the lines at once."""
    until_well(partial(sent_by_then, program, library, tally), "what went out", tally)


def sent_by_then(program: str, library: str, tally: Tally) -> str | None:
    """Whether other replies went out before the round that is held."""
    together = MOST_HELD + REPLY_BYTES
    wanted = (ASKED - LAST) * REPLY_BYTES // together * together
    with ExitStack() as stack:
        held = stack.enter_context(holding(library, 2))
        server = stack.enter_context(Serving(program, compact({"nodes": FLAT[:NODES]}), 2, any_port=True, **held.how))
        client = stack.enter_context(connected(server.port))
        client.sendall(WEIGHTS * ASKED + two_new_lists(0) + b"\n")
        tally.note("the round", None if held.is_held() else "none is held")
        came = client.recv(wanted, socket.MSG_WAITALL)
        client.setblocking(False)
        try:
            came += client.recv(MOST_HELD)
        except BlockingIOError:
            pass
        os.write(held.until, b"x")
        client.setblocking(True)
        client.shutdown(socket.SHUT_WR)
        with client.makefile("rb") as stream:
            lines = (came + stream.read()).splitlines(keepends=True)
    sizes = {len(line) for line in lines[:ASKED]}
    is_well = len(lines) == ASKED + 1 and sizes == {REPLY_BYTES}
    tally.note("all replies", None if is_well else f"{len(lines)} of {sizes} bytes")
    return None if len(came) == wanted else f"{len(came)} bytes came, and not {wanted}"


# ---- looks


def told_soon(program: str, tally: Tally) -> None:
    """Whoever waits for a round is told of it soon, not only when it is looked whether it has left."""
    with Serving(program, compact({"nodes": FLAT}), command="page") as server, ExitStack() as stack:
        looks, adds = (stack.enter_context(Client(server.port)) for _ in range(2))
        for client in (looks, adds):
            client.get("/nodes")
        for number in range(ROUNDS):
            until_well(partial(late_look, server, looks, adds, tally), f"round {number}", tally, 5)


def late_look(server: Serving, looks: Client, adds: Client, tally: Tally) -> str | None:
    """How late a look is told of the next round, if it is late."""
    now = json.loads(adds.get("/nodes").body)["round"]
    comes_to_wait(server, partial(looks.send, request("GET", f"/nodes?after={now}")))
    began = time.monotonic()
    adds.post(ADD_ONE)
    came = json.loads(looks.next().body)["round"]
    took = time.monotonic() - began
    tally.note(f"after {now}", None if came == now + 1 else f"came {came}")
    return f"the look after {now} took {took:.2f} s" if took > SOON else None


def waits_in_vain(program: str, library: str, tally: Tally) -> None:
    """A look for a round that doesn't come waits for half a minute, by a clock that goes faster."""
    until_well(partial(long_look, program, library, tally), "how long", tally, 5)


def long_look(program: str, library: str, tally: Tally) -> str | None:
    """How long the look waited, if it was longer than it should be."""
    surroundings = {**os.environ, "LD_PRELOAD": library, "CLOCK_TIMES": str(LOOK_CLOCK)}
    with Serving(program, compact({"nodes": FLAT}), command="page", env=surroundings) as server:
        with Client(server.port) as client:
            client.post(ADD)
            began = time.monotonic()
            came = client.get(NEVER)
            took = (time.monotonic() - began) * LOOK_CLOCK
    tally.note("the response", None if came.status == 200 else f"came {came}")
    tally.note("not too soon", None if took > LONGEST_LOOK * 0.9 else f"it took {took:.1f} s")
    return f"it took {took:.1f} s" if took > LONGEST_LOOK * 1.3 else None
