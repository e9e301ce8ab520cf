"""Looks at a store over HTTP that a long round has: a line waits for the store, then clients ask for the document or
the nodes, and nobody else is there who could wake anyone. All of them are answered, each time. And if a round is
held until lines wait for the next one, and then looks: these find what the round left, before any of the lines."""

from __future__ import annotations

import json
import os
import select
import time
from collections.abc import Callable, Iterator
from contextlib import ExitStack, contextmanager
from functools import partial
from pathlib import Path
from random import Random
from typing import NamedTuple

from batches import MOST_LISTS, deep
from pages import text_at, uncounted
from server import BadServer, Serving
from store import Store, compact
from web import Client, Response, post, request

from sweeps.preloaded import library_of
from sweeps.program import Tally, Try, short

TRIED = "looks, and lines that wait beside them"
# How many clients look, how many times they are to do so while a round has the store, and how many times they try.
LOOKERS = (1, 2, 4, 8)
TIMES, MOST_TIMES = 15, 60
LOOKED_AT = ("/document", "/nodes")
# How long a round is to take, and after which parts of it the line and the looks come.
ROUND = 0.25
LINE_AFTER, LOOKS_AFTER = 0.3, 0.3
# After a round that was over too early, the next one has so many times as many lists. If it has the most already, it is
# taken to last so much of what was thought.
LONGER, SOONER = 2, 0.7
# How many times a short line is timed: the least time is what it takes by itself.
TIMED = 3
NUMBERED = "/n0/n0"
# How many lines wait for the round after one that is held, how many clients look then, and how many times.
WAITING, LOOKING, TIMES_HELD = 9, 2, 8
# Leaves below a root, and a batch of one list.
LEAVES = [f"n{number}" for number in range(64)]
FLAT = [{"parent": None, "name": "", "weight": 1}, *({"parent": 0, "name": name, "weight": 1} for name in LEAVES)]
ADD_ONE = compact({"batch": [[["add", "/n0", 1]]]})
# How long a thread may take to get to where it waits.
LONGEST = 60.0


def tries(program: str, room: str) -> list[Try]:
    looks = [Try(f"{count} that look", partial(look_beside, program, count)) for count in LOOKERS]
    return [*looks, Try("looks that come last", partial(look_last, program, library_of("hold_threads", room)))]


def look_beside(program: str, count: int, tally: Tally) -> None:
    random = Random(f"looks {count}")
    store = Store(deep(random, 0))
    document = json.dumps({"nodes": store.nodes}).encode()
    with Serving(program, document, any_port=True, command="page") as server, ExitStack() as room:
        clients = [room.enter_context(Client(server.port)) for _ in range(2 + count)]
        a_round = round_at(clients[0], random)
        were_out = 0
        for number in range(MOST_TIMES):
            line = a_long_line(random, a_round.lists)
            is_out = look_once(store, clients, line, a_round.lasts, f"time {number}", tally)
            were_out += is_out
            a_round = a_round if is_out else a_round.after_too_early()
            if were_out == TIMES:
                break
    tally.blame("all times", None if were_out else f"no round had the store when they came, and the last was {a_round}")


class Round(NamedTuple):
    """How many lists it has, and how long it is taken to last."""

    lists: int
    lasts: float

    def after_too_early(self) -> Round:
        """The next round, if this one was over too early: what was timed may have waited for something else."""
        if self.lists < MOST_LISTS:
            return Round(min(MOST_LISTS, LONGER * self.lists), self.lasts)
        return Round(self.lists, SOONER * self.lasts)


def round_at(client: Client, random: Random) -> Round:
    """A round of about that length."""
    first = min(time_of(client, a_long_line(random, 1)) for _ in range(TIMED))
    lists = min(MOST_LISTS, 1 + int(ROUND / first))
    return Round(lists, time_of(client, a_long_line(random, lists)))


def time_of(client: Client, line: bytes) -> float:
    started = time.monotonic()
    client.post(line)
    return time.monotonic() - started


def a_long_line(random: Random, count: int) -> bytes:
    """A batch whose lists were never planned before, and change nothing."""
    lists = deep(random, count)["lists"]
    return compact({"batch": [[["get", access[1]] for access in accesses] for accesses in lists]})


def look_once(store: Store, clients: list[Client], line: bytes, lasts: float, where: str, tally: Tally) -> bool:
    """Has a long round run, a line wait for its end and the others look. Did the round have the store meanwhile?"""
    runs, waits, *look = clients
    asked = [LOOKED_AT[at % len(LOOKED_AT)] for at in range(len(look))]
    runs.send(post(line))
    time.sleep(LINE_AFTER * lasts)
    waits.send(post(compact({"batch": [[["add", NUMBERED, 1]]]})))
    time.sleep(LOOKS_AFTER * lasts)
    for client, path in zip(look, asked):
        client.send(request("GET", path))
    time.sleep(LOOKS_AFTER * lasts / 2)
    is_out = not select.select([runs.connection], [], [], 0)[0]
    before = [text_at(store, path) for path in asked]
    wanted = [[store.reply(["add", NUMBERED, 1])]]
    response = waits.next()
    came = json.loads(response.body).get("replies") if response else None
    tally.note(f"{where}, the line", None if came == wanted else f"wanted {wanted}; came {response}")
    for client, path, earlier in zip(look, asked, before):
        response = client.next()
        texts = [uncounted(text) for text in (earlier, text_at(store, path))]
        is_well = response and response.status == 200 and uncounted(response.body) in texts
        tally.note(f"{where}, {path}", None if is_well else f"came {response}")
    response = runs.next()
    tally.note(f"{where}, the round", None if response and response.status == 200 else f"came {response}")
    return is_out


# ---- rounds that are held


class Holding(NamedTuple):
    """How to start a program whose later threads are held: what reports each, and what ends it."""

    how: dict
    tells: int
    until: int

    def is_held(self) -> bool:
        """Waits until a thread is held. Is one?"""
        is_told = bool(select.select([self.tells], [], [], LONGEST)[0])
        return is_told and os.read(self.tells, 1) == b"x"

    def let_go(self, client: Client) -> None:
        """Lets the thread start, and all that are held after it, until something comes for the client."""
        os.write(self.until, b"x")
        while self.tells in select.select([self.tells, client.connection], [], [], LONGEST)[0]:
            os.read(self.tells, 1)
            os.write(self.until, b"x")


@contextmanager
def holding(library: str, first: int) -> Iterator[Holding]:
    """For a program whose threads from this number on, from 1, are held."""
    (tells, tell), (wait, until) = os.pipe(), os.pipe()
    numbers = {"HELD_FROM": str(first), "HELD_TELL": str(tell), "HELD_UNTIL": str(wait)}
    try:
        yield Holding({"env": {**os.environ, "LD_PRELOAD": library, **numbers}, "pass_fds": (tell, wait)}, tells, until)
    finally:
        for end in (tells, tell, wait, until):
            os.close(end)


def look_last(program: str, library: str, tally: Tally) -> None:
    """While a round is held, lines come to wait for the next one, and then clients look: before any of the lines."""
    store, document = Store({"nodes": FLAT}), compact({"nodes": FLAT})
    count = 1 + WAITING + LOOKING
    with ExitStack() as room:
        held = room.enter_context(holding(library, count + 1))
        server = room.enter_context(Serving(program, document, 2, any_port=True, command="page", **held.how))
        clients = [room.enter_context(Client(server.port)) for _ in range(count)]
        for client in clients:
            client.get("/nodes")
        for number in range(TIMES_HELD):
            look_beside_held(server, store, held, clients, number, tally)


def two_new_lists(number: int) -> bytes:
    """A batch of two lists for which no plan is kept, so that its round starts a thread to plan one of them."""
    return compact({"batch": [[["get", f"/{name}"]] for name in LEAVES[2 + 2 * number :][:2]]})


def look_beside_held(
    server: Serving, store: Store, held: Holding, clients: list[Client], number: int, tally: Tally
) -> None:
    runs, waiting, looking, where = clients[0], clients[1 : 1 + WAITING], clients[1 + WAITING :], f"time {number}"
    runs.send(post(two_new_lists(number)))
    if not held.is_held():
        tally.blame(where, "no round starts a thread")
    for client in waiting:
        comes_to_wait(server, partial(client.send, post(ADD_ONE)))
    asked = [LOOKED_AT[at % len(LOOKED_AT)] for at in range(LOOKING)]
    for client, path in zip(looking, asked):
        comes_to_wait(server, partial(client.send, request("GET", path)))
    held.let_go(runs)
    response = runs.next()
    tally.note(f"{where}, the round", None if response and response.status == 200 else f"came {response}")
    for client, path in zip(looking, asked):
        response, wanted = client.next(), text_at(store, path)
        is_well = response and uncounted(response.body) == uncounted(wanted)
        tally.note(f"{where}, {path}", None if is_well else f"wanted {short(wanted)}; came {response}")
    added = sorted(reply_in(client.next()) for client in waiting)
    wanted_replies = [store.reply(["add", "/n0", 1]) for _ in waiting]
    tally.note(f"{where}, the lines", None if added == wanted_replies else f"wanted {wanted_replies}; came {added}")


def comes_to_wait(server: Serving, send: Callable[[], None]) -> None:
    """Sends what brings a thread of the server to wait for something else, and waits until it does."""
    before = all_asleep(server)
    send()
    ends = time.monotonic() + LONGEST
    while time.monotonic() < ends:
        now = sleeps(server)
        if any((now.get(thread) or 0) > times for thread, times in before.items()):
            return
        time.sleep(0.002)
    raise BadServer("no thread came to wait")


def all_asleep(server: Serving) -> dict[str, int]:
    """How often each thread of the server came to wait so far, once all of them do for a while."""
    earlier, ends = None, time.monotonic() + LONGEST
    while time.monotonic() < ends:
        now = sleeps(server)
        if now == earlier and None not in now.values():
            return now
        earlier = now
        time.sleep(0.005)
    raise BadServer("some thread never waits")


def sleeps(server: Serving) -> dict[str, int | None]:
    """How often each thread of the server came to wait so far, at the place where it waits now."""
    found = {}
    for status in Path(f"/proc/{server.started.pid}/task").glob("*/status"):
        values = dict(line.split(":", 1) for line in status.read_text().splitlines())
        is_asleep = values["State"].strip().startswith("S")
        found[status.parent.name] = int(values["voluntary_ctxt_switches"]) if is_asleep else None
    return found


def reply_in(response: Response | None) -> int:
    """The one number in the reply to a batch of one list, or -1 if it is none."""
    try:
        return json.loads(response.body)["replies"][0][0] if response else -1
    except (ValueError, KeyError, IndexError):
        return -1
