"""The places for connections over HTTP that have no slot: whoever leaves one leaves it to the next, and nothing else.
So after more clients than there are places have left in a way, the state is told as before, and there are as many
slots as before."""

from __future__ import annotations

import os
import socket
import time
from collections.abc import Callable
from contextlib import ExitStack, suppress
from functools import partial

from pages import HEALTHY
from server import Serving, connected
from web import Client, post, request

from sweeps.busy import is_told, told
from sweeps.doors import DOORS, SLOTS, Door
from sweeps.metrics import by_protocol, once_well
from sweeps.preloaded import library_of
from sweeps.program import Tally, Try, until_well
from sweeps.ten_lines import ADD, GET

TRIED = "places without a slot"
# How many places there are, and how many clients leave one in each way.
ROOM, MANY = 8, 12
BUSY, WAITING = ("--busy",), ()
# The requests for the state of a server, each by the two methods that look.
STATES = tuple(f"{path}{query}" for path in ("/health", "/metrics") for query in ("", "?nodes=1", "?"))
METHODS = ("GET", "HEAD")
# Requests that begin as those and are others.
OTHERS = ("/healthy", "/health/", "/metrics2", "/metricsx?nodes=1", "/Health", "/metric")
# How soon the state is told, on a machine without other work.
SOON = 0.25
# How long a client without a slot is waited for that is to have none.
PAUSE = 0.5
# How many bytes a client sends that is turned away, at most, and how long behind the end a reset would come.
MOST_SENT, BEHIND = 60_000, 0.05
LONGEST = 60.0


def tries(program: str, room: str) -> list[Try]:
    library = library_of("refuse_threads", room)
    doors = [door for door in DOORS if door.is_http]
    return [
        Try(f"{door.name}, {name}", partial(call, program, door))
        for door in doors
        for name, call in {
            "who is told the state": partial(leave_by, BUSY, told_the_state),
            "who is told it and waits for nobody": partial(leave_by, WAITING, told_the_state),
            "who is turned away": partial(leave_by, BUSY, turned_away),
            "who gets a slot": partial(leave_by, WAITING, get_a_slot),
            "who comes once a slot is left": partial(leave_by, WAITING, come_late),
            "who asked first": partial(leave_by, WAITING, wait_in_turn),
            "whose thread is refused": partial(threadless, library),
            "each request for the state": each_state,
            "requests that begin alike": others_that_begin_alike,
            "how much one may send that is turned away": long_ones,
        }.items()
    ]


def slow(stack: ExitStack, server: Serving, count: int = SLOTS) -> list[Client]:
    """So many clients that have a slot each, and say nothing more."""
    clients = [stack.enter_context(Client(server.port)) for _ in range(count)]
    for client in clients:
        client.post(GET)
    return clients


def leave_by(
    further: tuple[str, ...],
    way: Callable[[Serving, list[Client], ExitStack, Tally], None],
    program: str,
    door: Door,
    tally: Tally,
) -> None:
    """All slots are taken. Clients without one leave in a way: then there is as much room as before."""
    with door.serving(program, further=further) as server, ExitStack() as stack:
        clients = slow(stack, server)
        way(server, clients, stack, tally)
        note_room(server, further, stack, tally)


def told_the_state(server: Serving, clients: list[Client], stack: ExitStack, tally: Tally) -> None:
    for number in range(MANY):
        note_health(server.port, f"client {number}", tally)


def turned_away(server: Serving, clients: list[Client], stack: ExitStack, tally: Tally) -> None:
    for number in range(MANY):
        came = told(server.port, post(ADD))
        tally.note(f"client {number}", None if is_told(DOORS[1], came) else f"it was told {came!r}")


def get_a_slot(server: Serving, clients: list[Client], stack: ExitStack, tally: Tally) -> None:
    """Each waits until one of those with a slot leaves, and then has its slot."""
    for number in range(MANY):
        late = stack.enter_context(Client(server.port))
        late.send(post(GET))
        time.sleep(PAUSE)
        clients.pop(0).close()
        note_slot(late, number, clients, tally)


def come_late(server: Serving, clients: list[Client], stack: ExitStack, tally: Tally) -> None:
    """A slot is left, and nobody waits: whoever comes next gets it, however late it says something."""
    for number in range(MANY):
        clients.pop(0).close()
        time.sleep(PAUSE)
        late = stack.enter_context(Client(server.port))
        time.sleep(PAUSE)
        late.send(post(GET))
        note_slot(late, number, clients, tally)


def wait_in_turn(server: Serving, clients: list[Client], stack: ExitStack, tally: Tally) -> None:
    """Of those who wait, each slot that is left goes to the one who asked first."""
    waiting = []
    for _ in range(ROOM - 1):
        late = stack.enter_context(Client(server.port))
        late.send(post(GET))
        time.sleep(PAUSE)
        waiting.append(late)
    for number, late in enumerate(waiting):
        clients.pop(0).close()
        note_slot(late, number, clients, tally)


def note_slot(late: Client, number: int, clients: list[Client], tally: Tally) -> None:
    """A client that has a slot now is answered."""
    came = late.next()
    tally.note(f"client {number}", None if came and came.status == 200 else f"came {came}")
    clients.append(late)


def note_room(server: Serving, further: tuple[str, ...], stack: ExitStack, tally: Tally) -> None:
    """There are as many slots as before, all of them taken, and as many places: beside one client less than there are
    places, who all wait, the state is told."""
    if not further:
        for _ in range(ROOM - 1):
            stack.enter_context(connected(server.port)).sendall(post(GET))
        time.sleep(PAUSE)
    note_health(server.port, "afterwards", tally)
    once_well(server.port, by_protocol("grove_connections", 0, SLOTS), "afterwards", tally)
    if further:
        came = told(server.port, post(ADD))
        tally.note("one beyond the slots", None if is_told(DOORS[1], came) else f"it was told {came!r}")


def note_health(port: int, where: str, tally: Tally) -> None:
    with Client(port) as client:
        client.connection.settimeout(LONGEST)
        came = client.get("/health")
    is_well = came and (came.status, came.body) == (200, HEALTHY)
    tally.note(where, None if is_well else f"came {came}")


def threadless(library: str, program: str, door: Door, tally: Tally) -> None:
    """Clients without a slot for whom no thread can be started: they are closed, and leave no slot that they didn't
    have."""
    first = SLOTS + 1 + door.is_second
    numbers = {"FIRST_REFUSED": str(first), "LAST_REFUSED": str(first + MANY - 1)}
    surroundings = {**os.environ, "LD_PRELOAD": library, **numbers}
    with door.serving(program, further=BUSY, env=surroundings) as server, ExitStack() as stack:
        slow(stack, server)
        for number in range(MANY):
            with connected(server.port) as late:
                came = late.recv(1)
            tally.note(f"client {number}", f"came {came!r}" if came else None)
        note_room(server, BUSY, stack, tally)


def each_state(program: str, door: Door, tally: Tally) -> None:
    """Each request for the state is answered without a slot, and soon, as it is with one."""
    with door.serving(program) as server, ExitStack() as stack:
        with Client(server.port) as client:
            right = [ask_once(client, method, path) for method in METHODS for path in STATES]
        slow(stack, server)
        until_well(partial(look_at_states, server.port, right, tally), "how soon", tally)


def ask_once(client: Client, method: str, path: str) -> tuple:
    """The status, the fields but for those that go by what is counted, and the kind of the body."""
    client.send(request(method, path))
    came = client.next(method)
    fields = {name: value for name, value in came.fields.items() if name not in (b"content-length", b"connection")}
    return came.status, fields, came.body if path.startswith("/health") else came.body.partition(b"\n")[0]


def look_at_states(port: int, right: list[tuple], tally: Tally) -> str | None:
    """How late the latest one was told, if it was late."""
    latest, wanted = 0.0, iter(right)
    for method in METHODS:
        for path in STATES:
            began = time.monotonic()
            with Client(port) as client:
                client.connection.settimeout(LONGEST)
                came = ask_once(client, method, path)
            latest = max(latest, time.monotonic() - began)
            want = next(wanted)
            tally.note(f"{method} {path}", None if came == want else f"wanted {want}; came {came}")
    return f"the latest took {latest:.3f} s" if latest > SOON else None


def others_that_begin_alike(program: str, door: Door, tally: Tally) -> None:
    """Requests that begin like those are others: with `--busy` who sends one is turned away."""
    with door.serving(program, further=BUSY) as server, ExitStack() as stack:
        slow(stack, server)
        for text in [request(method, path) for method in METHODS for path in OTHERS] + [request("POST", "/health")]:
            came = told(server.port, text)
            tally.note(f"{text[:24]!r}", None if is_told(DOORS[1], came) else f"it was told {came!r}")


def long_ones(program: str, door: Door, tally: Tally) -> None:
    """Who is turned away gets the reply, and what it has sent is read to the end, as far as it has come: so the
    connection isn't reset. It is tried until all has come before it is read."""
    with door.serving(program, further=BUSY) as server, ExitStack() as stack:
        slow(stack, server)
        for size in (1, 4096, 4097, 8192, 20_000, MOST_SENT):
            until_well(partial(broken_off, server.port, post(b"x" * size), tally), f"{size} bytes", tally)


def broken_off(port: int, text: bytes, tally: Tally) -> str | None:
    """Whether the connection ends by a reset behind the reply."""
    came = b""
    with connected(port) as late:
        late.sendall(text)
        with suppress(ConnectionError):
            while piece := late.recv(1000):
                came += piece
        # (A reset comes behind the end, and fails no call that reads.)
        time.sleep(BEHIND)
        error = late.getsockopt(socket.SOL_SOCKET, socket.SO_ERROR)
    tally.note("the reply", None if is_told(DOORS[1], came) else f"it was told {came!r}")
    return f"it ends by {os.strerror(error)}" if error else None
