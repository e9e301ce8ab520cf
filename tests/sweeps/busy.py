"""Servers with `--busy`, at each port: a connection beyond the sixteen gets `busy` and is closed, the sixteen go on,
and over HTTP the state of the server is told to others beside them."""

from __future__ import annotations

import json
import time
from contextlib import ExitStack, suppress
from functools import partial

from pages import GUARDS, HEALTHY
from server import connected
from store import Store
from web import JSON, BadResponse, Client, responses_in

from sweeps.doors import DOORS, SLOTS, Door
from sweeps.metrics import by_protocol, once_well
from sweeps.program import Tally, Try
from sweeps.talks import note_replies
from sweeps.ten_lines import ADD, TREE

TRIED = "connections, and lines beside them"
BUSY = b'{"error":"busy"}\n'
# The fields of the response that says so.
LENGTH = {b"content-type": JSON, b"content-length": b"%d" % len(BUSY)}
BUSY_FIELDS = {**GUARDS, **LENGTH, b"retry-after": b"1", b"connection": b"close"}
# How many come too late, one after the other and all at once: over HTTP more than there is room for without a slot.
LATE, AT_ONCE = 20, 20
PAUSE = 0.3
# How long a connection slot that was left may take to be free.
LONGEST = 60.0


def tries(program: str, room: str) -> list[Try]:
    with_log = ("--idle", "600", "--verbose")
    others = {"more clients than there are slots": (), "the same with a time to idle and a log": with_log}
    return [
        Try(f"{door.name}, {name}", partial(full, program, door, further))
        for door in DOORS
        for name, further in others.items()
    ]


def told(port: int, text: bytes) -> bytes:
    """What a client that sends this text gets, up to the end."""
    with connected(port) as late:
        came = b""
        # (It may be closed before it has sent, and gets the reply all the same.)
        with suppress(ConnectionError):
            late.sendall(text)
        with suppress(ConnectionError):
            while piece := late.recv(100):
                came += piece
    return came


def full(program: str, door: Door, further: tuple[str, ...], tally: Tally) -> None:
    store = Store(json.loads(TREE))
    with door.serving(program, further=("--busy", *further)) as server, ExitStack() as stack:
        clients = [stack.enter_context(connected(server.port)) for _ in range(SLOTS)]
        streams = [stack.enter_context(client.makefile("rb")) for client in clients]
        everybody = partial(note_everybody, store, door, clients, streams)
        everybody("at first", tally)
        for number in range(LATE):
            note_told(door, told(server.port, door.sent(ADD)), f"late {number}", tally)
        for number, came in enumerate(told_at_once(server.port, AT_ONCE)):
            note_told(door, came, f"late and silent {number}", tally)
        everybody("beside the late ones", tally)
        if door.is_http:
            note_state(server.port, tally)
            # (Whoever was told the state has left by then, and has given back no more than it had.)
            time.sleep(PAUSE)
            note_told(door, told(server.port, door.sent(ADD)), "late behind those", tally)
        streams.pop().close()
        clients.pop().close()
        note_replies(store, ADD, admitted(door, server.port), "the one in the slot that was left", tally)
        everybody("at the end", tally)


def told_at_once(port: int, count: int) -> list[bytes]:
    """What so many clients get that say nothing, all of them there at once."""
    with ExitStack() as stack:
        clients = [stack.enter_context(connected(port)) for _ in range(count)]
        return [b"".join(iter(partial(client.recv, 1000), b"")) for client in clients]


def note_told(door: Door, came: bytes, where: str, tally: Tally) -> None:
    tally.note(where, None if is_told(door, came) else f"it was told {came!r}")


def is_told(door: Door, came: bytes) -> bool:
    """Does a client get the reply that it is too late, and over HTTP with its fields and no others?"""
    if not door.is_http:
        return came == BUSY
    return responses_in(came, False) == [(503, BUSY_FIELDS, BUSY)]


def note_state(port: int, tally: Tally) -> None:
    """Without a slot the state is told all the same, and how many were turned away."""
    with Client(port) as client:
        response = client.get("/health")
    is_well = (response.status, response.body) == (200, HEALTHY)
    tally.note("the health", None if is_well else f"came {response}")
    once_well(port, by_protocol("grove_turned_away_connections_total", 0, LATE + AT_ONCE), "the late ones", tally)


def note_everybody(store: Store, door: Door, clients: list, streams: list, where: str, tally: Tally) -> None:
    """Each client's line is answered."""
    for number, (client, stream) in enumerate(zip(clients, streams)):
        client.sendall(door.sent(ADD))
        note_replies(store, ADD, door.reply_in(stream), f"client {number} {where}", tally)


def admitted(door: Door, port: int) -> bytes:
    """The reply to a line, once a connection slot is free."""
    ends = time.monotonic() + LONGEST
    while time.monotonic() < ends:
        with connected(port) as client, client.makefile("rb") as stream:
            try:
                client.sendall(door.sent(ADD))
                came = door.reply_in(stream)
            except (ConnectionError, BadResponse):
                continue
            if came != BUSY:
                return came
        time.sleep(0.05)
    return BUSY
