"""Servers of each kind at addresses of both kinds, at ports of their own and at any that is free: each says where it
is, and answers there. At an address that isn't this machine's, and at a port in use: `device`, and before it the reason
unless `--quiet` leaves it out."""

from __future__ import annotations

import errno
import json
import socket
from contextlib import ExitStack
from functools import partial

from server import NotListening, free_port
from store import Store

from sweeps.doors import DOORS, Asking, Door
from sweeps.program import DEVICE, Ran, Tally, Try, because
from sweeps.ten_lines import TREE, WEIGHTS

TRIED = "places that a server was given"
# Those of this machine; the last two are any address of it, asked at the first ones.
ADDRESSES = [
    ("127.0.0.1", "127.0.0.1"),
    ("127.0.0.2", "127.0.0.2"),
    ("::1", "::1"),
    ("0.0.0.0", "127.0.0.3"),
    ("::", "::1"),
]
# For examples in texts: no machine has it.
NOWHERE = "192.0.2.1"
# How many servers at once take any port.
MANY = 8


def tries(program: str, _room: str) -> list[Try]:
    here = [(address, asked) for address, asked in ADDRESSES if is_here(asked)]
    parts = [
        Try(f"{door.name}, at {address}", partial(serve_at, program, door, address, asked))
        for door in DOORS
        for address, asked in here
    ]
    parts += [Try(f"{door.name}, many at any port", partial(serve_many, program, door)) for door in DOORS[:2]]
    parts += [Try(f"{door.name}, a port in use", partial(serve_twice, program, door)) for door in DOORS]
    return parts + [
        Try(f"{door.name}, at no address of this machine", partial(serve_nowhere, program, door)) for door in DOORS[:2]
    ]


def is_here(address: str) -> bool:
    """Has this machine the address? (Some have none of IPv6.)"""
    with socket.socket(socket.AF_INET6 if ":" in address else socket.AF_INET) as trial:
        try:
            trial.bind((address, 0))
            return True
        except OSError:
            return False


def serve_at(program: str, door: Door, address: str, asked: str, tally: Tally) -> None:
    """At a port of its own, and at any: it says its address, and the port that it listens on, and answers there. (A
    second port is never any.)"""
    store = Store(json.loads(TREE))
    for any_port in (False,) if door.is_second else (False, True):
        with door.serving(program, any_port=any_port, further=("--bind", address)) as server:
            with Asking(door, server.port, WEIGHTS, asked) as client:
                client.ask(store, f"{address}, port {server.port}", tally)


def serve_many(program: str, door: Door, tally: Tally) -> None:
    """Each has a port of its own."""
    with ExitStack() as room:
        ports = [room.enter_context(door.serving(program, any_port=True)).port for _ in range(MANY)]
        for port in ports:
            with Asking(door, port, WEIGHTS) as client:
                client.ask(Store(json.loads(TREE)), f"port {port}", tally)
    tally.note("the ports", None if len(set(ports)) == MANY else f"they are {ports}")


def serve_twice(program: str, door: Door, tally: Tally) -> None:
    """At the address that another one has, but no other."""
    with DOORS[0].serving(program, any_port=True) as server:
        port = server.port
        wanted = because(f"cannot listen on 127.0.0.1:{port}", errno.EADDRINUSE)
        tally.compare("the same address", ended(program, door, "127.0.0.1", port=port), wanted)
        came = ended(program, door, "127.0.0.1", "--quiet", port=port)
        tally.compare("the same address, quietly", came, DEVICE)
        with door.serving(program, port=port, further=("--bind", "127.0.0.2")) as other:
            tally.note("another address", None if other.is_running() else "it has ended")


def serve_nowhere(program: str, door: Door, tally: Tally) -> None:
    free = free_port()
    for how, place in (({"any_port": True}, NOWHERE), ({"port": free}, f"{NOWHERE}:{free}")):
        wanted = because(f"cannot listen on {place}", errno.EADDRNOTAVAIL)
        tally.compare(f"{place}", ended(program, door, NOWHERE, **how), wanted)
        tally.compare(f"{place}, quietly", ended(program, door, NOWHERE, "--quiet", **how), DEVICE)


def ended(program: str, door: Door, address: str, *further: str, **how) -> Ran:
    """How a server that can't listen ends, at a port or at any."""
    try:
        with door.serving(program, further=("--bind", address, *further), **how):
            return Ran(None, b"", b"")
    except NotListening as why:
        return Ran(*why.ended)
