"""A server that has few descriptors, or none, at each port: a connection that it has one for is served, and the others
once one is free. Nothing that is open is closed, and the server doesn't spin."""

from __future__ import annotations

import json
import os
import resource
import time
from contextlib import ExitStack
from functools import partial
from pathlib import Path

from server import connected
from store import Store

from sweeps.crowds import is_silent
from sweeps.doors import DOORS, Asking, Door
from sweeps.preloaded import library_of
from sweeps.program import Tally, Try, until_well
from sweeps.ten_lines import TREE, WEIGHTS

TRIED = "connections of servers that want descriptors"
# How many descriptors a server has, and how many clients it gets.
FEW = 12
CLIENTS = 10
# How long a server without a descriptor is watched, and how much processor time it may take then.
WATCHED = 2.0
LEAST_WORK = 0.2


def tries(program: str, room: str) -> list[Try]:
    each = {
        "ten clients and twelve descriptors": serve_some,
        "no descriptor for a connection": serve_nobody,
        "standard streams that are closed": partial(serve_closed, {}),
        "the same without the file of the memory": partial(serve_closed, without_memory(room)),
    }
    return [Try(f"{door.name}, {name}", partial(each[name], program, door)) for door in DOORS for name in each]


def without_memory(room: str) -> dict[str, dict[str, str]]:
    """The surroundings of a server for which the system has no file of its memory: what would have its descriptor is
    opened next, and the next one may be a connection."""
    return {"env": {**os.environ, "LD_PRELOAD": library_of("other_statm", room), "STATM": f"{room}/none"}}


def at_most(count: int) -> None:
    resource.setrlimit(resource.RLIMIT_NOFILE, (count, count))


def serve_some(program: str, door: Door, tally: Tally) -> None:
    """It is tried until the server's calls for connections have their descriptors before the clients come, as they may
    not on a machine with other work."""
    until_well(partial(some_served, program, door, tally), "who is answered", tally)


def some_served(program: str, door: Door, tally: Tally) -> str | None:
    """Ten clients come and ask. Those that there are descriptors for are answered; once they leave, so are the others.
    Gives which one is answered too early."""
    store, served = Store(json.loads(TREE)), door.connections_with(FEW)
    with door.serving(program, preexec_fn=partial(at_most, FEW)) as server, ExitStack() as room:
        clients = [room.enter_context(Asking(door, server.port, WEIGHTS)) for _ in range(CLIENTS)]
        for client in clients:
            client.send()
        for number, client in enumerate(clients[:served]):
            client.note_reply(store, f"client {number}", tally)
        for number, client in enumerate(clients[served:], served):
            if not is_silent(client.client):
                return f"client {number} has a reply too early"
            tally.note(f"client {number} waits", None)
        for client in clients[: CLIENTS - served]:
            client.close()
        for number, client in enumerate(clients[served:], served):
            client.note_reply(store, f"client {number}", tally)
        for number, client in enumerate(clients[CLIENTS - served : served], CLIENTS - served):
            client.ask(store, f"client {number} once more", tally)
        tally.note("the server", None if server.is_running() else "it has ended")
    return None


def serve_nobody(program: str, door: Door, tally: Tally) -> None:
    """There is no descriptor for any connection, and nobody leaves: it waits, and takes next to no processor time."""
    how = {"preexec_fn": partial(at_most, door.descriptors)}
    with door.serving(program, **how) as server, connected(server.port):
        before = worked(server.started.pid)
        time.sleep(WATCHED)
        took = worked(server.started.pid) - before
        tally.note("the server", None if server.is_running() else "it has ended")
        tally.note("its work", None if took < LEAST_WORK else f"{took:.2f} s of the processor in {WATCHED:g} s")


def worked(process: int) -> float:
    """The processor time of a process, in seconds."""
    numbers = Path(f"/proc/{process}/stat").read_text().rpartition(")")[2].split()
    return (int(numbers[11]) + int(numbers[12])) / os.sysconf("SC_CLK_TCK")


def serve_closed(surroundings: dict, program: str, door: Door, tally: Tally) -> None:
    """Standard input and standard error are closed. No connection takes the place of either, so none gets the log."""
    store = Store(json.loads(TREE))
    how = {"further": ("--verbose",), "preexec_fn": close_two, **surroundings}
    with door.serving(program, **how) as server, ExitStack() as room:
        for number in range(CLIENTS):
            client = room.enter_context(Asking(door, server.port, WEIGHTS))
            client.ask(store, f"client {number}", tally)
        tally.note("the server", None if server.is_running() else "it has ended")


def close_two() -> None:
    os.close(0)
    os.close(2)
