"""Servers whose rounds can't be kept any more: what each port says in the second before all connections end, what is
logged of it, how soon and how the server ends, and that it has kept what there was room for. And servers that have no
thread to end the connections then. And a client that comes just while all connections are closed."""

from __future__ import annotations

import errno
import os
import re
import socket
import subprocess
import time
from contextlib import ExitStack
from functools import partial
from pathlib import Path

from exposition import KIND, samples_in
from pages import PAGE
from web import BadResponse, Client, Response

from sweeps.connections import flood
from sweeps.data import BATCH, FRAME, LONGEST, ROOM, ROUNDS, ended, fresh, limit_files, opened, round_of
from sweeps.doors import DOORS, Asking, Door
from sweeps.idle import UNTAKEN, narrow
from sweeps.looks import holding
from sweeps.preloaded import library_of
from sweeps.program import MEMORY, Tally, Try, because, run, until_well
from sweeps.ten_lines import TREE, WEIGHTS
from sweeps.verbose import Telling, arrival, untimed

TRIED = "ports of servers that can keep no more, and what they said"
# A round of one record: its place and value, and those of the count of rounds.
ROUND_BYTES = FRAME + 2 * 12
# How long the state is told before all connections end, and how much longer the end may take.
STATE_SECONDS, LATE = 1.0, 2.0
# For how long a client sends that takes nothing, if it is let.
FLOOD_SECONDS = 1.0
# How often the second may be too short for what is asked in it, on a machine with other work.
MOST_TRIES = 5
UNKEPT = (503, b'{"error":"unkept"}\n')
# What is asked over HTTP, and the status and the body of the response.
ROWS = (
    ("GET", "/health", None, UNKEPT),
    ("HEAD", "/health", None, (503, b"")),
    ("POST", "/", BATCH, UNKEPT),
    ("POST", "/", WEIGHTS, UNKEPT),
    ("POST", "/", b'{"get":"/a"}\n', UNKEPT),
    ("GET", "/document", None, UNKEPT),
    ("GET", "/nodes", None, UNKEPT),
    ("GET", "/nodes?below=/a", None, UNKEPT),
    ("GET", "/nodes?after=0", None, UNKEPT),
    ("GET", "/", None, (200, PAGE.read_bytes())),
)
STATES = ("/metrics", "/metrics?nodes=1")
SESSIONS, _, SECOND = DOORS


class TooLate(Exception):
    """The connections have ended before all was asked."""


def tries(program: str, room: str) -> list[Try]:
    library, held = (library_of(name, room) for name in ("refuse_threads", "hold_threads"))
    fails_at = [(door, door) for door in DOORS] + [(SECOND, SESSIONS)]
    parts = [
        Try(f"{door.name}, a round that {at.name} asks for", partial(tried_again, program, room, door, at))
        for door, at in fails_at
    ]
    parts += [Try(f"{door.name}, who comes meanwhile", partial(meanwhile, program, room, held, door)) for door in DOORS]
    return parts + [
        Try(f"{door.name}, no thread for the end", partial(unguarded, program, room, library, door)) for door in DOORS
    ]


# ---- a round that can't be kept


def tried_again(program: str, room: str, door: Door, at: Door, tally: Tally) -> None:
    until_well(partial(fail, program, room, door, at, tally), "the last second", tally, MOST_TRIES)


class Failing:
    """A server whose file has no more room, with its clients, and what is to be logged of each."""

    def __init__(self, server: Telling, door: Door):
        self.server, self.door = server, door
        self.arrivals: list[str] = []
        self.ends: list[str] = []
        # What the ends are of those who take nothing.
        self.broken: list[str] = []

    def port_of(self, door: Door) -> int:
        return self.server.first if self.door.is_second and not door.is_http else self.server.port

    def come(self, stack: ExitStack, door: Door, is_asking: bool = False) -> Asking:
        """A client that has a slot. One that asks a line after the failure has no reply, and its session ends so."""
        client = stack.enter_context(Asking(door, self.port_of(door), BATCH))
        self.note(client.client, door, is_asking and not door.is_http)
        return client

    def look(self, stack: ExitStack) -> Client:
        """A client over HTTP, which has its responses as long as all connections aren't ended."""
        client = stack.enter_context(Client(self.server.port))
        self.note(client.connection, self.door, False)
        return client

    def deaf(self, stack: ExitStack, door: Door) -> None:
        """A client that asks for megabytes and takes nothing."""
        client = stack.enter_context(narrow(self.port_of(door)))
        if door.is_http:
            client.sendall(UNTAKEN["http"][0])
        else:
            flood(client, FLOOD_SECONDS)
        number = len(self.arrivals) + 1
        self.arrivals.append(arrival(number, client))
        why = "read-or-write" if door.is_http else "write"
        self.broken.append(rf"level=warn event=ended connection={number} lines=[0-9]+ why={why}")
        self.server.told_of(number)

    def has_taken(self) -> bool:
        """Whether a session whose client takes nothing still had room for its replies, and so came to its end."""
        numbers = [re.search(r"connection=([0-9]+)", form)[1] for form in self.broken]
        ends = [rf"level=error event=ended connection={number} lines=[0-9]+ why=unkept" for number in numbers]
        return any(re.fullmatch(end, line) for end in ends for line in self.server.told())

    def note(self, client: socket.socket, door: Door, is_refused: bool) -> None:
        number = len(self.arrivals) + 1
        self.arrivals.append(arrival(number, client))
        why = "unkept" if is_refused else "requests-ended" if door.is_http else "input-ended"
        level = "error" if is_refused else "info"
        self.ends.append(f"level={level} event=ended connection={number} lines=0 why={why}")
        self.server.told_of(number)


def fail(program: str, room: str, door: Door, at: Door, tally: Tally) -> str | None:
    """Whether the second was too short for what is asked in it, or the end came late."""
    file = fresh(room)
    how = {"preexec_fn": partial(limit_files, ROOM), "door": door}
    with Telling(program, ("--data", str(file)), **how) as server, ExitStack() as stack:
        failing = Failing(server, door)
        doors = [SESSIONS, door] if door.is_second else [door]
        for each in doors:
            failing.come(stack, each)
            failing.deaf(stack, each)
        sessions = [failing.come(stack, each, is_asking=True) for each in doors if not each.is_http]
        looks = [failing.look(stack)] if door.is_http else []
        kept = rounds_kept(failing.come(stack, at, is_asking=True), tally)
        failing.ends[-1] = failing.ends[-1].replace("lines=0", f"lines={kept}")
        began = time.monotonic()
        try:
            for session in sessions:
                note_refused(session, tally)
            for look in looks:
                note_looks(look, kept, tally)
        except (TooLate, OSError, BadResponse):
            return "it ended before all was asked"
        note_end(server, file, tally)
        took = time.monotonic() - began
        if failing.has_taken():
            return "a client that takes nothing had room for all replies"
        note_log(failing, tally)
    tally.note("how soon", None if took > STATE_SECONDS * 0.9 else f"it ended after {took:.2f} s")
    note_file(program, file, kept, tally)
    return f"it ended after {took:.2f} s" if took > STATE_SECONDS + LATE else None


def rounds_kept(client: Asking, tally: Tally) -> int:
    """How many rounds are replied, one after the other, before one can't be kept."""
    for number in range(ROUNDS):
        client.send()
        came = client.door.reply_in(client.stream)
        if not came.startswith(b'{"places"'):
            wanted = UNKEPT[1] if client.door.is_http else b""
            tally.note("the round", None if came == wanted else f"wanted {wanted!r}; came {came!r}")
            return number
        tally.blame("the rounds", None if round_of(came) == number + 1 else f"came {came!r}")
    return ROUNDS


def note_refused(client: Asking, tally: Tally) -> None:
    """A line of another session has no reply."""
    client.send()
    came = client.stream.readline()
    tally.note("another session", None if came == b"" else f"came {came!r}")


def note_looks(client: Client, kept: int, tally: Tally) -> None:
    """Whatever is asked over HTTP, no store is told of, and no line answered."""
    for method, path, body, wanted in ROWS:
        came = response_to(client, method, path, body)
        told = came.status, came.body
        fault = f"wanted {wanted[0]} {wanted[1][:99]!r}; came {came}"
        tally.note(f"{method} {path}", None if told == wanted else fault)
    for path in STATES:
        note_counts(response_to(client, "GET", path, None), kept, path, tally)


def response_to(client: Client, method: str, path: str, body: bytes | None) -> Response:
    came = client.ask(method, path, body)
    if came is None:
        raise TooLate
    return came


def note_counts(came: Response, kept: int, path: str, tally: Tally) -> None:
    """What is counted is told as before, but for the nodes; the file has what was replied."""
    is_well = came.status == 200 and came.fields.get(b"content-type") == KIND
    tally.note(f"{path}, the form", None if is_well else f"came {came}")
    samples = samples_in(came.body.decode()) if is_well else {}
    counted = samples.get("grove_data_rounds")
    tally.note(f"{path}, the rounds", None if counted == kept else f"wanted {kept}; came {counted}")
    nodes = [name for name in samples if name.startswith("grove_node")]
    tally.note(f"{path}, the nodes", f"came {nodes}" if nodes else None)


def note_end(server: Telling, file: Path, tally: Tally) -> None:
    """It ends by itself, though clients stay, by its status, and says why."""
    try:
        status = server.started.wait(LONGEST)
    except subprocess.TimeoutExpired:
        status = None
    tally.note("the end", None if status == 3 else f"its status is {status}")
    wanted = because(f"cannot keep rounds in {file}", errno.EFBIG).err.decode().splitlines()
    told = server.told()[-len(wanted) :]
    tally.note("why", None if told == wanted else f"wanted {wanted}; came {told}")


def note_log(failing: Failing, tally: Tally) -> None:
    """Each connection has its end, with its lines and why it came, in any order."""
    told = failing.server.told()[:-2]
    broken = [line for form in failing.broken for line in told if re.fullmatch(form, line)]
    tally.note("who takes nothing", None if len(broken) == len(failing.broken) else f"came {broken}")
    wanted = sorted([*failing.arrivals, *failing.ends])
    told = sorted(line for line in told if line not in broken)
    others = [line for line in told if line not in wanted], [line for line in wanted if line not in told]
    tally.note("the log", None if told == wanted else f"came {others[0]}; wanted {others[1]}")


def note_file(program: str, file: Path, kept: int, tally: Tally) -> None:
    """It has as many rounds as there was room for; the next one may stand there too, or a part of it."""
    size = file.stat().st_size
    whole = size - size_of_torn(program, file)
    is_full = size <= ROOM < whole + ROUND_BYTES
    tally.note("the room", None if is_full else f"{whole} of {size} bytes are whole, and {ROOM} may be")
    with opened(program, file) as server:
        came = round_of(server.talk(BATCH))
        tally.note("afterwards", None if came == kept + 1 else f"round {came} comes after {kept}")


def size_of_torn(program: str, file: Path) -> int:
    """How many bytes at the end are of a round that isn't whole."""
    words = run(program, "data", "--check", str(file)).out.split()
    return int(words[-1]) if b"torn" in words else 0


# ---- who comes while they are closed


def meanwhile(program: str, room: str, library: str, door: Door, tally: Tally) -> None:
    """A client that was accepted before all connections are closed, and whose thread starts only then: it is closed
    too, and the server ends though it stays."""
    file = fresh(room)
    with ExitStack() as stack:
        # (A thread ends the connections, a second port has one, and each client.)
        held = stack.enter_context(holding(library, 1 + door.is_second + 3))
        how = {"preexec_fn": partial(limit_files, ROOM), **held.how}
        server = stack.enter_context(door.serving(program, TREE, ("--data", str(file)), **how))
        asks, stays, late = (stack.enter_context(Asking(door, server.port, BATCH)) for _ in range(3))
        tally.note("its thread", None if held.is_held() else "none is held")
        rounds_kept(asks, tally)
        tally.note("who stays", f"came {came!r}" if (came := stays.stream.read()) else None)
        os.write(held.until, b"x")
        tally.note("who comes", f"came {came!r}" if (came := late.stream.read()) else None)
        try:
            status = server.started.wait(LONGEST)
        except subprocess.TimeoutExpired:
            status = None
        tally.note("the end", None if status == 3 else f"its status is {status}")


# ---- no thread that ends the connections


def unguarded(program: str, room: str, library: str, door: Door, tally: Tally) -> None:
    """The first thread, or the one after that of the log, is to end the connections once a round can't be kept: without
    it nobody is served, and the server ends."""
    for further, first, told in (((), 1, []), (("--verbose",), 2, ["level=error event=no-guard"])):
        numbers = {"FIRST_REFUSED": str(first), "LAST_REFUSED": str(first)}
        how = {"env": {**os.environ, "LD_PRELOAD": library, **numbers}}
        with door.serving(program, TREE, ("--data", str(fresh(room)), *further), **how) as server:
            end = ended(server)
        lines = [untimed(line) for line in end.err.decode().splitlines()]
        wanted = [*told, MEMORY.err.decode().strip()]
        is_well = (end.status, end.out, lines) == (MEMORY.status, b"", wanted)
        tally.note(f"{further}", None if is_well else f"wanted {wanted}; came {end}")
