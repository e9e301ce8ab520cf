"""Servers with `--verbose`: standard error has just the lines that docs/SESSIONS.md has, in order for each
connection, and sessions are as they are without the option."""

from __future__ import annotations

import json
import os
import re
import resource
import socket
import struct
import subprocess
import tempfile
import time
from concurrent.futures import ThreadPoolExecutor
from contextlib import ExitStack
from datetime import datetime
from functools import partial
from pathlib import Path
from random import Random

from batches import shelves
from server import HOST, NotListening, connected
from store import MOST_LINE, Store, compact
from web import BadResponse, Client, post, responses_in

from sweeps.connections import flood
from sweeps.crowds import is_silent
from sweeps.doors import DOORS, SLOTS, Door
from sweeps.idle import UNTAKEN, large_tree, narrow
from sweeps.metrics import metrics_at
from sweeps.preloaded import library_of
from sweeps.program import Tally, Try, short, until_well
from sweeps.talks import lines_of, note_replies
from sweeps.ten_lines import ADD, GET, TREE, WEIGHTS

TRIED = "lines on standard error, and replies beside them"
VERBOSE = ("--verbose",)
HINT = re.compile(r'hint=(?:[A-Za-z0-9-]+|"(?:[ !#-\[\]-~]|\\["\\]){1,400}")')
TIME = re.compile(r"[0-9]{4}-[0-9]{2}-[0-9]{2}T[0-9]{2}:[0-9]{2}:[0-9]{2}\.[0-9]{3}Z")
WORD = re.compile(r"[A-Za-z0-9-]+")
# Of the times of rounds, as `/metrics` has them.
BUCKET = re.compile(r'grove_round_duration_seconds_bucket\{le="([0-9.]+)"\}')
ALL_TIMES = "grove_round_duration_seconds_count"
# How many lines are written in a second, and how long it takes for another to begin.
MOST_LINES, NEXT_SECOND = 100, 1.2
TOP = Path(__file__).parents[2]
# Lines that are refused, each by one name.
SHAPE, NO_PATH, BAD_JSON = b'{"get":"/a"}\n', b'{"plan":[["get","/c"]]}\n', b"\n"
BAD_LENGTH = b'{"plan":[["get","/a",0]]}\n'
LINES = (ADD, GET, WEIGHTS, SHAPE, NO_PATH, BAD_JSON, BAD_LENGTH)
# The most bytes of a line that a hint looks into.
MOST_HINTED = 65_536
# How long a line on standard error, or a connection slot, may be waited for.
LONGEST = 60.0
# How long a minute is waited for, and how long after it is late, or what doesn't wait for it.
MINUTE, LATE = 60.0, 30.0
MINUTE_BEGINS = "level=info event=minute "
# Times to idle, how much sooner and later an end may be logged, and how often a machine with other work may be late.
IDLE_SECONDS, SOONER, LATER, FEW_TRIES = (1, 2), 0.01, 1.0, 5
# How many times as fast a clock may go, and what is logged of minutes by it: the lines of each, and what they come to.
CLOCK_TIMES = 30
# So much longer a minute may take than as many seconds that are waited for one by one.
LONGER = 3.5
# A line that takes far longer than others, of as many lists as a batch may have.
LONG_LINE = compact({"batch": [[["get", "/a"]] * 64] * 256}) + b"\n"
# Of 15 turns half are 8, and of 150 turns 149 are 99 of a hundred: so many may be short, or one too few.
MINUTES = (
    (ADD * 7 + SHAPE + LONG_LINE * 7, 0, 0, "lines=15 refused=1 connections=0 rounds=14 waits=0"),
    (ADD * 148 + LONG_LINE * 2, 2, 1, "lines=150 refused=0 connections=3 rounds=150 waits=0"),
    (ADD * 141 + SHAPE * 8 + LONG_LINE, 1, 0, "lines=150 refused=8 connections=4 rounds=142 waits=0"),
    (GET * 6 + WEIGHTS + LONG_LINE * 8, 0, 2, "lines=15 refused=0 connections=6 rounds=14 waits=0"),
    (WEIGHTS * 3 + SHAPE, 0, 0, "lines=4 refused=1 connections=6 rounds=0 waits=0"),
    (b"x" * (MOST_LINE + 1) + b"\n", 1, 0, "lines=1 refused=1 connections=7 rounds=0 waits=0"),
)
# What is told where there is no descriptor.
WANTS_DESCRIPTOR = "level=error event=no-descriptor"
# Ends a connection by a reset.
RESET = struct.pack("ii", 1, 0)


def tries(program: str, room: str) -> list[Try]:
    threads, clock = (library_of(name, room) for name in ("refuse_threads", "fast_clock"))
    at_each = {
        "one connection after the other": partial(in_turn, program, ()),
        "the same as objects": partial(in_turn, program, ("--log", "json")),
        "connections that idle": partial(idle, program),
        "connections that take nothing": partial(taking_nothing, program),
        "how long connections idle": partial(how_long, program),
        "connections without a slot": partial(busy, program),
        "connections without a slot that ask for the state": partial(state_told, program),
        "connections without a thread": partial(threadless, program, threads),
        "no descriptor, twice": partial(no_descriptor_again, program),
        "at an address of IPv6": partial(at_another_address, program),
        "about as many events as a second has": partial(full_seconds, program),
        "a line that is too long": partial(long_line, program),
        "a line that no hint looks into": partial(line_not_looked_into, program),
        "hints": partial(hints, program),
        "hints beside other options": partial(hints_beside, program),
        "standard error that fails": partial(no_errors, program),
        "without --verbose": partial(quiet, program),
    }
    pairs = [(door, name) for door in DOORS for name in at_each if door.is_http or "state" not in name]
    parts = [Try(f"{door.name}, {name}", partial(at_each[name], door)) for door, name in pairs]
    # (The longest one first: the others come beside it.)
    return [Try("minutes", partial(minutes, program)), *parts] + [
        Try("no thread for the second port", partial(no_second_port, program, threads)),
        Try("too many events", partial(too_many, program)),
        Try("many connections at once", partial(at_once, program)),
        Try("connections that break off", partial(broken_off, program, ())),
        Try("the same with a time to idle", partial(broken_off, program, ("--idle", "60"))),
        Try("a line without end", partial(endless, program)),
        Try("pages", partial(pages, program)),
        Try("pages that break off", partial(pages_broken_off, program)),
        Try("minutes on end", partial(minutes_on_end, program, clock)),
        Try("a minute with waits", partial(minute_with_waits, program, clock)),
    ]


class Telling:
    """A server with `--verbose` at a door, and what it has logged on standard error."""

    def __init__(
        self, program: str, further: tuple[str, ...] = (), document: bytes = TREE, door: Door = DOORS[0], **how
    ):
        self.errors = tempfile.NamedTemporaryFile(prefix="grove-told-")
        self.server = door.serving(program, document, (*VERBOSE, *further), stderr=self.errors, **how)

    def __enter__(self) -> Telling:
        self.server.__enter__()
        return self

    def __exit__(self, *_) -> None:
        self.server.__exit__()
        self.errors.close()

    def __getattr__(self, name: str):
        return getattr(self.server, name)

    def told(self) -> list[str]:
        """The events that are told by now, each in the form of text and without its time; but no minutes, one of which
        may be over at any moment."""
        return [line for line in self.events() if not line.startswith(MINUTE_BEGINS)]

    def minutes(self) -> list[str]:
        return [line for line in self.events() if line.startswith(MINUTE_BEGINS)]

    def events(self) -> list[str]:
        return [untimed(line) for line in self.lines()]

    def lines(self) -> list[str]:
        return [line.decode() for line in lines_of(Path(self.errors.name).read_bytes())]

    def told_of(self, count: int, seconds: float = LONGEST) -> list[str]:
        """The lines, once there are so many, or it took too long."""
        ends = time.monotonic() + seconds
        while len(self.told()) < count and time.monotonic() < ends:
            time.sleep(0.02)
        return self.told()


def untimed(line: str) -> str:
    """The fields of a line behind its time, which has to be one; an object's in the form of text. A line that is no
    event as it is."""
    if line.startswith("{"):
        fields = json.loads(line)
        line = " ".join(f"{name}={shown(name, value)}" for name, value in fields.items())
    time_of, _, rest = line.partition(" ")
    return rest if TIME.fullmatch(time_of.removeprefix("time=")) else line


def shown(name: str, value: str | int | float) -> str:
    """The value of a field in the form of text."""
    if not isinstance(value, str):
        return f"{value:.6f}" if name.endswith("_seconds") and isinstance(value, float) else str(value)
    return value if WORD.fullmatch(value) or name in ("time", "address") else json.dumps(value)


def compare(wanted: list[str], told: list[str], tally: Tally) -> None:
    """Whether these events came, in this order. One with `; hint` at its end has a hint there."""
    for number, (want, came) in enumerate(zip(wanted, told)):
        tally.note(f"line {number}", None if fits(want, came) else f"wanted {want!r}; came {came!r}")
    others = f"wanted {len(wanted)}; came {short('|'.join(told).encode())}"
    tally.note("the lines", None if len(wanted) == len(told) else others)


def fits(want: str, came: str) -> bool:
    if not want.endswith("; hint"):
        return want == came
    begins = want.removesuffix("; hint") + " "
    return came.startswith(begins) and HINT.fullmatch(came[len(begins) :]) is not None


def arrival(number: int, client: socket.socket) -> str:
    return f"level=info event=accepted connection={number} address={HOST}:{client.getsockname()[1]}"


def ended(number: int, lines: int, why: str) -> str:
    level = {"read": "warn", "write": "warn", "read-or-write": "warn", "memory": "error"}.get(why, "info")
    return f"level={level} event=ended connection={number} lines={lines} why={why}"


def refusal(number: int, line: int, name: str) -> str:
    return f"level=warn event=refused connection={number} line={line} error={name}; hint"


def turned_away(number: int) -> str:
    return f"level=warn event=turned-away connection={number}"


def refusals(number: int, replies: bytes, before: int = 0) -> list[str]:
    """What is logged of the replies, the first of which is to the line after so many."""
    values = [json.loads(reply) for reply in lines_of(replies)]
    return [refusal(number, before + at, value["error"]) for at, value in enumerate(values, 1) if "error" in value]


def ask(client: socket.socket, text: bytes, door: Door = DOORS[0]) -> bytes:
    """All replies to the lines, after which nothing more is sent."""
    client.sendall(door.sent(text))
    client.shutdown(socket.SHUT_WR)
    with client.makefile("rb") as replies:
        came = replies.read()
    return b"".join(response.body for response in responses_in(came, False)) if door.is_http else came


def done(number: int, lines: int, door: Door) -> str:
    """The end of a connection from which nothing more came."""
    return ended(number, lines, "requests-ended" if door.is_http else "input-ended")


# ---- sessions


def in_turn(program: str, further: tuple[str, ...], door: Door, tally: Tally) -> None:
    """Connections with seeded lines, the next of which comes once the end of the one before is told. Each event has its
    time."""
    random, store, wanted, began = Random("verbose"), Store(json.loads(TREE)), [], time.time()
    with Telling(program, further, door=door) as server:
        for number in range(1, 41):
            if number % 12 == 0:
                time.sleep(NEXT_SECOND)
            text = b"".join(random.choice(LINES) for _ in range(random.randrange(6)))
            text = text if random.randrange(4) else text + ADD[:-1]
            with connected(server.port) as client:
                came = ask(client, text, door)
                wanted.append(arrival(number, client))
            note_replies(store, text, came, f"connection {number}", tally)
            wanted += [*refusals(number, came), done(number, len(lines_of(text)), door)]
            server.told_of(len(wanted))
        compare(wanted, server.told_of(len(wanted)), tally)
        is_formed = [line.startswith("{") == bool(further) for line in server.lines()]
        tally.note("the form", None if all(is_formed) else "lines of both forms came")
        note_times(server.lines(), began, tally)


def note_times(lines: list[str], began: float, tally: Tally) -> None:
    """Each line has the time at which it came, to the millisecond: none is earlier than the one before."""
    each = [json.loads(line)["time"] if line.startswith("{") else line.split()[0][len("time=") :] for line in lines]
    times = [datetime.fromisoformat(text.replace("Z", "+00:00")).timestamp() for text in each]
    is_well = began - 0.001 <= times[0] and times == sorted(times) and times[-1] <= time.time()
    tally.note("the times", None if is_well else f"from {each[0]} to {each[-1]}")
    # (Some forty connections don't all come in the first millisecond of a second.)
    tally.note("their milliseconds", None if len({text[-4:] for text in each}) > 1 else f"{each[0]}, {each[-1]}")


def too_many(program: str, tally: Tally) -> None:
    """Of a second with too many events so many are told, and then how many others there were. It is tried until a
    machine with other work refuses so many lines in a second."""
    until_well(partial(some_left_out, program, tally), "what is left out", tally)


def some_left_out(program: str, tally: Tally) -> str | None:
    """Whether nothing was left out of what a client's refused lines bring."""
    count = 10 * MOST_LINES
    with Telling(program) as server:
        with connected(server.port) as client:
            came = ask(client, SHAPE * count)
            wanted = count + 2
        tally.note("the replies", None if len(lines_of(came)) == count else f"{len(lines_of(came))} came")
        ends = time.monotonic() + LONGEST
        while events_in(server.told()) < wanted and time.monotonic() < ends:
            time.sleep(0.1)
        told, lines = server.told(), server.lines()
    tally.note("the events", None if events_in(told) == wanted else f"wanted {wanted}; came {events_in(told)}")
    seconds = [line.split(".")[0] for line in lines]
    most = max(seconds.count(second) for second in seconds)
    if not any("event=left-out" in line for line in told):
        tally.note("a second", None if most <= MOST_LINES else f"it has {most} lines")
        return "nothing is"
    tally.note("a full second", None if most == MOST_LINES else f"it has {most} lines")
    return None


def full_seconds(program: str, door: Door, tally: Tally) -> None:
    """Of as many events as a second has, or one less, all are told, and of one or two more how many were left out. It
    is tried until all of them came in one second."""
    for more in (-1, 0, 1, 2):
        until_well(partial(full_second, program, door, MOST_LINES + more, tally), f"{more} more", tally)


def full_second(program: str, door: Door, count: int, tally: Tally) -> str | None:
    """Whether so many events, the first of which is an arrival, came in more than one second."""
    with Telling(program, door=door) as server, connected(server.port) as client, client.makefile("rb") as replies:
        wanted = [arrival(1, client), *(refusal(1, at, "shape") for at in range(1, count))][:MOST_LINES]
        client.sendall(door.sent(SHAPE * (count - 1)))
        came = [door.reply_in(replies) for _ in range(1 if door.is_http else count - 1)]
        if count > MOST_LINES:
            wanted.append(f"level=warn event=left-out events={count - MOST_LINES}")
        tally.note("the replies", None if b"".join(came).count(b"shape") == count - 1 else f"came {came}")
        server.told_of(len(wanted))
        time.sleep(NEXT_SECOND)
        told, seconds = server.told(), {line.split(".")[0] for line in server.lines()[:MOST_LINES]}
    if len(seconds) > 1:
        return "they came in more than one second"
    compare(wanted, told, tally)
    return None


def events_in(told: list[str]) -> int:
    """How many events the lines tell of."""
    left_out = [re.fullmatch(r"level=warn event=left-out events=([0-9]+)", line) for line in told]
    return sum(int(found[1]) if found else 1 for found in left_out)


def at_once(program: str, tally: Tally) -> None:
    """Sixteen connections at once, several times; the lines of each are in order, whatever stands between them."""
    random = Random("at once")
    with Telling(program) as server:
        wanted = {}
        for _ in range(5):
            with ExitStack() as room:
                clients = [room.enter_context(connected(server.port)) for _ in range(SLOTS)]
                # (So that no second has too many events.)
                texts = [b"".join(random.choice(LINES) for _ in range(4)) for _ in clients]
                time.sleep(NEXT_SECOND)
                for client, text in zip(clients, texts):
                    client.sendall(text)
                for client, text in zip(clients, texts):
                    wanted[client.getsockname()[1]] = (len(lines_of(text)), ask(client, b""))
            server.told_of(len(wanted) * 2 + sum(reply.count(b'{"error"') for _, reply in wanted.values()))
        told = server.told()
        for port, (lines, came) in wanted.items():
            number = number_of(port, told)
            ends = ended(number, lines, "input-ended")
            own = [line for line in told if re.search(rf" connection={number}\b", line)]
            comes = f"level=info event=accepted connection={number} address={HOST}:{port}"
            compare([comes, *refusals(number, came), ends], own, tally)
        numbers = sorted(number_of(port, told) for port in wanted)
        tally.note("the numbers", None if numbers == list(range(1, len(wanted) + 1)) else f"came {numbers}")


def number_of(port: int, told: list[str]) -> int:
    """The number of the connection from this port. (No two of them had the same one.)"""
    for line in told:
        found = re.fullmatch(rf"level=info event=accepted connection=([0-9]+) address={HOST}:{port}", line)
        if found:
            return int(found[1])
    raise AssertionError(f"no connection is from {port}")


def long_line(program: str, door: Door, tally: Tally) -> None:
    """A line that is too long, between others, is counted and logged too."""
    text = ADD + b"x" * (MOST_LINE + 1) + b"\n" + SHAPE
    why = f"the line has more than the {MOST_LINE} bytes that are taken, and wasn't looked into"
    long = f'level=warn event=refused connection=1 line=2 error=long-line hint="{why}"'
    with Telling(program, door=door) as server, connected(server.port) as client:
        came = ask(client, text, door)
        wanted = [arrival(1, client), long, refusal(1, 3, "shape"), done(1, 3, door)]
        tally.note("the names", None if came.count(b"long-line") == 1 else f"came {came!r}")
        compare(wanted, server.told_of(len(wanted)), tally)


def line_not_looked_into(program: str, door: Door, tally: Tally) -> None:
    """A hint looks into a line of so many bytes, and of a line of one more it says that it doesn't."""
    frame = len(b'{"batch":[[[""]]]}')
    texts = [b'{"batch":[[["' + b"x" * (MOST_HINTED + more - frame) + b'"]]]}\n' for more in (0, 1)]
    why = f"the line has more than the {MOST_HINTED} bytes that a hint looks into"
    unread = f'level=warn event=refused connection=1 line=2 error=shape hint="{why}"'
    with Telling(program, door=door) as server, connected(server.port) as client:
        came = ask(client, b"".join(texts), door)
        wanted = [arrival(1, client), refusal(1, 1, "shape"), unread, done(1, 2, door)]
        compare(wanted, server.told_of(len(wanted)), tally)
        told = server.told()[1]
    tally.note("the replies", None if came.count(b'{"error":"shape"}') == 2 else f"came {came!r}")
    tally.note("the first hint", None if "a hint looks into" not in told else f"came {told!r}")


def broken_off(program: str, further: tuple[str, ...], tally: Tally) -> None:
    """A connection that is reset, and one that takes no replies and is closed."""
    with Telling(program, further) as server:
        with connected(server.port) as client, client.makefile("rb") as replies:
            client.sendall(ADD + SHAPE)
            came = replies.readline() + replies.readline()
            wanted = [arrival(1, client), *refusals(1, came), ended(1, 2, "read")]
            client.setsockopt(socket.SOL_SOCKET, socket.SO_LINGER, RESET)
        compare(wanted, server.told_of(len(wanted)), tally)
        with connected(server.port) as client:
            flood(client, 1.0)
        last = server.told_of(len(wanted) + 2)[-1]
        is_well = re.fullmatch(r"level=warn event=ended connection=2 lines=[0-9]+ why=write", last)
        tally.note("the flood", None if is_well else f"came {last!r}")


def idle(program: str, door: Door, tally: Tally) -> None:
    """A connection that says nothing, one that says a line and then a piece of one, and one that says nothing after a
    line."""
    with Telling(program, ("--idle", "1"), door=door) as server:
        with connected(server.port) as client:
            client.recv(1)
            wanted = [arrival(1, client), ended(1, 0, "idle idle_seconds=1")]
        compare(wanted, server.told_of(2), tally)
    # (A machine with other work may take a second to send the line.)
    with Telling(program, ("--idle", "3"), door=door) as server:
        wanted = []
        for number, behind in enumerate((SHAPE[:5], b""), 1):
            with connected(server.port) as client, client.makefile("rb") as replies:
                client.sendall(door.sent(ADD) + door.sent(SHAPE)[: len(behind)])
                came = door.reply_in(replies)
                tally.note("the reply", None if came.startswith(b'{"places"') else f"came {came!r}")
                tally.note("behind it", None if replies.read() == b"" else "something comes")
                wanted += [arrival(number, client), ended(number, 1, "idle idle_seconds=3")]
            server.told_of(len(wanted))
        compare(wanted, server.told_of(len(wanted)), tally)


def taking_nothing(program: str, door: Door, tally: Tally) -> None:
    """A connection that asks for megabytes and reads nothing idles too."""
    with Telling(program, ("--idle", "1"), document=large_tree(), door=door) as server:
        with narrow(server.port) as client:
            client.sendall(UNTAKEN[door.protocol][0])
            came = server.told_of(2)[-1]
        wanted = r"level=info event=ended connection=1 lines=[0-9]+ why=idle idle_seconds=1"
        tally.note("the end", None if re.fullmatch(wanted, came) else f"came {came!r}")


def how_long(program: str, door: Door, tally: Tally) -> None:
    """By the times of the log a connection idles as long as it may, and little longer: one that says nothing, and one
    that says nothing behind a line. One that takes nothing may be waited for twice: until a part of a reply is taken,
    and then the next. It is tried until a machine with other work is in time."""
    for seconds in IDLE_SECONDS:
        until_well(partial(idled, program, door, seconds, tally), f"{seconds} s", tally, FEW_TRIES)


def idled(program: str, door: Door, seconds: int, tally: Tally) -> str | None:
    """How long a connection idled, if that was too long."""
    with Telling(program, ("--idle", str(seconds)), document=large_tree(), door=door) as server, ExitStack() as room:
        clients = [room.enter_context(how(server.port)) for how in (connected, connected, narrow)]
        clients[1].sendall(door.sent(ADD))
        clients[2].sendall(UNTAKEN[door.protocol][0])
        server.told_of(2 * len(clients))
        times = times_of(server.lines())
    for number, most in enumerate((seconds, seconds, 2 * seconds), 1):
        took = times.get(number, 0.0)
        tally.note(f"connection {number}", None if took >= seconds - SOONER else f"it idled for {took:.3f} s")
        if took > most + LATER:
            return f"connection {number} idled for {took:.3f} s"
    return None


def times_of(lines: list[str]) -> dict[int, float]:
    """How long it took from the arrival of each connection to its end, by the log."""
    came, took = dict[int, datetime](), dict[int, float]()
    for line in lines:
        found = re.match(r"time=(\S+)Z level=info event=(accepted|ended) connection=([0-9]+) ", line)
        if found:
            time_of, number = datetime.fromisoformat(found[1]), int(found[3])
            came.setdefault(number, time_of)
            took[number] = (time_of - came[number]).total_seconds()
    return took


def endless(program: str, tally: Tally) -> None:
    """A connection that goes on sending, and never a line feed, idles too."""
    with Telling(program, ("--idle", "1")) as server, connected(server.port) as client:
        wanted = [arrival(1, client), ended(1, 0, "idle idle_seconds=1")]
        ends = time.monotonic() + LONGEST
        try:
            while time.monotonic() < ends:
                client.sendall(b"x" * MOST_LINE)
        except ConnectionError:
            pass
        compare(wanted, server.told_of(2), tally)


def busy(program: str, door: Door, tally: Tally) -> None:
    """The 17th connection and the 18th find no slot; one after them has that of the first."""
    wanted = []
    with Telling(program, ("--busy",), door=door) as server, ExitStack() as room:
        clients = []
        for number in range(1, SLOTS + 1):
            clients.append(room.enter_context(connected(server.port)))
            wanted.append(arrival(number, clients[-1]))
            server.told_of(number)
        for number in (SLOTS + 1, SLOTS + 2):
            with connected(server.port) as late:
                late.recv(1000)
                wanted += [arrival(number, late), turned_away(number)]
            server.told_of(len(wanted))
        clients[0].close()
        wanted.append(done(1, 0, door))
        compare(wanted, server.told_of(len(wanted)), tally)
        admitted(server, door, SLOTS + 3, wanted)
        compare(wanted, server.told_of(len(wanted)), tally)


def state_told(program: str, door: Door, tally: Tally) -> None:
    """All slots are taken. Who asks for the state comes and goes as others do, and has no line answered."""
    wanted = []
    with Telling(program, door=door) as server, ExitStack() as room:
        for number in range(1, SLOTS + 1):
            wanted.append(arrival(number, room.enter_context(connected(server.port))))
            server.told_of(number)
        for number, path in enumerate(("/health", "/metrics", "/health?x"), SLOTS + 1):
            with Client(server.port) as client:
                wanted += [arrival(number, client.connection), ended(number, 0, "requests-ended")]
                tally.note(path, None if client.get(path).status == 200 else "it isn't told")
            server.told_of(len(wanted))
        compare(wanted, server.told_of(len(wanted)), tally)


def admitted(server: Telling, door: Door, number: int, wanted: list[str]) -> None:
    """Comes until there is a slot: its end is logged a moment before the slot is free."""
    ends = time.monotonic() + LONGEST
    while time.monotonic() < ends:
        with connected(server.port) as client:
            wanted.append(arrival(number, client))
            if not is_busy(client, door):
                wanted.append(done(number, 1, door))
                return
        wanted.append(turned_away(number))
        number += 1
        time.sleep(0.05)


def is_busy(client: socket.socket, door: Door) -> bool:
    """Does a client that asks something get the reply that there is no slot?"""
    try:
        return b"busy" in ask(client, ADD, door)
    except (ConnectionError, BadResponse):
        return True


def threadless(program: str, library: str, door: Door, tally: Tally) -> None:
    """Connections for which no thread can be started, between others. The first thread logs minutes, and the second
    one accepts at a second port."""
    first = 4 if door.is_second else 3
    numbers = {"FIRST_REFUSED": str(first), "LAST_REFUSED": str(first + 2)}
    wanted = []
    with Telling(program, door=door, env={**os.environ, "LD_PRELOAD": library, **numbers}) as server:
        for number in range(1, 6):
            is_refused = 2 <= number <= 4
            why = threadless_line(number) if is_refused else done(number, 1, door)
            with connected(server.port) as client:
                came = b"" if is_refused and client.recv(1) == b"" else ask(client, ADD, door)
                tally.note(f"connection {number}", None if bool(came) != is_refused else f"came {came!r}")
                wanted += [arrival(number, client), why]
            server.told_of(len(wanted))
        compare(wanted, server.told_of(len(wanted)), tally)


def no_second_port(program: str, library: str, tally: Tally) -> None:
    """No thread can be started that accepts at the second port: sessions are served, and nobody there."""
    surroundings = {**os.environ, "LD_PRELOAD": library, "FIRST_REFUSED": "2", "LAST_REFUSED": "2"}
    with Telling(program, door=DOORS[2], env=surroundings) as server, connected(server.port) as other:
        other.sendall(DOORS[2].sent(ADD))
        with connected(server.first) as client:
            came = ask(client, ADD)
            wanted = ["level=error event=no-http", arrival(1, client), ended(1, 1, "input-ended")]
        tally.note("the reply", None if len(lines_of(came)) == 1 else f"came {came!r}")
        compare(wanted, server.told_of(len(wanted)), tally)
        tally.note("the other port", None if is_silent(other) else "it is answered")


def threadless_line(number: int) -> str:
    return f"level=error event=no-thread connection={number}"


def no_descriptor_again(program: str, door: Door, tally: Tally) -> None:
    """A descriptor is missing, then connections are accepted, and then one is missing again: this is logged both
    times."""
    _, most = resource.getrlimit(resource.RLIMIT_NOFILE)
    with Telling(program, door=door) as server:
        for times in (1, 2):
            with connected(server.port) as client:
                ask(client, ADD, door)
            server.told_of(4 * times - 2 + times - 1)
            resource.prlimit(server.started.pid, resource.RLIMIT_NOFILE, (door.descriptors, most))
            with connected(server.port) as client:
                fault = None if wants_descriptor(server, times) else f"it isn't told: {server.told()}"
                resource.prlimit(server.started.pid, resource.RLIMIT_NOFILE, (most, most))
                came = ask(client, ADD, door)
            tally.note(f"time {times}", fault or (None if len(lines_of(came)) == 1 else f"came {came!r}"))


def wants_descriptor(server: Telling, times: int) -> bool:
    """Is it logged so often, before long, that there is no descriptor?"""
    ends = time.monotonic() + LATE
    while server.told().count(WANTS_DESCRIPTOR) < times and time.monotonic() < ends:
        time.sleep(0.02)
    return server.told().count(WANTS_DESCRIPTOR) == times


def at_another_address(program: str, door: Door, tally: Tally) -> None:
    """At an address of IPv6 the other side is logged in brackets; nothing is tried if this machine has none."""
    try:
        with Telling(program, ("--bind", "::1"), door=door) as server, connected(server.port, "::1") as client:
            ask(client, ADD, door)
            port = client.getsockname()[1]
            wanted = [f"level=info event=accepted connection=1 address=[::1]:{port}", done(1, 1, door)]
            compare(wanted, server.told_of(2), tally)
    except NotListening as error:
        tally.note("the server", None if error.ended[0] == 3 else str(error))


# ---- hints


def hints(program: str, door: Door, tally: Tally) -> None:
    """Each line of `line_hints.json` is refused by its name, with its hint in the log, word for word. With `--hints` it
    is in the reply too, and else not."""
    rows = json.loads((TOP / "tests/line_hints.json").read_text())
    plain = [compact({"error": row["error"]}) for row in rows]
    hinted = [compact({"error": row["error"], "hint": row["hint"].removeprefix("hint: ")}) for row in rows]
    for words, wanted in (((), plain), (("--hints",), hinted), (("--log", "json"), plain)):
        note_hints(program, door, rows, words, wanted, tally)


def note_hints(
    program: str, door: Door, rows: list[dict], words: tuple[str, ...], replies: list[bytes], tally: Tally
) -> None:
    text = "".join(row["line"] + "\n" for row in rows).encode()
    document = (TOP / "examples/two-leaves.json").read_bytes()
    with Telling(program, words, document=document, door=door) as server:
        with connected(server.port) as client:
            wanted = [arrival(1, client)]
            came = ask(client, text, door)
        wanted += [refused_row(at, row) for at, row in enumerate(rows, 1)]
        wanted.append(done(1, len(rows), door))
        compare(wanted, server.told_of(len(wanted)), tally)
    tally.note(f"the replies {words}", None if lines_of(came) == replies else f"came {came[:2000]!r}")


def hints_beside(program: str, door: Door, tally: Tally) -> None:
    """Whatever else a server is asked for, a refusal has its hint in the reply with `--hints`, and else not."""
    options = [(), ("--idle", "600"), ("--busy",), ("--verbose",), ("--verbose", "--log", "json")]
    options += [("--idle", "600", "--busy", "--verbose")] + [("--host", "grove.example")] * door.is_http
    for further in options:
        for words, wanted in (((), {"error"}), (("--hints",), {"error", "hint"})):
            with door.serving(program, further=(*further, *words), stderr=subprocess.DEVNULL) as server:
                with connected(server.port) as client:
                    came = ask(client, SHAPE, door)
            tally.note(f"{further} {words}", None if json.loads(came).keys() == wanted else f"came {came!r}")


def refused_row(at: int, row: dict) -> str:
    hint = shown("hint", row["hint"].removeprefix("hint: "))
    return f"level=warn event=refused connection=1 line={at} error={row['error']} hint={hint}"


# ---- pages


def pages(program: str, tally: Tally) -> None:
    """Requests over HTTP: lines in bodies are counted over the whole connection."""
    with Telling(program, door=DOORS[1]) as server:
        with Client(server.port) as client:
            wanted = [arrival(1, client.connection)]
            lines = 0
            client.get("/document")
            for text in (ADD + SHAPE, BAD_JSON, b"", b"x" * (MOST_LINE + 1) + b"\n" + NO_PATH):
                response = client.post(text)
                wanted += refusals(1, response.body, lines) if text else []
                lines += len(lines_of(text)) if text else 0
        wanted.append(ended(1, lines, "requests-ended"))
        compare(wanted, server.told_of(len(wanted)), tally)


def pages_broken_off(program: str, tally: Tally) -> None:
    """A connection that is reset after a request."""
    with Telling(program, ("--idle", "60"), door=DOORS[1]) as server:
        with Client(server.port) as client:
            client.post(ADD)
            wanted = [arrival(1, client.connection), ended(1, 1, "read-or-write")]
            # (A part of a request, so that the connection may not end here.)
            client.send(post(ADD)[:9])
            client.connection.setsockopt(socket.SOL_SOCKET, socket.SO_LINGER, RESET)
        compare(wanted, server.told_of(2), tally)


# ---- minutes


def minutes(program: str, tally: Tally) -> None:
    """A minute in which lines were answered is logged, once it is over, with what was there in it at both ports."""
    text = ADD + SHAPE + GET + NO_PATH + WEIGHTS
    started = time.monotonic()
    with Telling(program, door=DOORS[2]) as server, ExitStack() as room:
        seconds = room.enter_context(ThreadPoolExecutor(1)).submit(a_minute)
        before = metrics_at(server.port)
        with connected(server.first) as client:
            ask(client, text)
        stay(room, server, 2, 3)
        wanted = f"lines=5 refused=2 connections=5 rounds=2 waits=0{times_between(before, metrics_at(server.port))}"
        told = minutes_told(server, 1, MINUTE + LATE)
        after = time.monotonic() - started
        tally.note("the event", None if told == [MINUTE_BEGINS + wanted] else f"wanted {wanted!r}; came {told}")
        is_well = MINUTE - 2 < after < seconds.result() + LONGER
        tally.note("the minute", None if is_well else f"it took {after:.1f} s")


def a_minute() -> float:
    """How long it takes to wait for each second of a minute."""
    started = time.monotonic()
    for _ in range(int(MINUTE)):
        time.sleep(1)
    return time.monotonic() - started


def stay(room: ExitStack, server: Telling, sessions: int, requests: int) -> None:
    """So many connections come to each port of a server, and stay."""
    for port, count in ((server.first, sessions), (server.port, requests)):
        for _ in range(count):
            room.enter_context(connected(port))


def minutes_told(server: Telling, count: int, seconds: float) -> list[str]:
    """The minutes that are logged, once there are so many, or it took too long."""
    ends = time.monotonic() + seconds
    while True:
        told = server.minutes()
        if len(told) >= count or time.monotonic() > ends:
            return told
        time.sleep(0.02)


def times_between(before: dict[str, float], after: dict[str, float]) -> str:
    """The fields of a minute for how long its turns took, by what `/metrics` had before and after them: the least
    bounds that half of them, and 99 of 100, were within. Without turns there are none."""
    count = after[ALL_TIMES] - before[ALL_TIMES]
    if not count:
        return ""
    found = {key: BUCKET.fullmatch(key) for key in after}
    within = {float(bound[1]): after[key] - before[key] for key, bound in found.items() if bound}
    bounds = [
        min((bound for bound, least in within.items() if least * 100 >= count * share), default=max(within))
        for share in (50, 99)
    ]
    return f" round_median_seconds={bounds[0]:.6f} round_p99_seconds={bounds[1]:.6f}"


def minutes_on_end(program: str, library: str, tally: Tally) -> None:
    """By a clock that goes faster: of each minute just its own lines are logged, and of a quiet one nothing. It is
    tried until a machine with other work has had the lines of each minute in it."""
    until_well(partial(some_minutes, program, fast(library), tally), "minutes", tally)


def fast(library: str) -> dict[str, str]:
    return {**os.environ, "LD_PRELOAD": library, "CLOCK_TIMES": str(CLOCK_TIMES)}


def some_minutes(program: str, surroundings: dict[str, str], tally: Tally) -> str | None:
    """What is wrong with what is logged of minutes with lines, after each of which comes a quiet one. As objects they
    have the same fields."""
    with Telling(program, ("--log", "json"), door=DOORS[2], env=surroundings) as server, ExitStack() as room:
        for number, (text, sessions, requests, wanted) in enumerate(MINUTES, 1):
            before = metrics_at(server.port)
            with connected(server.first) as client:
                ask(client, text)
            stay(room, server, sessions, requests)
            wanted = f"{MINUTE_BEGINS}{wanted}{times_between(before, metrics_at(server.port))}"
            told = minutes_told(server, number, LATE)
            if told[number - 1 :] != [wanted]:
                return f"wanted {wanted!r}; came {told[number - 1 :]}"
            tally.note(wanted, None)
            time.sleep(1.5 * MINUTE / CLOCK_TIMES)
    return None


def minute_with_waits(program: str, library: str, tally: Tally) -> None:
    """A batch in which lists wait for several nodes: of the minute the sum of what `weights` gives then is logged."""
    until_well(partial(some_waits, program, fast(library), tally), "waits", tally)


def some_waits(program: str, surroundings: dict[str, str], tally: Tally) -> str | None:
    batch = shelves(Random("waits of a minute"))
    document = compact({"nodes": batch["nodes"]})
    with Telling(program, document=document, workers=4, env=surroundings) as server:
        with connected(server.port) as client:
            came = ask(client, compact({"batch": batch["lists"]}) + b"\n" + WEIGHTS)
        waits = json.loads(lines_of(came)[-1])["waits"]
        wanted = f"{MINUTE_BEGINS}lines=2 refused=0 connections=0 rounds=1 waits={sum(waits)} round_median_"
        told = minutes_told(server, 1, LATE)
    if len(told) != 1 or not told[0].startswith(wanted):
        return f"wanted {wanted!r}; came {told}"
    tally.note("the minute", None)
    return None if sum(count > 0 for count in waits) > 1 else f"the waits are {waits}"


# ---- standard error itself


def no_errors(program: str, door: Door, tally: Tally) -> None:
    """Standard error that is full, closed, or a pipe that nobody reads any more: lines are answered as ever."""
    with open("/dev/full", "wb") as full:
        answered(program, door, "full", tally, stderr=full)
    answered(program, door, "closed", tally, preexec_fn=partial(os.close, 2))
    reader, writer = os.pipe()
    os.close(reader)
    try:
        answered(program, door, "a broken pipe", tally, stderr=writer)
    finally:
        os.close(writer)


def answered(program: str, door: Door, where: str, tally: Tally, **how) -> None:
    store = Store(json.loads(TREE))
    text = b"".join(LINES)
    with door.serving(program, further=VERBOSE, **how) as server:
        for number in range(SLOTS + 4):
            with connected(server.port) as client:
                note_replies(store, text, ask(client, text, door), f"{where}, connection {number}", tally)


def quiet(program: str, door: Door, tally: Tally) -> None:
    """Without the option nothing is logged."""
    store = Store(json.loads(TREE))
    text = b"".join(LINES)
    with door.serving(program) as server, connected(server.port) as client:
        note_replies(store, text, ask(client, text, door), "a connection", tally)
    tally.note("standard error", None if server.rest[1] == b"" else f"came {server.rest[1]!r}")
