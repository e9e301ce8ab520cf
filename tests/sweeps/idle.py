"""Servers with `--idle`, at each port: clients that say nothing or take no replies lose their slots, and of
lines those that drip bytes; nobody else does, and a line that comes in pieces, however long, is answered."""

from __future__ import annotations

import itertools
import json
import os
import socket
import time
from collections.abc import Callable
from concurrent.futures import ThreadPoolExecutor
from contextlib import ExitStack, suppress
from functools import partial
from pathlib import Path
from typing import BinaryIO

from pages import MOST_KEPT
from server import HOST, PIECE, Serving, connected
from store import MOST_LINE, Store
from web import request

from sweeps.doors import DOORS, SLOTS, Door
from sweeps.program import Tally, Try, until_well
from sweeps.talks import note_replies
from sweeps.ten_lines import ADD, TREE, WEIGHTS

TRIED = "connections, and lines beside them"
IDLE = ("--idle", "1")
IDLE_SECONDS = 1.0
# A time to idle that no client reaches who means to go on.
LONG_IDLE = ("--idle", "60")
# A connection slot is lost after a second. A machine may stand still for a while; but more than this is too long.
LONGEST = 60.0
# So much sooner a connection may seem to be closed by the clock here, and no sooner.
SOONEST = 0.9
# How often a byte is sent, and the time to idle.
DRIPS = ((0.1, 1), (1.0, 3))
# What is sent so, each byte behind the last one.
DRIPPED = {"tcp": b" ", "http": b"GET /nodes HTTP/1.1\r\nhost: localhost\r\nx: "}
# How many bytes a line has, its line feed not counted, and in how many pieces it is sent at most. The last is too long.
SIZES = (50, 4_000, 4_096, 5_000, 10_000, 100_000, 1_000_000, MOST_LINE, MOST_LINE + 1)
PIECES = (1, 1_000, 4_096, 16_384, MOST_LINE + 2)
MOST_PIECES = 5_000
# So many pieces are sent apart, so that each is read by itself.
FEW_PIECES, APART = 12, 0.002
# What clients ask in turn who take no replies, which are more bytes than the system keeps for them. (The weights are
# those of a tree of so many nodes, and a round has been done.)
LOOKED_AT = ("/", "/nodes?after=0", "/metrics?nodes=1")
UNTAKEN = {"tcp": [2_400 * WEIGHTS], "http": [400 * request("GET", path) for path in LOOKED_AT]}
NODES, LEAST_UNTAKEN = 500, 8_000_000
# For longer than a connection without a slot is looked at for its first bytes.
WITHOUT_SLOT = 1.3
# How much room the client's end of such a connection has.
ROOM = 4096
# A time to idle of which twice is told from once on a machine with other work, and how much later the end may come.
TWICE_TOLD, LATER, SOONER = 2, 1.0, 0.3
# After which part of it a client takes so many bytes, which are more than the system keeps for a client that takes
# nothing, and how much room its end has for them.
TAKES_AFTER, TAKES, TAKES_ROOM = 0.6, 1_000_000, 65_536


def tries(program: str, room: str) -> list[Try]:
    both = {
        "clients that say nothing": silent,
        "clients that take no replies": taking_nothing,
        "how long nothing may be taken": taking_late,
        "clients that say nothing after a line": silent_later,
        "clients that go on": honest,
        "clients that begin a line behind each": overlapping,
        "clients that waited for a slot": after_waiting,
        "long lines in pieces": in_pieces,
        "without --idle": unlimited,
    }
    parts = [Try(f"{door.name}, {name}", partial(both[name], program, door)) for door in DOORS for name in both]
    drips = [(door, pace, idle) for door in DOORS for pace, idle in DRIPS]
    return parts + [
        Try(f"{door.name}, a byte each {pace:g} s", partial(dripping, program, door, pace, idle))
        for door, pace, idle in drips
    ]


# ---- lines, at each door


def serving(program: str, door: Door, idle: tuple[str, ...] = IDLE, document: bytes = TREE) -> Serving:
    return door.serving(program, document, idle)


def note_asked(store: Store, door: Door, port: int, where: str, tally: Tally) -> None:
    """A new client's line is answered, and that in time."""
    started = time.monotonic()
    with connected(port) as client, client.makefile("rb") as stream:
        client.sendall(door.sent(ADD))
        note_replies(store, ADD, door.reply_in(stream), where, tally)
    after = time.monotonic() - started
    tally.blame(f"{where}'s wait", None if after < LONGEST else f"it waited for {after:.1f} s")


def closes_within(connection: socket.socket, seconds: float) -> bool:
    """Does the other side close, with nothing said, before so long?"""
    connection.settimeout(seconds)
    try:
        return connection.recv(1) == b""
    except socket.timeout:
        return False
    except ConnectionError:
        return True


def note_after(has_closed: bool, after: float, soonest: float, where: str, tally: Tally) -> None:
    fault = None if has_closed else f"it has its slot after {after:.1f} s"
    if has_closed and after < soonest:
        fault = f"it lost its slot after {after:.2f} s"
    tally.note(where, fault)


# ---- who loses a connection slot


def silent(program: str, door: Door, tally: Tally) -> None:
    """Sixteen take all slots and say nothing, or a piece of a line; the 17th is served once they have lost them."""
    store = Store(json.loads(TREE))
    with serving(program, door) as server, ExitStack() as room:
        started = time.monotonic()
        clients = [room.enter_context(connected(server.port)) for _ in range(SLOTS)]
        for client in clients[::2]:
            client.sendall(door.sent(ADD)[:7])
        note_asked(store, door, server.port, "the 17th", tally)
        for number, client in enumerate(clients):
            has_closed = closes_within(client, max(0.1, started + LONGEST - time.monotonic()))
            note_after(has_closed, time.monotonic() - started, SOONEST, f"client {number}", tally)


def dripping(program: str, door: Door, pace: float, idle: int, tally: Tally) -> None:
    """Sixteen take all slots and send a byte so often, and never a whole line or request, or none but for their first;
    the 17th is served."""
    store = Store(json.loads(TREE))
    with ThreadPoolExecutor(SLOTS) as pool, ExitStack() as room:
        server = room.enter_context(serving(program, door, ("--idle", str(idle))))
        pairs = [opened(room, server.port) for _ in range(SLOTS)]
        since = [answered_since(store, door, pair, number % 2, tally) for number, pair in enumerate(pairs)]
        text = DRIPPED[door.protocol]
        drips = [pool.submit(drip, client, text, pace, started) for (client, _), started in zip(pairs, since)]
        note_asked(store, door, server.port, "the 17th", tally)
        for number, dripped in enumerate(drips):
            has_closed, after = dripped.result()
            note_after(has_closed, after, idle - 0.1, f"client {number}", tally)


def drip(client: socket.socket, text: bytes, pace: float, started: float) -> tuple[bool, float]:
    """Sends a byte of the text so often. Has the other side closed before long, and how long after the start?"""
    for number in range(round(LONGEST / pace)):
        try:
            client.sendall(text[number : number + 1] or b"x")
            has_closed = closes_within(client, pace)
        except ConnectionError:
            has_closed = True
        if has_closed:
            return True, time.monotonic() - started
    return False, time.monotonic() - started


def taking_nothing(program: str, door: Door, tally: Tally) -> None:
    """Sixteen take all slots, ask for megabytes and read nothing; the 17th is served. When they read at last, after the
    server has closed all of them, they have a part of what they asked, and then the end."""
    tree = large_tree()
    store = Store(json.loads(tree))
    with serving(program, door, document=tree) as server, ExitStack() as room:
        note_asked(store, door, server.port, "the first", tally)
        until(lambda: sockets_of(server.started.pid) == door.sockets)
        clients = [room.enter_context(narrow(server.port)) for _ in range(SLOTS)]
        for client, text in zip(clients, itertools.cycle(UNTAKEN[door.protocol])):
            client.sendall(text)
        note_asked(store, door, server.port, "the 17th", tally)
        until(lambda: sockets_of(server.started.pid) <= door.sockets)
        for number, client in enumerate(clients):
            came = taken_before(client, time.monotonic() + LONGEST)
            fault = "it has its slot" if came is None else f"it has {came} bytes that it took too late"
            tally.note(f"client {number}", None if came is not None and came < LEAST_UNTAKEN else fault)


def taking_late(program: str, door: Door, tally: Tally) -> None:
    """A client that takes nothing of its replies, and one that takes some of them late, is ended so long after the last
    byte that was taken. It is tried until a machine with other work has ended each in time."""
    with serving(program, door, ("--idle", str(TWICE_TOLD)), large_tree()) as server:
        for takes in (0, TAKES):
            until_well(partial(end_of_taker, server, door, takes, tally), f"who takes {takes} bytes", tally, 5)


def end_of_taker(server: Serving, door: Door, takes: int, tally: Tally) -> str | None:
    """A client asks for megabytes and takes so many bytes, late, if any. When its connection ends, if that is late."""
    with narrow(server.port, TAKES_ROOM if takes else ROOM) as client:
        client.sendall(UNTAKEN[door.protocol][0])
        if takes:
            time.sleep(TAKES_AFTER * TWICE_TOLD)
            with client.makefile("rb") as stream:
                came = len(stream.read(takes))
            tally.note("what is taken", None if came == takes else f"it ended after {came} bytes")
        least, most = untaken_times(server.port, client.getsockname()[1])
    tally.note(f"who takes {takes} bytes", None if most > TWICE_TOLD - SOONER else f"it ended after {most:.2f} s")
    return f"it has its slot after {least:.2f} s" if least > TWICE_TOLD + LATER else None


def untaken_times(port: int, other: int) -> tuple[float, float]:
    """For how long a connection stays after the last byte that the system took of it, at least and at most, by when it
    was looked at."""
    queued, (before, since, still) = queued_at(port, other), [time.monotonic()] * 3
    ends, looked = still + LONGEST, still
    while queued and looked < ends:
        time.sleep(0.01)
        was, queued, still = queued, queued_at(port, other), looked
        looked = time.monotonic()
        if queued and queued != was:
            before, since = still, looked
    return still - since, looked - before


def queued_at(port: int, other: int) -> str:
    """What the system has of the bytes at a server's end of a connection; nothing once that is closed."""
    for line in Path("/proc/net/tcp").read_text().splitlines()[1:]:
        _, here, there, state, queued = line.split()[:5]
        if (here[-4:], there[-4:], state) == (f"{port:04X}", f"{other:04X}", "01"):
            return queued
    return ""


def until(is_so: Callable[[], bool]) -> None:
    """Waits until it is so, or for too long."""
    ends = time.monotonic() + LONGEST
    while not is_so() and time.monotonic() < ends:
        time.sleep(0.05)


def sockets_of(process: int) -> int:
    """How many sockets a process has open."""
    count = 0
    for descriptor in Path(f"/proc/{process}/fd").iterdir():
        # (It may be closed while this looks.)
        with suppress(FileNotFoundError):
            count += os.readlink(descriptor).startswith("socket:")
    return count


def large_tree() -> bytes:
    """A tree whose weights are some thousand bytes."""
    rows = [{"parent": None, "name": "", "weight": 5}, {"parent": 0, "name": "a", "weight": 1}]
    rows += [{"parent": 0, "name": f"n{number}", "weight": 1000} for number in range(2, NODES)]
    return json.dumps({"nodes": rows}).encode()


def narrow(port: int, room: int = ROOM) -> socket.socket:
    """A connection whose ends keep little for each other."""
    client = socket.socket()
    client.setsockopt(socket.SOL_SOCKET, socket.SO_RCVBUF, room)
    client.setsockopt(socket.IPPROTO_TCP, socket.TCP_MAXSEG, 1000)
    client.settimeout(LONGEST)
    client.connect((HOST, port))
    return client


def taken_before(client: socket.socket, ends: float) -> int | None:
    """How many bytes come up to the end; nothing if there is none in time."""
    count = 0
    while time.monotonic() < ends:
        client.settimeout(max(0.01, ends - time.monotonic()))
        try:
            piece = client.recv(PIECE)
        except socket.timeout:
            return None
        except ConnectionError:
            return count
        if not piece:
            return count
        count += len(piece)
    return None


def silent_later(program: str, door: Door, tally: Tally) -> None:
    """Sixteen have their lines answered, one or three of them, and then say nothing, or a piece of a line: they lose
    their slots so long after the last reply. Whether the machine had other work is known by when that came."""
    store = Store(json.loads(TREE))
    with serving(program, door) as server, ExitStack() as room:
        pairs = [opened(room, server.port) for _ in range(SLOTS)]
        since = [answered_since(store, door, pair, 1 + number % 2 * 2, tally) for number, pair in enumerate(pairs)]
        for client, _ in pairs[::4]:
            client.sendall(door.sent(ADD)[:7])
        note_asked(store, door, server.port, "the 17th", tally)
        for number, ((client, _), started) in enumerate(zip(pairs, since)):
            has_closed = closes_within(client, max(0.1, started + LONGEST - time.monotonic()))
            note_after(has_closed, time.monotonic() - started, SOONEST, f"client {number}", tally)


def answered_since(
    store: Store, door: Door, pair: tuple[socket.socket, BinaryIO], count: int, tally: Tally
) -> float:
    """When the last of so many lines of a client was sent, whose replies have come. The server counts from that reply
    on, which on a machine with other work may be long before it is read."""
    client, stream = pair
    sent = time.monotonic()
    for _ in range(count):
        sent = time.monotonic()
        client.sendall(door.sent(ADD))
        note_replies(store, ADD, door.reply_in(stream), "a line", tally)
    return sent


# ---- who keeps one


def after_waiting(program: str, door: Door, tally: Tally) -> None:
    """A client that waited for its slot, for longer than first bytes are waited for there, has it as long as others:
    with no time to idle, and with a long one, it may say nothing for longer than that once more."""
    for idle in ((), LONG_IDLE):
        store = Store(json.loads(TREE))
        with serving(program, door, idle) as server, ExitStack() as room:
            pairs = [opened(room, server.port) for _ in range(SLOTS)]
            for pair in pairs:
                answered_since(store, door, pair, 1, tally)
            client, stream = opened(room, server.port)
            tally.note("without a slot", "it was closed" if closes_within(client, WITHOUT_SLOT) else None)
            for one in pairs[0]:
                one.close()
            tally.note("with its slot", "it was closed" if closes_within(client, WITHOUT_SLOT) else None)
            client.settimeout(LONGEST)
            answered_since(store, door, (client, stream), 2, tally)


def honest(program: str, door: Door, tally: Tally) -> None:
    """Clients that send a line each half second, in two pieces, stay for as long as they like, beside fifteen that say
    nothing. It is tried until a machine with other work has sent each line in time."""
    until_well(partial(go_on, program, door, tally), "lines", tally)


def go_on(program: str, door: Door, tally: Tally) -> str | None:
    """Each line is answered. If a slot is lost, this returns whether it was so late that a client may lose it: the
    line is waited for since the one before was sent, or later."""
    store = Store(json.loads(TREE))
    with serving(program, door) as server, ExitStack() as room:
        waited_for = time.monotonic()
        client = room.enter_context(connected(server.port))
        stream = room.enter_context(client.makefile("rb"))
        for _ in range(SLOTS - 1):
            room.enter_context(connected(server.port))
        for number in range(6):
            came, last = b"", time.monotonic()
            with suppress(ConnectionError):
                for half in halves(door.sent(ADD)):
                    time.sleep(0.25)
                    last = time.monotonic()
                    client.sendall(half)
                came = door.reply_in(stream)
            if not came and time.monotonic() - waited_for >= IDLE_SECONDS:
                return f"line {number} was sent too late"
            note_replies(store, ADD, came, f"line {number}", tally)
            waited_for = last
    return None


def overlapping(program: str, door: Door, tally: Tally) -> None:
    """Clients that send the end of a line each half second, and the beginning of the next one with it: the time for
    that one begins there. It is tried until a machine with other work has sent each in time."""
    until_well(partial(overlap, program, door, tally), "lines", tally)


def overlap(program: str, door: Door, tally: Tally) -> str | None:
    """The same as `go_on`, of lines that overlap."""
    store, (front, back) = Store(json.loads(TREE)), halves(door.sent(ADD))
    with serving(program, door) as server, connected(server.port) as client, client.makefile("rb") as stream:
        client.sendall(front)
        waited_for = time.monotonic()
        for number in range(6):
            came = b""
            time.sleep(0.5)
            with suppress(ConnectionError):
                client.sendall(back + front)
                last = time.monotonic()
                came = door.reply_in(stream)
            if not came and time.monotonic() - waited_for >= IDLE_SECONDS:
                return f"line {number} was sent too late"
            note_replies(store, ADD, came, f"line {number}", tally)
            waited_for = last
    return None


def halves(text: bytes) -> tuple[bytes, bytes]:
    return text[: len(text) // 2], text[len(text) // 2 :]


def in_pieces(program: str, door: Door, tally: Tally) -> None:
    """Lines of every size in pieces of every size, each answered before the next one, and all once more at once."""
    store = Store(json.loads(TREE))
    # (of blanks before and behind what is asked)
    lines = [(ADD[:-1].rjust(size) if at % 2 else ADD[:-1].ljust(size)) + b"\n" for at, size in enumerate(SIZES)]
    last = [line for line in lines if ends_after(door, line)][-1:]
    ahead = [line for line in lines if not ends_after(door, line)] + last
    with serving(program, door, LONG_IDLE) as server, ExitStack() as room:
        client, stream = opened(room, server.port)
        for line, piece in itertools.product(lines, PIECES):
            text = door.sent(line)
            if len(text) <= MOST_PIECES * piece:
                send_apart(client, text, piece)
                where = f"{len(line)} bytes in pieces of {piece}"
                note_replies(store, line, door.reply_in(stream), where, tally)
                if ends_after(door, line):
                    client, stream = opened(room, server.port)
        with ThreadPoolExecutor(1) as pool:
            sender = pool.submit(client.sendall, b"".join(door.sent(line) for line in ahead))
            for line in ahead:
                note_replies(store, line, door.reply_in(stream), f"{len(line)} bytes of all at once", tally)
            sender.result()


def ends_after(door: Door, line: bytes) -> bool:
    """Whether the connection ends after this line: a page's does after a long body."""
    return door.is_http and len(line) > MOST_KEPT


def opened(room: ExitStack, port: int) -> tuple[socket.socket, BinaryIO]:
    """A new connection, for as long as the room is entered."""
    client = room.enter_context(connected(port))
    return client, room.enter_context(client.makefile("rb"))


def send_apart(client: socket.socket, text: bytes, piece: int) -> None:
    """Sends the text in pieces; few of them come one by one."""
    for at in range(0, len(text), piece):
        client.sendall(text[at : at + piece])
        if 0 < len(text) <= FEW_PIECES * piece:
            time.sleep(APART)


def unlimited(program: str, door: Door, tally: Tally) -> None:
    """If nothing is said of idling, nobody loses a connection slot."""
    store = Store(json.loads(TREE))
    with serving(program, door, ()) as server, connected(server.port) as client, client.makefile("rb") as stream:
        tally.note("two seconds", "it was closed" if closes_within(client, 2.0) else None)
        client.settimeout(LONGEST)
        client.sendall(door.sent(ADD))
        note_replies(store, ADD, door.reply_in(stream), "then", tally)
