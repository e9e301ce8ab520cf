"""Clients that send in pieces, close in mid-line or in mid-reply, or never read, at each port: all others get what is
right for them. Servers whose own devices fail: `device`."""

from __future__ import annotations

import errno
import json
import os
import socket
import time
from contextlib import suppress
from functools import partial
from random import Random

from server import Serving, connected, free_port, talk
from store import Store

from sweeps.documents import EXAMPLES
from sweeps.doors import DOORS, Asking, Door
from sweeps.preloaded import library_of
from sweeps.program import Tally, Try, because, run, until_well
from sweeps.talks import lines_of, look, note_replies
from sweeps.ten_lines import ADD, GET, REPLIES, TEXT, TREE, WEIGHTS

TRIED = "lines and connections of clients that end in every way"
# More lines than 16 bits count; and how many lists a batch has at most, and accesses each list.
MANY, MOST_LISTS, MOST_ACCESSES = 70_000, 256, 64
# This machine's too, but not the one that is listened at.
OTHER_HOST = "127.0.0.2"
# How many pairs of lines are sent at once, and what takes longer than a reply that waits for none to arrive.
PAIRS, DELAYED = 60, 0.03
# How long a client that never reads goes on sending, if nothing holds it up.
SECONDS = 2.0


def tries(program: str, room: str) -> list[Try]:
    library = library_of("refuse_threads", room)
    at_each = {
        "two lines at once": two_at_once,
        "clients that leave after some bytes": leave_after_some,
        "clients that leave after some bytes of a reply": leave_in_a_reply,
        "clients that never read": never_read,
        "another address": another_address,
    }
    pairs = [(door, name) for door in DOORS for name in at_each]
    parts = [Try(f"{door.name}, {name}", partial(at_each[name], program, door)) for door, name in pairs]
    parts += [Try(f"{door.name}, without a thread", partial(no_threads, program, library, door)) for door in DOORS]
    return parts + [
        Try("ten lines in pieces", partial(in_pieces, program)),
        Try("ten lines cut after each byte", partial(cut_after_each, program)),
        Try("lines by the ten thousand", partial(many_lines, program)),
        Try("long replies", partial(long_replies, program)),
        Try("a server whose devices fail", partial(failing_devices, program)),
    ]


def in_pieces(program: str, tally: Tally) -> None:
    for piece in (1, 7, len(TEXT)):
        with Serving(program, TREE) as server:
            came = server.talk(TEXT, piece)
        tally.note(f"pieces of {piece}", None if came == REPLIES else f"wanted {REPLIES!r}; came {came!r}")


def cut_after_each(program: str, tally: Tally) -> None:
    """Each client sends some first bytes of the ten lines, and no more; all of them ask one store."""
    store = Store(json.loads(TREE))
    with Serving(program, TREE) as server:
        for size in range(len(TEXT) + 1):
            note_replies(store, TEXT[:size], server.talk(TEXT[:size]), f"{size} bytes", tally)
        note_replies(store, look(store), server.talk(look(store)), "at the end", tally)


def two_at_once(program: str, door: Door, tally: Tally) -> None:
    """The reply to the second of two lines doesn't wait until the first one's has arrived, which takes some 40 ms."""
    until_well(partial(answer_pairs, program, door, tally), "pairs of lines", tally)


def answer_pairs(program: str, door: Door, tally: Tally) -> str | None:
    """What is wrong if most pairs take long."""
    slow, store = 0, Store(json.loads(TREE))
    with door.serving(program) as server, Asking(door, server.port, WEIGHTS) as client:
        for number in range(PAIRS):
            started = time.monotonic()
            client.client.sendall(2 * door.sent(WEIGHTS))
            for which in range(2):
                client.note_reply(store, f"pair {number}, reply {which}", tally)
            slow += time.monotonic() - started > DELAYED
    return None if slow <= PAIRS // 2 else f"{slow} of {PAIRS} pairs were answered late"


def many_lines(program: str, tally: Tally) -> None:
    """One client with very many lines, each a batch of no lists. The rounds are counted."""
    with Serving(program, TREE) as server:
        came = lines_of(server.talk(MANY * b'{"batch":[]}\n'))
    for number, reply in enumerate(came, 1):
        wanted = b'{"places":[],"replies":[],"round":%d}' % number
        tally.note(f"line {number}", None if reply == wanted else f"wanted {wanted!r}; came {reply!r}")
    tally.blame("all lines", None if len(came) == MANY else f"{MANY} lines have {len(came)} replies")


def long_replies(program: str, tally: Tally) -> None:
    """Replies of up to some hundred thousand bytes."""
    least = [["set", "/a", -(2**63)]]
    store = Store(json.loads(TREE))
    with Serving(program, TREE) as server:
        for count in (1, 40, 100, MOST_LISTS - 1):
            lists = [least] + count * [MOST_ACCESSES * [["get", "/a"]]]
            line = json.dumps({"batch": lists}).encode() + b"\n"
            note_replies(store, line, server.talk(line), f"{count} lists", tally)


def leave_after_some(program: str, door: Door, tally: Tally) -> None:
    """Each client sends some first bytes of four lines that add 1, and closes at once. How many of them are done isn't
    known, but it is never more than were whole."""
    text = door.sent(ADD)
    # (Without its line feed a line is whole if nothing comes behind it, but for one in a request.)
    ends = [size for at in range(4) for size in (at * len(text) + len(text) - 1, (at + 1) * len(text))]
    wholes = ends[1::2] if door.is_http else ends
    with door.serving(program) as server:
        least = most = record_of(server, door)
        for size in range(4 * len(text) + 1):
            talk(server.port, (4 * text)[:size], leaves=True)
            most += size // len(text) + (size in wholes and size % len(text) > 0)
            now = record_of(server, door)
            is_well = least <= now <= most
            tally.note(f"{size} bytes", None if is_well else f"the record is {now}, and not from {least} to {most}")
            least = now


def record_of(server: Serving, door: Door) -> int:
    with Asking(door, server.port, GET) as client:
        client.send()
        return json.loads(door.reply_in(client.stream))["replies"][0][0]


def leave_in_a_reply(program: str, door: Door, tally: Tally) -> None:
    """Each client reads some bytes of what it asked for, and closes with the rest unread."""
    random, store, asked = Random("in a reply"), Store(json.loads(TREE)), 200 * door.sent(WEIGHTS)
    with door.serving(program) as server:
        wanted = talk(server.port, asked)
        with_replies = wanted.count(b'{"waits":[0,0,0],"weights":[5,1,1]}\n')
        tally.note("all replies", None if with_replies == 200 else f"{with_replies} came")
        for number in range(60):
            with connected(server.port) as connection:
                connection.sendall(asked)
                size = random.randrange(1, len(wanted))
                came = connection.makefile("rb").read(size)
            fault = None if came == wanted[:size] else f"{size} bytes came wrong: {came[-80:]!r}"
            tally.note(f"client {number}", fault)
        with Asking(door, server.port, look(store)) as client:
            note_look(client, store, "at the end", tally)


def note_look(client: Asking, store: Store, where: str, tally: Tally) -> None:
    """The store is as it was."""
    client.send()
    lines = lines_of(client.line)
    came = b"".join(client.door.reply_in(client.stream) for _ in (lines[:1] if client.door.is_http else lines))
    note_replies(store, client.line, came, where, tally)


def never_read(program: str, door: Door, tally: Tally) -> None:
    """Clients that send until nobody takes any more, for a time at most, and close; the next one is served."""
    store = Store(json.loads(TREE))
    with door.serving(program) as server:
        for number in range(3):
            with connected(server.port) as connection:
                flood(connection, SECONDS, door.sent(WEIGHTS))
            with Asking(door, server.port, look(store)) as client:
                note_look(client, store, f"after client {number}", tally)


def flood(connection: socket.socket, seconds: float, text: bytes = WEIGHTS) -> None:
    """Sends this again and again for so long, or until nobody takes any more, and reads nothing."""
    connection.settimeout(0.2)
    ends = time.monotonic() + seconds
    try:
        while time.monotonic() < ends:
            connection.sendall(1000 * text)
    except OSError:
        pass


def failing_devices(program: str, tally: Tally) -> None:
    """A standard output that takes nothing."""
    tree, http = str(EXAMPLES / "two-leaves.json"), ("--http", str(free_port()))
    for command, further in (("serve", ()), ("page", ()), ("serve", http)):
        words = [command, "--tree", tree, "--port", str(free_port()), *further]
        with open("/dev/full", "wb") as full:
            wanted = because("cannot write standard output", errno.ENOSPC)
            tally.compare(f"standard output, full: {words}", run(program, *words, stdout=full), wanted)


def no_threads(program: str, library: str, door: Door, tally: Tally) -> None:
    """Connections for which no thread can be started, more of them than there are slots: each is closed with no reply.
    Those before them, of which one stays all the time, and those after them are served."""
    # (The first thread of a second port accepts there.)
    first = 4 if door.is_second else 3
    last, store = first + 20, Store(json.loads(TREE))
    surroundings = {**os.environ, "LD_PRELOAD": library, "FIRST_REFUSED": str(first), "LAST_REFUSED": str(last)}
    with door.serving(program, env=surroundings) as server, Asking(door, server.port, look(store)) as staying:
        for number in range(first - 1, last + 3):
            came = reply_at(door, server.port)
            if first <= number <= last:
                tally.note(f"thread {number} refused", None if came == b"" else f"came {came!r}")
            else:
                note_replies(store, ADD, came, f"thread {number}", tally)
        staying.line = look(store)
        note_look(staying, store, "the one that stayed", tally)


def reply_at(door: Door, port: int) -> bytes:
    """The reply to a line; nothing if the connection is closed."""
    with Asking(door, port) as client, suppress(ConnectionError):
        client.send()
        return door.reply_in(client.stream)
    return b""


def another_address(program: str, door: Door, tally: Tally) -> None:
    """It listens at 127.0.0.1 alone."""
    with door.serving(program) as server, socket.socket() as other:
        code = other.connect_ex((OTHER_HOST, server.port))
    tally.note(OTHER_HOST, None if code == errno.ECONNREFUSED else f"connecting ended with {code}")
