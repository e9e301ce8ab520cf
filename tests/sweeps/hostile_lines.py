"""Sixteen clients that send lines of the longest length, made of the smallest values, over TCP or in bodies over
HTTP: what the server takes for them at most, what of that it still has a second later, and how long an honest line
beside them waits."""

from __future__ import annotations

import json
import os
import re
import statistics
import threading
import time
from collections.abc import Callable, Iterator
from contextlib import AbstractContextManager, contextmanager
from functools import partial
from pathlib import Path
from typing import NamedTuple

from server import PIECE, Serving, connected
from store import Store
from web import Client

from sweeps.program import Tally, Try, until_well
from sweeps.talks import note_replies
from sweeps.ten_lines import TREE, WEIGHTS

TRIED = "lines of the longest length, and honest ones beside them"
LONGEST_LINE = 1_048_576
CLIENTS = 16
LINES = 3
# How many MB more than before a server may have at any time, and after how many seconds how many more.
MOST_AT_ONCE = 64
LATER = 1.0
MOST_LATER = 16
# In seconds. Without other work an honest line takes a fraction of a millisecond; half of them wait for three large
# lines at most, and so do all of them if that is longer.
LONGEST_WAIT = 2.0
MOST_LARGE_LINES = 3
# How often that is tried, and how long a large line may wait for all others on a machine with other work.
FEW_TRIES, LONGEST = 5, 600.0
# What `./grove` puts into the environment of a server.
SERVER_MEMORY = re.search(r"^server_memory=(\S+)$", (Path(__file__).parents[2] / "grove").read_text(), re.MULTILINE)[1]


# Checks of a list, of a plan and of a flow.
LIST_OF_CHECK = b'{"check":{"flow":[],"plan":[],"list":['
STEPS = b'{"check":{"list":[["get","/a"]],"flow":[],"plan":['
ROWS = b'{"check":{"list":[["get","/a"]],"plan":[["lock","/a"],["access",0],["unlock","/a"]],"flow":['
BATCH = b'{"batch":[%s]}\n' % b",".join([b"[%s]" % b",".join([b'["get","/a"]'] * 64)] * 256)
# One list more than a batch may have, each with one access more than a list may have, of all items that are looked at.
LONG_LISTS = b",".join([b"[%s]" % b",".join([b'["a","a","a","a","a"]'] * 65)] * 257)
BATCH_TWICE = b'{"batch":[%s],"batch":[%s]}\n' % (LONG_LISTS, LONG_LISTS)
NAMES = b"{" + b",".join(b'"%x":0' % number for number in range(100_000)) + b"}"
WHOLE_ROW = b'{"above":0,"first":0,"held":0,"last":0,"node":"/","own":0}'
ERROR, SHAPE, LIMIT, NO_PATH = (b'{"error":"%s' % name for name in (b"", b"shape", b"limit", b"no-path"))
# What stands in place of steps and of rows, and can't be read as one.
NO_STEPS = (b"[0]", b"[[]]", b'["a"]', b"[0,0]", b'["",0]', b"{}", b'{"":0}', b'[{"":0}]', b'[""]', b'""')
NO_ROWS = (b"{}", b'{"":0}', b"[0]", b'{"node":"/"}', b'{"own":0}', b'{"own":[]}')

Ask = Callable[[bytes], bytes]


class Way(NamedTuple):
    """How a server is talked to: its command, how a client sends its large lines, and how an honest one asks."""

    command: str
    send: Callable[[int, bytes, list[bytes], threading.Event], None]
    honest: Callable[[int], AbstractContextManager[Ask]]


def tries(program: str, room: str) -> list[Try]:
    """Each line is of one item, again and again."""
    tcp, http = Way("serve", send_lines, asked_lines), Way("page", send_body, asked_bodies)
    cases = [
        ("objects that nobody looks at", tcp, longest(b'{"weights":[', b'{"":0}', b"]}"), b'{"waits"'),
        ("names that nobody looks at", tcp, b'{"weights":%s}\n' % NAMES, b'{"waits"'),
        ("names in place of one request", tcp, NAMES + b"\n", SHAPE),
        ("objects in place of accesses", tcp, longest(b'{"plan":[', b'{"":0}', b"]}"), LIMIT),
        ("objects in place of lists", tcp, longest(b'{"batch":[', b'{"":0}', b"]}"), LIMIT),
        ("arrays in a list", tcp, longest(b'{"batch":[[', b"[0]", b"]]}"), LIMIT),
        ("arrays in the list of a check", tcp, longest(LIST_OF_CHECK, b"[0]", b"]}}"), LIMIT),
        ("arrays in a version", tcp, longest(LIST_OF_CHECK + b'],"version":[', b"[0]", b"]}}"), SHAPE),
        ("texts in an access", tcp, longest(b'{"plan":[[', b'"a"', b"]]}"), SHAPE),
        ("arrays in an access", tcp, longest(b'{"plan":[["get","/",', b"[0]", b"]]}"), SHAPE),
        ("objects in an access of a batch", tcp, longest(b'{"batch":[[["get","/",', b"{}", b"]]]}"), SHAPE),
        ("arrays in place of a path", tcp, longest(b'{"plan":[["get",[', b"[0]", b"]]]}"), SHAPE),
        ("a long path", tcp, b'{"plan":[["get","%s"]]}\n' % (b"a" * (LONGEST_LINE - 64)), NO_PATH),
        ("lists that are done", tcp, BATCH, b'{"places"'),
        ("lists of texts, twice", tcp, BATCH_TWICE, LIMIT),
        ("a plan that is told twice", tcp, longest(STEPS, b"[0]", b'],"plan":[]}}'), ERROR),
        ("locks of no node", tcp, longest(STEPS, b'["lock",""]', b"]}}"), NO_PATH),
        ("unlocks of no node", tcp, longest(STEPS, b'["unlock",""]', b"]}}"), NO_PATH),
        ("locks", tcp, longest(STEPS, b'["lock","/"]', b"]}}"), ERROR),
        ("unlocks", tcp, longest(STEPS, b'["unlock","/"]', b"]}}"), ERROR),
        ("accesses in a plan", tcp, longest(STEPS, b'["access",0]', b"]}}"), ERROR),
        ("rows of a flow", tcp, longest(ROWS, WHOLE_ROW, b"]}}"), b'{"error":"rows"}'),
        ("rows with one member, in bodies", http, longest(ROWS, b'{"own":0}', b"]}}"), SHAPE),
        ("rows of a flow, in bodies", http, longest(ROWS, WHOLE_ROW, b"]}}"), b'{"error":"rows"}'),
        ("unlocks, in bodies", http, longest(STEPS, b'["unlock","/"]', b"]}}"), ERROR),
        ("names in place of one request, in bodies", http, NAMES + b"\n", SHAPE),
        *((f"{item.decode()} in place of steps", tcp, longest(STEPS, item, b"]}}"), SHAPE) for item in NO_STEPS),
        *((f"{item.decode()} in place of rows", tcp, longest(ROWS, item, b"]}}"), SHAPE) for item in NO_ROWS),
    ]
    return [Try(what, partial(flood, program, way, line, wanted)) for what, way, line, wanted in cases]


def longest(before: bytes, item: bytes, after: bytes) -> bytes:
    """A line as long as one may be, or nearly so, of as many of the item as there is room for."""
    count = (LONGEST_LINE - len(before) - len(after) + 1) // (len(item) + 1)
    return before + b",".join(count * [item]) + after + b"\n"


def taken(server: Serving, word: str) -> int:
    """How many bytes the server has (VmRSS), or had at most (VmHWM)."""
    status = Path(f"/proc/{server.started.pid}/status").read_text()
    return int(re.search(rf"{word}:\s*(\d+) kB", status)[1]) << 10


# ---- ways to talk


def send_lines(port: int, line: bytes, replies: list[bytes], are_measured: threading.Event) -> None:
    """Sends the lines, each once the one before is answered, and stays until all is measured."""
    with connected(port) as client, client.makefile("rb") as came:
        client.settimeout(LONGEST)
        for _ in range(LINES):
            for at in range(0, len(line), PIECE):
                client.sendall(line[at : at + PIECE])
            replies.append(came.readline())
        are_measured.wait()


def send_body(port: int, line: bytes, replies: list[bytes], are_measured: threading.Event) -> None:
    """Sends the lines in the body of one request."""
    with Client(port) as client:
        client.connection.settimeout(LONGEST)
        replies += client.post(line * LINES).body.splitlines(keepends=True)
        are_measured.wait()


@contextmanager
def asked_lines(port: int) -> Iterator[Ask]:
    with connected(port) as client, client.makefile("rb") as came:

        def ask(line: bytes) -> bytes:
            client.sendall(line)
            return came.readline()

        yield ask


@contextmanager
def asked_bodies(port: int) -> Iterator[Ask]:
    with Client(port) as client:
        yield lambda line: client.post(line).body


# ---- a flood


def flood(program: str, way: Way, line: bytes, wanted: bytes, tally: Tally) -> None:
    """How long honest lines wait is tried until a machine with other work has them wait no longer than they may."""
    until_well(partial(flood_once, program, way, line, wanted, tally), "honest lines", tally, FEW_TRIES)


def flood_once(program: str, way: Way, line: bytes, wanted: bytes, tally: Tally) -> str | None:
    """How long honest lines waited, if it was too long."""
    store = Store(json.loads(TREE))
    environment = {**os.environ, "GLIBC_TUNABLES": SERVER_MEMORY}
    with Serving(program, TREE, command=way.command, env=environment) as server, way.honest(server.port) as ask:
        note_replies(store, WEIGHTS, ask(WEIGHTS), "the first", tally)
        at_first = taken(server, "VmRSS")
        replies: list[bytes] = []
        are_measured = threading.Event()
        arguments = (server.port, line, replies, are_measured)
        clients = [threading.Thread(target=way.send, args=arguments, daemon=True) for _ in range(CLIENTS - 1)]
        for client in clients:
            client.start()
        waits = honest_waits(store, server, ask, replies, tally)
        time.sleep(LATER)
        note_memory(taken(server, "VmHWM") - at_first, MOST_AT_ONCE << 20, "at once", tally)
        note_memory(taken(server, "VmRSS") - at_first, MOST_LATER << 20, "a second later", tally)
        are_measured.set()
        for client in clients:
            client.join()
        is_well = len(replies) == LINES * (CLIENTS - 1) and all(reply.startswith(wanted) for reply in replies)
        tally.note("replies", None if is_well else f"{set(replies)}"[:200])
        return fault_of_waits(waits, time_of_large_line(ask, line))


def honest_waits(store: Store, server: Serving, ask: Ask, replies: list[bytes], tally: Tally) -> list[float]:
    """How long each line waits that an honest client sends until the others have all their replies."""
    waits: list[float] = []
    while not waits or len(replies) < LINES * (CLIENTS - 1) and server.is_running():
        started = time.monotonic()
        note_replies(store, WEIGHTS, ask(WEIGHTS), f"honest line {len(waits)}", tally)
        waits.append(time.monotonic() - started)
    return waits


def time_of_large_line(ask: Ask, line: bytes) -> float:
    """How long a large line takes that nobody else is in the way of."""
    started = time.monotonic()
    ask(line)
    return time.monotonic() - started


def note_memory(more: int, most: int, when: str, tally: Tally) -> None:
    tally.note(f"memory {when}", None if more <= most else f"{more >> 20} MB more, and not {most >> 20}")


def fault_of_waits(waits: list[float], large: float) -> str | None:
    longest_wait, half, most = max(waits), statistics.median(waits), MOST_LARGE_LINES * large
    if longest_wait <= max(LONGEST_WAIT, most) and half <= most:
        return None
    return f"one waited {longest_wait:.4f} s, half of them {half:.4f} s, and a large line takes {large:.4f} s"
