"""Servers that are asked for `/metrics`: what they count is what was done, in the form that Prometheus reads."""

from __future__ import annotations

import itertools
import json
import os
import re
import shutil
import socket
import struct
import subprocess
import time
from collections.abc import Callable, Iterator
from contextlib import ExitStack, contextmanager, suppress
from functools import partial
from pathlib import Path

from exposition import KIND, BadText, Family, families_in, samples_in
from server import Serving, connected, free_port
from store import MOST_LINE
from web import Client, post, request

from sweeps.idle import UNTAKEN, large_tree, narrow
from sweeps.preloaded import library_of
from sweeps.program import Ran, Tally, Try, run, until_well
from sweeps.talks import lines_of
from sweeps.ten_lines import ADD, GET, TREE, WEIGHTS

TRIED = "counts of a server"
SLOTS, HTTP_SLOTS = 16, 64
LINES = (ADD, GET, b'{"get":"/a"}\n', WEIGHTS, b"\n", b'{"plan":[["get","/c"]]}\n', b'{"plan":[["get","/d"]]}\n')
REFUSED = {"shape": 1, "bad-json": 1, "no-path": 2}
PLAN = b'{"plan":[["get","/a"]]}\n'
TWO = b'{"batch":[[["add","/a",1]],[["add","/b",1]]]}\n'
ALIKE = b'{"batch":[[["get","/"]],[["set","/",3]]]}\n'
ABSENT = b'{"batch":[[["get","/a"]],[["get","/d"]]]}\n'
# Lines, each with how many lists were done, found a plan and found none, once it is answered.
PLANNED = (
    (PLAN, 0, 0, 1),
    (PLAN, 0, 1, 1),
    (TWO, 2, 2, 2),
    (TWO, 4, 4, 2),
    (ALIKE, 6, 5, 3),
    (ABSENT, 6, 5, 3),
    (GET, 7, 6, 3),
)
# What each port has a column of, and the lines of a client there that sends no more.
COLUMNS = ("accepted_connections", "turned_away_connections", "idled_connections", "received_bytes", "sent_bytes")
PROTOCOLS = ("tcp", "http")
LINES_CLOSED = (b"".join(LINES), post(b"".join(LINES)))
# The same with long replies, which are written in pieces.
LONG_CLOSED = (4000 * WEIGHTS, post(4000 * WEIGHTS))
LATE = 2
# A server that keeps its rounds has some families more.
KEEPING = ("--data", "store.grove")
# For how many seconds a client may idle. Who comes late finds all slots taken so long; else it is tried again.
IDLE_SECONDS = 6.0
IDLE, TRIES_IN_TIME = ("--idle", f"{IDLE_SECONDS:g}"), 5
# For so long a look that has ended may have its slot.
LEAVING = 0.5
# Turns, each fourth of which is long, and the least share of the time seen outside that it may have.
TURNS, LEAST_SHARE = 12, 50
TIMES, SYNCS = "grove_round_duration_seconds", "grove_data_sync_duration_seconds"
STEPS = ("1", "2", "5")
BOUNDS = (*(f"0.{'0' * zeros}{step}" for zeros in (4, 3, 2, 1, 0) for step in STEPS), "1", "2", "5", "10", "+Inf")
LEAVES = [f"n{number}" for number in range(1, 2000)]
ROOT = {"parent": None, "name": "", "weight": 5}
LARGE = json.dumps({"nodes": [ROOT] + [{"parent": 0, "name": name, "weight": 1} for name in LEAVES]}).encode()
LISTS = [[["get", f"/{LEAVES[(at * 7 + each * 13) % len(LEAVES)]}"] for each in range(64)] for at in range(256)]
LONG_LINE = json.dumps({"batch": LISTS}).encode() + b"\n"
# How much longer a sync takes here, in microseconds, and how many rounds there are.
SYNC_MICROS, SYNCED = (0, 30_000), 6
# A file is written anew at the first round behind more bytes of rounds than this.
MOST_BEHIND = 4 * 1024 * 1024
# What each refused line is counted by, once by each port.
HINTS = Path(__file__).parents[1] / "line_hints.json"
# How many looks wait, and within how many seconds they have left their slots.
LOOKS, SOON = 8, 10.0
MEMORY = "process_resident_memory_bytes"
PAGE = 4096
# What may stand in place of the system's file of the memory, each with how many pages are in use by it.
STATMS = (
    (b"900 250 20 3 0 9 0\n", 250),
    (b"900 0 20 3 0 9 0\n", 0),
    (b"900 250", 250),
    (b"", None),
    (b"900\n", None),
    (b"900 -250 20 3 0 9 0\n", None),
    (b"900 some 20 3 0 9 0\n", None),
    (b"900 \xff 20 3 0 9 0\n", None),
    (b"900 %d 20 3 0 9 0\n" % (2**64 // PAGE), None),
    (b"900 %d 20 3 0 9 0\n" % 2**64, None),
)
# Which families there are.
PAGES = Path(__file__).parents[2] / "docs/PAGE.md"
# How long a count that follows an answer may be waited for.
LONGEST = 60.0


def tries(program: str, room: str) -> list[Try]:
    return [
        Try("lines, rounds and bytes", partial(lines_and_bytes, program)),
        Try("lines in bodies, and lines that are too long", partial(bodies, program)),
        Try("rounds that are shared", partial(shared, program)),
        Try("lists and plans", partial(plans, program)),
        Try("nodes", partial(nodes, program)),
        Try("the memory", partial(memory, program)),
        Try("what the system may say of the memory", partial(other_memory, program, room)),
        Try("looks that are left", partial(left_looks, program)),
        Try("connections that come and go", partial(come_and_go, program)),
        Try("connections that idle or find no slot", partial(until_all_there, idle_and_busy, program)),
        Try("what comes and goes at each port", partial(until_all_there, columns, program)),
        Try("how long turns take", partial(times_of_turns, program)),
        Try("how long syncs take", partial(times_of_syncs, program, room)),
        Try("a file that is written anew", partial(bytes_of_file, program, room)),
        Try("each name of a refused line", partial(each_name, program)),
        Try("at a page alone", partial(at_a_page, program)),
        Try("the families", partial(families, program)),
        Try("what promtool says", partial(checked, program)),
    ]


class Both(Serving):
    """A server of sessions, and of HTTP at a second port."""

    def __init__(self, program: str, *further: str, document: bytes = TREE, **how):
        self.http = free_port()
        super().__init__(program, document, further=("--http", str(self.http), *further), **how)

    def __enter__(self) -> "Both":
        super().__enter__()
        self.second = self.started.stdout.readline()
        return self


def metrics_at(port: int, query: str = "") -> dict[str, float]:
    with Client(port) as client:
        response = client.get("/metrics" + query)
    if response.status != 200 or response.fields.get(b"content-type") != KIND:
        raise BadText(f"came {response} with {response.fields}")
    return samples_in(response.body.decode())


def note(wanted: dict[str, float | None], came: dict[str, float], where: str, tally: Tally) -> None:
    for key, value in wanted.items():
        tally.note(f"{where}, {key}", None if came.get(key) == value else f"wanted {value}; came {came.get(key)}")


def once_well(port: int, wanted: dict[str, float], where: str, tally: Tally) -> None:
    """Compares, once what follows an answer is counted."""
    ends = time.monotonic() + LONGEST
    came = metrics_at(port)
    while any(came.get(key) != value for key, value in wanted.items()) and time.monotonic() < ends:
        time.sleep(0.02)
        came = metrics_at(port)
    note(wanted, came, where, tally)


def refused(names: dict[str, int]) -> dict[str, float]:
    return {f'grove_refused_lines_total{{error="{name}"}}': count for name, count in names.items()}


def by_protocol(name: str, tcp: float, http: float | None = None) -> dict[str, float]:
    values = {f'{name}{{protocol="tcp"}}': tcp}
    return values if http is None else {**values, f'{name}{{protocol="http"}}': http}


def lines_and_bytes(program: str, tally: Tally) -> None:
    """Lines one after the other over TCP: each is a turn at the store."""
    before = time.time()
    with Both(program) as server:
        at_first = {"grove_lines_total": 0, "grove_rounds_total": 0, "grove_round_lines_count": 0}
        found = metrics_at(server.http)
        note(at_first, found, "at first", tally)
        text, count = b"".join(LINES), len(LINES)
        came = server.talk(text)
        wanted = {
            "grove_lines_total": count,
            "grove_rounds_total": 2,
            **of_plans(2, 1, 1),
            "grove_round_lines_count": count,
            "grove_round_lines_sum": count,
            'grove_round_lines_bucket{le="1"}': count,
            "grove_round_duration_seconds_count": count,
            **refused(REFUSED),
            **by_protocol("grove_accepted_connections_total", 1),
            **by_protocol("grove_received_bytes_total", len(text)),
            **by_protocol("grove_sent_bytes_total", len(came)),
            **by_protocol("grove_connections", 0, 1),
            **by_protocol("grove_connection_slots", SLOTS, HTTP_SLOTS),
        }
        once_well(server.http, wanted, "after the lines", tally)
        started = found["process_start_time_seconds"]
        tally.note("the start", None if before - 2 <= started <= time.time() else f"it is {started}")
        note({"process_start_time_seconds": started}, metrics_at(server.http), "it stays", tally)


def bodies(program: str, tally: Tally) -> None:
    """Lines in bodies are counted as others are, and so is a line that is too long, which has no turn at the store."""
    with Both(program) as server, Client(server.http) as client:
        body = b"x" * (MOST_LINE + 1) + b"\n" + b"".join(LINES)
        client.post(body)
        came = metrics_at(server.http)
        wanted = {"grove_lines_total": len(LINES) + 1, "grove_round_lines_sum": len(LINES), "grove_rounds_total": 2}
        note({**wanted, **refused({**REFUSED, "long-line": 1})}, came, "after the body", tally)
        received = came['grove_received_bytes_total{protocol="http"}']
        tally.note("the bytes", None if received > len(body) else f"of {len(body)} bytes {received} were read")


def shared(program: str, tally: Tally) -> None:
    """Sixteen clients at once: the lines of all turns are the lines that were answered."""
    with Both(program, workers=4) as server, ExitStack() as room:
        clients = [room.enter_context(connected(server.port)) for _ in range(SLOTS)]
        for client in clients:
            client.sendall(ADD * 200)
        for client in clients:
            client.shutdown(1)
        count = sum(len(lines_of(client.makefile("rb").read())) for client in clients)
        came = metrics_at(server.http)
        tally.note("the replies", None if count == SLOTS * 200 else f"{count} came")
        note({"grove_lines_total": count, "grove_round_lines_sum": count}, came, "the lines", tally)
        turns = came["grove_round_lines_count"]
        tally.note("the turns", None if came["grove_rounds_total"] <= turns <= count else f"there were {turns}")


def of_plans(lists: int, hits: int, misses: int) -> dict[str, float]:
    kept = "grove_kept_plans"
    return {"grove_lists_total": lists, f"{kept}_hits_total": hits, f"{kept}_misses_total": misses}


def plans(program: str, tally: Tally) -> None:
    """A list finds its plan if one was made for the same nodes before, by itself or in a batch."""
    for workers in (1, 4):
        with Both(program, workers=workers) as server:
            note(of_plans(0, 0, 0), metrics_at(server.http), "at first", tally)
            for number, (line, *counts) in enumerate(PLANNED):
                server.talk(line)
                note(of_plans(*counts), metrics_at(server.http), f"{workers} workers, line {number}", tally)


def memory(program: str, tally: Tally) -> None:
    """The memory is what is seen from outside: at first, and with long lines of all clients, which aren't ended."""
    with Both(program) as server, ExitStack() as room:
        told, seen = note_memory(server, "at first", tally), seen_from_outside(server)
        for _ in range(SLOTS):
            room.enter_context(connected(server.port)).sendall(b"x" * MOST_LINE)
        ends = time.monotonic() + LONGEST
        while seen_from_outside(server) < seen + SLOTS * MOST_LINE / 2 and time.monotonic() < ends:
            time.sleep(0.02)
        grown = note_memory(server, "with long lines", tally) - told
        tally.note("the growth", None if grown > SLOTS * MOST_LINE / 4 else f"it has {grown} bytes more")


def note_memory(server: Both, where: str, tally: Tally) -> float:
    told, seen = metrics_at(server.http).get(MEMORY, 0.0), seen_from_outside(server)
    tally.note(where, None if seen / 2 <= told <= seen * 2 else f"{seen} bytes are seen; came {told}")
    return told


def seen_from_outside(server: Serving) -> int:
    """How many bytes of memory a server has."""
    pages = Path(f"/proc/{server.started.pid}/statm").read_text().split()[1]
    return int(pages) * os.sysconf("SC_PAGE_SIZE")


def other_memory(program: str, room: str, tally: Tally) -> None:
    """What the file says is read at each request. If it doesn't say it, or isn't there, its sample alone is left
    out."""
    library, statm = library_of("other_statm", room), Path(room, "statm")
    surroundings = {**os.environ, "LD_PRELOAD": library, "STATM": str(statm)}
    with Both(program, env=surroundings) as server:
        names = set(metrics_at(server.http))
        tally.note("without it", f"came {MEMORY}" if MEMORY in names else None)
    statm.write_bytes(b"")
    with Both(program, env=surroundings) as server:
        for text, pages in STATMS:
            statm.write_bytes(text)
            came = metrics_at(server.http)
            note({MEMORY: None if pages is None else pages * PAGE}, came, f"at {text!r}", tally)
            tally.note(f"the others at {text!r}", None if set(came) - {MEMORY} == names else f"came {sorted(came)}")


def left_looks(program: str, tally: Tally) -> None:
    """A look that waits leaves its slot soon after its client has left; one whose client closes its side alone is
    answered soon."""
    with Both(program) as server, ExitStack() as room:
        looks = [room.enter_context(Client(server.http)) for _ in range(LOOKS)]
        for look in looks:
            look.send(request("GET", "/nodes?after=9"))
        once_well(server.http, by_protocol("grove_connections", 0, LOOKS + 1), "they wait", tally)
        started = time.monotonic()
        # (One of them breaks off, as a client does that is ended with something unread.)
        looks[1].connection.setsockopt(socket.SOL_SOCKET, socket.SO_LINGER, struct.pack("ii", 1, 0))
        for look in looks[1:]:
            look.close()
        looks[0].connection.shutdown(socket.SHUT_WR)
        came = looks[0].next()
        tally.note("the half that is open", None if came and came.status == 200 else f"came {came}")
        once_well(server.http, by_protocol("grove_connections", 0, 1), "they have left", tally)
        taken = time.monotonic() - started
        tally.note("the time", None if taken < SOON else f"they had their slots for {taken:.1f} s")


def nodes(program: str, tally: Tally) -> None:
    """Waits and weights by node, if they are asked for."""
    rows = [("", None, 5), ("a-1", 0, 2), ("b", 1, 1000), ("_", 0, 3)]
    document = json.dumps({"nodes": [dict(zip(("name", "parent", "weight"), row)) for row in rows]}).encode()
    paths = ["/", "/a-1", "/a-1/b", "/_"]
    with Both(program, document=document) as server:
        for query in ("", "?nodes=0", "?nodes", "?nodes=1&nodes=0", "?other=1"):
            found = [key for key in metrics_at(server.http, query) if key.startswith("grove_node")]
            tally.note(f"the query {query!r}", f"came {found}" if found else None)
        came = metrics_at(server.http, "?nodes=1")
        for path, (_, _, weight) in zip(paths, rows):
            wanted = {f'grove_node_weight{{path="{path}"}}': weight, f'grove_node_waits{{path="{path}"}}': 0}
            note(wanted, came, "by node", tally)
        found = [key for key in came if key.startswith("grove_node")]
        tally.note("the nodes", None if len(found) == 2 * len(rows) else f"came {found}")


def come_and_go(program: str, tally: Tally) -> None:
    """Each connection is counted as long as it has a slot."""
    with Both(program) as server, ExitStack() as room:
        clients = []
        for count in range(1, SLOTS + 1):
            clients.append(room.enter_context(connected(server.port)))
            once_well(server.http, by_protocol("grove_connections", count, 1), f"{count} are there", tally)
        for count, client in enumerate(clients, 1):
            client.close()
            once_well(server.http, by_protocol("grove_connections", SLOTS - count), f"{count} have left", tally)
        once_well(server.http, by_protocol("grove_accepted_connections_total", SLOTS), "in the end", tally)


class NotAllThere(Exception):
    """Some clients haven't all slots at once: the first may have idled for too long before the last one was there, or
    that found no slot, since a look that had ended still had it."""


@contextmanager
def in_time() -> Iterator[None]:
    """What is done within it comes before who came first has idled for too long."""
    begun = time.monotonic()
    yield
    if time.monotonic() - begun > IDLE_SECONDS:
        raise NotAllThere


def until_all_there(call: Callable[[str, Tally], None], program: str, tally: Tally) -> None:
    """Calls it, and again where not all slots were taken at once, as on a machine with other work."""

    def look() -> str | None:
        try:
            call(program, tally)
        except NotAllThere:
            return "not all slots were taken at once"
        return None

    until_well(look, "the slots", tally, TRIES_IN_TIME)


def idle_and_busy(program: str, tally: Tally) -> None:
    """Connections that idle are counted when they are ended, those that take no replies among them, and so are those
    that find no slot."""
    with Both(program, "--busy", *IDLE, document=large_tree()) as server, ExitStack() as room:
        for protocol, port, slots in (("tcp", server.port, SLOTS), ("http", server.http, HTTP_SLOTS)):
            time.sleep(LEAVING)
            with in_time():
                clients = [room.enter_context(narrow(port)) for _ in range(slots)]
                for client, text in zip(clients[::2], itertools.cycle(UNTAKEN[protocol][:1])):
                    client.sendall(text)
                there = once_in_use(Looking(server.http), protocol, slots)
                with connected(port) as late:
                    said = late.recv(1000)
            tally.note(f"all are there over {protocol}", None if there == slots else f"{there:g} are")
            tally.note(f"late over {protocol}", None if b"busy" in said else f"it is told {said!r}")
            for client in clients[1::2]:
                client.recv(1)
        wanted = by_protocol("grove_idled_connections_total", SLOTS, HTTP_SLOTS)
        turned = by_protocol("grove_turned_away_connections_total", 1, 1)
        once_well(server.http, {**wanted, **turned, **by_protocol("grove_connections", 0, 1)}, "in the end", tally)


class Looking:
    """Looks at the metrics, each over a connection of its own, whose bytes are known."""

    ASKED = request("GET", "/metrics", None, "connection: close")

    def __init__(self, port: int):
        self.port, self.looks, self.came = port, 0, 0

    def look(self) -> tuple[dict[str, float], dict[str, float]]:
        """What is told, and what of it is of the looks themselves: of this one all but its response."""
        self.looks += 1
        own = {
            'grove_accepted_connections_total{protocol="http"}': self.looks,
            'grove_received_bytes_total{protocol="http"}': self.looks * len(self.ASKED),
            'grove_sent_bytes_total{protocol="http"}': self.came,
        }
        came = all_of(self.port, self.ASKED)
        self.came += len(came)
        return samples_in(came.partition(b"\r\n\r\n")[2].decode()), own

    def note_columns(self, wanted: dict[str, tuple[float, float]], where: str, tally: Tally) -> None:
        """Compares what came over TCP and over HTTP beside the looks, once what follows an answer is counted."""
        ends = time.monotonic() + LONGEST
        while True:
            told, own = self.look()
            names = {f'{name}{{protocol="{which}"}}': at for name in wanted for at, which in enumerate(PROTOCOLS)}
            came = {key: told[key] - own.get(key, 0) for key in names}
            right = {key: wanted[key.partition("{")[0]][at] for key, at in names.items()}
            if came == right or time.monotonic() > ends:
                note(right, came, where, tally)
                return
            time.sleep(0.02)


def all_of(port: int, text: bytes) -> bytes:
    """All that comes back to this, up to the end."""
    with connected(port) as client:
        client.sendall(text)
        return b"".join(iter(partial(client.recv, 1 << 16), b""))


def columns(program: str, tally: Tally) -> None:
    """The same happens at one port and then at the other: each column is what happened at its port."""
    names = [f"grove_{name}_total" for name in COLUMNS]
    with Both(program, "--busy", *IDLE, "--http-seats", str(SLOTS)) as server:
        looking, happened = Looking(server.http), [[0] * len(COLUMNS), [0] * len(COLUMNS)]
        for at, port in enumerate((server.port, server.http)):
            count, sent, came = 3 + at, 0, 0
            for number in range(count):
                text = (LINES_CLOSED if number else LONG_CLOSED)[at]
                sent, came = sent + len(text), came + len(server_said(port, text))
            happened[at] = [count, 0, 0, sent, came]
            wanted = dict(zip(names, zip(*happened)))
            looking.note_columns(wanted, f"lines over {PROTOCOLS[at]}", tally)
            with ExitStack() as room:
                time.sleep(LEAVING)
                with in_time():
                    clients = [room.enter_context(connected(port)) for _ in range(SLOTS)]
                    once_in_use(looking, PROTOCOLS[at], SLOTS)
                    for _ in range(LATE + at):
                        said = server_said(port, LINES_CLOSED[at])
                        if said and b"busy" not in said:
                            raise NotAllThere
                for client in clients:
                    client.recv(1)
            happened[at] = [count + SLOTS + LATE + at, LATE + at, SLOTS, sent, came]
            wanted = dict(zip(names, zip(*happened)))
            looking.note_columns(wanted, f"idle and late over {PROTOCOLS[at]}", tally)


def once_in_use(looking: Looking, protocol: str, count: int) -> float:
    """Waits until so many connections have a slot, but for the look that asks, and gives how many have one. (The look
    may have none.)"""
    ends = time.monotonic() + IDLE_SECONDS
    while True:
        there = looking.look()[0][f'grove_connections{{protocol="{protocol}"}}']
        if there >= count or time.monotonic() > ends:
            return there
        time.sleep(0.01)


def server_said(port: int, text: bytes) -> bytes:
    """All that comes back to a client that sends no more than this. (One that is too late may be closed before it has
    sent that.)"""
    came = b""
    with connected(port) as client:
        with suppress(OSError):
            client.sendall(text)
            client.shutdown(socket.SHUT_WR)
        with suppress(ConnectionError):
            while piece := client.recv(1 << 16):
                came += piece
    return came


def times_of_turns(program: str, tally: Tally) -> None:
    """Of each turn the time is within what passed outside, and a long one's is a part of it that shows its unit. It is
    in the bucket of the least bound that it is within."""
    with Both(program, document=LARGE) as server, connected(server.port) as client, client.makefile("rb") as replies:
        before = metrics_at(server.http)
        for number in range(TURNS):
            line = LONG_LINE if number % 4 == 3 else b'{"weights":null}\n'
            started = time.monotonic()
            client.sendall(line)
            reply = replies.readline()
            passed = time.monotonic() - started
            after = metrics_at(server.http)
            took = round(after[TIMES + "_sum"] - before[TIMES + "_sum"], 6)
            least = passed / LEAST_SHARE if line == LONG_LINE else 0.0
            is_well = least <= took <= passed and reply.startswith((b'{"places"', b'{"waits"'))
            tally.note(f"turn {number}", None if is_well else f"of {passed:.6f} s {took:.6f} s were counted")
            note_bucket(TIMES, before, after, took, f"turn {number}", tally)
            before = after


def note_bucket(
    family: str, before: dict[str, float], after: dict[str, float], took: float, where: str, tally: Tally
) -> None:
    """Just the buckets of bounds that aren't less have one more."""
    for bound in BOUNDS:
        key = f'{family}_bucket{{le="{bound}"}}'
        more, wanted = after[key] - before[key], 1 if took <= float(bound) else 0
        tally.note(f"{where}, {bound}", None if more == wanted else f"of a time of {took} came {more}")


def times_of_syncs(program: str, room: str, tally: Tally) -> None:
    """Of each round that is kept the time of its sync is within what passed outside, and no less than the sync took, in
    the bucket of the least bound that it is within. What the file has is counted too."""
    library, file = library_of("slow_syncs", room), Path(room, "synced.grove")
    for micros in SYNC_MICROS:
        surroundings = {**os.environ, "LD_PRELOAD": library, "SYNC_MICROS": str(micros)}
        with Both(program, "--data", str(file), env=surroundings) as server:
            before = metrics_at(server.http)
            for number in range(SYNCED):
                started = time.monotonic()
                server.talk(ADD)
                passed, after = time.monotonic() - started, metrics_at(server.http)
                took = round(after[SYNCS + "_sum"] - before[SYNCS + "_sum"], 6)
                where, is_well = f"round {number} with {micros}", micros / 1_000_000 <= took <= passed
                tally.note(where, None if is_well else f"of {passed:.6f} s {took:.6f} s were counted")
                note_bucket(SYNCS, before, after, took, where, tally)
                wanted = {SYNCS + "_count": number + 1, "grove_data_bytes": file.stat().st_size}
                note(wanted, after, where, tally)
                before = after
        file.unlink()


def bytes_of_file(program: str, room: str, tally: Tally) -> None:
    """Rounds until a file is written anew, which is at the first one behind so many bytes of rounds, and some more:
    after each the bytes that are counted are those of the file, and each has its sync."""
    file, count = Path(room, "anew.grove"), len(LEAVES)
    # The places and values of all leaves, and of the count of rounds, in a frame.
    each = 40 + 12 * (count + 1)
    most = MOST_BEHIND // each + 1
    lists = [[["add", f"/{name}", 1] for name in LEAVES[at::32]] for at in range(32)]
    line = json.dumps({"batch": lists}).encode() + b"\n"
    with Both(program, "--data", str(file), document=LARGE) as server, connected(server.port) as client:
        replies = client.makefile("rb")
        first = file.stat().st_size
        for rounds in range(1, most + 4):
            client.sendall(line)
            replies.readline()
            behind = rounds if rounds <= most else rounds - most - 1
            wanted = {"grove_data_rounds": rounds, "grove_data_bytes": first + each * behind, SYNCS + "_count": rounds}
            size = file.stat().st_size
            tally.note(f"round {rounds}", None if size == first + each * behind else f"the file has {size} bytes")
            if rounds < 3 or rounds > most - 3:
                note(wanted, metrics_at(server.http), f"round {rounds}", tally)
                told = Ran(0, f"rounds {rounds}\nbytes {size}\nwhole\n".encode(), b"")
                tally.compare(f"round {rounds}, grove data", run(program, "data", "--check", str(file)), told)


def each_name(program: str, tally: Tally) -> None:
    """Lines that are refused by each name that there is, some of them more often than others: each is counted by its
    own name, whatever port it came to."""
    document = (Path(__file__).parents[2] / "examples/two-leaves.json").read_bytes()
    rows = json.loads(HINTS.read_text())
    wanted: dict[str, int] = {}
    with Both(program, document=document) as server, Client(server.http) as client:
        for number, row in enumerate(rows):
            line = row["line"].encode() + b"\n"
            if number % 2:
                client.post(line)
            else:
                server.talk(line)
            wanted[row["error"]] = wanted.get(row["error"], 0) + 1
        client.post(b"x" * (MOST_LINE + 1) + b"\n")
        came = metrics_at(server.http)
    right = refused({**wanted, "long-line": 1})
    counted = {key: value for key, value in came.items() if key.startswith("grove_refused_lines_total")}
    for key in {*right, *counted}:
        told = f"wanted {right.get(key)}; came {counted.get(key)}"
        tally.note(key, None if right.get(key) == counted.get(key) else told)


def at_a_page(program: str, tally: Tally) -> None:
    """`grove page` has the same counts at its port, and none of another port."""
    with Serving(program, TREE, command="page") as server:
        with Client(server.port) as client:
            client.post(ADD + GET)
        wanted = {"grove_lines_total": 2, **by_protocol("grove_connection_slots", 0, SLOTS)}
        once_well(server.port, {**wanted, **by_protocol("grove_accepted_connections_total", 0)}, "a page", tally)
        tally.note("its memory", None if metrics_at(server.port).get(MEMORY) else "it has none")
        with Client(server.port) as client:
            seen = client.get("/metrics")
            client.send(request("HEAD", "/metrics"))
            head = client.next("HEAD")
            tally.note("HEAD", None if (head.status, head.body) == (200, b"") else f"came {head}")
            tally.note("the form", None if families_in(seen.body.decode()) else "there is nothing")


def families(program: str, tally: Tally) -> None:
    """The families are those of docs/PAGE.md, in their order, each of its kind and with its label, and no two have the
    same help. When the server was started is told to the second."""
    rows = re.findall(r"^\| (`[a-z_`, {}]+`) \| (counter|gauge|histogram) \|", PAGES.read_text(), re.MULTILINE)
    wanted = [(*named, kind) for names, kind in rows for named in re.findall(r"`([a-z_]+)(?:\{([a-z]+)\})?`", names)]
    before = time.time()
    with Both(program, *KEEPING) as server:
        after = time.time()
        server.talk(b"\n")
        with Client(server.http) as client:
            text = client.get("/metrics?nodes=1").body.decode()
    found = families_in(text)
    came = [(name, label_of(family), family.kind) for name, family in found.items()]
    tally.note("the families", None if came == wanted and wanted else f"wanted {wanted}; came {came}")
    helps = re.findall(r"^# HELP [a-z_]+ (.*)$", text, re.MULTILINE)
    tally.note("the helps", None if len(set(helps)) == len(helps) == len(found) else f"came {helps}")
    started = found["process_start_time_seconds"].samples["process_start_time_seconds"]
    is_well = int(before) <= started <= after and started == int(started)
    tally.note("the start", None if is_well else f"{started} isn't from {before} to {after}")


def label_of(family: Family) -> str:
    """The name of the label that all samples of a family have, but for the bounds of buckets; nothing if they have
    none."""
    labels = {key.partition("{")[2].partition("=")[0] for key in family.samples if "_bucket{" not in key}
    return labels.pop() if len(labels) == 1 else f"{labels}"


def checked(program: str, tally: Tally) -> None:
    """Prometheus' own checker finds nothing; nothing is tried if it isn't installed."""
    checker = shutil.which("promtool")
    if not checker:
        tally.note("promtool", None)
        return
    with Both(program, *KEEPING) as server:
        server.talk(b"".join(LINES))
        for query in ("", "?nodes=1"):
            with Client(server.http) as client:
                text = client.get("/metrics" + query).body
            ran = subprocess.run([checker, "check", "metrics"], input=text, capture_output=True, timeout=LONGEST)
            is_well = ran.returncode == 0 and not ran.stdout and not ran.stderr
            tally.note(f"the query {query!r}", None if is_well else f"{ran.stdout!r} {ran.stderr!r}")
