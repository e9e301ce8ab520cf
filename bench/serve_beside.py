#!/usr/bin/env python3
"""Times lines to `grove serve` beside what does a part of the same.

    usage: bench/serve_beside.py [kept] [first] [http] [--quick] [--seconds S] [--nodes N,..] [--workers N] [--runs N]
                                                                                                      (default: all)

The trees, the lists, the clients and the options are those of bench/serve.py.

kept: plans that are kept, beside bench/copy_server.c, which answers each line with the reply that the program gave.
`time` is how many times as long a line takes the program, by lines a second, and `cpu` how many times its processor
time is that of the copying server.
first: plans that aren't kept, by one client that waits for each reply. It sends 4,096 lists of 64 `add`s in turn, all
different, and a server keeps 1,024 plans. Beside the time of a line, by lines a second, is what the planner alone takes
for a list, by `grove_bench plan`: the mean of 16 of the lists, of each the shortest of 50 runs.
http: requests `POST /` of 200 lines with a batch of one `add`, over 1 and over 16 connections that stay. Latencies are
those of a request, and the processor time that of a line. Beside them are lines of that kind by 16 clients over TCP,
each with 16 ahead, at the same server.
"""
from __future__ import annotations

import argparse
import contextlib
import itertools
import json
import random
import statistics
import subprocess
import sys
import tempfile
from collections.abc import Callable, Iterator
from pathlib import Path

TOP = Path(__file__).resolve().parent.parent
sys.dont_write_bytecode = True
sys.path.insert(0, str(TOP / "tests"))
import lists  # noqa: E402
import peer  # noqa: E402
import serve  # noqa: E402
from rows import Column, Row, Table, show  # noqa: E402
from server import Serving, free_port  # noqa: E402
from web import Client, post  # noqa: E402

# How many lists come for the first time, which a server can't keep all, and of how many the planner alone is timed.
FIRST, SAMPLED = 4096, 16
# How many lines a request has, and how many requests there are, which the clients send in turn.
POSTED, POSTS = 200, 16
# The clients over TCP, beside those over HTTP, and how many lines ahead each of them has.
MANY, FAR = 16, 16

Part = Callable[[str, argparse.Namespace], Iterator[Row]]


# ---- plans that are kept


def replies_of(server: Serving, lines: list[bytes]) -> list[bytes]:
    """The program's replies, whose plans it keeps from then on."""
    replies = server.talk(b"".join(lines)).splitlines(keepends=True)
    if len(replies) != len(lines) or any(reply.startswith(b'{"error"') for reply in replies):
        sys.exit(f"of {len(lines)} lines some aren't answered, or refused")
    return replies


@contextlib.contextmanager
def copying(program: Path, clients: int, lines: list[bytes], replies: list[bytes]) -> Iterator[serve.Beside]:
    """bench/copy_server.c, for so many clients."""
    started = subprocess.Popen([program, str(clients)], stdin=subprocess.PIPE, stdout=subprocess.PIPE)
    assert started.stdin and started.stdout
    with started:
        try:
            started.stdin.write(b"".join(itertools.chain.from_iterable(zip(lines, replies))))
            started.stdin.close()
            yield int(started.stdout.readline()), started.pid
        finally:
            started.kill()


def rows_of_kept(
    client: Path, copier: Path, where: serve.Tree, plans: serve.Asked, server: Serving, seconds: float
) -> Iterator[Row]:
    replies = replies_of(server, plans.lines)
    for clients, ahead in itertools.product(serve.CLIENTS, serve.AHEAD):
        how = plans.lines, (1, 1), clients, ahead, seconds
        found = serve.measured(client, server.port, server.started.pid, *how)
        with copying(copier, clients, plans.lines, replies) as beside:
            other = serve.measured(client, *beside, *how)
        times = other.rate / found.rate, found.spent / other.spent
        yield Row((where.name, plans.name, clients, ahead), (found.shown(), (*other.shown(), *times)))


def kept(folder: str, given: argparse.Namespace) -> Iterator[Row]:
    client, copier = (serve.compiled(folder, name) for name in ("serve_client", "copy_server"))
    for where in serve.trees(given.nodes):
        with Serving(serve.PROGRAM, where.document, given.workers) as server:
            for plans in serve.all_plans(where):
                yield from rows_of_kept(client, copier, where, plans, server, given.seconds)


# ---- plans that come for the first time


def planner_seconds(where: serve.Tree, asked: list[list[serve.Access]]) -> float:
    """What the planner alone takes for a list, in the mean of some of them."""
    rows = [(row["parent"], row["weight"]) for row in json.loads(where.document)["nodes"]]
    numbers = {path: number for number, path in enumerate(where.paths)}
    cases = [lists.Case("", rows, [(numbers[access[1]], 1) for access in one]) for one in asked[:: FIRST // SAMPLED]]
    return statistics.mean(peer.planned(case)[0]["plan"] for case in cases) / 1e9


def first(folder: str, given: argparse.Namespace) -> Iterator[Row]:
    client = serve.compiled(folder, "serve_client")
    for where in serve.trees(given.nodes):
        rng = random.Random(f"{where.name} first")
        asked = [serve.adds(rng, where.paths, serve.ACCESSES) for _ in range(FIRST)]
        plans = serve.plans("", asked)
        with Serving(serve.PROGRAM, where.document, given.workers) as server:
            found = serve.measured(client, server.port, server.started.pid, plans.lines, (1, 1), 1, 1, given.seconds)
        own = 1e6 / found.rate, *found.shown()[1:]
        if not peer.BENCH.exists():
            yield Row((where.name,), (own,))
            continue
        alone = planner_seconds(where, asked)
        yield Row((where.name,), (own, (alone * 1e6, 1 / found.rate / alone)))


# ---- over HTTP


def posts(where: serve.Tree, lines: list[bytes]) -> list[bytes]:
    rng = random.Random(f"{where.name} posts")
    return [post(b"".join(rng.choices(lines, k=POSTED))) for _ in range(POSTS)]


def shape_of(request: bytes, port: int) -> tuple[int, int]:
    """How many line feeds a request has, and how many its response, which has as many fields each time."""
    with Client(port) as client:
        client.send(request)
        response = client.next("POST")
    if response.status != 200 or response.body.count(b'"round"') != POSTED:
        sys.exit(f"came {response}")
    return request.count(b"\n"), 2 + len(response.fields) + response.body.count(b"\n")


def rows_of_posts(client: Path, where: serve.Tree, server: Serving, port: int, seconds: float) -> Iterator[Row]:
    lines = serve.short_batches(where).lines
    requests, process = posts(where, lines), server.started.pid
    shape = shape_of(requests[0], port)
    for connections in serve.CLIENTS:
        found = serve.measured(client, port, process, requests, shape, connections, 1, seconds)
        other = serve.measured(client, server.port, process, lines, (1, 1), MANY, FAR, seconds)
        rate, middle, late, spent = found.shown()
        own = rate * POSTED, middle, late, spent / POSTED
        yield Row((where.name, connections), (own, (*other.shown(), own[0] / other.rate)))


def http(folder: str, given: argparse.Namespace) -> Iterator[Row]:
    client = serve.compiled(folder, "serve_client")
    for where in serve.trees(given.nodes):
        port = free_port()
        with Serving(serve.PROGRAM, where.document, given.workers, further=("--http", str(port))) as server:
            yield from rows_of_posts(client, where, server, port, given.seconds)


# ---- the tables


def table_of_kept() -> Table:
    times = Column("time", 7, ".3f", is_ratio=True), Column("cpu", 7, ".3f", is_ratio=True)
    return Table(serve.ASKED, serve.ASKED_NAMES, (serve.FIGURES, (*serve.FIGURES, *times)))


def table_of_first() -> Table:
    own = Column("line µs", 9, ",.1f"), *serve.FIGURES[1:]
    beside = Column("plan µs", 9, ",.1f"), Column("ratio", 7, ".3f", is_ratio=True)
    return Table("{:<15}", ("nodes",), (own, beside) if peer.BENCH.exists() else (own,))


def table_of_posts() -> Table:
    beside = *serve.FIGURES, Column("ratio", 7, ".3f", is_ratio=True)
    return Table("{:<15} {:>3}", ("nodes", "by"), (serve.FIGURES, beside))


PARTS: dict[str, tuple[str, Callable[[], Table], Part]] = {
    "kept": ("Plans that are kept, beside a server that copies", table_of_kept, kept),
    "first": ("Plans that come for the first time, beside the planner alone", table_of_first, first),
    "http": ("Lines over HTTP, beside lines over TCP", table_of_posts, http),
}


def show_part(name: str, folder: str, given: argparse.Namespace) -> None:
    title, table, part = PARTS[name]
    print(f"{title}:", flush=True)
    if name == "first" and not peer.BENCH.exists():
        print("grove_bench isn't built (`cd crates/grove_bench && rt run`): no figures of the planner alone")
    show(table(), given.runs, lambda: part(folder, given))


def main() -> None:
    read = serve.reader_of_words(__doc__)
    read.add_argument("parts", nargs="*", metavar="PART", help="kept, first or http")
    given = serve.words_given(read)
    unknown = set(given.parts) - set(PARTS)
    if unknown:
        read.error(f"there is no part {', '.join(sorted(unknown))}")
    serve.need_program()
    with tempfile.TemporaryDirectory() as folder:
        for name in given.parts or PARTS:
            show_part(name, folder, given)


if __name__ == "__main__":
    main()
