#!/usr/bin/env python3
"""Times `grove serve` over loopback, and beside it Redis, if `redis-server` is on the path.

    usage: bench/serve.py [--quick] [--seconds S] [--nodes N,..] [--workers N] [--runs N]

For trees of 3 to 4,096 nodes, with four children below each node or with all nodes below the root, it asks for a
batch of one list with one `add`, for one of a list with 64, and for the plans of these lists, each line's nodes drawn
at random; below a root with 256 records also for a batch of 256 lists of a `get` and an `add`. Redis gets the same
accesses, a MULTI .. EXEC for each list. By 1 and 16 clients, each of which sends a line once the one before is
answered, or up to 16 ahead. The clients are bench/serve_client.c; it is compiled here, so `cc` is needed.

Each row has lines a second, the latency in the middle and at the 99th of 100, the server's processor time for a line,
and for batches how many lines a round had; then the same of Redis, and how many times its lines a second there are.
--quick takes the smallest and the largest tree alone, for a fifth of a second each; --seconds is how long each figure
is measured. With --runs all is done N times, one run after the other. Then each row comes once, at the end, with the
median of each figure, and with the least and the greatest ratio beside the median.
"""
from __future__ import annotations

import argparse
import contextlib
import itertools
import json
import random
import shutil
import subprocess
import sys
import tempfile
import time
from collections.abc import Iterable, Iterator
from dataclasses import dataclass
from pathlib import Path

TOP = Path(__file__).resolve().parent.parent
sys.dont_write_bytecode = True
sys.path.insert(0, str(TOP / "tests"))
from rows import Column, Row, Table, show  # noqa: E402
from server import Serving, connected, free_port  # noqa: E402

PROGRAM = TOP / "crates/grove/out/grove"
NODES = (3, 64, 257, 1000, 4096)
FAN_OUT = 4
ACCESSES = 64
# How many lines there are of each kind, which the clients send in turn.
LINES = 256
CLIENTS = (1, 16)
AHEAD = (1, 16)
ASKED = "{:<15} {:<18} {:>3} {:>3}"
ASKED_NAMES = ("nodes", "asked", "by", "ahd")
FIGURES = (
    Column("lines/s", 9, ",.0f"),
    Column("mid ms", 8, ".3f"),
    Column("99th ms", 8, ".3f"),
    Column("cpu µs", 8, ".1f"),
)

Access = tuple[str, str] | tuple[str, str, int]
# A server beside the program: its port and its process.
Beside = tuple[int, int]


# ---- trees


@dataclass(frozen=True)
class Tree:
    name: str
    document: bytes
    paths: list[str]


def tree(shape: str, parents: list[int | None]) -> Tree:
    """A tree by each row's parent, in preorder; the weights fall with the depth as the numbers of nodes below do."""
    rows, paths, depths = [], [], []
    for number, parent in enumerate(parents):
        is_root = parent is None
        depths.append(0 if is_root else depths[parent] + 1)
        paths.append("" if is_root else f"{paths[parent]}/n{number}")
        name = "" if is_root else f"n{number}"
        rows.append({"parent": parent, "name": name, "weight": max(1, 1000 >> 2 * depths[-1]), "value": 0})
    return Tree(f"{len(rows):,} {shape}", json.dumps({"nodes": rows}).encode(), ["/", *paths[1:]])


def flat(nodes: int) -> Tree:
    return tree("flat", [None] + [0] * (nodes - 1))


def balanced(nodes: int) -> Tree:
    """The parents in a tree whose rows are full from above, numbered anew in preorder."""
    parents: list[int | None] = []

    def grow(place: int, parent: int | None) -> None:
        number = len(parents)
        parents.append(parent)
        for child in range(FAN_OUT * place + 1, min(FAN_OUT * (place + 1) + 1, nodes)):
            grow(child, number)

    grow(0, None)
    return tree("balanced", parents)


def trees(sizes: Iterable[int]) -> list[Tree]:
    """Of each size the two trees, or one if they are the same."""
    return [shape(nodes) for nodes in sizes for shape in (balanced, flat) if shape is flat or nodes > FAN_OUT + 1]


# ---- what is asked


@dataclass(frozen=True)
class Asked:
    """Requests of one kind to the program, and the same accesses for Redis, each with how many lines a request has, and
    how many a reply."""

    name: str
    lines: list[bytes]
    commands: list[bytes]
    feeds: int

    def shape(self) -> tuple[int, int]:
        return self.commands[0].count(b"\n"), self.feeds


def adds(rng: random.Random, paths: list[str], count: int) -> list[Access]:
    return [("add", path, 1) for path in rng.choices(paths, k=count)]


def line(request: dict[str, object]) -> bytes:
    return json.dumps(request, separators=(",", ":")).encode() + b"\n"


def command(*words: bytes) -> bytes:
    return b"*%d\r\n" % len(words) + b"".join(b"$%d\r\n%s\r\n" % (len(word), word) for word in words)


def transaction(accesses: list[Access]) -> bytes:
    """A MULTI .. EXEC of the accesses, as Redis reads it."""
    asked = [[b"INCRBY", path.encode(), b"%d" % by[0]] if by else [b"GET", path.encode()] for _, path, *by in accesses]
    return b"".join(command(*words) for words in ([b"MULTI"], *asked, [b"EXEC"]))


def feeds_of(accesses: list[Access]) -> int:
    """How many line feeds answer such a transaction: of OK, of each QUEUED, of the array, of its numbers, and twice
    as many of its texts."""
    return 2 + len(accesses) + sum(2 if access[0] == "get" else 1 for access in accesses)


def batches(name: str, lists_of_lines: list[list[list[Access]]]) -> Asked:
    commands = [b"".join(map(transaction, lists)) for lists in lists_of_lines]
    feeds = sum(map(feeds_of, lists_of_lines[0]))
    return Asked(name, [line({"batch": lists}) for lists in lists_of_lines], commands, feeds)


def plans(name: str, lists: list[list[Access]]) -> Asked:
    return Asked(name, [line({"plan": one}) for one in lists], [], 0)


def lists_of(where: Tree) -> tuple[list[list[Access]], list[list[Access]]]:
    """Lists of one access, and of many."""
    rng = random.Random(where.name)
    singles = [adds(rng, where.paths, 1) for _ in range(LINES)]
    return singles, [adds(rng, where.paths, ACCESSES) for _ in range(LINES)]


def short_batches(where: Tree) -> Asked:
    return batches("batch of 1 add", [[one] for one in lists_of(where)[0]])


def all_plans(where: Tree) -> Iterator[Asked]:
    singles, longs = lists_of(where)
    yield plans("plan of 1 add", singles)
    yield plans(f"plan of {ACCESSES} adds", longs)


def asked_of(where: Tree) -> Iterator[Asked]:
    yield short_batches(where)
    yield batches(f"batch of {ACCESSES} adds", [[one] for one in lists_of(where)[1]])
    yield from all_plans(where)
    if where.name == "257 flat":
        many: list[list[Access]] = [[("get", path), ("add", path, 1)] for path in where.paths[1:]]
        yield batches(f"batch of {len(many)} lists", [many])


# ---- servers


@contextlib.contextmanager
def redis(paths: list[str]) -> Iterator[Beside]:
    """Redis, with a record for each path; gives its port and its process."""
    port = free_port()
    words = ["redis-server", "--port", str(port), "--bind", "127.0.0.1", "--save", "", "--appendonly", "no"]
    with tempfile.TemporaryDirectory() as folder:
        started = subprocess.Popen(words, cwd=folder, stdout=subprocess.DEVNULL)
        try:
            await_port(port)
            with connected(port) as connection, connection.makefile("rb") as replies:
                connection.sendall(b"".join(command(b"SET", path.encode(), b"0") for path in paths))
                assert all(replies.readline() == b"+OK\r\n" for _ in paths)
            yield port, started.pid
        finally:
            started.terminate()
            started.wait()


def await_port(port: int) -> None:
    for _ in range(100):
        with contextlib.suppress(OSError):
            return connected(port).close()
        time.sleep(0.05)
    sys.exit("redis-server doesn't listen")


def processor_seconds(process: int) -> float:
    """What all threads of a process have spent, those that have ended among them."""
    # The clock that clock_getcpuclockid names for the process.
    return time.clock_gettime((~process << 3) | 2)


def rounds(server: Serving) -> int:
    """How many rounds the store has run; finding out takes one of them."""
    return json.loads(server.talk(b'{"batch":[]}\n'))["round"]


# ---- figures


@dataclass(frozen=True)
class Figures:
    rate: float
    middle: float
    late: float
    spent: float
    answered: int

    def shown(self) -> tuple[float, ...]:
        return self.rate, self.middle * 1e3, self.late * 1e3, self.spent * 1e6


def compiled(folder: str, name: str) -> Path:
    """The program of this name in bench/, compiled into the folder."""
    to = Path(folder) / name
    subprocess.run(["cc", "-O2", "-pthread", "-o", to, TOP / f"bench/{name}.c"], check=True)
    return to


def measured(
    client: Path, port: int, process: int, requests: list[bytes], shape: tuple[int, int], clients: int, ahead: int,
    seconds: float,
) -> Figures:
    words = [client, *map(str, (port, clients, ahead, seconds, *shape))]
    before = processor_seconds(process)
    ran = subprocess.run(words, input=b"".join(requests), stdout=subprocess.PIPE)
    if ran.returncode:
        sys.exit(f"{' '.join(map(str, words))}: status {ran.returncode}")
    rate, middle, late, answered = ran.stdout.split()
    spent = (processor_seconds(process) - before) / int(answered)
    return Figures(float(rate), int(middle) / 1e9, int(late) / 1e9, spent, int(answered))


def rows_of(
    client: Path, where: Tree, asked: Asked, server: Serving, beside: Beside | None, seconds: float
) -> Iterator[Row]:
    """A row for each number of clients and of lines ahead."""
    for clients, ahead in itertools.product(CLIENTS, AHEAD):
        how = clients, ahead, seconds
        before = rounds(server)
        found = measured(client, server.port, server.started.pid, asked.lines, (1, 1), *how)
        shared = found.answered / (rounds(server) - before - 1) if asked.commands else None
        groups: list[tuple[float | None, ...]] = [(*found.shown(), shared)]
        if beside and asked.commands:
            other = measured(client, *beside, asked.commands, asked.shape(), *how)
            groups.append((*other.shown(), found.rate / other.rate))
        yield Row((where.name, asked.name, clients, ahead), tuple(groups))


def measure_all(client: Path, given: argparse.Namespace, has_redis: bool) -> Iterator[Row]:
    for where in trees(given.nodes):
        other = redis(where.paths) if has_redis else contextlib.nullcontext()
        with Serving(PROGRAM, where.document, given.workers) as server, other as beside:
            for asked in asked_of(where):
                yield from rows_of(client, where, asked, server, beside, given.seconds)


def table(has_redis: bool) -> Table:
    own = *FIGURES, Column("round", 5, ".1f")
    beside = *FIGURES, Column("ratio", 7, ".3f", is_ratio=True)
    return Table(ASKED, ASKED_NAMES, (own, beside) if has_redis else (own,))


def reader_of_words(description: str) -> argparse.ArgumentParser:
    read = argparse.ArgumentParser(description=description, formatter_class=argparse.RawDescriptionHelpFormatter)
    read.add_argument("--quick", action="store_true")
    read.add_argument("--seconds", type=float)
    read.add_argument("--nodes", type=lambda words: [int(word) for word in words.split(",")])
    read.add_argument("--workers", type=int, default=4)
    read.add_argument("--runs", type=int, default=1)
    return read


def words_given(read: argparse.ArgumentParser) -> argparse.Namespace:
    given = read.parse_args()
    given.seconds = given.seconds or (0.2 if given.quick else 1.0)
    given.nodes = given.nodes or ((NODES[0], NODES[-1]) if given.quick else NODES)
    return given


def need_program() -> None:
    subprocess.run([TOP / "grove", "--proved", "--help"], check=True, stdout=subprocess.DEVNULL)


def main() -> None:
    given = words_given(reader_of_words(__doc__))
    need_program()
    has_redis = shutil.which("redis-server") is not None
    if not has_redis:
        print("redis-server isn't on the path: no figures beside the program's")
    with tempfile.TemporaryDirectory() as folder:
        client = compiled(folder, "serve_client")
        show(table(has_redis), given.runs, lambda: measure_all(client, given, has_redis))


if __name__ == "__main__":
    main()
