#!/usr/bin/env python3
"""Times `grove serve --data`, each of whose replies waits for the disk, beside what else keeps records so on the same
disk: Redis (`appendfsync always`), etcd (one member) and SQLite (a WAL, `synchronous=FULL`).

    usage: bench/durable.py [rates] [opening] [pause] [--seconds S] [--runs N] [--nodes N] [--workers N] [--rounds N]
                            [--folder FOLDER] [--program FILE]                                        (default: all)

rates: one `add` a line, at a tree with so many nodes below its root, by one client, by sixteen, and by sixteen with up
to 16 lines ahead; the same by `--sync second`, and with no --data. Redis gets an INCRBY for each, etcd a put over HTTP,
and SQLite, which is called without a server, a row's update by threads, whose lines can't be ahead. The clients of the
three servers are bench/serve_client.c. Each row has lines a second, the latency in the middle and at the 99th of 100;
and how many times the lines a second of each other there are. By `--sync second` it is how many times those with no
--data.
opening: how long it takes until a server listens, and `grove data` has printed the document, of a file with so many
rounds, which is written here.
pause: how long a line takes at which a new file takes the old one's place, of a tree with 4,096 nodes, beside other
lines, all of which add to 64 nodes. (The client is Python.)

It needs `cc`, and installs Redis and etcd (tests/install) if that may be done. Without one of them its columns are
blank. All files are in the folder, for which `out` at the top stands; before the tables comes how long an append of 100
bytes with a sync takes there.
"""
from __future__ import annotations

import argparse
import base64
import contextlib
import json
import os
import random
import shutil
import sqlite3
import statistics
import subprocess
import sys
import tempfile
import threading
import time
from collections.abc import Callable, Iterator
from dataclasses import dataclass
from hashlib import sha256
from pathlib import Path

import serve
from rows import Column, Row, Table, show

sys.path.insert(0, str(serve.TOP / "tests"))
import log_file  # noqa: E402
from server import Server, Serving, connected, free_port  # noqa: E402
from web import Client, request  # noqa: E402

NEEDED = ("cc", "redis-server", "etcd")
CLIENTS_AHEAD = ((1, 1), (16, 1), (16, 16))
# How often the disk is asked for an append alone.
APPENDS = 300
# The nodes of the store whose file is replaced, and how often it is, after no more than so many lines.
LARGE, REPLACED, MOST_LINES = 4096, 5, 200_000
# How long SQLite waits for another thread, in seconds.
PATIENCE = 60.0

Shown = tuple[float | None, ...]
NONE: Shown = (None, None, None, None)


# ---- the disk


def append_seconds(folder: str) -> float:
    """What an append of 100 bytes with a sync takes, in the middle of some."""
    found = []
    with open(f"{folder}/appends", "ab", buffering=0) as file:
        for _ in range(APPENDS):
            started = time.perf_counter()
            file.write(bytes(100))
            os.fdatasync(file.fileno())
            found.append(time.perf_counter() - started)
    return statistics.median(found)


# ---- servers beside


@contextlib.contextmanager
def started(words: list[str], port: int) -> Iterator[int]:
    """A server, once it listens; gives its process."""
    process = subprocess.Popen(words, stdout=subprocess.DEVNULL, stderr=subprocess.DEVNULL)
    try:
        await_port(words[0], port)
        yield process.pid
    finally:
        process.terminate()
        process.wait()


def await_port(name: str, port: int) -> None:
    for _ in range(400):
        with contextlib.suppress(OSError):
            return connected(port).close()
        time.sleep(0.05)
    sys.exit(f"{name} doesn't listen")


@dataclass(frozen=True)
class Beside:
    """A server: its port, its process, what it is asked, and how many lines a request has, and a reply."""

    port: int
    process: int
    requests: list[bytes]
    shape: tuple[int, int]


@contextlib.contextmanager
def redis(folder: str, paths: list[str]) -> Iterator[Beside]:
    port = free_port()
    words = ["redis-server", "--port", str(port), "--bind", "127.0.0.1", "--dir", folder, "--save", ""]
    words += ["--appendonly", "yes", "--appendfsync", "always"]
    requests = [serve.command(b"INCRBY", path.encode(), b"1") for path in paths]
    with started(words, port) as process:
        yield Beside(port, process, requests, (requests[0].count(b"\n"), 1))


@contextlib.contextmanager
def etcd(folder: str, paths: list[str]) -> Iterator[Beside]:
    port, peers = free_port(), free_port()
    own, other = f"http://127.0.0.1:{port}", f"http://127.0.0.1:{peers}"
    words = ["etcd", "--data-dir", f"{folder}/etcd", "--log-level", "error"]
    words += ["--listen-client-urls", own, "--advertise-client-urls", own, "--listen-peer-urls", other]
    words += ["--initial-advertise-peer-urls", other, "--initial-cluster", f"default={other}"]
    requests = [put(path) for path in paths]
    with started(words, port) as process:
        yield Beside(port, process, requests, (requests[0].count(b"\n"), feeds_of_put(port, requests[0])))


def put(path: str) -> bytes:
    key, value = (base64.b64encode(text).decode() for text in (path.encode(), b"1"))
    return request("POST", "/v3/kv/put", serve.line({"key": key, "value": value}))


def feeds_of_put(port: int, asked: bytes) -> int:
    """How many line feeds a response has, once there is a leader."""
    for _ in range(100):
        with Client(port) as client:
            client.send(asked)
            response = client.next("POST")
        if response is not None and response.status == 200:
            return 2 + len(response.fields) + response.body.count(b"\n")
        time.sleep(0.1)
    sys.exit(f"etcd doesn't answer: {response}")


# ---- SQLite


def sqlite(folder: str, paths: list[str], clients: int, seconds: float) -> Shown:
    """Updates of a row by so many threads, each of which waits for the disk."""
    file = f"{folder}/records.sqlite"
    with contextlib.closing(opened(file)) as made:
        made.execute("create table if not exists records (path text primary key, value integer) without rowid")
        made.executemany("insert or replace into records values (?, 0)", [(path,) for path in paths])
    taken: list[list[float]] = [[] for _ in range(clients)]
    until = time.perf_counter() + seconds
    threads = [threading.Thread(target=update, args=(file, paths, until, each)) for each in taken]
    for thread in threads:
        thread.start()
    for thread in threads:
        thread.join()
    found = sorted(one for each in taken for one in each)
    return len(found) / seconds, found[len(found) // 2] * 1e3, found[len(found) * 99 // 100] * 1e3, None


def opened(file: str) -> sqlite3.Connection:
    made = sqlite3.connect(file, timeout=PATIENCE, isolation_level=None)
    made.execute("pragma journal_mode=wal")
    made.execute("pragma synchronous=full")
    return made


def update(file: str, paths: list[str], until: float, taken: list[float]) -> None:
    rng = random.Random(len(paths))
    with contextlib.closing(opened(file)) as connection:
        while (began := time.perf_counter()) < until:
            connection.execute("update records set value = value + 1 where path = ?", (rng.choice(paths),))
            taken.append(time.perf_counter() - began)


# ---- rates


def rates(client: Path, folder: str, given: argparse.Namespace) -> Iterator[Row]:
    """The servers are there all the time, and are asked one after the other."""
    where = serve.flat(given.nodes)
    asked = serve.short_batches(where).lines
    kept = ("--data", f"{folder}/store")
    with contextlib.ExitStack() as room:
        ways = (kept, ("--data", f"{folder}/each-second", "--sync", "second"), ())
        own = [room.enter_context(Serving(given.program, where.document, given.workers, further=way)) for way in ways]
        all_of = [Beside(each.port, each.started.pid, asked, (1, 1)) for each in own]
        others = [
            room.enter_context(start(folder, where.paths)) if shutil.which(name) else None
            for name, start in (("redis-server", redis), ("etcd", etcd))
        ]
        for clients, ahead in CLIENTS_AHEAD:
            how = clients, ahead, given.seconds
            found: list[Shown] = [shown(client, each, *how) for each in (*all_of, *others)]
            found.append(NONE if ahead > 1 else sqlite(folder, where.paths, clients, given.seconds))
            each_round, each_second, unkept = found[:3]
            second = (*each_second[:3], beside(each_second, unkept)[3])
            yield Row((clients, ahead), (each_round, second, *(beside(each_round, each) for each in found[2:])))


def shown(client: Path, asked: Beside | None, clients: int, ahead: int, seconds: float) -> Shown:
    if asked is None:
        return NONE
    how = asked.requests, asked.shape, clients, ahead, seconds
    return serve.measured(client, asked.port, asked.process, *how).shown()


def beside(own: Shown, other: Shown) -> Shown:
    """The figures of another, and how many times its lines a second there are."""
    ratio = None if own[0] is None or other[0] is None else own[0] / other[0]
    return (*other[:3], ratio)


def table_of_rates() -> Table:
    ratio = Column("ratio", 7, ".3f", is_ratio=True)
    others = [
        (Column(f"{name}/s", 9, ",.0f"), *serve.FIGURES[1:3], ratio)
        for name in ("second", "no data", "Redis", "etcd", "SQLite")
    ]
    return Table("{:>3} {:>3}", ("by", "ahd"), (serve.FIGURES, *others))


# ---- opening


def long_file(file: Path, where: serve.Tree, rounds: int) -> None:
    """A file of so many rounds, each of which has added to one record."""
    rows = json.loads(where.document)["nodes"]
    names = [(row["parent"], row["name"].encode()) for row in rows]
    count, records = len(rows), [0] * len(rows)
    weights = tuple(row["weight"] for row in rows)
    seal = sha256(where.name.encode()).digest()
    standing = log_file.Standing(weights, tuple(records), (0,) * count, 0)
    with open(file, "wb") as out:
        out.write(log_file.file_of(seal, names, [standing]))
    seal = log_file.reading(file.read_bytes()).seal
    with open(file, "ab") as out:
        for number in range(1, rounds + 1):
            node = number % count
            records[node] += 1
            changed = (count + node, records[node]), (3 * count, number)
            frame = log_file.frame(seal, b"".join(log_file.CHANGED.pack(*each) for each in changed))
            seal = frame[-log_file.SEAL :]
            out.write(frame)


def opening(folder: str, given: argparse.Namespace) -> None:
    file = Path(folder, "long")
    long_file(file, serve.flat(given.nodes), given.rounds)
    began = time.perf_counter()
    subprocess.run([given.program, "data", file], check=True, stdout=subprocess.DEVNULL)
    printed = time.perf_counter() - began
    words = ["serve", "--data", str(file), "--port", str(free_port())]
    size, began = file.stat().st_size, time.perf_counter()
    with Server(given.program, words) as server:
        listens = time.perf_counter() - began
        told = json.loads(server.talk(b'{"batch":[]}\n'))["round"]
    print(f"opening a file of {given.rounds:,} rounds and {size:,} bytes: listens after {listens:.2f} s")
    print(f"`grove data`: {printed:.2f} s; the next round is {told:,}")


# ---- the pause


def pause(folder: str, given: argparse.Namespace) -> None:
    """Lines of one client, until the file was replaced often enough, which is seen by its inode."""
    where, file = serve.balanced(LARGE), Path(folder, "large")
    rng = random.Random(LARGE)
    lines = [serve.line({"batch": [serve.adds(rng, where.paths, serve.ACCESSES)]}) for _ in range(serve.LINES)]
    others: list[float] = []
    replacing: list[float] = []
    with Serving(given.program, where.document, given.workers, further=("--data", str(file))) as server:
        with connected(server.port) as connection, connection.makefile("rb") as replies:
            inode = file.stat().st_ino
            for number in range(MOST_LINES):
                began = time.perf_counter()
                connection.sendall(lines[number % len(lines)])
                replies.readline()
                taken, before, inode = time.perf_counter() - began, inode, file.stat().st_ino
                (others if inode == before else replacing).append(taken)
                if len(replacing) == REPLACED:
                    break
    if not replacing:
        sys.exit(f"no new file came in {len(others):,} lines")
    print(f"a new file of {LARGE:,} nodes, {len(replacing)} times beside {len(others):,} lines:")
    print(f"longest {shown_ms(max(replacing))}, middle {shown_ms(statistics.median(replacing))}")
    late = sorted(others)[len(others) * 999 // 1000]
    print(f"other lines: middle {shown_ms(statistics.median(others))}, 999th of 1,000 {shown_ms(late)},", end=" ")
    print(f"longest {shown_ms(max(others))}")


def shown_ms(seconds: float) -> str:
    return f"{seconds * 1e3:.2f} ms"


# ---- all of it


def words_given() -> argparse.Namespace:
    read = argparse.ArgumentParser(description=__doc__, formatter_class=argparse.RawDescriptionHelpFormatter)
    read.add_argument("parts", nargs="*", metavar="PART", help="rates, opening or pause")
    read.add_argument("--seconds", type=float, default=3.0)
    read.add_argument("--runs", type=int, default=1)
    read.add_argument("--nodes", type=int, default=257)
    read.add_argument("--workers", type=int, default=4)
    read.add_argument("--rounds", type=int, default=1_000_000)
    read.add_argument("--folder", default=str(serve.TOP / "out"))
    read.add_argument("--program", help="another program than the proved one")
    given = read.parse_args()
    unknown = set(given.parts) - set(PARTS)
    if unknown:
        read.error(f"there is no part {', '.join(sorted(unknown))}")
    return given


def show_rates(folder: str, given: argparse.Namespace) -> None:
    client = serve.compiled(folder, "serve_client")
    numbers = iter(range(given.runs))

    def measure() -> Iterator[Row]:
        room = Path(folder, f"rates{next(numbers)}")
        room.mkdir()
        return rates(client, str(room), given)

    show(table_of_rates(), given.runs, measure)


PARTS: dict[str, Callable[[str, argparse.Namespace], None]] = {"rates": show_rates, "opening": opening, "pause": pause}


def main() -> None:
    given = words_given()
    if not given.program:
        serve.need_program()
        given.program = serve.PROGRAM
    missing = subprocess.run([serve.TOP / "tests/install", *NEEDED], stdout=subprocess.PIPE).stdout.decode().split()
    if missing:
        print(f"not there: {', '.join(missing)}")
    Path(given.folder).mkdir(exist_ok=True)
    with tempfile.TemporaryDirectory(dir=given.folder) as folder:
        load, append = os.getloadavg()[0], append_seconds(folder) * 1e6
        print(f"an append of 100 bytes with a sync: {append:.0f} µs; the machine's load: {load:.1f}")
        for name in given.parts or PARTS:
            PARTS[name](folder, given)


if __name__ == "__main__":
    main()
