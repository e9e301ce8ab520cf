#!/usr/bin/env python3
"""Times plans by the library inside Python and Rust, beside `grove plan` as a process, and transactions by `Locks` of
the bindings beside plain locks, and prints microseconds.

    usage: bench/library.py [--grove PROGRAM] [--runs N]        (default: the proved program, 200 runs)

Each plan is made in these ways, N times each, in ten turns; of the process there are a tenth as many runs:

- process: the document is handed to `grove plan`, and what it prints is taken;
- by document: the same text by a call over the document's bytes;
- by kept tree: a plan as a value of the list's accesses, over a tree that the library keeps, with its steps unread;
- a list that is new: the same over a tree of any size, of which the list's part is cut; no two runs have one list;
- a kept plan: the same of a list that has been planned, 100 times in each run.

The lists: that of examples/settings.json, and the largest, 64 accesses that force 2,049 of 4,096 nodes. In the same
turns come 400 transactions of two of 64 leaves that do next to nothing, by one thread and by one task, in turn and N
times: with sorted locks of the two leaves, and by plans that are kept. In Rust one thread and each of sixteen make
2,000, and it is timed how long a list takes until it has its plan, of a shape that has been planned or hasn't. So a
slow second of the machine is in few runs of each. Then come, in the last two ways, four accesses of trees of some 5,000
and 1,000,000 nodes, whose ways down have as many nodes. The last are `down` and `quota` of bench/hot.py by sixteen
workers, by its own plans and by `Locks` of Python and Rust, in turn and five times.

The median is printed, and in brackets the least. bench/library.rs, bench/transactions.rs, bench/hot_locks.rs and
bench/hot.rs, compiled here by `cargo` and `rustc`, are the parts in Rust; tools/library has to have made the library.
Each way has to give the same plan.
"""
from __future__ import annotations

import argparse
import asyncio
import itertools
import json
import os
import statistics
import subprocess
import sys
import tempfile
import threading
import time
from dataclasses import dataclass, replace
from functools import partial
from pathlib import Path
from random import Random
from typing import Awaitable, Callable, Union

TOP = Path(__file__).resolve().parent.parent
sys.dont_write_bytecode = True
sys.path[:0] = [str(TOP / "bench"), str(TOP / "bindings/python")]
import hot  # noqa: E402
from pickbracken import Access, AsyncLocks, Locks, Plans, Tree, document  # noqa: E402

PROGRAM = TOP / "crates/grove/out/grove"
DEPTH, NODES, ACCESSES = 32, 4_096, 64
LEAVES = [f"/g{number % 8}/leaf{number}" for number in range(64)]
WEIGHTS = {"/": 64, **{f"/g{number}": 8 for number in range(8)}, **dict.fromkeys(LEAVES, 1)}
TRANSACTIONS = 400
# So often a kept plan is asked for in a run; and in so many turns the runs are made.
FINDS, TURNS = 100, 10
# Trees of which all but the root and its children are leaves: so many children, with so many leaves each.
WIDE = {"5,000": 70, "1,000,000": 1_000}
HOT, HOT_RUNS, HOT_WORKERS = ("down", "quota"), 5, 16
MANIFEST = """\
[package]
name = "library"
version = "0.1.0"
edition = "2024"

[[bin]]
name = "library"
path = "{folder}/library.rs"

[[bin]]
name = "transactions"
path = "{folder}/transactions.rs"

[[bin]]
name = "hot_locks"
path = "{folder}/hot_locks.rs"

[dependencies]
pickbracken = {{ path = "{crate}" }}
"""

Row = dict[str, Union[int, str, None]]
# By the way, the seconds of each run.
Times = dict[str, list[float]]


@dataclass(frozen=True)
class Case:
    """A tree with a list of gets and their lengths."""

    name: str
    rows: list[Row]
    gets: list[tuple[str, int]]

    def document(self) -> bytes:
        accesses = [["get", path, length] for path, length in self.gets]
        return json.dumps({"version": 2, "nodes": self.rows, "list": accesses}, separators=(",", ":")).encode()

    def weights(self) -> dict[str, int]:
        return {path: int(row["weight"] or 0) for path, row in zip(paths_of(self.rows), self.rows)}

    def numbers(self) -> str:
        """The case as bench/library.rs reads it: a line for each node and for each access, and the document."""
        nodes = [f"node {path} {weight}\n" for path, weight in self.weights().items()]
        gets = [f"get {path} {length}\n" for path, length in self.gets]
        return "".join([*nodes, *gets, f"document {self.document().decode()}\n"])


def settings() -> Case:
    read = json.loads((TOP / "examples/settings.json").read_text(encoding="utf-8"))
    return Case("settings.json", read["nodes"], [(access[1], 1) for access in read["list"]])


def largest() -> Case:
    """Chains of the greatest depth below a root, and one that is shorter; the ends of 64 are accessed."""
    rows: list[Row] = [{"parent": None, "name": "", "weight": 1000}]
    while len(rows) < NODES:
        depth = (len(rows) - 1) % DEPTH
        number = len(rows)
        rows.append({"parent": number - 1 if depth else 0, "name": f"n{number}", "weight": 1 + number * 37 % 1000})
    ends = paths_of(rows)[DEPTH : DEPTH * ACCESSES + 1 : DEPTH]
    return Case("64 accesses, 4,096 nodes", rows, [(path, 1) for path in ends])


def paths_of(rows: list[Row]) -> list[str]:
    paths: list[str] = []
    for row in rows:
        above = "" if not row["parent"] else paths[int(row["parent"])]
        paths.append(f"{above}/{row['name']}")
    return paths


def main() -> None:
    given = arguments()
    with tempfile.TemporaryDirectory(prefix="grove-bench-") as folder:
        made = built(Path(folder))
        for name, times in in_turns(given.grove, max(given.runs // TURNS, 1), made).items():
            tell(name, times)
        tell("four accesses of a larger tree", wide(given.runs) | in_rust(made, given.runs, ""))
        hot_jobs = hot_times(given.grove, made)
        tell(f"64 jobs of 8 accesses of a millisecond, {HOT_WORKERS} workers", hot_jobs)
    print(f"load of the machine: {' '.join(f'{load:.1f}' for load in os.getloadavg())}")


def in_turns(grove: str, runs: int, made: Path) -> dict[str, Times]:
    """By what is done, the times of so many runs in each turn."""
    times: dict[str, Times] = {}
    for _ in range(TURNS):
        for case in (settings(), largest()):
            add(times.setdefault(case.name, {}), timed(case, grove, runs, made))
        quick = transactions(runs) | transactions_of(made / "transactions", runs) | transactions_of(made / "in_c", runs)
        first = {name: quick.pop(name) for name in list(quick) if name.endswith(" shape")}
        add(times.setdefault("a transaction of 2 accesses", {}), quick)
        add(times.setdefault("a list that comes first, of 2 accesses", {}), first_times(runs) | first)
    return times


def add(times: Times, more: Times) -> None:
    for way, seconds in more.items():
        times.setdefault(way, []).extend(seconds)


def arguments() -> argparse.Namespace:
    parser = argparse.ArgumentParser(description="Times plans by the library, beside the process.")
    parser.add_argument("--grove", default=str(PROGRAM), metavar="PROGRAM", help="the program to compare with")
    parser.add_argument("--runs", type=int, default=200, metavar="N", help="how often each plan is made")
    return parser.parse_args()


def timed(case: Case, grove: str, runs: int, made: Path) -> Times:
    """Every way has to give one cost."""
    whole, tree = case.document(), Tree.from_paths(case.weights())
    accesses = [Access.get(path).lasting(length) for path, length in case.gets]
    wanted = document.plan(whole)
    ways: dict[str, Callable[[], object]] = {
        "process": lambda: printed(grove, whole),
        "Python, by document": lambda: document.plan(whole),
        "Python, by kept tree": lambda: tree.plan(accesses),
    }
    need(printed(grove, whole) == wanted, "the process prints another plan")
    for found in (tree.plan(accesses), Plans(case.weights()).plan(case.gets)):
        need(f"cost {found.cost}\n" == wanted[: wanted.index("\n") + 1], "Python has another plan")
    times = {name: seconds_of(way, max(runs // 10, 1) if name == "process" else runs) for name, way in ways.items()}
    times |= {f"Python, {name}": seconds for name, seconds in of_any_size(case.weights(), case.gets, runs).items()}
    return times | in_rust(made, runs, case.numbers(), wanted)


def of_any_size(weights: dict[str, int], gets: list[tuple[str, int]], runs: int) -> Times:
    """Plans over a tree of any size: of lists that are new, and of one that is known."""
    plans, known = Plans(weights), tuple(gets)
    (first, _), *others = gets
    new = iter([((first, 2 + run % 999), *others) for run in range(runs)])
    plans.plan(known)
    return {
        "a list that is new": seconds_of(lambda: plans.plan(next(new)), runs),
        "a kept plan": [seconds / FINDS for seconds in seconds_of(lambda: repeated(plans, known), runs)],
    }


def repeated(plans: Plans, known: tuple[tuple[str, int], ...]) -> None:
    for _ in itertools.repeat(None, FINDS):
        plans.plan(known)


def wide(runs: int) -> Times:
    """Four accesses over trees of different sizes, of which the ways down have as many nodes."""
    times: Times = {}
    for name, count in WIDE.items():
        paths = [f"/g{leaf // count}/leaf{leaf % count}" for leaf in range(count * count)]
        gets = [(paths[fifth * len(paths) // 5], 1) for fifth in (1, 2, 3, 4)]
        found = of_any_size(dict.fromkeys(paths, 1), gets, runs)
        times |= {f"Python, {name} nodes, {way}": seconds for way, seconds in found.items()}
    return times


def printed(grove: str, whole: bytes) -> str:
    return subprocess.run([grove, "plan"], input=whole, stdout=subprocess.PIPE, check=True).stdout.decode()


def seconds_of(way: Callable[[], object], runs: int) -> list[float]:
    return [once(way) for _ in range(runs)]


def once(way: Callable[[], object]) -> float:
    begun = time.perf_counter()
    way()
    return time.perf_counter() - begun


def in_rust(made: Path, runs: int, text: str, wanted: str = "") -> Times:
    """What the part in Rust prints of a case: the cost, and lines of nanoseconds; of the larger trees such lines, if
    there is none."""
    words = [made / "library", str(runs)]
    ran = subprocess.run(words, input=text, stdout=subprocess.PIPE, check=True, text=True)
    lines = ran.stdout.splitlines()
    need(not text or wanted.startswith(f"{lines.pop(0)}\n"), "Rust has another plan")
    return {f"Rust, {name}": seconds for name, seconds in by_name(lines).items()}


def by_name(lines: list[str]) -> Times:
    """The seconds of each way, of which a line has the name and the nanoseconds."""
    named = (line.split("\t") for line in lines)
    return {name: [float(word) / 1e9 for word in times.split()] for name, times in named}


def built(room: Path) -> Path:
    """The folder of the programs in Rust, with the one in C."""
    (room / "Cargo.toml").write_text(MANIFEST.format(folder=TOP / "bench", crate=TOP / "bindings/rust"))
    surroundings = {**os.environ, "CARGO_TARGET_DIR": str(room / "target")}
    subprocess.run(["cargo", "build", "--quiet", "--release", "--offline"], cwd=room, env=surroundings, check=True)
    made = room / "target/release"
    parts = [f"-I{TOP / 'include'}", TOP / "bench/transactions.c", TOP / "out/library/libgrove.a", "-pthread"]
    subprocess.run(["cc", "-std=c99", "-O2", *parts, "-o", made / "in_c"], check=True)
    return made


def pairs(seed: int) -> list[tuple[str, ...]]:
    drawn = Random(seed)
    return [tuple(drawn.sample(LEAVES, 2)) for _ in range(TRANSACTIONS)]


def transactions(runs: int) -> Times:
    """The seconds that a transaction takes, in each run of all of them."""
    records, locks, plain = dict.fromkeys(LEAVES, 0), Locks(WEIGHTS), {path: threading.Lock() for path in LEAVES}
    todo = pairs(1)

    def by_sorted_locks() -> None:
        for pair in todo:
            first, second = sorted(pair)
            with plain[first], plain[second]:
                for path in pair:
                    records[path] += 1

    def planned() -> None:
        for pair in todo:
            with locks.transaction(pair) as accesses:
                for _, path in accesses:
                    records[path] += 1

    planned()
    times: Times = {"Python threads, sorted locks": [], "Python threads, planned": []}
    for _ in range(runs):
        times["Python threads, sorted locks"].append(once(by_sorted_locks) / TRANSACTIONS)
        times["Python threads, planned"].append(once(planned) / TRANSACTIONS)
    need(sum(records.values()) == 2 * TRANSACTIONS * (2 * runs + 1), "an access was lost")
    return times | asyncio.run(transactions_of_a_task(runs))


async def transactions_of_a_task(runs: int) -> Times:
    records, locks, plain = dict.fromkeys(LEAVES, 0), AsyncLocks(WEIGHTS), {path: asyncio.Lock() for path in LEAVES}
    todo = pairs(1)

    async def by_sorted_locks() -> None:
        for pair in todo:
            first, second = sorted(pair)
            async with plain[first], plain[second]:
                for path in pair:
                    records[path] += 1

    async def planned() -> None:
        for pair in todo:
            async with locks.transaction(pair) as accesses:
                async for _, path in accesses:
                    records[path] += 1

    async def once_awaited(way: Callable[[], Awaitable[None]]) -> float:
        begun = time.perf_counter()
        await way()
        return (time.perf_counter() - begun) / TRANSACTIONS

    await planned()
    times: Times = {"asyncio, sorted locks": [], "asyncio, planned": []}
    for _ in range(runs):
        times["asyncio, sorted locks"].append(await once_awaited(by_sorted_locks))
        times["asyncio, planned"].append(await once_awaited(planned))
    need(sum(records.values()) == 2 * TRANSACTIONS * (2 * runs + 1), "an access was lost")
    return times


def transactions_of(program: Path, runs: int) -> Times:
    """The same by bench/transactions.rs or bench/transactions.c, which prints nanoseconds."""
    ran = subprocess.run([program, str(runs)], stdout=subprocess.PIPE, check=True, text=True)
    return by_name(ran.stdout.splitlines())


def first_times(runs: int) -> Times:
    """The seconds until a list has its plan that had none: of a shape that hasn't been planned either, and that has."""
    times: Times = {"Python, a new shape": [], "Python, a known shape": []}
    for _ in range(runs):
        locks = Locks(WEIGHTS)
        for path in LEAVES:
            locks.run([path], lambda number, path: None)
        times["Python, a new shape"].append(once(lambda: locks.transaction([LEAVES[0], LEAVES[1]])))
        times["Python, a known shape"].append(once(lambda: locks.transaction([LEAVES[2], LEAVES[3]])))
    return times


def hot_times(grove: str, made: Path) -> Times:
    """The seconds of shapes of bench/hot.py, by its plans and by `Locks` in Python and Rust."""
    times: Times = {}
    with tempfile.TemporaryDirectory(prefix="grove-hot-") as folder:
        plans, locks, ways = [str(hot.built(folder))], [str(made / "hot_locks")], dict[str, Callable[[], float]]()
        for name in HOT:
            shape, (case, python) = hot.SHAPES[name](), hot.cases_of(grove, name, ["settled"], in_python=True)
            rust = replace(case, name=f"`{name}`, settled, in Rust", text=hot.jobs_for_locks(shape))
            ways[case.name] = partial(hot.milliseconds, plans, case, HOT_WORKERS)
            ways[python.name] = partial(hot.python_milliseconds, python, shape, HOT_WORKERS)
            ways[rust.name] = partial(hot.milliseconds, locks, rust, HOT_WORKERS)
        for _, (way, milliseconds) in itertools.product(range(HOT_RUNS), ways.items()):
            times.setdefault(way, []).append(milliseconds() / 1e3)
    return times


def tell(name: str, times: Times) -> None:
    print(name)
    for way, seconds in times.items():
        median, least = 1e6 * statistics.median(seconds), 1e6 * min(seconds)
        digits = 0 if median >= 100 else 1 if median >= 1 else 3
        print(f"  {way:44}{median:10,.{digits}f} µs ({least:,.{digits}f})")


def need(is_so: bool, otherwise: str) -> None:
    if not is_so:
        sys.exit(f"bench/library.py: {otherwise}")


if __name__ == "__main__":
    main()
