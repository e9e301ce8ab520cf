#!/usr/bin/env python3
"""Times jobs by settled plans, and by what one would take in place of the tree protocol: record locks in sorted order.

    usage: bench/hot.py [--own | --python] [--grove PROGRAM] [--by COMMAND] [--runs N] [--workers N,..] [SHAPE ..]
                                           (default: the proved program, 5 runs, 1, 4, 16 and 64 workers, all shapes)

A shape is a tree and 64 lists of 8 accesses, each of which takes a millisecond. Its lists are done in these ways:

- settled: by the plans of `grove plan`;
- all first: by the tree protocol too, but with all nodes that are needed locked before the first access, and unlocked
  after the last one;
- strict: with the accessed records alone locked, in the tree's order before the first access, and unlocked after the
  last one;
- early: with the same locks, each unlocked after the last access of its record;
- late: with the same locks in the same order, each as late as that allows, which is before the first access of its
  record or of one behind it; once the last is taken, each is unlocked after the last access of its record;
- early up, late up: the same in the opposite order, from the last node of the tree up to the root.

bench/hot.rs, compiled here by `rustc`, does the jobs, in all ways by the same workers, queues and sleeps. COMMAND, as
`chrt -f 50`, starts it. With --own the program's own workers do them in place of it, settled and all first alone, by
`grove_bench runs`; of these there are at most 16. With --python there is one way more: settled plans by `Locks` of
bindings/python, in threads of this process; tools/library has to have made the library. Each case is done N times, all
cases in turn. A row of the table has for each number of workers the median in milliseconds, with the least and the most
in brackets, and what the plans cost together by the tree's weights; the last line has the load of the machine
meanwhile.

Each plan is tested before it is timed: its accesses are the list's, each while its node is held, and it obeys the tree
protocol, or the rules of `RecordLocks`. By either no jobs wait for each other in a circle. A run has to end in time,
and its records have to be the numbers of accesses.
"""
from __future__ import annotations

import argparse
import itertools
import json
import os
import statistics
import subprocess
import sys
import tempfile
import threading
import time
from collections import Counter, deque
from dataclasses import dataclass, replace
from pathlib import Path
from random import Random
from typing import Callable, Iterable, Optional, Union

TOP = Path(__file__).resolve().parent.parent
sys.dont_write_bytecode = True
sys.path.insert(0, str(TOP / "tests"))
sys.path.insert(1, str(TOP / "bindings/python"))
import calls  # noqa: E402
from pickbracken import Locks as NodeLocks  # noqa: E402
from plans import Locks, cost_of_plan, fault_of_steps  # noqa: E402
from tree import Tree  # noqa: E402

PROGRAM = TOP / "crates/grove/out/grove"
OWN_WAYS = ("settled", "all first")
WORKERS = "1,4,16,64"
JOBS = 64
ACCESSES = 8
# How long an access takes.
SLOT = 0.001
# How many accesses of a job are work at a user, beside those that count it.
WORK = 5
# A run takes half a second if the jobs are done one after the other.
SECONDS_ALLOWED = 30

Row = dict[str, Union[int, str, None]]
Access = tuple[str, str, int]
Step = tuple[str, Union[str, int]]


# ---- shapes: a node weighs as much as jobs go through it on average, in `same` as in the other shapes of shops


@dataclass(frozen=True)
class Shape:
    rows: list[Row]
    lists: list[list[Access]]


def shape(rows: list[Row], paths_of: Callable[[int], list[str]]) -> Shape:
    """Each job adds 1 at its paths."""
    return Shape(rows, [[("add", path, 1) for path in paths_of(job)] for job in range(JOBS)])


def row(parent: Optional[int], name: str, weight: int) -> Row:
    return {"parent": parent, "name": name, "weight": weight}


def shops() -> list[Row]:
    """A root, 64 shops below it, and in each a shelf for each access of a job."""
    rows = [row(None, "", JOBS)]
    for shop in range(64):
        rows.append(row(0, f"s{shop}", ACCESSES))
        above = len(rows) - 1
        rows += [row(above, f"k{shelf}", 1) for shelf in range(ACCESSES)]
    return rows


def drawn(job: int, place: int) -> str:
    """A job's shop for an access: another one for each access of the job, and of the accesses with this number another
    one for each job."""
    return f"/s{(5 * job + (2 * job + 1) * place) % 64}"


def apart() -> Shape:
    """At shelves of their own, in shops that they share."""
    return shape(shops(), lambda job: [f"{drawn(job, place)}/k{place}" for place in range(ACCESSES)])


def crossing() -> Shape:
    """At these shops themselves."""
    return shape(shops(), lambda job: [drawn(job, place) for place in range(ACCESSES)])


def same() -> Shape:
    """At the same shops in the same order."""
    return shape(shops(), lambda job: [f"/s{place}" for place in range(ACCESSES)])


def down() -> Shape:
    """At the root and down a chain below it."""
    names = [f"n{depth}" for depth in range(1, ACCESSES)]
    rows = [row(None, "", JOBS), *(row(above, name, JOBS) for above, name in enumerate(names))]
    return shape(rows, lambda job: ["/" + "/".join(names[:depth]) for depth in range(ACCESSES)])


def quota() -> Shape:
    """Counted at the root, at a region and at a team, and then work at a user."""
    return shape(accounts(), lambda job: [*counted(job), *[user_of(job)] * WORK])


def afterwards() -> Shape:
    """Work at a user, and then counted at its team, at its region and at the root."""
    return shape(accounts(), lambda job: [*[user_of(job)] * WORK, *counted(job)[::-1]])


def accounts() -> list[Row]:
    """A root, four regions below it, four teams in each, and four users in each of these."""
    rows = [row(None, "", JOBS)]
    for region in range(4):
        rows.append(row(0, f"r{region}", JOBS // 4))
        in_region = len(rows) - 1
        for team in range(4):
            rows.append(row(in_region, f"t{team}", JOBS // 16))
            in_team = len(rows) - 1
            rows += [row(in_team, f"u{user}", 1) for user in range(4)]
    return rows


def user_of(job: int) -> str:
    """A user at random."""
    random = Random(f"user {job}")
    return "/" + "/".join(f"{level}{random.randrange(4)}" for level in "rtu")


def counted(job: int) -> list[str]:
    """What is above the job's user, downwards."""
    names = user_of(job).split("/")
    return ["/".join(names[:depth]) or "/" for depth in (1, 2, 3)]


def counter() -> Shape:
    """The next number at the root, and then work at a leaf of its own."""
    rows = [row(None, "", JOBS), *(row(0, f"o{job}", 1) for job in range(JOBS))]
    return shape(rows, lambda job: ["/", *[f"/o{job}"] * (ACCESSES - 1)])


SHAPES = {make.__name__: make for make in (apart, crossing, same, down, quota, afterwards, counter)}


# ---- ways


@dataclass(frozen=True)
class Planner:
    """Makes plans for lists over a tree."""

    program: str
    rows: list[Row]
    tree: Tree

    def settled(self, accesses: list[Access]) -> list[Step]:
        document = json.dumps({"nodes": self.rows, "list": accesses})
        ran = subprocess.run([self.program, "plan"], input=document, check=True, capture_output=True, text=True)
        told = dict(line.split(" ", 1) for line in ran.stdout.splitlines())
        return [(kind, what) for kind, what in json.loads(told["plan"])]

    def all_first(self, accesses: list[Access]) -> list[Step]:
        return throughout(accesses, [self.tree.paths[node] for node in self.tree.forced(accesses)])

    def strict(self, accesses: list[Access]) -> list[Step]:
        return throughout(accesses, self.records(accesses))

    def early(self, accesses: list[Access]) -> list[Step]:
        return early(accesses, self.records(accesses))

    def early_up(self, accesses: list[Access]) -> list[Step]:
        return early(accesses, self.records(accesses)[::-1])

    def late(self, accesses: list[Access]) -> list[Step]:
        return late(accesses, self.records(accesses))

    def late_up(self, accesses: list[Access]) -> list[Step]:
        return late(accesses, self.records(accesses)[::-1])

    def records(self, accesses: list[Access]) -> list[str]:
        """The accessed records, each once, in the tree's order."""
        return [self.tree.paths[node] for node in sorted(set(self.tree.accessed(accesses)))]


def throughout(accesses: list[Access], paths: list[str]) -> list[Step]:
    return locks(paths) + [("access", number) for number in range(len(accesses))] + unlocks(paths)


def early(accesses: list[Access], paths: list[str]) -> list[Step]:
    last = last_accesses(accesses)
    steps = locks(paths)
    for number, (_, path, _) in enumerate(accesses):
        steps += [("access", number), *unlocks([path] if last[path] == number else [])]
    return steps


def late(accesses: list[Access], paths: list[str]) -> list[Step]:
    last, left = last_accesses(accesses), paths
    steps: list[Step] = []
    held: list[str] = []
    for number, (_, path, _) in enumerate(accesses):
        count = left.index(path) + 1 if path in left else 0
        due, left = left[:count], left[count:]
        held += due
        over = [] if left else [other for other in held if last[other] < number]
        held = [other for other in held if other not in over]
        steps += [*locks(due), *unlocks(over), ("access", number)]
    return steps + unlocks(held)


def last_accesses(accesses: list[Access]) -> dict[str, int]:
    return {path: number for number, (_, path, _) in enumerate(accesses)}


def locks(paths: list[str]) -> list[Step]:
    return [("lock", path) for path in paths]


def unlocks(paths: list[str]) -> list[Step]:
    return [("unlock", path) for path in paths]


class RecordLocks(Locks):
    """Locks in the tree's order, and none once one is unlocked. By the first no jobs wait for each other in a circle,
    and by the second they have the effect of the same jobs one after the other."""

    def lock(self, node: int) -> Optional[str]:
        if any(not self.is_before(other, node) for other in self.locked):
            return "out-of-order"
        if self.held != self.locked:
            return "lock-after-unlock"
        self.locked.add(node)
        self.held.add(node)
        return None

    def is_before(self, node: int, other: int) -> bool:
        return node < other


class RecordLocksUp(RecordLocks):
    """The same in the opposite order."""

    def is_before(self, node: int, other: int) -> bool:
        return node > other


@dataclass(frozen=True)
class Way:
    """How plans are made, and the rules of their locks."""

    plan: Callable[[Planner, list[Access]], list[Step]]
    rules: Callable[[Tree], Locks]


WAYS = {
    "settled": Way(Planner.settled, Locks),
    "all first": Way(Planner.all_first, Locks),
    "strict": Way(Planner.strict, RecordLocks),
    "early": Way(Planner.early, RecordLocks),
    "late": Way(Planner.late, RecordLocks),
    "early up": Way(Planner.early_up, RecordLocksUp),
    "late up": Way(Planner.late_up, RecordLocksUp),
}


# ---- runs


@dataclass(frozen=True)
class Case:
    """A shape's jobs in one way: what their plans cost, the plans as bench/hot.rs reads them, tree and jobs as
    `grove_bench runs` does, and the records after. Those with a shape are done by `Locks` of bindings/python."""

    name: str
    cost: int
    text: str
    own: str
    records: list[int]
    shape: Optional[Shape] = None


def cases_of(program: str, name: str, ways: Iterable[str], in_python: bool) -> list[Case]:
    made = SHAPES[name]()
    planner = Planner(program, made.rows, Tree(made.rows))
    cases = [case_of(planner, made, f"`{name}`, {way}", WAYS[way]) for way in ways]
    if in_python:
        settled = case_of(planner, made, f"`{name}`, settled, in Python", WAYS["settled"])
        cases.append(replace(settled, shape=made))
    return cases


def case_of(planner: Planner, made: Shape, name: str, way: Way) -> Case:
    tree, lists = planner.tree, made.lists
    plans = [way.plan(planner, accesses) for accesses in lists]
    for accesses, steps in zip(lists, plans):
        fault = fault_of_steps(tree, accesses, steps, way.rules(tree))
        assert fault is None, (name, fault, accesses, steps)
    lines = [str(len(tree.paths)), *(line_of(tree, *each) for each in zip(lists, plans))]
    counts = Counter(node for accesses in lists for node in tree.accessed(accesses))
    records = [counts[node] for node in range(len(tree.paths))]
    own = [calls.tree_numbers([(row["parent"], row["weight"]) for row in made.rows]), str(len(lists))]
    own += [job_of(tree, *each) for each in zip(lists, plans)]
    cost = sum(cost_of_plan(tree, *each) for each in zip(lists, plans))
    return Case(name, cost, "\n".join(lines), "\n".join(own), records)


def job_of(tree: Tree, accesses: list[Access], steps: list[Step]) -> str:
    """A job as `grove_bench runs` reads it."""
    named = [(kind, what if isinstance(what, int) else tree.node_of[what]) for kind, what in steps]
    return calls.job_numbers([(node, 1) for node in tree.accessed(accesses)], named)


def line_of(tree: Tree, accesses: list[Access], steps: list[Step]) -> str:
    """A job's steps, each with its node's number."""
    accessed = tree.accessed(accesses)
    nodes = [accessed[what] if isinstance(what, int) else tree.node_of[what] for _, what in steps]
    return " ".join(f"{kind}:{node}" for (kind, _), node in zip(steps, nodes))


def jobs_for_locks(made: Shape) -> str:
    """The tree and the lists, as bench/hot_locks.rs reads them."""
    paths = Tree(made.rows).paths
    nodes = [f"{row['weight']} {path}" for row, path in zip(made.rows, paths)]
    lists = [" ".join(path for _, path, _ in accesses) for accesses in made.lists]
    return "\n".join([str(len(paths)), *nodes, *lists])


def built(folder: str) -> Path:
    program = Path(folder) / "hot"
    subprocess.run(["rustc", "-O", "-C", "panic=abort", "-o", program, TOP / "bench/hot.rs"], check=True)
    return program


def milliseconds(command: list[str], case: Case, workers: int) -> float:
    words = [*command, str(workers)]
    spent, records = subprocess.check_output(words, input=case.text, text=True, timeout=SECONDS_ALLOWED).splitlines()
    assert [int(record) for record in records.split()] == case.records, (case.name, workers, records)
    return int(spent) / 1e6


def own_milliseconds(by: list[str], case: Case, workers: int) -> float:
    """A run by the program's own workers, after one that isn't timed."""
    text = "\n".join([f"{workers} 1 1", case.own])
    ran = subprocess.check_output([*by, str(calls.PROGRAM), "runs"], input=text, text=True, timeout=2 * SECONDS_ALLOWED)
    return int(ran.split()[1]) / 1e6


def python_milliseconds(case: Case, shape: Shape, workers: int) -> float:
    """A run by `Locks`, whose plans are made before."""
    tree = Tree(shape.rows)
    records = dict.fromkeys(tree.paths, 0)
    locks = NodeLocks(dict(zip(tree.paths, [int(row["weight"] or 0) for row in shape.rows])))
    left = deque([path for _, path, _ in accesses] for accesses in shape.lists)
    for paths in left:
        locks.transaction(paths)
    begin = threading.Barrier(workers + 1)

    def work() -> None:
        begin.wait()
        while left:
            with locks.transaction(left.popleft()) as accesses:
                for _, path in accesses:
                    before = records[path]
                    time.sleep(SLOT)
                    records[path] = before + 1

    threads = [threading.Thread(target=work) for _ in range(workers)]
    for thread in threads:
        thread.start()
    begin.wait()
    begun = time.monotonic()
    for thread in threads:
        thread.join(SECONDS_ALLOWED)
    spent = time.monotonic() - begun
    assert list(records.values()) == case.records, (case.name, workers, records)
    return 1e3 * spent


def spread(times: list[float]) -> str:
    return f"{statistics.median(times):.0f} ({min(times):.0f} to {max(times):.0f})"


def numbers(text: str) -> list[int]:
    return [int(word) for word in text.split(",")]


def words_given() -> argparse.Namespace:
    read = argparse.ArgumentParser(description="Times jobs by settled plans and by record locks.")
    read.add_argument("--own", action="store_true")
    read.add_argument("--python", action="store_true")
    read.add_argument("--grove", default=str(PROGRAM), metavar="PROGRAM")
    read.add_argument("--by", type=str.split, default=[], metavar="COMMAND")
    read.add_argument("--runs", type=int, default=5, metavar="N")
    read.add_argument("--workers", type=numbers, default=WORKERS, metavar="N,..")
    read.add_argument("shapes", nargs="*", default=list(SHAPES), metavar="SHAPE")
    given = read.parse_args()
    if given.own and given.python:
        read.error("--own has no threads of Python")
    if not set(given.shapes) <= set(SHAPES):
        read.error(f"the shapes are {', '.join(SHAPES)}")
    return given


def show(given: argparse.Namespace, cases: list[Case], times: dict[tuple[str, int], list[float]]) -> None:
    print(f"| ms by workers, {given.runs} runs |", " | ".join(map(str, given.workers)), "| cost of the plans |")
    print("|---" * (len(given.workers) + 2) + "|")
    for case in cases:
        cells = [spread(times[case.name, workers]) for workers in given.workers]
        print(f"| {case.name} |", " | ".join(cells), f"| {case.cost:,} |")


def main() -> None:
    given = words_given()
    if not Path(given.grove).exists():
        sys.exit(f"no program {given.grove}: ./grove prove")
    if given.own and not calls.PROGRAM.exists():
        sys.exit(f"no program {calls.PROGRAM}: cd crates/grove_bench && rt run")
    ways = OWN_WAYS if given.own else WAYS
    cases = [case for name in given.shapes for case in cases_of(given.grove, name, ways, given.python)]
    times: dict[tuple[str, int], list[float]] = {}
    loads = []
    with tempfile.TemporaryDirectory(prefix="grove-hot-") as folder:
        command = given.by if given.own else [*given.by, str(built(folder))]
        time_one = own_milliseconds if given.own else milliseconds
        for _, case, workers in itertools.product(range(given.runs), cases, given.workers):
            by_locks = case.shape and python_milliseconds(case, case.shape, workers)
            times.setdefault((case.name, workers), []).append(by_locks or time_one(command, case, workers))
            loads.append(os.getloadavg()[0])
    show(given, cases, times)
    print(f"load {min(loads):.1f} to {max(loads):.1f}")


if __name__ == "__main__":
    main()
