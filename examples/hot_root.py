#!/usr/bin/env python3
"""hot_root.py [MILLISECONDS]: 64 orders by 16 threads, with a lock for each node: record locks, plans, and the hottest
lock last.

Each order charges the root, its region and its team, and then works for five accesses at a node of its own. An access
takes 20 milliseconds, or as many as are given. The first bar is of orders that lock their four records from the root
down and hold them to the end. The second is of orders that lock and unlock as `grove plan` says, by `Locks` of
bindings/python. The third is of orders that can do it the other way round: they lock from their own node up, and charge
the root last, which is as fast where the order of accesses is free. All plans have one shape, and hot_root.json has
them, so this needs nothing but Python.
"""
from __future__ import annotations

import json
import sys
import threading
import time
from collections.abc import Callable
from concurrent.futures import ThreadPoolExecutor, as_completed
from dataclasses import dataclass
from pathlib import Path

HERE = Path(__file__).resolve().parent
sys.path.append(str(HERE.parent / "bindings/python"))
from pickbracken import Locks  # noqa: E402
from pickbracken.shapes import NUMBERS, Numbers, Shape  # noqa: E402

THREADS = 16
WIDTH = 40
PLANS = HERE / "hot_root.json"


@dataclass(frozen=True)
class Order:
    """What an order accesses, in this order, and the steps of its settled plan."""

    paths: list[str]
    plan: list[tuple[str, str | int]]


@dataclass(frozen=True)
class Orders:
    """Orders, and the weights of their tree."""

    todo: list[Order]
    weights: dict[str, int]


def orders() -> Orders:
    """As the file of plans has them: of each order a list of accesses and a plan."""
    read = json.loads(PLANS.read_text(encoding="utf-8"))
    todo = [Order([access[1] for access in job["list"]], [tuple(step) for step in job["plan"]]) for job in read["jobs"]]
    paths: list[str] = []
    for node in read["nodes"]:
        paths.append(f"{paths[node['parent']] if node['parent'] else ''}/{node['name']}")
    return Orders(todo, dict(zip(paths, [node["weight"] for node in read["nodes"]])))


class Tree:
    """The nodes, with a lock and a number each."""

    def __init__(self, given: Orders, seconds: float) -> None:
        self.own = {path: threading.Lock() for path in given.weights}
        self.locks = Locks(given.weights, self.own.__getitem__, lambda shape: numbered(given.todo[0], shape))
        self.charges = dict.fromkeys(given.weights, 0)
        self.seconds = seconds

    def charge(self, path: str) -> None:
        """An access: reads the record of a node that is locked, takes its time, and writes."""
        before = self.charges[path]
        time.sleep(self.seconds)
        self.charges[path] = before + 1


def numbered(order: Order, shape: Shape) -> Numbers:
    """The plan of an order, by the places of its nodes from the root down. (Without this `Locks` has the library make
    it.)"""
    place_of = dict(zip(order.paths, shape.places))
    return [number for what, at in order.plan for number in (NUMBERS[what], place_of.get(at, at))]


def by_record_locks(tree: Tree, order: Order) -> None:
    """Locks the records in sorted order, from the root down, and unlocks them at the end."""
    records = sorted(set(order.paths))
    for path in records:
        tree.own[path].acquire()
    for path in order.paths:
        tree.charge(path)
    for path in records:
        tree.own[path].release()


def by_plan(tree: Tree, order: Order) -> None:
    """Takes the steps of the settled plan."""
    with tree.locks.transaction(order.paths) as accesses:
        for _, path in accesses:
            tree.charge(path)


def hottest_last(tree: Tree, order: Order) -> None:
    """Locks each record as late as an order from the bottom up allows, and accesses the root last."""
    upwards = order.paths[::-1]
    for path in dict.fromkeys(upwards):
        tree.own[path].acquire()
        for _ in range(upwards.count(path)):
            tree.charge(path)
    for path in dict.fromkeys(upwards):
        tree.own[path].release()


def show(name: str, done: int, total: int, seconds: float) -> None:
    """Moves the bar on. What is no terminal gets it once it is full."""
    if done == total or sys.stdout.isatty():
        filled = "#" * (WIDTH * done // total)
        end = "\n" if done == total else "\r"
        print(f"{name:13} [{filled:{WIDTH}}] {done:2} of {total} orders, {seconds:5.2f} s", end=end, flush=True)


def run(name: str, way: Callable[[Tree, Order], None], given: Orders, seconds: float) -> float:
    """Does all orders in this way, and gives the time that it took."""
    tree, todo = Tree(given, seconds), given.todo
    began = time.monotonic()
    with ThreadPoolExecutor(THREADS) as threads:
        waiting = [threads.submit(way, tree, order) for order in todo]
        for done, order in enumerate(as_completed(waiting), 1):
            order.result()
            show(name, done, len(todo), time.monotonic() - began)
    if sum(tree.charges.values()) != sum(len(order.paths) for order in todo):
        raise SystemExit(f"{name}: a charge was lost")
    return time.monotonic() - began


def main() -> None:
    seconds = float(sys.argv[1]) / 1000 if len(sys.argv) > 1 else 0.02
    given = orders()
    records = run("record locks", by_record_locks, given, seconds)
    plans = run("settled plans", by_plan, given, seconds)
    run("hottest last", hottest_last, given, seconds)
    print(f"record locks {records:.2f} s, settled plans {plans:.2f} s: {records / plans:.1f} times as fast")


if __name__ == "__main__":
    main()
