"""Batches whose lists contend for nodes, by seeded makers, and what is wrong with a run of one: it has to give the
replies and the records of its lists done whole in the order that it prints, and no more waits than its plans allow."""
from __future__ import annotations

import json
from collections import Counter
from random import Random
from typing import Iterable

from store import LEAST, MOST, Store
from tree import Tree

MOST_LISTS, MOST_ACCESSES = 256, 64
# Plans of fewer steps in all are done by their caller alone: those of `run`, and those of a store's round
# (docs/DECISIONS.md, 9).
WORTH_A_THREAD, ROUND_WORTH_THREADS = 2048, 65_536
# A store counts no more waits of a node.
MOST_WAITS = 1000


# ---- makers


def mixed(random: Random) -> dict:
    """Few nodes, all below a root that most lists need; lists of any number of accesses, none among them."""
    nodes = [a_row(None, "", 1000, random.randrange(100))]
    chain = [0]
    for number in range(1, random.randrange(4, 24)):
        chain = chain[: random.randrange(1, min(len(chain), 4) + 1)]
        value = random.choice([0, 1, random.randrange(50), MOST, LEAST])
        nodes.append(a_row(chain[-1], f"n{number}", random.randrange(1, 100), value))
        chain.append(number)
    paths = Tree(nodes).paths
    sizes = [random.randrange(MOST_ACCESSES + 1) for _ in range(MOST_LISTS)]
    return a_batch(nodes, [accesses_of(random, random.choices(paths, k=size)) for size in sizes])


def hot(random: Random) -> dict:
    """A heavy root with sixteen children. Each list needs one or two of them, and has all its locks before its first
    access, so that the root is held for a moment, and very often."""
    nodes = [a_row(None, "", 1000)] + [a_row(0, f"n{number}", 1) for number in range(16)]
    pairs = [[f"/n{first}", f"/n{second}"] for first in range(16) for second in range(16)]
    return a_batch(nodes, [accesses_of(random, MOST_ACCESSES // 2 * pair) for pair in random.sample(pairs, MOST_LISTS)])


def passed(random: Random) -> dict:
    """A light root that each list holds from end to end, and heavy children, which it unlocks before the root: a worker
    that sleeps for its first one finds the root in its way when that is unlocked."""
    nodes = [a_row(None, "", 1)] + [a_row(0, f"n{number}", 1000) for number in range(40)]
    paths = Tree(nodes).paths
    firsts = [random.choice(paths[1:3]) for _ in range(MOST_LISTS)]
    half = MOST_ACCESSES // 2 - 1
    ways = [half * [first] + random.sample(paths[3:], half) + ["/"] for first in firsts]
    return a_batch(nodes, [accesses_of(random, way) for way in ways])


def chains(random: Random) -> dict:
    """Leaves below shelves below branches below the root, each lighter than what is above it. Each list goes to and fro
    between two leaves, and so has from three to seven locks before its first access."""
    nodes = [a_row(None, "", 1000)]
    for branch in range(4):
        nodes.append(a_row(0, f"b{branch}", 300))
        above = len(nodes) - 1
        for shelf in range(2):
            nodes.append(a_row(above, f"s{shelf}", 100))
            nodes += [a_row(len(nodes) - 1, f"l{leaf}", 1) for leaf in range(3)]
    leaves = [path for path in Tree(nodes).paths if path.count("/") == 3]
    ways = [MOST_ACCESSES // 2 * random.sample(leaves, 2) for _ in range(MOST_LISTS)]
    return a_batch(nodes, [accesses_of(random, way) for way in ways])


def wide(random: Random) -> dict:
    """A heavy root with sixty children, of which each list holds from forty on at once."""
    nodes = [a_row(None, "", 1000)] + [a_row(0, f"n{number}", random.randrange(1, 9)) for number in range(60)]
    paths = Tree(nodes).paths[1:]
    ways = [random.sample(paths, random.randrange(40, len(paths) + 1)) for _ in range(MOST_LISTS)]
    return a_batch(nodes, [accesses_of(random, way) for way in ways])


def deep(random: Random, count: int = 128) -> dict:
    """Sixty-four leaves at depth 4, each on a way of its own, all of which each list needs: its plan has 578 steps."""
    nodes = [a_row(None, "", 20)]
    for number in range(MOST_ACCESSES):
        for above in (0, *range(len(nodes), len(nodes) + 3)):
            nodes.append(a_row(above, f"n{number}", random.randrange(1, 20)))
    leaves = [path for path in Tree(nodes).paths if path.count("/") == 4]
    ways = [random.sample(leaves, MOST_ACCESSES) for _ in range(count)]
    return a_batch(nodes, [accesses_of(random, way) for way in ways])


def shelves(random: Random, root: int = 1000, leaf: int = 1, count: int = MOST_LISTS) -> dict:
    """Ninety-six leaves, each on a shelf of its own, of which each list needs sixty-four: its plan has 322 steps. A
    heavy root is held for a moment; a light one from end to end."""
    nodes = [a_row(None, "", root)]
    for number in range(96):
        nodes += [a_row(0, f"n{number}", leaf), a_row(len(nodes), "l", leaf)]
    leaves = [path for path in Tree(nodes).paths if path.count("/") == 2]
    return a_batch(nodes, [accesses_of(random, random.sample(leaves, MOST_ACCESSES)) for _ in range(count)])


def light_shelves(random: Random) -> dict:
    return shelves(random, 1, 1000)


def round_of_steps(steps: int) -> dict:
    """As many such lists as have fewer steps, and one that has the steps that are left."""
    document = shelves(Random(f"a round of {steps} steps"), count=steps // 322 - 1)
    left = steps - steps_of(Tree(document["nodes"]), document["lists"])
    half = left // 2
    return {**document, "lists": document["lists"] + [list_of_steps(half), list_of_steps(left - half)]}


def list_of_steps(steps: int) -> list[list]:
    """A list of leaves of shelves, the last one of which it adds to as often as is needed."""
    leaves, more = divmod(steps - 2, 5)
    adds = [["add", f"/n{number}/l", 1] for number in range(leaves)]
    return adds + more * adds[-1:]


def of_steps(steps: int) -> dict:
    """Lists of two children of the root, the last one, and of one child, whose plans have from 2,047 to 2,048 steps."""
    nodes = [a_row(None, "", 1000)] + [a_row(0, f"n{number}", 1) for number in range(31)]
    lists = [MOST_ACCESSES * [["add", f"/n{number}", 1]] for number in range(30)]
    left = steps - steps_of(Tree(nodes), lists) - 6
    return a_batch(nodes, lists + [(left * [["add", "/n0", 1], ["get", "/n30"]])[:left]])


SHAPES = {"mixed": mixed, "hot": hot, "passed": passed, "chains": chains, "wide": wide, "deep": deep}
# Those that have steps enough for the threads of a store.
ROUND_SHAPES = {"shelves": shelves, "light shelves": light_shelves, "deep": deep}


def a_batch(nodes: list[dict], lists: list[list]) -> dict:
    return {"version": 2, "nodes": nodes, "lists": lists}


def a_row(parent: int | None, name: str, weight: int, value: int = 20) -> dict:
    return {"parent": parent, "name": name, "weight": weight, "value": value}


def accesses_of(random: Random, paths: list[str]) -> list[list]:
    """An access of each of these nodes, of any of the four kinds, some with a length."""
    return [an_access(random, path) for path in paths]


def an_access(random: Random, path: str) -> list:
    number = random.choice([1, -1, random.randrange(-9, 30), MOST])
    access = random.choice([["get", path], ["set", path, number], ["add", path, number], ["take", path, number]])
    return access + ([random.randrange(1, 20)] if random.random() < 0.3 else [])


def steps_of(tree: Tree, lists: list[list]) -> int:
    """How many steps the settled plans have: each locks just the forced nodes of its list, and lets each go."""
    return sum(2 * len(tree.forced(accesses)) + len(accesses) for accesses in lists)


# ---- what is right


def most_waits(tree: Tree, rounds: Iterable[list[list]]) -> list[int]:
    """How often a lock of each node may have found it held, at most, if the lists of each round are run together.
    A lock counts once, however often it is tried; of a round, the first one of a node finds it free."""
    most: Counter[int] = Counter()
    for lists in rounds:
        locks = Counter(node for accesses in lists for node in tree.forced(accesses))
        most.update({node: count - 1 for node, count in locks.items()})
    return [most[node] for node in range(len(tree.parents))]


def fault_of_waits(waits: list[int], most: list[int]) -> str | None:
    """What is wrong with the waits of the nodes, if these are the most."""
    if len(waits) != len(most):
        return f"there are waits of {len(waits)} nodes, and not of {len(most)}"
    for node, (wait, limit) in enumerate(zip(waits, most)):
        if not 0 <= wait <= limit:
            return f"node {node} was waited for {wait} times, which can be from 0 to {limit}"
    return None


def fault_of_run(document: dict, output: bytes, is_alone: bool = False) -> str | None:
    """What is wrong with what `grove run` printed of the document. If it has one worker, nobody waits."""
    lines = [line.split(" ", 1) for line in output.decode().splitlines()]
    if [line[0] for line in lines] != ["order", "replies", "records", "waits"]:
        return f"the lines are {[line[0] for line in lines]}"
    order, replies, records, waits = (json.loads(line[1]) for line in lines)
    store, lists = Store(document), document["lists"]
    if sorted(order) != list(range(len(lists))) or len(replies) != len(lists):
        return "the order or the replies haven't each list once"
    for place, number in enumerate(order):
        wanted = [store.reply(access) for access in lists[number]]
        if replies[number] != wanted:
            return f"list {number}, at place {place}: {lists[number]} wanted {wanted}; came {replies[number]}"
    if records != store.records:
        return f"the records: wanted {store.records}; came {records}"
    return fault_of_waits(waits, most_waits(store.tree, [] if is_alone else [lists]))
