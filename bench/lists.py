"""Lists over trees, as the planner meets them, and the forms in which programs read them: a document, numbers, and the
network whose solution is a list's least plan.

A tree is rows (parent, weight) in preorder, the root's parent None; a list is accesses (node, length). The network is
worked out here from what the pages say of it (docs/CERTIFICATE.md), not by the planner.
"""

from __future__ import annotations

import json
import random
import sys
from dataclasses import dataclass
from pathlib import Path

sys.dont_write_bytecode = True
sys.path.insert(0, str(Path(__file__).resolve().parent.parent / "tests"))
import calls  # noqa: E402

DEEPEST = 32
ACCESSES = 64


@dataclass(frozen=True)
class Case:
    name: str
    rows: list[tuple[int | None, int]]
    accesses: list[tuple[int, int]]


def branches(count, depth, weight):
    """So many chains below a root, each node's weight by its depth and its number."""
    rows = [(None, weight(0, 0))]
    for _ in range(count):
        for level in range(1, depth + 1):
            rows.append((0 if level == 1 else len(rows) - 1, weight(level, len(rows))))
    return rows


def ends(count, depth):
    return [(1 + branch * depth + depth - 1, 1) for branch in range(count)]


def balanced(depth):
    """Two children each, down to the depth."""
    rows = []

    def grow(parent, left):
        number = len(rows)
        rows.append((parent, spread(number)))
        for _ in range(2 if left else 0):
            grow(number, left - 1)

    grow(None, depth)
    return rows


def random_tree(rng, count):
    """Each node below one of those before it, if that isn't too deep; then put into preorder."""
    children, depths = [[]], [0]
    while len(children) < count:
        parent = rng.randrange(len(children))
        if depths[parent] < DEEPEST:
            children[parent].append(len(children))
            depths.append(depths[parent] + 1)
            children.append([])
    rows, left = [], [(0, None)]
    while left:
        node, parent = left.pop()
        left.extend((child, len(rows)) for child in reversed(children[node]))
        rows.append((parent, rng.randint(1, 1000)))
    return rows


def spread(number):
    return 1 + number * 37 % 1000


def random_accesses(rng, nodes, count=ACCESSES, longest=1):
    return [(rng.randrange(nodes), rng.randint(1, longest)) for _ in range(count)]


def largest(name, weight, longest=1):
    rng = random.Random(name)
    accesses = [(node, rng.randint(1, longest)) for node, _ in ends(64, 32)]
    return Case(f"64 branches of 32, {name}", branches(64, 32, weight), accesses)


def the_largest():
    """The list that forces the most nodes, 2,049, with weights of four kinds."""
    rng = random.Random(1)
    return [
        largest("equal weights", lambda level, number: 500),
        largest("random weights", lambda level, number: rng.randint(1, 1000)),
        largest("weights halving by depth", lambda level, number: max(1, 1000 >> level)),
        largest("weights falling by depth", lambda level, number: 1000 - 30 * level),
    ]


def others():
    rng = random.Random(2)
    cases = [
        largest("random weights and lengths", lambda level, number: rng.randint(1, 1000), 1000),
        largest("weights rising by depth", lambda level, number: min(1000, 1 << level // 3)),
        Case("64 branches of 8", branches(64, 8, lambda level, number: spread(number)), ends(64, 8)),
        Case("64 branches of 2", branches(64, 2, lambda level, number: spread(number)), ends(64, 2)),
        Case("64 leaves below the root", branches(64, 1, lambda level, number: spread(number)), ends(64, 1)),
        Case("a chain of 33", branches(1, 32, lambda level, number: spread(number)), random_accesses(rng, 33)),
        Case("a balanced tree of 4,095", balanced(11), random_accesses(rng, 4095)),
    ]
    for nodes, longest in ((4096, 1), (4096, 1000), (1000, 1), (1000, 1000), (200, 1), (200, 1000)):
        lengths = ", with lengths" if longest > 1 else ""
        name = f"64 of {nodes:,} nodes at random{lengths}"
        cases.append(Case(name, random_tree(rng, nodes), random_accesses(rng, nodes, longest=longest)))
    return cases


def suite():
    return the_largest() + others()


def document(case):
    """What `grove plan` reads."""
    rows = [{"parent": parent, "name": "" if parent is None else f"n{number}", "weight": weight}
            for number, (parent, weight) in enumerate(case.rows)]
    paths = []
    for row in rows:
        paths.append("" if row["parent"] is None else paths[row["parent"]] + "/" + row["name"])
    accesses = [["get", paths[node] or "/", length] for node, length in case.accesses]
    return json.dumps({"version": 2, "nodes": rows, "list": accesses})


def numbers(case):
    """What `grove_bench plan` reads: a tree and a list."""
    return f"{calls.tree_numbers(case.rows)} {calls.list_numbers(case.accesses)}"


def forced(case):
    """The forced nodes: above an accessed node, and at or below the lowest that is above all of these."""
    above = {}
    for node, _ in case.accesses:
        way = [node]
        while case.rows[way[-1]][0] is not None:
            way.append(case.rows[way[-1]][0])
        for upper in way:
            above.setdefault(upper, set()).add(node)
    targets = len({node for node, _ in case.accesses})
    top = max(node for node, below in above.items() if len(below) == targets)
    return sorted(node for node in above if node >= top)


def network(case):
    """What `grove_bench solve` and the peer read. Row k is the variables 2k and 2k + 1, its lock and its release, and
    the last variable is the base."""
    nodes = forced(case)
    places = {node: k for k, node in enumerate(nodes)}
    base = 2 * len(nodes)
    begins, ends_at, slots = {}, {}, 0
    for node, length in case.accesses:
        begins.setdefault(node, slots)
        slots += length
        ends_at[node] = slots
    arcs = []
    for k, node in enumerate(nodes):
        parent = places.get(case.rows[node][0])
        if parent is not None:
            arcs += [(2 * parent, 2 * k, 0), (2 * k, 2 * parent + 1, 0)]
        if node in begins:
            arcs += [(2 * k, base, -begins[node]), (base, 2 * k + 1, ends_at[node])]
        arcs.append((2 * k, 2 * k + 1, 0))
    needs = [need for node in nodes for need in (-case.rows[node][1], case.rows[node][1])] + [0]
    start = [place for _ in nodes for place in (0, slots)] + [0]
    return calls.network_numbers(arcs, needs, start, slots)
