#!/usr/bin/env python3
"""Times `grove plan` on trees of three shapes, has `grove check` accept each answer, and prints seconds.

    usage: bench/plan.py [RUNS]        (default: 3)

The trees: a balanced one of 4,095 nodes, two children each; a chain of depth 32; 64 branches of depth 32 below the
root, whose 64 ends force all 2,049 nodes. The lists: 1, 8 and 64 accesses, spread over the leaves (over the nodes of
the chain, from both of its ends in turn).
"""
import argparse
import json
import statistics
import subprocess
import time
from pathlib import Path

TOP = Path(__file__).resolve().parent.parent
PROGRAM = TOP / "crates/grove/out/grove"


def row(parent, number):
    return {"parent": parent, "name": "" if parent is None else f"n{number}", "weight": 1 + number * 37 % 1000}


def balanced(depth):
    rows = []

    def grow(parent, left):
        number = len(rows)
        rows.append(row(parent, number))
        for _ in range(2 if left else 0):
            grow(number, left - 1)

    grow(None, depth)
    return rows


def branches(count, depth):
    rows = [row(None, 0)]
    for _ in range(count):
        parent = 0
        for _ in range(depth):
            rows.append(row(parent, len(rows)))
            parent = len(rows) - 1
    return rows


def paths_of(rows):
    paths = []
    for entry in rows:
        above = "" if entry["parent"] is None else paths[entry["parent"]]
        paths.append(above if entry["parent"] is None else above + "/" + entry["name"])
    return [path or "/" for path in paths]


def targets(rows, count):
    parents = {entry["parent"] for entry in rows}
    leaves = [number for number in range(len(rows)) if number not in parents]
    if len(leaves) == 1:
        ends = list(range(len(rows)))
        return [ends[i // 2 % len(ends)] if i % 2 else ends[-1 - i // 2 % len(ends)] for i in range(count)]
    return [leaves[i * len(leaves) // count] for i in range(count)]


def run(command, text):
    start = time.perf_counter()
    ran = subprocess.run([PROGRAM, command], input=text.encode(), capture_output=True)
    seconds = time.perf_counter() - start
    assert ran.returncode == 0, (ran.returncode, ran.stdout[:200], ran.stderr[:200])
    return seconds, ran.stdout.decode()


def timed(command, text, runs):
    taken, output = zip(*(run(command, text) for _ in range(runs)))
    return min(taken), statistics.median(taken), output[0]


def main():
    parser = argparse.ArgumentParser(description=__doc__.partition("\n")[0])
    parser.add_argument("runs", nargs="?", type=int, default=3, metavar="RUNS")
    runs = parser.parse_args().runs
    subprocess.run([TOP / "grove", "--proved", "--help"], check=True, stdout=subprocess.DEVNULL)
    shapes = {"balanced, 4,095 nodes": balanced(11), "chain, depth 32": branches(1, 32),
              "64 branches, depth 2": branches(64, 2), "64 branches, depth 8": branches(64, 8),
              "64 branches, depth 32": branches(64, 32)}
    for name, rows in shapes.items():
        paths = paths_of(rows)
        for count in (1, 8, 64):
            accesses = [["get", paths[node]] for node in targets(rows, count)]
            document = {"nodes": rows, "list": accesses}
            least, middle, output = timed("plan", json.dumps(document), runs)
            lines = dict(line.split(" ", 1) for line in output.splitlines())
            answer = document | {"plan": json.loads(lines["plan"]), "flow": json.loads(lines["flow"])}
            checked, _, cost = timed("check", json.dumps(answer), runs)
            assert cost == f"cost {lines['cost']}\n", cost
            print(f"{name}; {count} accesses: {len(answer['flow'])} forced, cost {lines['cost']}; "
                  f"plan {least:.3f} s, middle {middle:.3f} s of {runs} runs; check {checked:.3f} s")


if __name__ == "__main__":
    main()
