#!/usr/bin/env python3
"""Times `grove judge` on the largest documents that it takes, and prints seconds.

    usage: bench/judge.py [RUNS]        (default: 5)

The first document has 4,096 nodes, 64 accesses and a plan of 8,256 steps, which locks and unlocks every node.
The second is the same in 4,194,304 bytes, filled up with a member that the command does not use.
Each run's cost is compared with the one worked out here.
"""
import argparse
import json
import statistics
import subprocess
import time
from pathlib import Path

NODES, DEPTH, ACCESSES, MOST_BYTES = 4096, 32, 64, 4_194_304
TOP = Path(__file__).resolve().parent.parent


def tree_rows():
    """Chains of the greatest depth side by side under the root, in preorder."""
    rows = [{"parent": None, "name": "", "weight": 1}]
    while len(rows) < NODES:
        parent = 0
        for _ in range(min(DEPTH, NODES - len(rows))):
            number = len(rows)
            rows.append({"parent": parent, "name": f"n{number:05}", "weight": 1 + number % 1000, "value": number})
            parent = number
    return rows


def path_of(rows, node):
    names = []
    while rows[node]["parent"] is not None:
        names.append(rows[node]["name"])
        node = rows[node]["parent"]
    return "/" + "/".join(reversed(names))


def walk(rows):
    """Goes through the tree in preorder: each node is locked under its held parent, and unlocked once all below it
    is. Every 64th node is accessed while it is held, in the order of the list. Gives list, plan and cost."""
    accesses, plan, held, cost = [], [], [], 0

    def unlock():
        nonlocal cost
        node, since = held.pop()
        plan.append(["unlock", path_of(rows, node)])
        cost += rows[node]["weight"] * (len(accesses) - since)

    for node, row in enumerate(rows):
        while held and held[-1][0] != row["parent"]:
            unlock()
        held.append((node, len(accesses)))
        plan.append(["lock", path_of(rows, node)])
        if node % (NODES // ACCESSES) == 0:
            plan.append(["access", len(accesses)])
            accesses.append(["add", path_of(rows, node), 1])
    while held:
        unlock()
    return accesses, plan, cost


def texts(document):
    text = json.dumps(document, separators=(",", ":"))
    notes, entry = [], {"by": "someone", "on": [2024, 2, 29], "text": "tab\t and \u00fc"}
    room = MOST_BYTES - len(text.encode()) - len(',"notes":[]')
    notes = [entry] * (room // (len(json.dumps(entry, separators=(",", ":")).encode()) + 1))
    filled = json.dumps(document | {"notes": notes}, separators=(",", ":"))
    return {"largest plan": text, "largest text": filled + " " * (MOST_BYTES - len(filled.encode()))}


def main():
    parser = argparse.ArgumentParser(description=__doc__.partition("\n")[0])
    parser.add_argument("runs", nargs="?", type=int, default=5, metavar="RUNS")
    runs = parser.parse_args().runs
    subprocess.run([TOP / "grove", "--proved", "--help"], check=True, stdout=subprocess.DEVNULL)
    rows = tree_rows()
    accesses, plan, cost = walk(rows)
    assert (len(rows), len(accesses), len(plan)) == (NODES, ACCESSES, 2 * NODES + ACCESSES)
    for name, text in texts({"nodes": rows, "list": accesses, "plan": plan}).items():
        seconds = []
        for _ in range(runs):
            start = time.perf_counter()
            ran = subprocess.run([TOP / "crates/grove/out/grove"], input=text.encode(), capture_output=True)
            seconds.append(time.perf_counter() - start)
            assert ran.returncode == 0, (ran.returncode, ran.stdout[:200], ran.stderr[:200])
            assert ran.stdout.startswith(b"cost %d\n" % cost), ran.stdout[:200]
        print(f"{name}: {len(text.encode())} bytes, cost {cost}, "
              f"least {min(seconds):.3f} s, middle {statistics.median(seconds):.3f} s of {runs} runs")


if __name__ == "__main__":
    main()
