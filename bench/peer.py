#!/usr/bin/env python3
"""Times the planner beside LEMON's network simplex on the same networks, and prints ratios to LEMON's time.

    usage: bench/peer.py [ROUNDS]        (default: 5; it needs g++ and LEMON, on Debian the package liblemon-dev)

For each list of bench/lists.py in turn, ROUNDS times, each program takes the least of many runs: LEMON its set-up
over a graph that is there and its run (bench/peer.cpp), `grove_bench plan` the planner, the span and the checker,
`grove_bench solve` the search for a solution, which the planner needs only if its proposal is refused, the test of one
and the latest places. Of all rounds the least counts. The planner's cost has to be LEMON's.
"""

import argparse
import statistics
import subprocess
import tempfile
from pathlib import Path

import lists
from calls import PROGRAM as BENCH

TOP = Path(__file__).resolve().parent.parent
PEER_RUNS = "30"
SEARCH_RUNS = 3
PLANNED, SOLVED = ["span", "plan", "judge", "check"], ["solve", "test", "latest"]


def output(command, text):
    return subprocess.run(command, input=text.encode(), capture_output=True, check=True).stdout.decode()


def told(text):
    """Of lines of a name and what came of it, what came by the names."""
    found = {}
    for line in text.splitlines():
        name, came = line.split(" ", 1)
        found.setdefault(name, []).append(came)
    return found


def least_times(found, names):
    return {name: min(map(int, found[name])) for name in names}


def planned(case):
    """The least nanoseconds of the planner and of what it is beside, and the plan's cost."""
    found = told(output([BENCH, "plan"], lists.numbers(case)))
    return least_times(found, PLANNED), set(" ".join(found["cost"]).split())


def solved(network):
    text = "\n".join([str(SEARCH_RUNS)] + [network] * SEARCH_RUNS)
    return least_times(told(output([BENCH, "solve"], text)), SOLVED)


def measure(peer, case):
    """The nanoseconds of one round."""
    network = lists.network(case)
    lemon = told(output([peer, PEER_RUNS], network))
    times, costs = planned(case)
    assert costs == set(lemon["cost"]), (case.name, costs, lemon["cost"])
    return times | solved(network) | {"lemon": int(lemon["lemon"][0])}


def show(name, times):
    lemon = times["lemon"]
    parts = " ".join(f"{part} {times[part] / 1000:.0f}" for part in [*PLANNED, *SOLVED])
    ratios = ", ".join(f"{part} {times[part] / lemon:.2f}" for part in ("plan", "solve"))
    print(f"{name}: lemon {lemon / 1000:.0f} µs; {ratios} of it; {parts}", flush=True)


def main():
    parser = argparse.ArgumentParser(description=__doc__.partition("\n")[0])
    parser.add_argument("rounds", nargs="?", type=int, default=5, metavar="ROUNDS")
    rounds = parser.parse_args().rounds
    cases = lists.suite()
    least = {}
    with tempfile.TemporaryDirectory(prefix="grove-peer-") as room:
        peer = Path(room) / "peer"
        subprocess.run(["g++", "-O2", "-o", peer, TOP / "bench/peer.cpp"], check=True)
        for _ in range(rounds):
            for case in cases:
                times = measure(peer, case)
                before = least.get(case.name, times)
                least[case.name] = {name: min(time, before[name]) for name, time in times.items()}
    for name, times in least.items():
        show(name, times)
    mean = statistics.mean(times["plan"] / times["lemon"] for times in least.values())
    searched = sum(times["plan"] > times["solve"] for times in least.values())
    print(f"plan in the mean of {len(cases)} lists: {mean:.2f}; slower than the search at {searched} of them")


if __name__ == "__main__":
    main()
