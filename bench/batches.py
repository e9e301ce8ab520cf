#!/usr/bin/env python3
"""Times batches by 1, 2 and 4 workers: planning, and running beside a program that only takes the locks.

    usage: bench/batches.py [RUNS]        (default: 3)

`grove_bench` plans 256 lists of 64 accesses over 4,096 nodes, all different and all equal, and 256 different ones that
force some 2,000 nodes each, and runs 256 jobs: of 64 accesses over 2,049 nodes each, and of one access at nodes of
their own: once to be warm, then the short ones 200 times and the long ones 5 times. `bench/locks.rs`, compiled here by
`rustc`, takes the same locks for the same jobs by the same plans, with a Mutex a node; `bench/halves.rs` only counts,
cut in two as a batch of lists is. All are run in turn, RUNS times; the median and the least time are printed, in
milliseconds, and for the jobs how many are done in a second and the ratios
of the medians.
"""
import argparse
import statistics
import subprocess
import sys
import tempfile
from pathlib import Path

TOP = Path(__file__).resolve().parent.parent
sys.dont_write_bytecode = True
sys.path.insert(0, str(TOP / "tests"))
from calls import CHAINS, DEPTH, PROGRAM, chain_ends, chain_steps, chains  # noqa: E402
from calls import counted, job_numbers, list_numbers, tree_numbers  # noqa: E402

WORKERS = (1, 2, 4)
JOBS, ACCESSES = 256, 64
# Below the root are so many shops, with so many shelves each.
SHOPS, SHELVES = 63, 64
SHORT_RUNS, LONG_RUNS = 200, 5


# ---- what is planned and run


def weight(number):
    return 1 + number % 1000


def shops():
    rows = [(None, weight(0))]
    for _ in range(SHOPS):
        shop = len(rows)
        rows.append((0, weight(shop)))
        rows += [(shop, weight(shop + 1 + shelf)) for shelf in range(SHELVES)]
    return rows


def all_over(apart):
    """Lists of nodes all over the shops, each list's nodes so many numbers after those of the one before."""
    starts = [number * apart for number in range(JOBS)]
    return [[(1 + (start + access * 67) % 4095, 1) for access in range(ACCESSES)] for start in starts]


def down_the_chains():
    """Lists of a node near the end of each chain, in turn, no two lists alike."""
    return [[((1 + (job + each) % CHAINS) * DEPTH - job // CHAINS, 1) for each in range(ACCESSES)]
            for job in range(JOBS)]


def short_jobs():
    """Jobs of one access each, no two at the same shelf."""
    shelves = [2 + job % SHOPS * (SHELVES + 1) + job // SHOPS for job in range(JOBS)]
    return [job_numbers([(node, 1)], [("lock", node), ("access", 0), ("unlock", node)]) for node in shelves]


def told():
    """By what is done, the word for `grove_bench` and what it reads behind the number of workers."""
    below, deep = tree_numbers(shops()), tree_numbers(chains())
    return {
        "plan-distinct": ("plans", [below, batch(all_over(251))]),
        "plan-equal": ("plans", [below, batch(all_over(0))]),
        "plan-long": ("plans", [deep, batch(down_the_chains())]),
        "run-short": ("runs", [SHORT_RUNS, 0, below, counted(short_jobs())]),
        "run-long": ("runs", [LONG_RUNS, 0, deep, counted([job_numbers(chain_ends(), chain_steps())] * JOBS)]),
    }


def batch(each):
    return counted([list_numbers(accesses) for accesses in each])


# ---- the times


def own_times(word, parts):
    """The workers and the nanoseconds of each time."""
    for workers in WORKERS:
        text = "\n".join(map(str, [workers, *parts]))
        done = subprocess.run([PROGRAM, word], input=text, check=True, capture_output=True, text=True)
        for line in done.stdout.splitlines():
            yield workers, int(line.split()[1])


def nanoseconds(commands, runs):
    """For each program what it did, by how many workers, with the times; the programs are run in turn."""
    found = {name: {} for name in ("grove", *commands)}
    asked = told()
    for _ in range(runs):
        for what, how in asked.items():
            for workers, spent in own_times(*how):
                found["grove"].setdefault((what, workers), []).append(spent)
        for name, command in commands.items():
            done = subprocess.run(command, check=True, capture_output=True, text=True)
            for line in done.stdout.splitlines():
                what, workers, spent, *_ = line.split()
                found[name].setdefault((what, int(workers)), []).append(int(spent))
    return found


def built(name, folder):
    """A program of this folder, compiled by `rustc`."""
    program = Path(folder) / name
    subprocess.run(["rustc", "-O", "-o", program, TOP / f"bench/{name}.rs"], check=True)
    return program


def show(name, times):
    for what in dict.fromkeys(what for what, _ in times):
        spent = [times[what, workers] for workers in WORKERS]
        line = f"{name} {what}: " + ", ".join(f"{statistics.median(each) / 1e6:.3f}" for each in spent) + " ms"
        line += ", at best " + ", ".join(f"{min(each) / 1e6:.3f}" for each in spent)
        if what.startswith("run"):
            done = ", ".join(f"{JOBS * 1e9 / statistics.median(each):,.0f}" for each in spent)
            line += f"; {done} jobs a second"
        print(line)


def show_ratios(found, what):
    """What jobs take to what the locks alone take, and with several workers to what one takes, both by medians."""
    ours, plain = (
        [statistics.median(found[name][what, workers]) for workers in WORKERS] for name in ("grove", "locks alone")
    )
    to_plain = ", ".join(f"{mine / theirs:.2f}" for mine, theirs in zip(ours, plain))
    to_one = ", ".join(f"{each / ours[0]:.2f}" for each in ours[1:])
    print(f"{what}: {to_plain} times the locks alone; with 2 and 4 workers {to_one} times what one takes")


def main():
    parser = argparse.ArgumentParser(description=__doc__.partition("\n")[0])
    parser.add_argument("runs", nargs="?", type=int, default=3, metavar="RUNS")
    runs = parser.parse_args().runs
    if not PROGRAM.exists():
        sys.exit(f"no program {PROGRAM}: cd crates/grove_bench && rt run")
    print("by 1, 2 and 4 workers")
    with tempfile.TemporaryDirectory() as folder:
        locks, halves = (built(name, folder) for name in ("locks", "halves"))
        found = nanoseconds({"locks alone": [locks], "loops alone": [halves]}, runs)
    for name, times in found.items():
        show(name, times)
    for what in ("run-short", "run-long"):
        show_ratios(found, what)


if __name__ == "__main__":
    main()
