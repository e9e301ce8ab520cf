"""A run of the core that no document can ask for: as many jobs as there may be, each with as many accesses as it may
have. `grove_bench` makes it, and tries a step of each job in turn until all are at their end. And lists and jobs that
calls refuse, among them of nodes that no path names.
"""

from __future__ import annotations

import subprocess
from pathlib import Path

import calls

from sweeps.called import tries_of
from sweeps.program import Tally, Try, short

TRIED = "large runs of the core, and lists and jobs that are refused"
JOBS = 256
# Each of them locks and unlocks 2,049 nodes and does 64 accesses.
WANTED = f"{JOBS} jobs finished in {JOBS * (2 * 2049 + 64)} steps"
SECONDS = 600
# A root with two leaves. By what is wrong: the accesses of a list, or the plans of jobs that read the first leaf.
LEAVES: list[calls.Row] = [(None, 1), (0, 1), (0, 1)]
LISTS: list[tuple[list[calls.Access], str]] = [
    ([(1, 1)] * 64, ""),
    ([(1, 1)] * 65, "too-long"),
    ([(3, 1)] * 65, "too-long"),
    ([(0, 1), (3, 1)], "access 1 no-node"),
    ([(0, 0), (3, 1)], "access 1 no-node"),
    ([(1, 1), (2, 0)], "access 1 bad-length"),
    ([(1, 1), (2, 1000)], ""),
    ([(1, 1), (2, 1001)], "access 1 bad-length"),
]
ALONE: list[calls.Step] = [("lock", 1), ("access", 0), ("unlock", 1)]
TWICE: list[calls.Step] = [("lock", 1), ("unlock", 1), *ALONE]
PLANS = [
    ([ALONE, ALONE], ""),
    ([TWICE, ALONE], "job 0 step 2 relock"),
    ([ALONE, TWICE], "job 1 step 2 relock"),
    ([[("lock", 3)], ALONE], "job 0 step 0 strange"),
]


def tries(program: str, room: str) -> list[Try]:
    return tries_of({f"{JOBS} jobs": finish, "lists": refuse_lists, "jobs": refuse_jobs})


def finish(bench: Path, tally: Tally) -> None:
    job = calls.job_numbers(calls.chain_ends(), calls.chain_steps())
    text = f"{calls.tree_numbers(calls.chains())}\n{calls.counted([job] * JOBS)}"
    ran = subprocess.run([bench, "core"], input=text.encode(), capture_output=True, timeout=SECONDS, check=False)
    lines = ran.stdout.decode(errors="replace").splitlines()
    well = ran.returncode == 0 and lines[-1:] and lines[-1].startswith(WANTED)
    came = f"status {ran.returncode}, {lines[-1:]}, {short(ran.stderr)}"
    tally.note("its last line", None if well else f"wanted {WANTED!r}; came {came}")


def refuse_lists(bench: Path, tally: Tally) -> None:
    for accesses, fault in LISTS:
        note(bench, "plan", f"{calls.tree_numbers(LEAVES)}\n{calls.list_numbers(accesses)}", fault, tally)


def refuse_jobs(bench: Path, tally: Tally) -> None:
    """Where a core is opened with them, and where two workers run them."""
    for plans, fault in PLANS:
        jobs = calls.counted([calls.job_numbers([(1, 1)], steps) for steps in plans])
        text = f"{calls.tree_numbers(LEAVES)}\n{jobs}"
        note(bench, "core", text, fault, tally)
        note(bench, "runs", f"2 1 0\n{text}", fault, tally)


def note(bench: Path, word: str, text: str, fault: str, tally: Tally) -> None:
    ran = subprocess.run([bench, word], input=text.encode(), capture_output=True, timeout=SECONDS, check=False)
    wanted = (1, f"Error: {fault}\n".encode()) if fault else (0, b"")
    came = ran.returncode, ran.stderr
    tally.note(f"{word} of {text!r}", None if came == wanted else f"wanted {wanted}; came {came}")
