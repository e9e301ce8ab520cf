"""Batches that threads do, and whose lists contend for nodes: of 2,048 steps and more by `run`, and of 65,536 and more
by lines of one session and by rounds that sixteen clients share; and lines of shorter batches, which are done in place.
Each answer is compared with the lists done one after the other in the order that it tells. The threads that the program
starts are counted: for these batches, for shorter ones, and for new weights.

A run or a server that doesn't answer within a minute hangs, and ends its part. That somebody waits for a node, and that
two lines share a round, goes by timing, and is tried until it was seen; all else has to be right in each try.
"""

from __future__ import annotations

import contextlib
import json
import os
import threading
from concurrent.futures import ThreadPoolExecutor
from dataclasses import dataclass
from functools import partial
from random import Random
from typing import Callable, Iterator

from batches import MOST_WAITS, ROUND_SHAPES, ROUND_WORTH_THREADS, SHAPES, WORTH_A_THREAD
from batches import deep, fault_of_run, fault_of_waits, most_waits, of_steps, round_of_steps, steps_of
from history import fault_of_history
from server import SECONDS, Serving, talk
from store import MOST_WEIGHT, compact
from tree import Tree

from sweeps.preloaded import library_of
from sweeps.program import Enough, Tally, Try, run, short, until_well

TRIED = "batches and new weights by some number of workers, with their threads counted"
WORKERS = (2, 3, 4, 16, 1)
# How many batches of a shape each number of workers runs, and how many times a client sends the same one: alone, and
# among others.
BATCHES, LINES, SHARED = 2, 8, 3
CLIENTS, SHARES = 16, 8
NONE_LARGE = "no round has steps enough for threads"
WEIGHTS, REWEIGH = b'{"weights":null}\n', b'{"reweigh":null}\n'
ROOT = {"parent": None, "name": "", "weight": 1}
STAR = {"nodes": [ROOT] + [{"parent": 0, "name": f"n{number}", "weight": 1} for number in range(16)]}


def tries(program: str, room: str) -> list[Try]:
    library = library_of("count_threads", room)
    ways = {
        "run": (run_batches, SHAPES),
        "lines": (answer_lines, ROUND_SHAPES),
        "rounds": (share_rounds, ROUND_SHAPES),
        "lines in place": (answer_in_place, SHAPES),
    }
    parts = [
        Try(f"{shape}, by {way}", partial(call, program, library, shape))
        for way, (call, shapes) in ways.items()
        for shape in shapes
    ]
    parts.append(Try("too few steps for a thread", partial(run_alone, program, library)))
    parts.append(Try("a round of just so many steps", partial(answer_of_steps, program, library)))
    return parts + [Try(f"reweigh by {workers}", partial(reweigh, program, library, workers)) for workers in WORKERS]


def batch_of(shape: str, seed: object) -> dict:
    """A batch for `run`, of steps enough for a thread."""
    document = SHAPES[shape](Random(f"threads {shape} {seed}"))
    assert is_worth_a_thread(Tree(document["nodes"]), document["lists"])
    return document


def round_of(shape: str, seed: object) -> dict:
    """A batch for a store, of steps enough for its threads."""
    document = ROUND_SHAPES[shape](Random(f"threads {shape} {seed}"))
    assert is_worth_threads(Tree(document["nodes"]), document["lists"])
    return document


def is_worth_a_thread(tree: Tree, lists: list) -> bool:
    return steps_of(tree, lists) >= WORTH_A_THREAD


def is_worth_threads(tree: Tree, lists: list) -> bool:
    return steps_of(tree, lists) >= ROUND_WORTH_THREADS


# ---- by `run`


def run_batches(program: str, library: str, shape: str, tally: Tally) -> None:
    for workers in WORKERS:
        for number in range(BATCHES):
            document = batch_of(shape, f"{workers} {number}")
            run_one(program, library, workers, document, batch_threads(workers), f"batch {number}", tally)


def run_one(program: str, library: str, workers: int, document: dict, started: range, where: str, tally: Tally) -> None:
    with counting(library) as (how, told):
        ran = run(program, "run", "--workers", str(workers), text=json.dumps(document).encode(), **how)
        where = f"{where} by {workers}"
        is_alone = workers == 1 or not is_worth_a_thread(Tree(document["nodes"]), document["lists"])
        fault = None if ran.status == 0 else f"came {ran}"
        fault = fault or fault_of_threads(told(), 0, workers - 1, started)
        tally.note(where, fault or fault_of_run(document, ran.out, is_alone))
    if ran.status is None:
        raise Enough


def run_alone(program: str, library: str, tally: Tally) -> None:
    """What is too little for a thread is done by the caller of the run; threads plan, at most one for each further
    list."""
    batches = [(count, deep(Random(f"alone {count}"), count)) for count in (1, 2, 3)]
    for workers in WORKERS:
        for lists, document in batches:
            further = min(workers, lists) - 1
            run_one(program, library, workers, document, range(further, further + 1), f"{lists} lists", tally)
        below, above = of_steps(WORTH_A_THREAD - 1), of_steps(WORTH_A_THREAD)
        planning = range(workers - 1, workers)
        run_one(program, library, workers, below, planning, "a step less than a thread is worth", tally)
        run_one(program, library, workers, above, batch_threads(workers), "as many steps as a thread is worth", tally)


# ---- by a server


@dataclass(frozen=True)
class Served:
    """The batches that clients sent, with what they were replied, the waits of each node, what was counted of threads,
    and the replies by which new weights came of the waits."""

    batches: list[tuple[list, dict]]
    waits: list[int]
    told: bytes
    learned: list[dict]


@dataclass(frozen=True)
class Seen:
    """What a round of clients has shown that goes by timing: how often anybody waited for a node, whether a round had
    steps enough for a thread, and whether two lines shared one."""

    waits: int
    has_large: bool
    has_shared: bool


def answer_lines(program: str, library: str, shape: str, tally: Tally) -> None:
    """One session sends a batch some times. Its lists are planned once, and run each time."""
    until_well(partial(answer_by_each, program, library, shape, tally), "all batches", tally)


def answer_by_each(program: str, library: str, shape: str, tally: Tally) -> str | None:
    waits = 0
    for workers in WORKERS:
        document = round_of(shape, workers)
        seen = note_clients(program, library, workers, document, [[document["lists"]] * LINES], tally)
        tally.blame(f"by {workers}", None if seen.has_large else NONE_LARGE)
        waits += seen.waits
    return fault_of_contention(waits)


def fault_of_contention(waits: int) -> str | None:
    """The batches of a part are no good for what they are to show, if nobody waits in any of them."""
    return None if waits else "nobody waited for a node"


def answer_in_place(program: str, library: str, shape: str, tally: Tally) -> None:
    """A batch of fewer steps is sent twice: it is planned once, by threads, done by its caller, and nobody waits."""
    for workers in WORKERS:
        document = SHAPES[shape](Random(f"in place {shape} {workers}"))
        steps = steps_of(Tree(document["nodes"]), document["lists"])
        count = (ROUND_WORTH_THREADS - 1) * len(document["lists"]) // steps
        lists = document["lists"][: int(0.9 * count)]
        seen = note_clients(program, library, workers, document, [[lists, lists]], tally)
        tally.blame(f"by {workers}", "a round has steps enough for threads" if seen.has_large else None)


def answer_of_steps(program: str, library: str, tally: Tally) -> None:
    """A step less than threads are worth, which are started to plan alone; and as many."""
    for workers in WORKERS:
        for steps in (ROUND_WORTH_THREADS - 1, ROUND_WORTH_THREADS):
            document = round_of_steps(steps)
            assert steps_of(Tree(document["nodes"]), document["lists"]) == steps
            seen = note_clients(program, library, workers, document, [[document["lists"]]], tally)
            fault = None if seen.has_large == (steps == ROUND_WORTH_THREADS) else f"large is {seen.has_large}"
            tally.blame(f"{steps} steps by {workers}", fault)


def share_rounds(program: str, library: str, shape: str, tally: Tally) -> None:
    """Sixteen clients send an eighth of the lists each, some times. Who waits while a round runs shares the next
    one."""
    until_well(partial(share_by_each, program, library, shape, tally), "all batches", tally)


def share_by_each(program: str, library: str, shape: str, tally: Tally) -> str | None:
    return fault_of_contention(sum(shared_by(program, library, shape, workers, tally) for workers in WORKERS))


def shared_by(program: str, library: str, shape: str, workers: int, tally: Tally) -> int:
    """Has the clients ask until two lines shared a round and a round had steps enough for a thread. Gives how often
    anybody waited for a node."""
    document, found = round_of(shape, workers), []
    asked = [[document["lists"][number % SHARES :: SHARES]] * SHARED for number in range(CLIENTS)]

    def share() -> str | None:
        found.append(note_clients(program, library, workers, document, asked, tally))
        if not any(seen.has_shared for seen in found):
            return "no two lines share a round"
        return None if any(seen.has_large for seen in found) else NONE_LARGE

    until_well(share, f"by {workers}", tally)
    return sum(seen.waits for seen in found)


def note_clients(program: str, library: str, workers: int, document: dict, asked: list, tally: Tally) -> Seen:
    """Compares what the clients of a server are replied. Each round of many steps is run by one thread at least beside
    its caller, and others by none; what was planned once is kept."""
    served = serve(program, library, workers, document, asked, tally)
    tree, rounds = Tree(document["nodes"]), rounds_of(served.batches)
    large = [lists for lists in rounds if is_worth_threads(tree, lists)]
    most = most_waits(tree, large if workers > 1 else [])
    further = workers - 1
    started = range(further + len(large) if further else 0, further * (len(asked) + len(large)) + 1)
    tally.tried += len(served.batches)
    faults = [
        fault_of_history(document, served.batches),
        fault_of_waits(served.waits, [min(MOST_WAITS, waits) for waits in most]),
        fault_of_threads(served.told, len(asked), further, started),
        fault_of_learned(served.learned),
    ]
    for fault in faults:
        tally.blame(f"by {workers}", fault)
    return Seen(sum(served.waits), bool(large), len(rounds) < len(served.batches))


def serve(program: str, library: str, workers: int, document: dict, asked: list, tally: Tally) -> Served:
    """Each client sends its batches at once, and asks for the waits behind them; those that come last are the most. All
    begin together, with what they send made before, so that lines come while others are answered."""
    texts = [b"".join(compact({"batch": lists}) + b"\n" for lists in batches) for batches in asked]
    ready = threading.Barrier(len(asked))
    text = json.dumps({"nodes": document["nodes"]}).encode()
    with counting(library) as (how, told):
        with Serving(program, text, workers, **how) as server, ThreadPoolExecutor(len(asked)) as pool:
            came = list(pool.map(partial(ask, server.port, ready), texts))
            threads = told()
            learned = [json.loads(reply) for reply in server.talk(WEIGHTS + REWEIGH + WEIGHTS).splitlines()]
    for fault in filter(None, map(fault_of_form, asked, came)):
        tally.note(f"by {workers}", fault)
        raise Enough
    batches = [pair for lists, replies in zip(asked, came) for pair in zip(lists, replies)]
    return Served(batches, max((replies[-1]["waits"] for replies in came), key=sum), threads, learned)


def ask(port: int, ready: threading.Barrier, text: bytes) -> list[dict]:
    ready.wait(SECONDS)
    return [json.loads(reply) for reply in talk(port, text + WEIGHTS).splitlines()]


def fault_of_form(batches: list, replies: list[dict]) -> str | None:
    """What is wrong with the replies to a client, if they aren't those to its batches and to what it asked then."""
    wanted = [{"places", "replies", "round"} for _ in batches] + [{"waits", "weights"}]
    return None if [reply.keys() for reply in replies] == wanted else f"came {short(compact(replies))}"


def rounds_of(batches: list[tuple]) -> list[list]:
    """The lists of each round."""
    rounds: dict[int, list] = {}
    for lists, found in batches:
        rounds.setdefault(found["round"], []).extend(lists)
    return list(rounds.values())


# ---- new weights


def fault_of_learned(replies: list[dict]) -> str | None:
    """A new weight is half of what the old one was above 1, and its waits, above 1 again, at most 1,000; and the waits
    begin anew."""
    old, waited = replies[0]["weights"], replies[0]["waits"]
    new = [min(MOST_WEIGHT, 1 + (weight - 1) // 2 + waits) for weight, waits in zip(old, waited)]
    changed = sum(now != then for now, then in zip(old, new))
    wanted = [{"changed": changed}, {"waits": [0] * len(old), "weights": new}]
    well = replies[1:] == wanted
    return None if well else f"new weights: wanted {short(compact(wanted))}; came {short(compact(replies))}"


def reweigh(program: str, library: str, workers: int, tally: Tally) -> None:
    """The root has 16 children, so each further worker is a thread of its own."""
    with counting(library) as (how, told):
        with Serving(program, json.dumps(STAR).encode(), workers, **how) as server:
            reply = server.talk(REWEIGH)
        well = reply == b'{"changed":0}\n'
        fault = fault_of_threads(told(), 1, workers - 1, range(workers - 1, workers))
        tally.note("reweigh", fault if well else f"came {short(reply)}")


# ---- threads


def batch_threads(workers: int) -> range:
    """Lists are planned by so many, the caller among them, and then run by two of them at least. Two halves are
    planned at once, then halves of these, so that as many threads are started as there are further workers."""
    return range(workers if workers > 1 else 0, 2 * (workers - 1) + 1)


def fault_of_threads(told: bytes, others: int, further: int, started: range) -> str | None:
    """Beside the first thread and so many others there are never more than the further workers; so many are started."""
    here = [told[: at + 1].count(b"+") - told[: at + 1].count(b"-") for at in range(len(told))]
    most, count = max(here, default=0), told.count(b"+") - others
    if most > further + others:
        return f"{most} threads at once beside the first"
    return None if count in started else f"{count} threads were started"


@contextlib.contextmanager
def counting(library: str) -> Iterator[tuple[dict, Callable[[], bytes]]]:
    """How to start a program whose threads are counted, and a call that gives what was counted of them so far."""
    ends, tell = os.pipe()
    surroundings = {**os.environ, "LD_PRELOAD": library, "THREADS_TELL": str(tell)}
    try:
        os.set_blocking(ends, False)
        yield {"env": surroundings, "pass_fds": (tell,)}, partial(read_all, ends)
    finally:
        os.close(ends)
        os.close(tell)


def read_all(ends: int) -> bytes:
    try:
        return os.read(ends, 1 << 16)
    except BlockingIOError:
        return b""
