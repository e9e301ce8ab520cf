"""Altered certificates: each amount of a flow that `check` accepts changed, one of it moved to another amount of its
row, each row dropped, doubled and swapped: refused, by the first rule of docs/CERTIFICATE.md that it breaks, as
tests/certificate.py works it out.

All are asked as lines of a session, whose replies have the fault's name, and some by the command `check`, which
prints its place too.
"""

from __future__ import annotations

import json
from functools import partial
from itertools import permutations
from random import Random
from typing import Iterator

from certificate import MOST, fault_of_certificate
from server import Serving
from store import compact, error

from sweeps.answers import cost_of
from sweeps.documents import put_back, seeded
from sweeps.program import Ran, Tally, Try, run

TRIED = "altered flows of accepted plans"
SEEDED = 200
AMOUNTS = ["above", "held", "first", "last", "own"]
# What is moved from one of these to another leaves the lock of the row's own node balanced, so other rules are asked.
ALIKE = ["held", "first", "own"]
# Of each document so many are asked by the command.
BY_COMMAND = 12


def tries(program: str, _room: str) -> list[Try]:
    return [Try(f"seeded document {seed}", partial(alter_each, program, seed)) for seed in range(SEEDED)]


def alter_each(program: str, seed: int, tally: Tally) -> None:
    planned = run(program, "plan", text=seeded(seed))
    cost = cost_of("plan", planned)
    if cost is None:
        tally.note("as made", f"wanted a plan; came {planned}")
        return
    document = json.loads(put_back(seeded(seed), planned.out))
    flows = dict(altered(document["flow"]))
    faults = {where: fault_of_certificate(document | {"flow": flow}, cost) for where, flow in flows.items()}
    ask_all(program, document, cost, flows, faults, tally)
    for where in Random(seed).sample(sorted(flows), min(BY_COMMAND, len(flows))):
        ran = run(program, "check", text=json.dumps(document | {"flow": flows[where]}).encode())
        tally.compare(f"{where}, by the command", ran, Ran(1, f"refused {faults[where]}\n".encode(), b""))


def ask_all(program: str, document: dict, cost: int, flows: dict, faults: dict, tally: Tally) -> None:
    """Asks for a check of the flow as it was planned, and of each that is altered."""
    lines = [line_of(document, flow) for flow in (document["flow"], *flows.values())]
    with Serving(program, json.dumps(document).encode()) as server:
        accepted, *replies = server.talk(b"\n".join(lines)).split(b"\n")[:-1]
    tally.blame("as planned", None if accepted == compact({"cost": cost}) else f"wanted cost {cost}; came {accepted!r}")
    tally.blame("all", None if len(replies) == len(flows) else f"{len(flows)} lines have {len(replies)} replies")
    for (where, fault), reply in zip(faults.items(), replies):
        wanted = compact(error(fault.split(" ")[0])) if fault else "a fault"
        tally.note(where, None if reply == wanted else f"wanted {wanted!r}; came {reply!r}")


def line_of(document: dict, flow: list) -> bytes:
    return compact({"check": {"list": document["list"], "plan": document["plan"], "flow": flow}})


def altered(flow: list) -> Iterator[tuple[str, list]]:
    """Flows that differ from this one in one or two amounts or in one row, each with what it was altered in."""
    for number, row in enumerate(flow):
        before, after = flow[:number], flow[number + 1 :]
        for amount in AMOUNTS:
            for value in {row[amount] - 1, row[amount] + 1, 0, MOST, MOST + 1} - {row[amount], -1}:
                yield f"row {number}, {amount} {value}", [*before, {**row, amount: value}, *after]
        for giver, taker in permutations(ALIKE, 2):
            moved = {**row, giver: row[giver] - 1, taker: row[taker] + 1}
            if row[giver]:
                yield f"row {number}, one {giver} as {taker}", [*before, moved, *after]
        yield f"row {number} dropped", before + after
        yield f"row {number} doubled", [*before, row, row, *after]
        if after:
            yield f"rows {number} and {number + 1} swapped", [*before, after[0], row, *after[1:]]
