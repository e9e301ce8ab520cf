"""Calls that no command makes by themselves, each growth of them refused, alone: a call answers what is right for it,
or `memory`; made again it then answers what is right for it. Those that changed nothing are all made again, on equal
values; those of a store go on from the refused one, on the same.

A session over a store is ended by a growth that is refused, or by a read or a write that fails: it has given just the
replies before, and says so. The next one, by another run, gives all of them.

`grove_bench` makes the calls. It makes no command's run anew: the sweeps `growths` and `served_growths` do.
"""

from __future__ import annotations

import json
import os
from dataclasses import dataclass, field
from functools import partial
from pathlib import Path

from sweeps.called import tries_of
from sweeps.growths import MOST_GROWTHS, is_told, refusing
from sweeps.preloaded import library_of
from sweeps.program import Ran, Tally, Try, run
from sweeps.served_devices import due, failing
from sweeps.ten_lines import REPLIES, TEXT

TRIED = "growths, reads and writes of calls that failed, each alone, and the calls made again"
# What the program prints if there is no memory for the command line.
STOPPED = Ran(1, b"", b"Error: out of memory\n"), Ran(1, b"", b"Error: memory allocation failed\n")
TEN_REPLIES = REPLIES.splitlines()
WHOLE = Ran(0, REPLIES, b"lines 10\n")
# No session here takes more reads, or more writes.
MOST_CALLS = 20_000
BYTE_BY_BYTE = {"INPUT_AT_MOST": "1", "OUTPUT_AT_MOST": "1"}


# ---- the lines of what each call comes to


def row(node: int, parent: int | None, weight: int, *visit: int) -> str:
    """A row of a span. A visit: the number of the only access, and the slots from which and until which it goes."""
    number, begin, end = visit or (None, None, None)
    told = {"parent": parent, "weight": weight, "first": number, "last": number, "from": begin, "until": end}
    members = [f"node: {at(node)}", *(f"{name}: {some(value, name)}" for name, value in told.items())]
    return f"SpanRow {{ {', '.join(members)} }}"


def at(node: int) -> str:
    return f"Node {{ number: {node} }}"


def some(value: int | None, name: str) -> str:
    return str(value) if name == "weight" or value is None else f"Some({value})"


def steps(text: str) -> str:
    """The steps of a plan, such as `lock 1`, one behind the other."""
    words = text.split()
    told = [step(what, int(number)) for what, number in zip(words[::2], words[1::2])]
    return f"[{', '.join(told)}]"


def step(what: str, number: int) -> str:
    return f"Access({number})" if what == "access" else f"{what.capitalize()}({at(number)})"


def planned(call: str, cost: int, plan: str) -> str:
    return f"{call} ({cost}, {steps(plan)})"


def of_list(nodes: int, accesses: int, rows: list[str], cost: int, plan: str) -> list[str]:
    span = f"span [{', '.join(rows)}]"
    told = [f"Tree::build {nodes}", f"AccessList::new {accesses}", span]
    return [*told, planned("plan", cost, plan), f"check {cost}"]


BOTH = "lock 0 lock 1 lock 2 unlock 0 access 0 unlock 1 access 1 unlock 2"
DEEP = of_list(
    4,
    2,
    [row(0, None, 9), row(1, 0, 1, 0, 0, 1), row(2, 0, 1), row(3, 2, 3, 1, 1, 2)],
    5,
    "lock 0 lock 1 lock 2 unlock 0 access 0 unlock 1 lock 3 unlock 2 access 1 unlock 3",
)
FLAT = of_list(3, 2, [row(0, None, 5), row(1, 0, 1, 0, 0, 1), row(2, 0, 1, 1, 1, 2)], 3, BOTH)
LENGTHS = of_list(3, 2, [row(0, None, 5), row(1, 0, 1, 0, 0, 1), row(2, 0, 1, 1, 1, 11)], 12, BOTH)
FIVE_PLANS = [
    planned("plan_batch", cost, plan)
    for cost, plan in (
        (0, ""),
        (1, "lock 1 access 0 unlock 1"),
        (3, BOTH),
        (5, "lock 0 lock 1 lock 2 unlock 0 access 0 access 1 unlock 2 access 2 unlock 1"),
        (6, "lock 0 access 0 lock 1 unlock 0 access 1 unlock 1"),
    )
]
TWO_ADDS = [
    "jobs 2",
    "run_batch [0, 1]",
    "replies [Value(11), Value(11)]",
    "replies [Value(12), Value(12)]",
    "records Records { values: [0, 12, 0] }",
]
TURNS = [
    "jobs 2",
    "Core::open 2",
    "serial_order [1, 0]",
    "replies [Done]",
    "replies [Value(7)]",
    "records Records { values: [0, 1, 0] }",
]
ROUND = ['{"places":[0],"replies":[[11]],"round":1}', '{"places":[1,2],"replies":[[11],[20]],"round":1}']


def replied(call: str, reply: str) -> str:
    return f"{call} {json.dumps(reply)}"


@dataclass(frozen=True)
class Calls:
    """What calls come to, line by line; at which of them memory can run out; and whether they go on from there."""

    lines: list[str]
    refusable: set[int] = field(default_factory=set)
    goes_on: bool = False

    def whole(self) -> Ran:
        return done(self.lines)

    def refused_at(self, place: int) -> Ran:
        return done([*self.lines[:place], "memory", *self.lines[place if self.goes_on else 0 :]])

    def refused_before(self) -> Ran:
        """If a value could not be made of which the calls are."""
        return done(["memory", *self.lines])


def done(lines: list[str]) -> Ran:
    return Ran(0, "".join(f"{line}\n" for line in lines).encode(), b"")


CALLS = {
    "plan": Calls(DEEP, set(range(5))),
    "check": Calls(FLAT, set(range(5))),
    "lengths": Calls(LENGTHS, set(range(5))),
    "batch": Calls(["lists 5", *FIVE_PLANS * 4], {1, 6, 11, 16}),
    "core": Calls(TURNS, {1, 2}),
    "run": Calls(TWO_ADDS * 2, {1, 5, 6}),
    "answer": Calls(
        ["Store::open 0", *(replied("Store::answer", reply.decode()) for reply in TEN_REPLIES)],
        set(range(1, 11)),
        goes_on=True,
    ),
    "round": Calls(
        ["Store::open 0", *(replied("Store::answer_round", reply) for reply in ROUND)], {1}, goes_on=True
    ),
}


def tries(program: str, room: str) -> list[Try]:
    growths, devices = library_of("refuse_growth", room), library_of("fail_device", room)
    called = {name: partial(refuse_each, growths, name, right) for name, right in CALLS.items()}
    sessions = {
        "session": partial(refuse_session, growths),
        "session, each read": partial(fail_each, devices, "input"),
        "session, each write": partial(fail_each, devices, "output"),
        "session, in pieces": partial(in_pieces, devices),
    }
    return tries_of({**called, **sessions})


def refuse_each(library: str, name: str, right: Calls, bench: Path, tally: Tally) -> None:
    """Refuses the allocations of calls in turn, until a run has none of that number. Each call that takes memory has to
    have been refused some."""
    unseen = set(right.refusable)
    for number in range(1, MOST_GROWTHS + 1):
        with refusing(library, number) as (how, ends):
            ran = run(str(bench), f"{name}-again", **how)
            was_refused = is_told(ends)
        if not was_refused:
            tally.blame("no growth of that number", None if ran == right.whole() else f"came {ran}")
            tally.blame("at the end", f"nothing was refused at the lines {sorted(unseen)}" if unseen else None)
            return
        seen = {place for place in right.refusable if ran == right.refused_at(place)}
        unseen -= seen
        is_well = seen or ran in (right.whole(), right.refused_before(), *STOPPED)
        tally.note(f"growth {number} refused", None if is_well else f"neither right nor refused once: {ran}")
    tally.blame(f"growth {MOST_GROWTHS} refused", "there are still more of them")


# ---- a session over a store


def refuse_session(library: str, bench: Path, tally: Tally) -> None:
    cut = [Ran(0, b"".join(reply + b"\n" for reply in TEN_REPLIES[:count]), b"memory\n") for count in range(10)]
    unseen = set(range(10))
    for number in range(1, MOST_GROWTHS + 1):
        with refusing(library, number) as (how, ends):
            ran = run(str(bench), "session", text=TEXT, **how)
            was_refused = is_told(ends)
        if not was_refused:
            tally.blame("no growth of that number", None if ran == WHOLE else f"came {ran}")
            tally.blame("at the end", f"nothing was refused at the lines {sorted(unseen)}" if unseen else None)
            return
        unseen -= {count for count, early in enumerate(cut) if ran == early}
        is_well = ran in (WHOLE, Ran(1, b"", b"Error: memory\n"), *STOPPED, *cut)
        tally.note(f"growth {number} refused", None if is_well else f"came {ran}")
    tally.blame(f"growth {MOST_GROWTHS} refused", "there are still more of them")


def fail_each(library: str, kind: str, bench: Path, tally: Tally) -> None:
    """Each read, or each write, of a byte."""
    for number in range(1, MOST_CALLS):
        with failing(library, kind, number, BYTE_BY_BYTE) as (how, ends):
            ran = run(str(bench), "session", text=TEXT, **how)
            if not is_told(ends):
                tally.blame("no call of that number", None if ran == WHOLE else f"came {ran}")
                return
        out, _ = due("write" if kind == "output" else "read", number)
        end = f"write {number - 1}" if kind == "output" else "read"
        tally.compare(f"{kind} {number} failed", ran, Ran(0, out, f"{end}\n".encode()))
    tally.blame(f"{kind} {MOST_CALLS} failed", "there are still more of them")


def in_pieces(library: str, bench: Path, tally: Tally) -> None:
    """In pieces of so many bytes, with each call of a number interrupted, and whole."""
    of_one, of_seven = {"INPUT_AT_MOST": "1"}, {"INPUT_AT_MOST": "7"}
    whole: dict[str, str] = {}
    for pieces in (of_one, of_seven, {"INTERRUPTED_EACH": "2", **BYTE_BY_BYTE}, whole):
        surroundings = {**os.environ, "LD_PRELOAD": library, **pieces}
        tally.compare(f"with {pieces}", run(str(bench), "session", text=TEXT, env=surroundings), WHOLE)
