"""A server that keeps its store in a file: whatever a crash leaves of the file opens as the store after some first part
of the rounds, with every acknowledged one among them. Its calls are written down, and from these the states are made
that a crash may leave at each moment; each is opened by the program. So too after calls that fail, and kills; and a
file that was damaged or cut is told as such."""

from __future__ import annotations

import os
import struct
from functools import partial
from hashlib import sha256
from random import Random
from typing import Callable, Iterator

from log_file import standings_in
from store import compact

from sweeps import kept_files
from sweeps.crash_states import RENAME, State
from sweeps.kept_runs import Keeping, Run, a_page, fresh, one_client, sixteen_clients, small_document, until_new
from sweeps.kept_runs import with_waits
from sweeps.many_files import ManyFiles
from sweeps.preloaded import library_of
from sweeps.program import Ran, Tally, Try, short
from sweeps.reading_files import fault_of_state

TRIED = "files that a crash, a failed call, a kill or damage left"
# How many times as many states and kills there are.
TIMES = int(os.environ.get("CRASHES_TIMES", "1"))
# At how many places what isn't synced is cut, if it is long.
MOST_CUTS, FEW_CUTS, FEWEST_CUTS = 256, 24, 8
# How many lines one client sends, and each of sixteen; how many turns there are at lines with waits, and at most, if a
# busy machine lets no two threads meet; how many rounds there are until a new file is needed, and some more.
LINES, SHARED_LINES, PAGE_LINES, TURNS, MOST_TURNS, ROUNDS = 24, 5, 12, 4, 60, 350
# Of so many states one is served, and looked at by lines; of those where the file need not be a store yet, more.
SERVED_EACH, EARLY_EACH = 400, 40

# Gives a new folder of this name.
Keep = Callable[[str], Keeping]
Runs = Callable[[Keeping, int, Tally], Iterator[tuple[Run, int]]]


def tries(program: str, room: str) -> list[Try]:
    watch, many = (library_of(name, room) for name in ("watch_files", "many_files"))
    keeping = partial(fresh, program, watch, room)
    parts = [
        Try(f"{name}, {seed}", partial(opened, many, keeping, runs, seed, most))
        for name, (runs, most, times) in RUNS.items()
        for seed in range(times)
    ]
    return [*parts, Try("states that are served", partial(served, keeping)), *kept_files.tries(keeping, many, TIMES)]


# ---- runs, each with the number of the entry from which on states are made of it


def one(keeping: Keeping, seed: int, tally: Tally) -> Iterator[tuple[Run, int]]:
    return ((run, 0) for run in one_client(keeping, seed, LINES, tally))


def sixteen(keeping: Keeping, _seed: int, tally: Tally) -> Iterator[tuple[Run, int]]:
    yield sixteen_clients(keeping, SHARED_LINES, tally), 0


def over_http(keeping: Keeping, seed: int, tally: Tally) -> Iterator[tuple[Run, int]]:
    yield a_page(keeping, seed, PAGE_LINES, tally), 0


def waits(keeping: Keeping, _seed: int, tally: Tally) -> Iterator[tuple[Run, int]]:
    yield with_waits(keeping, TURNS, MOST_TURNS, tally), 0


def new_file(keeping: Keeping, _seed: int, tally: Tally) -> Iterator[tuple[Run, int]]:
    """States of the calls that make the second file alone: those before it are long, and like those of others."""
    run = until_new(keeping, ROUNDS, tally)
    renames = [at for at, entry in enumerate(run.record.entries) if entry.kind == RENAME and not entry.is_end]
    tally.blame("new files", None if len(renames) == 2 else f"there were {len(renames)}")
    yield run, renames[-1] - 8


RUNS: dict[str, tuple[Runs, int, int]] = {
    "one client": (one, MOST_CUTS, TIMES),
    "over HTTP": (over_http, MOST_CUTS, TIMES),
    "sixteen clients": (sixteen, FEW_CUTS, TIMES),
    "waits": (waits, FEW_CUTS, 1),
    "a new file": (new_file, FEWEST_CUTS, 1),
}


# ---- states


def opened(many: str, keeping: Keep, runs: Runs, seed: int, most: int, tally: Tally) -> None:
    """Each state that a crash may leave is opened by the program. The file itself has the waits and the count of rounds
    too."""
    kept = keeping("states")
    random, read, left = Random(seed), dict[bytes, Ran](), kept.file.parent / "left"
    with ManyFiles(kept.program, many, left, "data", str(left)) as reader:
        for run, begin in runs(kept, seed, tally):
            tally.note("the numbers of all rounds", fault_of_numbers(run, kept.file.read_bytes()))
            for state in run.record.states(random, most, begin):
                digest = b"" if state.data is None else sha256(state.data).digest()
                note = tally.blame if digest in read else tally.note
                if digest not in read:
                    read[digest] = reader.read(state.data)
                fault = fault_of_state(run, state, read[digest])
                data = "no file" if state.data is None else short(state.data)
                note("a state", fault and f"{fault}, of {data}")


def fault_of_numbers(run: Run, data: bytes) -> str | None:
    """Whether the file has all numbers of the store after the last round of each sync, by the form of files."""
    try:
        came = standings_in(data)
    except (IndexError, ValueError, struct.error) as error:
        return f"the file isn't a store's: {error}"
    # (Lines that leave the store as it is have no effect, and what was before the file began isn't in it.)
    wanted = [now for was, now in zip([None, *run.standings], run.standings) if now != was]
    further = iter(wanted)
    is_well = came[-1:] == wanted[-1:] and all(each in further for each in came)
    return None if is_well else f"wanted {wanted[-1]}; came {came[-1]}, of {len(came)}"


# ---- states that are served


def served(keeping: Keep, tally: Tally) -> None:
    """Some states, as a server finds them that is started again by the same words: by lines it shows records, weights,
    waits and the next round."""
    kept = keeping("served")
    tree = kept.file.parent.parent / "served.json"
    tree.write_bytes(compact(small_document()))
    for turn, run in enumerate(one_client(kept, 1, LINES, tally)):
        for at, state in enumerate(run.record.states(Random(turn), MOST_CUTS)):
            if at % SERVED_EACH == turn or state.last.acknowledged < 0 and at % EARLY_EACH == 0:
                serve_state(keeping("left"), str(tree), run, state, f"state {at}", tally)


def serve_state(kept: Keeping, tree: str, run: Run, state: State, where: str, tally: Tally) -> None:
    if state.data is not None:
        kept.file.write_bytes(state.data)
    came = kept_files.standing_at(kept, kept_files.PATHS, "--tree", tree)
    is_well = all(came in span.among(run.standings) for span in (state.first, state.last))
    tally.note(where, None if is_well else f"wanted {state.first} and {state.last}; came {came}")
