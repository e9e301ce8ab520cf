"""What the program prints of a file that a crash left: the store after some first part of the rounds, or that there is
none yet."""

from __future__ import annotations

import json
from functools import lru_cache

from log_file import Standing

from sweeps.crash_states import State
from sweeps.kept_runs import Run
from sweeps.program import Ran

# What the program says of a file that it doesn't read.
REFUSED = (1, 3)
Shown = tuple[tuple[int, ...], tuple[int, ...]]


def fault_of_state(run: Run, state: State, ran: Ran) -> str | None:
    if ran.status == 0 and not ran.err:
        came = shown_in(ran.out)
        for span in (state.first, state.last):
            if all(shown(standing) != came for standing in span.among(run.standings)):
                others = [at for at, standing in enumerate(run.standings) if shown(standing) == came]
                return f"wanted {span}; came {others or came}"
        return None
    is_early = state.last.acknowledged < 0 and ran.status in REFUSED and bool(ran.out + ran.err)
    return None if is_early else f"wanted {state.last}; came {ran}"


@lru_cache(maxsize=4096)
def shown_in(document: bytes) -> Shown:
    """The weights and records of a document."""
    nodes = json.loads(document)["nodes"]
    return tuple(node["weight"] for node in nodes), tuple(node.get("value", 0) for node in nodes)


def shown(standing: Standing) -> Shown:
    return standing.weights, standing.records
