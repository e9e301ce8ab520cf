"""Three clients at once, one that looks at a record and two that add to it, with each growth of the server refused in
turn, alone. Their lines share rounds; if one is refused memory, all lines of its round are, and their connections end.

What was replied is one serial history, and a client that comes afterwards finds just what it left.
"""

from __future__ import annotations

import json
from concurrent.futures import ThreadPoolExecutor

from history import fault_of_history
from server import NotListening, Serving, talk_in_turn

from sweeps.preloaded import library_of
from sweeps.program import MEMORY, Ran, Tally, Try
from sweeps.server_growths import parts_of
from sweeps.ten_lines import ADD, GET, TREE

TRIED = "growths of a server refused, each alone, while three clients shared rounds"
# What each client sends, a line at a time.
CLIENTS = [[line] * 4 for line in (GET, ADD, ADD)]


def tries(program: str, room: str) -> list[Try]:
    return parts_of(program, library_of("refuse_growth", room), ask_at_once)


def ask_at_once(program: str, how: dict, where: str, tally: Tally) -> None:
    try:
        with Serving(program, TREE, 2, **how) as server, ThreadPoolExecutor(len(CLIENTS)) as pool:
            came = list(pool.map(talk_in_turn, [server.port] * len(CLIENTS), CLIENTS))
            # A growth may be refused here too, but then not to the next client.
            after = talk_in_turn(server.port, [GET]) or talk_in_turn(server.port, [GET])
    except NotListening as ended:
        tally.compare(where, Ran(*ended.ended), MEMORY)
        return
    tally.note(where, fault_of([*zip(CLIENTS, came), ([GET], after)]))


def fault_of(talks: list[tuple[list[bytes], bytes]]) -> str | None:
    """What is wrong with the replies to the lines of some clients, each of which may have ended before the others."""
    batches = []
    for lines, came in talks:
        replies = came.splitlines()
        if len(replies) > len(lines) or came[-1:] not in (b"", b"\n"):
            return f"a client of {len(lines)} lines was replied {came!r}"
        batches += [(json.loads(line)["batch"], json.loads(reply)) for line, reply in zip(lines, replies)]
    if not talks[-1][1]:
        return "a client that came afterwards has no reply"
    return fault_of_history(json.loads(TREE), batches)
