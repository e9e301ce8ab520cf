"""Each growth of a server of pages refused, alone: it ends with `memory` before it listens, or one request is answered
`{"error":"memory"}` or not at all. Those before it and after it have their answers, and what was answered isn't
lost."""

from __future__ import annotations

import json

from pages import after, fault_of_response, lines_in
from server import NotListening
from store import Store
from web import Client

from sweeps.page import LOOK, serving
from sweeps.preloaded import library_of
from sweeps.program import MEMORY, Ran, Tally, Try
from sweeps.server_growths import parts_of
from sweeps.ten_lines import ADD, GET, TEXT, TREE, WEIGHTS

TRIED = "growths of a server of pages refused, each alone, and the requests asked after it"
# What shows which lines had an effect: the records and weights, and how many rounds were run.
LOOKS = [LOOK, ("POST", "/", b'{"batch":[]}')]
# A refusal that is as the other one where there is no memory for its hint.
HINTED, HINTLESS = ("GET", "/nodes?below=/c&hints", None), ("GET", "/nodes?below=/c", None)
ROWS = [
    LOOK,
    ("GET", "/", None),
    ("POST", "/", ADD + WEIGHTS),
    ("POST", "/", GET),
    ("GET", "/document", None),
    ("POST", "/", b"hello"),
    ("POST", "/", TEXT),
    ("GET", "/none", None),
    # A round has been done, whichever allocation fails, so this waits for none.
    ("GET", "/nodes?after=0&below=%2Fa", None),
    HINTED,
    ("POST", "/", b'{"reweigh":null}\n' + ADD),
    ("DELETE", "/", None),
]


def tries(program: str, room: str) -> list[Try]:
    return parts_of(program, library_of("refuse_growth", room), ask_all)


def ask_all(program: str, how: dict, where: str, tally: Tally) -> None:
    """Asks the rows on one connection, and on another one if it ends."""
    lost = 0
    try:
        with serving(program, TREE, **how) as server:
            store = Store(json.loads(TREE))
            client = Client(server.port)
            for row in ROWS:
                response = answered(client, row)
                if is_refused(response):
                    lost += 1
                    client.close()
                    client = Client(server.port)
                    store = store_left(store, row, response, [(look, answered(client, look)) for look in LOOKS])
                    if store is None:
                        tally.blame(where, f"what is left after {row} and {response} isn't what its lines leave")
                        return
                elif row == HINTED and fault_of_response(store, HINTLESS, response) is None:
                    lost += 1
                else:
                    fault = fault_of_response(store, row, response)
                    tally.note(where, fault and f"{row[0]} {row[1]} {row[2]!r}: {fault}")
            client.close()
        tally.note(where, None if lost <= 1 else f"{lost} requests have no answer")
    except NotListening as ended:
        tally.compare(where, Ran(*ended.ended), MEMORY)


def answered(client: Client, row: tuple):
    """The response; none if the connection ends."""
    try:
        return client.ask(*row)
    except ConnectionError:
        return None


def is_refused(response) -> bool:
    return response is None or response.status == 503 and response.body.endswith(b'{"error":"memory"}\n')


def store_left(store: Store, row: tuple, response, looks: list[tuple]) -> Store | None:
    """What the request left, by what is found afterwards. If memory was refused by name, the lines have had their
    effect whose replies came before it, and else some first lines."""
    lines = lines_in(row[2] or b"") if row[0] == "POST" else []
    sizes = range(len(lines) + 1) if response is None else [response.body.count(b"\n") - 1]
    for size in sizes:
        left = after(store, lines[:size])
        is_told = response is None or are_replies(store, lines[:size], response.body)
        if is_told and all(fault_of_response(left, look, found) is None for look, found in looks):
            return left
    return None


def are_replies(store: Store, lines: list[bytes], body: bytes) -> bool:
    """Are the first lines of the body the replies to these?"""
    now = after(store, [])
    return all(now.fault_of(line, reply) is None for line, reply in zip(lines, body.split(b"\n")))
