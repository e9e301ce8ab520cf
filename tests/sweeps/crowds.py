"""Sixteen clients at once, half of which break off, flood or never read: the others get their replies, and nothing is
lost. Sixteen good ones share rounds, eight add up, a client is served while another stays, and a 17th one once one of
sixteen leaves.

All their batches have to be one serial history, whichever rounds they share.
"""

from __future__ import annotations

import json
import socket
import struct
import time
from concurrent.futures import ThreadPoolExecutor
from contextlib import ExitStack
from functools import partial
from typing import Iterator

from history import fault_of_history
from server import Serving, connected, talk, talk_in_turn
from store import Store, compact

from sweeps.connections import flood
from sweeps.program import Tally, Try, until_well
from sweeps.talks import note_replies
from sweeps.ten_lines import ADD, GET, TREE, WEIGHTS

TRIED = "lines of clients among others that are broken"
GOOD = 8
# How many clients add up, and how many batches of each.
ADDING = 8
BATCHES = 50
# How many connections are served at once, and how long it is seen that a further one isn't.
SLOTS = 16
UNSEATED = 0.5
# How many lines each good client sends; every fourth is a plan or broken.
LINES = 48
# How long a broken client stays.
SECONDS = 0.3


def tries(program: str, _room: str) -> list[Try]:
    crowds = [Try(f"{workers} workers", partial(crowd, program, workers)) for workers in (1, 4, 16)]
    return crowds + [
        Try("sixteen that share rounds", partial(share_rounds, program)),
        Try("eight of fifty batches", partial(add_up, program)),
        Try("two at once", partial(stay, program)),
        Try("seventeen at once", partial(wait_for_a_seat, program)),
    ]


def document() -> bytes:
    """A root, a record for all clients, and one for each of them."""
    rows = [{"parent": None, "name": "", "weight": 9}, {"parent": 0, "name": "all", "weight": 5}]
    rows += [{"parent": 0, "name": f"own{number}", "weight": 1} for number in range(GOOD)]
    return json.dumps({"nodes": rows}).encode()


def crowd(program: str, workers: int, tally: Tally) -> None:
    asked = [[request_of(number, at) for at in range(LINES)] for number in range(GOOD)]
    with Serving(program, document(), workers) as server, ThreadPoolExecutor(GOOD + len(BROKEN)) as pool:
        broken = [pool.submit(leave, server.port) for leave in BROKEN]
        came = list(pool.map(good, [server.port] * GOOD, asked, range(GOOD)))
        for each in broken:
            each.result()
        asked.append([{"batch": [[["get", "/all"]] + [["get", f"/own{number}"] for number in range(GOOD)]]}])
        came.append(good(server.port, asked[-1], 0))
    batches = [pair for number in range(GOOD + 1) for pair in note_client(number, asked[number], came[number], tally)]
    tally.blame("all batches", fault_of_history(json.loads(document()), batches))


def share_rounds(program: str, tally: Tally) -> None:
    """Sixteen clients with a batch on each line. While a round runs, others wait, and they are in one round then."""
    until_well(partial(share, program, tally), "rounds", tally)


def share(program: str, tally: Tally) -> str | None:
    """What is wrong if no two of the batches share a round."""
    asked = [[request_of(number % GOOD, 0)] * LINES for number in range(SLOTS)]
    with Serving(program, document(), 4) as server, ThreadPoolExecutor(SLOTS) as pool:
        came = list(pool.map(good, [server.port] * SLOTS, asked, range(SLOTS)))
    batches = [pair for number in range(SLOTS) for pair in note_client(number, asked[number], came[number], tally)]
    tally.blame("all batches", fault_of_history(json.loads(document()), batches))
    rounds = max(reply["round"] for _, reply in batches)
    return None if rounds < len(batches) else f"{rounds} rounds of {len(batches)} batches"


def add_up(program: str, tally: Tally) -> None:
    """Eight clients with fifty batches each, all of which add one to the same record."""
    with Serving(program, TREE, 4) as server, ThreadPoolExecutor(ADDING) as pool:
        [before] = looked(server.talk(GET))
        came = list(pool.map(talk_in_turn, [server.port] * ADDING, [[ADD] * BATCHES] * ADDING))
        [after] = looked(server.talk(GET))
    sums = sorted(sum_of for replies in came for sum_of in looked(replies))
    wanted = list(range(before + 1, before + ADDING * BATCHES + 1))
    tally.note("the sums", None if sums == wanted else f"they are {sums}")
    tally.note("the record", None if after == before + ADDING * BATCHES else f"it was {before} and is {after}")


def looked(replies: bytes) -> list[int]:
    """What each batch of one access was replied."""
    return [json.loads(reply)["replies"][0][0] for reply in replies.splitlines()]


def stay(program: str, tally: Tally) -> None:
    """A client stays, and asks between the lines of others that come and go."""
    store = Store(json.loads(TREE))
    with Serving(program, TREE) as server, connected(server.port) as first, first.makefile("rb") as replies:
        for turn in range(3):
            first.sendall(ADD)
            note_replies(store, ADD, replies.readline(), f"the one that stays, line {turn}", tally)
            note_replies(store, ADD, server.talk(ADD), f"another, {turn}", tally)


def wait_for_a_seat(program: str, tally: Tally) -> None:
    """Sixteen clients stay. What a 17th one asks has no reply until one of them has left."""
    store = Store(json.loads(TREE))
    with Serving(program, TREE) as server, ExitStack() as room:
        served = [room.enter_context(connected(server.port)) for _ in range(SLOTS)]
        for number, client in enumerate(served):
            client.sendall(WEIGHTS)
            note_replies(store, WEIGHTS, client.makefile("rb").readline(), f"client {number}", tally)
        late = room.enter_context(connected(server.port))
        late.sendall(WEIGHTS)
        tally.note("the 17th while all stay", None if is_silent(late) else "it has a reply")
        served[SLOTS // 2].close()
        note_replies(store, WEIGHTS, late.makefile("rb").readline(), "the 17th once one has left", tally)


def is_silent(connection: socket.socket) -> bool:
    """Does nothing come for a time?"""
    patience = connection.gettimeout()
    connection.settimeout(UNSEATED)
    try:
        connection.recv(1, socket.MSG_PEEK)
        return False
    except socket.timeout:
        return True
    finally:
        connection.settimeout(patience)


# ---- good clients


def request_of(number: int, at: int) -> dict:
    if at % 4 == 3:
        return [{"plan": [["get", f"/own{number}"]]}, {"batch": [[["add", "/none", 1]]]}][at // 4 % 2]
    return {"batch": [[["add", f"/own{number}", 1], ["get", f"/own{number}"]], [["add", "/all", 1]]]}


def good(port: int, requests: list, number: int) -> list[bytes]:
    """The replies to a client's lines: half of the clients wait for each, the others send all at once."""
    lines = [compact(request) + b"\n" for request in requests]
    return (talk_in_turn(port, lines) if number % 2 else talk(port, b"".join(lines))).splitlines()


def note_client(number: int, requests: list, replies: list[bytes], tally: Tally) -> Iterator[tuple[list, dict]]:
    """Counts the lines of a client, whose rounds have to rise. Gives its batches, each with its reply."""
    tally.blame(f"client {number}", None if len(replies) == len(requests) else f"it has {len(replies)} replies")
    last = 0
    for at, (request, reply) in enumerate(zip(requests, replies)):
        found = json.loads(reply)
        if "round" in found:
            is_well, last = found["round"] > last, found["round"]
            yield request["batch"], found
        else:
            is_well = found.get("cost") == 1 if "plan" in request else found == {"error": "no-path"}
        tally.note(f"client {number}, line {at}", None if is_well else f"came {reply!r}")


# ---- broken clients


def say_nothing(port: int) -> None:
    with connected(port):
        time.sleep(SECONDS)


def stop_in_mid_line(port: int) -> None:
    talk(port, b'{"batch":[[["add","/all",1', leaves=True)


def hold_in_mid_line(port: int) -> None:
    with connected(port) as connection:
        connection.sendall(b'{"batch":[[["add","/all",1')
        time.sleep(SECONDS)


def leave_in_mid_reply(port: int) -> None:
    with connected(port) as connection:
        connection.sendall(100 * WEIGHTS)
        connection.recv(40)


def hold_in_mid_reply(port: int) -> None:
    with connected(port) as connection:
        connection.sendall(100 * WEIGHTS)
        connection.recv(40)
        time.sleep(SECONDS)


def never_read(port: int) -> None:
    with connected(port) as connection:
        flood(connection, SECONDS)


def reset(port: int) -> None:
    """Closes so that the other side's next read or write fails."""
    with connected(port) as connection:
        connection.setsockopt(socket.SOL_SOCKET, socket.SO_LINGER, struct.pack("ii", 1, 0))
        connection.sendall(100 * WEIGHTS)


def send_one_endless_line(port: int) -> None:
    with connected(port) as connection:
        for _ in range(20):
            connection.sendall(b"x" * 65536)


BROKEN = [
    say_nothing,
    stop_in_mid_line,
    hold_in_mid_line,
    leave_in_mid_reply,
    hold_in_mid_reply,
    never_read,
    reset,
    send_one_endless_line,
]
