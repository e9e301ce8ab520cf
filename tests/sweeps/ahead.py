"""Sixteen clients that send their lines ahead: each line sees what the client's earlier ones did, and nothing is lost
or put in another order among the lines of the others.

Each client writes records of its own, which nobody else looks at. All of them add to one record, and read and write
another one in every way.
"""

from __future__ import annotations

import json
from concurrent.futures import ThreadPoolExecutor
from dataclasses import dataclass, field
from functools import partial
from random import Random
from typing import Callable

from history import fault_of_history
from server import BadServer, Serving, connected, talk
from store import Store, compact

from sweeps.program import Tally, Try

TRIED = "lines that were sent ahead of the replies to the lines before"
CLIENTS, LINES = 16, 200
# So many lines of a client that waits for their replies are under way at once.
BURST = 16
# More bytes than a line may have, than one has that is put without waiting for another long one, and than one has that
# only who leads reads.
TOO_MANY, LARGE, LONG = 1_048_577, 70_000, 1_025
# Lines that are refused, and why.
REFUSED = {
    b'{"batch":[[["add","/none",1]]]}': b'{"error":"no-path"}',
    b'{"get":"/all"}': b'{"error":"shape"}',
    b'{"batch"': b'{"error":"bad-json"}',
    b"": b'{"error":"bad-json"}',
}


def tries(program: str, _room: str) -> list[Try]:
    talks = {
        "at once": lambda port, lines: talk(port, joined(lines), 1 << 30),
        "in pieces of 5,000 bytes": lambda port, lines: talk(port, joined(lines), 5_000),
        f"{BURST} lines and their replies in turn": talk_in_bursts,
    }
    crowds = [
        Try(f"{workers} workers, {how}", partial(crowd, program, workers, talk_so))
        for workers in (1, 4)
        for how, talk_so in talks.items()
    ]
    return crowds + [
        Try("replies before the next line is whole", partial(wait_for_replies, program)),
        Try("clients that leave their lines behind", partial(leave_lines, program)),
    ]


def joined(lines: list[bytes]) -> bytes:
    return b"".join(line + b"\n" for line in lines)


def talk_in_bursts(port: int, lines: list[bytes]) -> bytes:
    """Sends some lines, and the next ones once the replies to these have come."""
    came = []
    with connected(port) as connection, connection.makefile("rb") as replies:
        try:
            for at in range(0, len(lines), BURST):
                connection.sendall(joined(lines[at : at + BURST]))
                came += [replies.readline() for _ in lines[at : at + BURST]]
        except OSError as fault:
            raise BadServer(f"a burst of lines isn't answered: {fault}") from None
    return b"".join(came)


def document() -> bytes:
    """A root, a record to which all clients add, one that they use in every way, and two of each client's own, one
    below the other."""
    rows = [{"parent": None, "name": "", "weight": 9}, {"parent": 0, "name": "all", "weight": 5}]
    rows += [{"parent": 0, "name": "shared", "weight": 3, "value": 20}]
    for number in range(CLIENTS):
        rows += [{"parent": 0, "name": f"own{number}", "weight": 2}]
        rows += [{"parent": len(rows) - 1, "name": "low", "weight": 1}]
    return json.dumps({"nodes": rows}).encode()


def crowd(program: str, workers: int, talk_so: Callable[[int, list[bytes]], bytes], tally: Tally) -> None:
    asked = [Asking(number).lines() for number in range(CLIENTS)]
    with Serving(program, document(), workers) as server, ThreadPoolExecutor(CLIENTS) as pool:
        came = list(pool.map(talk_so, [server.port] * CLIENTS, asked))
    clients = [Client(number, tally) for number in range(CLIENTS)]
    for client, lines, text in zip(clients, asked, came):
        client.note_all(lines, text)
    sums = sorted(reached for client in clients for reached in client.sums)
    tally.blame("the sums", None if sums == list(range(1, len(sums) + 1)) else f"they are {sums[:50]}")
    batches = [batch for client in clients for batch in client.batches]
    tally.blame("all batches", fault_of_history(json.loads(document()), batches))


def wait_for_replies(program: str, tally: Tally) -> None:
    """A client sends lines and the beginning of one more, and nothing else until the whole ones are answered."""
    line = b'{"batch":[[["add","/all",1]]]}\n'
    with Serving(program, document()) as server, connected(server.port) as client, client.makefile("rb") as replies:
        for count in (1, 2, 50):
            client.sendall(count * line + line[:10])
            for _ in range(count):
                tally.note(f"{count} lines", None if replies.readline() else "no reply")
            client.sendall(line[10:])
            tally.note("the line that was begun", None if replies.readline() else "no reply")


def leave_lines(program: str, tally: Tally) -> None:
    """Half of the clients hang up with lines unanswered, beside the other half. Of what each has left just the first
    lines are done, each whole; and a server that they have left answers as ever."""
    with Serving(program, document(), 4) as server, ThreadPoolExecutor(CLIENTS) as pool:
        for _ in range(8):
            leaving = pool.map(partial(hang_up, server.port), range(0, CLIENTS, 2))
            staying = pool.map(partial(stay, server.port), range(1, CLIENTS, 2))
            tally.note("those who hang up", None if all(leaving) else "one couldn't send")
            for number, fault in zip(range(1, CLIENTS, 2), staying):
                tally.note(f"client {number}, which stays", fault)
        for number in range(0, CLIENTS, 2):
            tally.note(f"client {number}, which has left", fault_of_left(server.port, number))


def rising(number: int) -> list[bytes]:
    """Lines that each add to both records of a client, and read them."""
    own, low = f"/own{number}", f"/own{number}/low"
    line = compact({"batch": [[["add", own, 1], ["add", low, 1]]]})
    return [line] * 40


def hang_up(port: int, number: int) -> bool:
    talk(port, joined(rising(number)), 1 << 30, leaves=True)
    return True


def stay(port: int, number: int) -> str | None:
    """Each line finds what the client's line before has left."""
    lines = rising(number)
    replies = [json.loads(reply)["replies"][0] for reply in talk(port, joined(lines)).splitlines()]
    first = replies[0][0] if replies else 1
    wanted = [[first + at] * 2 for at in range(len(lines))]
    return None if replies == wanted else f"wanted {wanted[:3]}..; came {replies[:50]}"


def fault_of_left(port: int, number: int) -> str | None:
    line = compact({"batch": [[["get", f"/own{number}"], ["get", f"/own{number}/low"]]]})
    [[own, low]] = json.loads(talk(port, line + b"\n"))["replies"]
    return None if own == low <= 8 * 40 else f"came {own} and {low}"


class Asking:
    """The lines of one client, of all kinds."""

    def __init__(self, number: int):
        self.random = Random(number)
        self.paths = [f"/own{number}", f"/own{number}/low"]

    def lines(self) -> list[bytes]:
        return [self.line(at) for at in range(LINES)]

    def line(self, at: int) -> bytes:
        kinds = [self.batch, self.batch, self.batch, self.plan, self.check, self.weights, self.refused, self.large]
        return self.too_long() if at == LINES // 2 else self.random.choice(kinds)()

    def accesses(self) -> list[list]:
        return self.accesses_at(self.random.choice(self.paths))

    def accesses_at(self, path: str) -> list[list]:
        amount = self.random.randrange(5)
        return self.random.choice(
            [
                [["get", path]],
                [["set", path, amount], ["get", path]],
                [["add", path, amount]],
                [["get", path], ["take", path, amount]],
            ]
        )

    def batch(self) -> bytes:
        lists = [self.accesses() for _ in range(self.random.randrange(1, 4))]
        return compact({"batch": [*lists, self.accesses_at("/shared"), [["add", "/all", 1]]]})

    def large(self) -> bytes:
        return self.batch() + b" " * self.random.choice([0, 0, 0, 0, LONG, LONG, LONG, LONG, LONG, LARGE])

    def plan(self) -> bytes:
        return compact({"plan": [["get", path] for path in self.paths]})

    def check(self) -> bytes:
        """A plan of one access, or one that never unlocks."""
        path = self.paths[0]
        steps: list[list] = [["lock", path], ["access", 0], ["unlock", path]]
        flow = [{"node": path, "above": 0, "held": 0, "first": 2, "last": 2, "own": 0}]
        return compact({"check": {"list": [["get", path]], "plan": steps[: self.random.choice([2, 3])], "flow": flow}})

    def weights(self) -> bytes:
        return b'{"weights":null}'

    def refused(self) -> bytes:
        return self.random.choice(list(REFUSED))

    def too_long(self) -> bytes:
        return b"x" * TOO_MANY


@dataclass
class Client:
    """What the replies to one client's lines have to be, one after the other."""

    number: int
    tally: Tally
    store: Store = field(default_factory=lambda: Store(json.loads(document())))
    waits: list[int] = field(default_factory=list)
    round: int = 0
    sums: list[int] = field(default_factory=list)
    batches: list[tuple[list, dict]] = field(default_factory=list)

    def note_all(self, lines: list[bytes], text: bytes) -> None:
        replies = text.split(b"\n")
        whole = len(replies) == len(lines) + 1 and not replies[-1]
        self.tally.blame(f"client {self.number}", None if whole else f"{len(lines)} lines, {len(replies) - 1} replies")
        for at, (line, reply) in enumerate(zip(lines, replies)):
            self.tally.note(f"client {self.number}, line {at}, {line[:60]!r}", self.fault_of(line, reply))

    def fault_of(self, line: bytes, reply: bytes) -> str | None:
        if line in REFUSED:
            return None if reply == REFUSED[line] else f"came {reply[:200]!r}"
        if line.startswith(b'{"batch"'):
            return self.fault_of_batch(json.loads(line)["batch"], reply)
        if line.startswith(b'{"weights"'):
            return self.fault_of_weights(json.loads(reply))
        return self.store.fault_of(line, reply)

    def fault_of_batch(self, lists: list, reply: bytes) -> str | None:
        """The client's own lists see what its earlier ones did, in the order of their places. The last but one is at
        the record that all clients use, whose replies the history of all has to explain. The last one adds to the
        record of all, which only rises."""
        found = json.loads(reply)
        is_round = found.keys() == {"places", "replies", "round"}
        if not is_round or not len(lists) == len(found["places"]) == len(found["replies"]):
            return f"came {reply[:200]!r}"
        if found["round"] <= self.round:
            return f"round {found['round']} after round {self.round}"
        self.round = found["round"]
        self.batches.append((lists, found))
        *own, _shared, [reached] = found["replies"]
        if self.sums and reached <= self.sums[-1]:
            return f"{reached} in all after {self.sums[-1]}"
        self.sums.append(reached)
        for at in sorted(range(len(own)), key=found["places"].__getitem__):
            wanted = [self.store.reply(access) for access in lists[at]]
            if own[at] != wanted:
                return f"list {at} wanted {wanted}; came {own[at]}"
        return None

    def fault_of_weights(self, found: dict) -> str | None:
        """The weights stay, and waits only rise."""
        before, self.waits = self.waits, found["waits"]
        rises = all(then <= now for then, now in zip(before, self.waits))
        return None if found["weights"] == self.store.tree.weights and rises else f"came {found}"
