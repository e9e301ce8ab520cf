"""Runs of a server that keeps its store in a file, with its calls written down: by one client, by sixteen, over HTTP,
with waits, and until a new file takes the old one's place. Each has the stores that there were, one after the other."""

from __future__ import annotations

import json
import os
import re
from concurrent.futures import ThreadPoolExecutor
from dataclasses import dataclass
from functools import partial
from pathlib import Path
from random import Random
from typing import Iterator

from batches import shelves
from history import fault_of_history
from log_file import Standing
from server import Server, Serving, connected, free_port, talk, talk_in_turn
from store import LEAST, MOST, Store, compact
from web import Client

from sweeps.crash_states import CAME, STANDARD_OUTPUT, Counting, Counts, Entry, Record, entries_in
from sweeps.program import Tally

CLIENTS = 16
ROUND = re.compile(rb'"round":([0-9]+)\}')
BATCH = b'{"batch":'
RESPONSE, REQUEST = b"HTTP/1.1 2", b" HTTP/1.1\r\n"
# Lines that leave a store as it is.
REFUSED = (b'{"batch":[[["add","/none",1]]]}', b'{"get":"/all"}', b"", b'{"batch"')
LOOKS = (b'{"weights":null}', b'{"plan":[["get","/a"]]}')


@dataclass
class Run:
    """What was written down, and the stores that there were: the first before the run, and the others each after a
    round or a line, as the record counts."""

    record: Record
    standings: list[Standing]


def standing_of(store: Store, waits: tuple[int, ...] | None = None) -> Standing:
    none = (0,) * len(store.nodes)
    return Standing(tuple(store.tree.weights), tuple(store.records), none if waits is None else waits, store.rounds)


# ---- recording


@dataclass
class Keeping:
    """A file alone in a folder, and how a program is started that keeps a store in it, and whose calls are written
    down."""

    program: str
    library: str
    file: Path
    record: Path

    def surroundings(self, **failures: int) -> dict[str, str]:
        """The record begins anew."""
        self.record.unlink(missing_ok=True)
        told = {name: str(number) for name, number in failures.items()}
        watched = {"LD_PRELOAD": self.library, "WATCHED": str(self.file), "RECORD": str(self.record)}
        return {**os.environ, **watched, **told}

    def made_of(self, document: bytes, *further: str, workers: int = 1, command: str = "serve", **how) -> Serving:
        words = ("--data", str(self.file), *further)
        return Serving(self.program, document, workers, further=words, command=command, **how)

    def opened(self, *further: str, **how) -> Server:
        """Of the file alone."""
        words = ["serve", "--data", str(self.file), "--port", str(free_port()), *further]
        return Server(self.program, words, **how)

    def opened_or_made(self, document: bytes) -> Server:
        """Of the file, if it is there, and else of the document; with its calls written down."""
        surroundings = self.surroundings()
        return self.opened(env=surroundings) if self.file.exists() else self.made_of(document, env=surroundings)

    def left(self) -> dict[str, bytes]:
        """The files of the folder, but for the record."""
        return {str(each): each.read_bytes() for each in self.file.parent.iterdir() if each != self.record}

    def run(self, before: dict[str, bytes], counting: Counting, standings: list[Standing]) -> Run:
        first = 0 if str(self.file) in before else -1
        return Run(Record(str(self.file), before, entries_in(self.record), counting, first), standings)


def fresh(program: str, library: str, room: str, name: str) -> Keeping:
    folder = Path(os.path.realpath(room), f"{name}-{os.urandom(6).hex()}")
    folder.mkdir()
    return Keeping(program, library, folder / "store.grove", folder / "record")


# ---- what is acknowledged, and what was sent


def by_marks(reply: bytes, line: bytes, entry: Entry, counts: Counts) -> None:
    """Of one client, whose every line is a step. Its reply may be there from the beginning of the call on that sends
    it; what a call has not sent, another one sends again. That a server listens says that the store stands."""
    if entry.kind == CAME:
        counts.sent += entry.data.count(line)
    elif entry.file == STANDARD_OUTPUT:
        counts.acknowledged = max(counts.acknowledged, 0)
    elif not entry.is_end:
        counts.sending[entry.call] = entry.data
        counts.acknowledged += entry.data.count(reply)
    else:
        counts.acknowledged -= counts.sending.pop(entry.call)[max(entry.place, 0) :].count(reply)


BY_LINES = partial(by_marks, b"\n", b"\n")
BY_RESPONSES = partial(by_marks, RESPONSE, REQUEST)


def by_rounds(before: int, entry: Entry, counts: Counts) -> None:
    """Of any clients, all of whose lines are batches, at a store that had so many rounds before."""
    if entry.kind == CAME:
        # (The beginning of a line may have come with the bytes before.)
        counts.sent += (counts.tails.get(entry.file, b"") + entry.data).count(BATCH)
        counts.tails[entry.file] = entry.data[1 - len(BATCH) :]
    elif not entry.is_end:
        told = [0] if entry.file == STANDARD_OUTPUT else [int(found) - before for found in ROUND.findall(entry.data)]
        counts.acknowledged = max(counts.acknowledged, *told, -1)


# ---- one client


def small_document() -> dict:
    rows = [("", None, 9, 0), ("a", 0, 40, 10), ("b", 1, 7, -3), ("all", 0, 1000, 0), ("c", 3, 1, MOST)]
    nodes = [{"name": name, "parent": parent, "weight": weight, "value": value} for name, parent, weight, value in rows]
    return {"nodes": nodes, "version": 1}


def a_line(random: Random, paths: list[str]) -> bytes:
    """Most lines change some records; some only how many rounds there were, or weights, or nothing."""
    kind = random.random()
    if kind < 0.08:
        return b'{"reweigh":null}'
    if kind < 0.22:
        return random.choice([*LOOKS, *REFUSED])
    if kind < 0.3:
        return compact({"batch": [[["get", random.choice(paths)]]] * random.randrange(3)})
    return compact({"batch": [accesses_of(random, paths) for _ in range(random.randrange(1, 4))]})


def accesses_of(random: Random, paths: list[str]) -> list[list]:
    return [an_access(random, random.choice(paths)) for _ in range(random.randrange(1, 4))]


def an_access(random: Random, path: str) -> list:
    number = random.choice([1, -1, 0, random.randrange(-9, 300), LEAST, MOST])
    return random.choice([["get", path], ["set", path, number], ["add", path, number], ["take", path, number]])


def note_line(store: Store, line: bytes, reply: bytes, tally: Tally) -> Standing:
    """The store that the line leaves; its reply has to be right."""
    fault = store.fault_of(line, reply.rstrip(b"\n"))
    tally.blame("a reply", fault and f"{fault}, to {line[:200]!r}")
    return standing_of(store)


def one_client(keeping: Keeping, seed: int, lines: int, tally: Tally) -> Iterator[Run]:
    """It asks a store that is made of a document, and then, when the server was killed, the one that was left."""
    random, document = Random(seed), small_document()
    store = Store(document)
    paths, standings = store.tree.paths, [standing_of(store)]
    for _ in range(2):
        before = keeping.left()
        asked = [a_line(random, paths) for _ in range(lines)]
        with keeping.opened_or_made(compact(document)) as server:
            replies = talk_in_turn(server.port, [line + b"\n" for line in asked]).splitlines()
        tally.blame("the replies", None if len(replies) == len(asked) else f"{len(replies)} to {len(asked)} lines")
        standings = standings[-1:] + [note_line(store, *pair, tally) for pair in zip(asked, replies)]
        yield keeping.run(before, BY_LINES, standings)


# ---- sixteen clients


def shared_document() -> dict:
    rows = [{"name": "", "parent": None, "weight": 9, "value": 0}]
    names = ["all", *(f"own{number}" for number in range(CLIENTS))]
    rows += [{"name": name, "parent": 0, "weight": 1, "value": 0} for name in names]
    return {"nodes": rows, "version": 1}


def shared_line(number: int) -> bytes:
    return compact({"batch": [[["add", f"/own{number}", 1], ["add", "/all", 1]], [["get", "/all"]]]})


def sixteen_clients(keeping: Keeping, lines: int, tally: Tally) -> Run:
    document, before = shared_document(), keeping.left()
    asked = [[shared_line(number) + b"\n"] * lines for number in range(CLIENTS)]
    with keeping.made_of(compact(document), env=keeping.surroundings(), workers=4) as server:
        with ThreadPoolExecutor(CLIENTS) as pool:
            came = list(pool.map(partial(ask_all, server.port), range(CLIENTS), asked))
    replies = [[json.loads(reply) for reply in text.splitlines()] for text in came]
    tally.blame("the replies", None if all(len(each) == lines for each in replies) else f"{list(map(len, replies))}")
    lists = [json.loads(shared_line(number))["batch"] for number in range(CLIENTS)]
    batches = [(lists[number], reply) for number in range(CLIENTS) for reply in replies[number]]
    tally.blame("all batches", fault_of_history(document, batches))
    return keeping.run(before, partial(by_rounds, 0), standings_after(document, batches))


def ask_all(port: int, number: int, lines: list[bytes]) -> bytes:
    """Half of the clients wait for each reply, the others send all at once."""
    return talk_in_turn(port, lines) if number % 2 else talk(port, b"".join(lines))


def standings_after(document: dict, batches: list[tuple[list, dict]]) -> list[Standing]:
    """The store before the first round and after each, by the rounds and places that the replies say."""
    done: dict[int, dict[int, list]] = {}
    for lists, found in batches:
        done.setdefault(found["round"], {}).update(zip(found["places"], lists))
    store = Store(document)
    standings = [standing_of(store)]
    for store.rounds in range(1, len(done) + 1):
        for place in sorted(done[store.rounds]):
            for access in done[store.rounds][place]:
                store.reply(access)
        standings.append(standing_of(store))
    return standings


# ---- over HTTP


def a_page(keeping: Keeping, seed: int, lines: int, tally: Tally) -> Run:
    """A client that posts lines, and looks at the document in between: what it shows has to stand as well."""
    random, document, before = Random(seed), small_document(), keeping.left()
    store = Store(document)
    standings = [standing_of(store)]
    with keeping.made_of(compact(document), env=keeping.surroundings(), command="page") as server:
        with Client(server.port) as client:
            for at in range(lines):
                if at % 3 == 2:
                    shown = json.loads(client.get("/document").body)["nodes"]
                    is_right = [row["value"] for row in shown] == store.records
                    tally.blame(f"document {at}", None if is_right else f"came {shown}")
                    standings.append(standings[-1])
                    continue
                line = compact({"batch": [accesses_of(random, store.tree.paths)]})
                standings.append(note_line(store, line, client.post(line + b"\n").body, tally))
    return keeping.run(before, BY_RESPONSES, standings)


# ---- waits


def with_waits(keeping: Keeping, turns: int, most: int, tally: Tally) -> Run:
    """Batches that threads do, so that nodes are waited for, with new weights in between; so many turns, and more if no
    node was waited for in these. How often each node was waited for the server says itself."""
    batch, before = shelves(Random(68), count=210), keeping.left()
    document = {"nodes": batch["nodes"], "version": 1}
    lines = [compact({"batch": batch["lists"]}), compact({"batch": batch["lists"]}), b'{"reweigh":null}']
    with keeping.made_of(compact(document), env=keeping.surroundings(), workers=4) as server:
        came = until_waited(server.port, lines, turns, most)
    store = Store(document)
    standings = [standing_of(store)]
    for line, reply, looked in came:
        if "round" in reply:
            store.rounds = reply["round"]
            lists = json.loads(line)["batch"]
            for number in sorted(range(len(lists)), key=reply["places"].__getitem__):
                wanted = [store.reply(access) for access in lists[number]]
                tally.blame(f"list {number}", None if reply["replies"][number] == wanted else "its replies are others")
        store.tree.weights = looked["weights"]
        standings += 2 * [standing_of(store, tuple(looked["waits"]))]
    waited = max(sum(standing.waits) for standing in standings)
    tally.blame("waits", None if waited else f"nothing was waited for in {len(came)} turns")
    return keeping.run(before, BY_LINES, standings)


def until_waited(port: int, lines: list[bytes], turns: int, most: int) -> list[tuple[bytes, dict, dict]]:
    """The line of each turn, its reply, and what weights and waits there were then."""
    came: list[tuple[bytes, dict, dict]] = []
    with connected(port) as connection, connection.makefile("rb") as replies:
        while len(came) < turns or len(came) < most and not any(any(looked["waits"]) for _, _, looked in came):
            line = lines[len(came) % len(lines)]
            connection.sendall(line + b"\n")
            reply = json.loads(replies.readline())
            connection.sendall(b'{"weights":null}\n')
            came.append((line, reply, json.loads(replies.readline())))
    return came


# ---- a new file


def large_document() -> dict:
    """So many nodes that an effect of all of them is long."""
    nodes = [{"name": "", "parent": None, "weight": 9, "value": 0}]
    nodes += [{"name": f"n{number}", "parent": 0, "weight": 1, "value": 0} for number in range(1, 1025)]
    return {"nodes": nodes, "version": 1}


def large_line() -> bytes:
    paths = [f"/n{number}" for number in range(1, 1025)]
    return compact({"batch": [[["add", path, 1] for path in paths[at : at + 64]] for at in range(0, 1024, 64)]})


def large_standings(rounds: int) -> list[Standing]:
    weights, waits = (9,) + 1024 * (1,), 1025 * (0,)
    return [Standing(weights, (0,) + 1024 * (count,), waits, count) for count in range(rounds + 1)]


def until_new(keeping: Keeping, rounds: int, tally: Tally) -> Run:
    """Rounds that change all records, until the effects are so long that a new file takes the old one's place."""
    before, line = keeping.left(), large_line() + b"\n"
    with keeping.made_of(compact(large_document()), env=keeping.surroundings()) as server:
        replies = talk_in_turn(server.port, rounds * [line]).splitlines()
    tally.blame("the replies", None if len(replies) == rounds else f"{len(replies)} to {rounds} lines")
    return keeping.run(before, BY_LINES, large_standings(rounds))
