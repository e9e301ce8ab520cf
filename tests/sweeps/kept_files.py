"""A file that keeps a store after calls that failed and after kills, and one that was damaged, cut, or written by
another program."""

from __future__ import annotations

import errno
import json
import os
import re
import subprocess
import threading
from concurrent.futures import ThreadPoolExecutor
from contextlib import suppress
from dataclasses import dataclass, field
from functools import partial
from pathlib import Path
from random import Random
from typing import Callable

from log_file import HEAD, Name, Standing, fault_of, file_of, reading, standings_in
from server import NotListening, Serving, ask_in_turn, connected, free_port
from store import MOST, compact
from web import BadResponse, Client

from sweeps.crash_states import OPEN, RENAME, SYNC, TRUNCATE, WRITE, Entry
from sweeps.kept_runs import CLIENTS, Keeping, Run, by_rounds, large_document, large_line, large_standings
from sweeps.kept_runs import shared_document, small_document
from sweeps.many_files import ManyFiles
from sweeps.program import MOST_FAULTS, Ran, Tally, Try
from sweeps.reading_files import REFUSED, fault_of_state, shown, shown_in

# How calls fail: with which error, whether all later ones do too, and after how many bytes.
FAILURES = {
    "EIO": {"FAILED_ERROR": errno.EIO},
    "ENOSPC from then on": {"FAILED_ERROR": errno.ENOSPC, "FAILED_LASTING": 1},
    "ENOSPC after some bytes": {"FAILED_ERROR": errno.ENOSPC, "FAILED_SHORT": 33},
}
# The calls that may fail so.
FAILING = (OPEN, WRITE, SYNC, TRUNCATE, RENAME)
# No run here makes more of them before a new file is needed.
MOST_CALLS = 100
# At how many places what isn't synced is cut after a failure.
CUTS = 3
# Rounds until a new file is needed, and some more.
ROUNDS = 350
# How long a server may take to end, in seconds.
LONGEST = 30.0
# How many kills, each after how many seconds.
KILLS, LEAST_TIME, MOST_TIME = 20, 0.02, 0.3
UNAVAILABLE = 503
# The nodes and the numbers of the file that is damaged at each byte, and the number that it was drawn.
NAMES: list[Name] = [(None, b""), (0, b"a"), (1, b"bc")]
STANDINGS = [
    Standing((5, 3, 1000), (0, -7, MOST), (0, 0, 0), 0),
    Standing((5, 3, 1000), (0, -6, MOST), (0, 0, 0), 1),
    Standing((5, 3, 1000), (1, -6, 0), (0, 4, 0), 2),
    Standing((3, 2, 500), (1, -6, 0), (0, 0, 0), 2),
    Standing((3, 2, 500), (1, -6, 0), (0, 0, 0), 3),
]
NUMBER = bytes(range(100, 132))


def tries(keeping: Callable[[str], Keeping], many: str, times: int) -> list[Try]:
    parts = [
        Try(f"{name}, {'an old file' if is_old else 'no file'}", partial(fail_each, keeping, many, how, is_old))
        for name, how in FAILURES.items()
        for is_old in (False, True)
    ]
    return parts + [
        Try("a new file that fails", partial(fail_new, keeping, many)),
        Try("kills", partial(kills, keeping, KILLS * times)),
        Try("another writer's file", partial(another_writer, keeping)),
        Try("a bit turned", partial(bits, keeping, many)),
        Try("cut at each length", partial(cuts, keeping, many)),
    ]


def standing_at(kept: Keeping, paths: list[str], *further: str) -> Standing | str:
    """The store that a server shows which is started with the file; or how it ended, if it doesn't listen."""
    try:
        with kept.opened(*further) as server:
            looked = json.loads(server.talk(b'{"weights":null}\n'))
            gets = compact({"batch": [[["get", path]] for path in paths]})
            told = json.loads(server.talk(gets + b"\n"))
    except NotListening as fault:
        return str(fault)
    records = tuple(reply for [reply] in told["replies"])
    return Standing(tuple(looked["weights"]), records, tuple(looked["waits"]), told["round"] - 1)


# ---- calls that fail


ADDS = [compact({"batch": [[["add", "/a", 1], ["add", "/all", 2]]]}) + b"\n"] * 4
PATHS = ["/", "/a", "/a/b", "/all", "/all/c"]


def old_standing() -> Standing:
    document = small_document()["nodes"]
    records = tuple(node["value"] for node in document)
    return Standing(tuple(node["weight"] for node in document), records, (0, 3, 0, 0, 0), 17)


def after_adds(standing: Standing, count: int) -> Standing:
    root, a, b, all_of, c = standing.records
    records = (root, a + count, b, all_of + 2 * count, c)
    return Standing(standing.weights, records, standing.waits, standing.rounds + count)


def begun_with(is_old: bool) -> Standing:
    old = old_standing()
    return old if is_old else Standing(old.weights, old.records, (0,) * 5, 0)


@dataclass
class Failing:
    """A run with a call that failed: what was written down, how the server ended, and what its port of HTTP said of its
    health, until nobody was there."""

    run: Run
    ended: Ran
    replies: int
    health: list[int] = field(default_factory=list)

    def failed(self) -> list[Entry]:
        entries = self.run.record.entries
        return [entry for entry in entries if entry.is_end and entry.kind in FAILING and entry.place < 0]


def fail_each(keeping: Callable[[str], Keeping], many: str, how: dict[str, int], is_old: bool, tally: Tally) -> None:
    """Each of the calls in turn, until a run has none of that number."""
    told: list[int] = []
    for number in range(1, MOST_CALLS):
        kept = keeping("failing")
        if is_old:
            kept.file.write_bytes(old_file())
        standings = [after_adds(begun_with(is_old), count) for count in range(len(ADDS) + 1)]
        found = run_failing(kept, compact(small_document()), ADDS, standings, {**how, "FAILED_CALL": number})
        if not found.failed():
            said = UNAVAILABLE in told
            tally.note("the state before the end", None if said else f"it was never {UNAVAILABLE}, but {set(told)}")
            tally.note("without a failure", None if found.replies == len(ADDS) else f"{found.replies} replies")
            return
        told += found.health
        note_failure(kept, many, found, how["FAILED_ERROR"], f"call {number}", tally)
    tally.blame("the calls", "there are still more of them")


def old_file() -> bytes:
    rows = small_document()["nodes"]
    names: list[Name] = [(row["parent"], row["name"].encode()) for row in rows]
    return file_of(NUMBER, names, [old_standing()])


def run_failing(
    kept: Keeping, document: bytes, lines: list[bytes], standings: list[Standing], how: dict[str, int]
) -> Failing:
    """A client asks line by line, and another one looks at the state."""
    before, port = kept.left(), free_port()
    counting = partial(by_rounds, standings[0].rounds)
    try:
        with kept.made_of(document, "--http", str(port), env=kept.surroundings(**how)) as server:
            looks = Looks(port)
            with looks:
                replies = asked(server, lines)
                ended = ended_by_itself(server) if len(replies) < len(lines) else Ran(None, b"", b"")
    except NotListening as fault:
        return Failing(kept.run(before, counting, standings), Ran(*fault.ended), 0)
    return Failing(kept.run(before, counting, standings), ended, len(replies), looks.told)


def asked(server: Serving, lines: list[bytes]) -> list[bytes]:
    with connected(server.port) as connection:
        return ask_in_turn(connection, lines).splitlines()


def ended_by_itself(server: Serving) -> Ran:
    """How the server ends; no status, if it doesn't."""
    try:
        out, err = server.started.communicate(timeout=LONGEST)
    except subprocess.TimeoutExpired:
        return Ran(None, b"", b"")
    return Ran(server.started.returncode, out, err)


class Looks:
    """Asks a port of HTTP for the server's health, again and again, until nobody is there or nobody wants to know."""

    def __init__(self, port: int):
        self.port, self.is_over = port, threading.Event()
        self.told: list[int] = []
        self.thread = threading.Thread(target=self.look)

    def __enter__(self) -> Looks:
        self.thread.start()
        return self

    def __exit__(self, *_) -> None:
        self.is_over.set()
        self.thread.join()

    def look(self) -> None:
        with suppress(OSError, BadResponse), Client(self.port) as client:
            while not self.is_over.wait(0.001):
                response = client.get("/health")
                if response is None:
                    return
                self.told.append(response.status)


def note_failure(kept: Keeping, many: str, found: Failing, error: int, where: str, tally: Tally) -> None:
    """The server has ended, and said why; the file is right as it stands, and after a crash at any moment too."""
    ended, reason = found.ended, os.strerror(error).encode()
    lines = ended.err.splitlines()
    is_told = ended.status == 3 and lines[-1:] == [b"device"] and reason in ended.err
    tally.note(f"{where}, the end", None if is_told else f"came {ended}")
    falls = [now for was, now in zip(found.health, found.health[1:]) if was == UNAVAILABLE != now]
    tally.note(f"{where}, the state", f"after {UNAVAILABLE} came {falls}" if falls else None)
    file = kept.file
    with ManyFiles(kept.program, many, file.parent / "left", "data", str(file.parent / "left")) as reader:
        for state in found.run.record.states(Random(where), CUTS):
            fault = fault_of_state(found.run, state, reader.read(state.data))
            tally.note(f"{where}, a state", fault)
    document = file.parent / "tree.json"
    document.write_bytes(compact(small_document()))
    came = standing_at(kept, PATHS, "--tree", str(document))
    allowed = found.run.standings[found.replies : found.replies + 2]
    fault = f"{found.replies} replies; came {came}"
    tally.note(f"{where}, opened again", None if came in allowed else fault)


def fail_new(keeping: Callable[[str], Keeping], many: str, tally: Tally) -> None:
    """Each of the calls that make a new file once the old one is long."""
    document, lines = compact(large_document()), ROUNDS * [large_line() + b"\n"]
    whole = run_failing(keeping("whole"), document, lines, large_standings(ROUNDS), {})
    counted = [entry for entry in whole.run.record.entries if entry.kind in FAILING and not entry.is_end]
    renames = [at for at, entry in enumerate(counted, 1) if entry.kind == RENAME]
    tally.note("new files", None if len(renames) == 2 else f"there were {len(renames)}")
    # (The new file's bytes and its sync come before its name, and the folder's sync behind.)
    for number in range(renames[-1] - 2, renames[-1] + 2):
        kept = keeping("failing")
        found = run_failing(kept, document, lines, large_standings(ROUNDS), {"FAILED_CALL": number})
        where, rounds = f"call {number}", found.replies
        tally.note(f"{where}, the end", None if found.ended.status == 3 else f"came {found.ended}")
        with ManyFiles(kept.program, many, kept.file.parent / "left", "data", str(kept.file.parent / "left")) as reader:
            ran = reader.read(kept.file.read_bytes())
            allowed = [shown(standing) for standing in found.run.standings[rounds : rounds + 2]]
            is_well = ran.status == 0 and shown_in(ran.out) in allowed
            tally.note(f"{where}, the file", None if is_well else f"{rounds} replies; came {ran}")


# ---- kills


def kills(keeping: Callable[[str], Keeping], count: int, tally: Tally) -> None:
    """A server that is killed again and again under sixteen clients, each of which adds to a record of its own and to
    that of all. Each time it is opened with what was acknowledged, and with no more than what was under way."""
    kept, random = keeping("kills"), Random(count)
    document, paths = shared_document(), ["/", "/all", *(f"/own{number}" for number in range(CLIENTS))]
    tree = kept.file.parent / "tree.json"
    tree.write_bytes(compact(document))
    before, rounds = [0] * CLIENTS, 0
    for turn in range(count):
        told = killed(kept, str(tree), random.uniform(LEAST_TIME, MOST_TIME), tally)
        came = standing_at(kept, paths, "--tree", str(tree))
        if isinstance(came, str):
            tally.note(f"kill {turn}", came)
            return
        own, most = list(came.records[2:]), max((reached for _, reached in told), default=0)
        least = [max(was, reached) for was, (reached, _) in zip(before, told)]
        is_well = all(low <= now <= low + 1 for low, now in zip(least, own)) and came.records[1] == sum(own)
        is_counted = came.rounds >= max(rounds, most)
        fault = f"acknowledged were {least} and {most} rounds; came {came}"
        tally.note(f"kill {turn}", None if is_well and is_counted else fault)
        # (The look at the store is a round too.)
        before, rounds = own, came.rounds + 1
    tally.blame("the adds", None if sum(before) > count else f"there were {sum(before)} in all")


def killed(kept: Keeping, tree: str, seconds: float, tally: Tally) -> list[tuple[int, int]]:
    """Of each client the last sum and the last round that it was told, before the server was killed."""
    with kept.opened("--tree", tree, "--workers", "4") as server, ThreadPoolExecutor(CLIENTS) as pool:
        clients = [pool.submit(add_until_killed, server.port, number) for number in range(CLIENTS)]
        timer = threading.Timer(seconds, server.started.kill)
        timer.start()
        told = [client.result() for client in clients]
        timer.join()
    return told


def add_until_killed(port: int, number: int) -> tuple[int, int]:
    line, told = compact({"batch": [[["add", f"/own{number}", 1], ["add", "/all", 1]]]}) + b"\n", (0, 0)
    with suppress(OSError), connected(port) as connection, connection.makefile("rb") as replies:
        for _ in range(1_000_000):
            connection.sendall(line)
            reply = replies.readline()
            if not reply.endswith(b"\n"):
                break
            found = json.loads(reply)
            told = found["replies"][0][0], found["round"]
    return told


# ---- files that are damaged, cut, or written by others


def small_file() -> bytes:
    return file_of(NUMBER, NAMES, STANDINGS)


def another_writer(keeping: Callable[[str], Keeping], tally: Tally) -> None:
    """A file that this page's form alone made is opened as the store that it stands for, and the file that takes its
    place stands for that too."""
    kept = keeping("written")
    for count in range(1, len(STANDINGS) + 1):
        kept.file.write_bytes(file_of(NUMBER, NAMES, STANDINGS[:count]))
        came = standing_at(kept, ["/", "/a", "/a/bc"])
        tally.note(f"{count} payloads", None if came == STANDINGS[count - 1] else f"came {came}")
        left = standings_in(kept.file.read_bytes())[0]
        tally.note(f"the file behind {count}", None if left == STANDINGS[count - 1] else f"came {left}")


def bits(keeping: Callable[[str], Keeping], many: str, tally: Tally) -> None:
    """A file with one bit turned, at each byte two in turn."""
    whole, kept = small_file(), keeping("bits")
    with reading_with(kept, many) as reader, reading_with(kept, many, "--check") as checker:
        tally.note("the whole file", fault_of_reading(whole, reader.read(whole)))
        for place in range(len(whole)):
            for bit in (place % 8, (place + 3) % 8):
                turned = bytearray(whole)
                turned[place] ^= 1 << bit
                data, where = bytes(turned), f"bit {bit} of byte {place}"
                wanted = wanted_of_turned(whole, place)
                tally.blame(where, None if fault_of(data) == wanted or place in range(8, 12) else f"it is {wanted}")
                tally.note(where, fault_of_reading(data, reader.read(data)))
            tally.note(f"{where}, checked", fault_of_check(data, checker.read(data)))


def wanted_of_turned(whole: bytes, place: int) -> str | None:
    """What is wrong with a file one bit of which is turned at the place: nothing, if its last frame is torn so."""
    frames = reading(whole).places
    if place < 8:
        return "not-a-log"
    if place < 12:
        return "version"
    at = max((begin for begin in frames if begin <= place), default=frames[0])
    return None if at == frames[-1] else f"damaged {at}"


def cuts(keeping: Callable[[str], Keeping], many: str, tally: Tally) -> None:
    """A file that is cut to each length, and followed by some bytes more."""
    whole, kept = small_file(), keeping("cuts")
    with reading_with(kept, many) as reader, reading_with(kept, many, "--check") as checker:
        for size in range(len(whole) + 1):
            for more in (b"", b"\0", bytes(100), Random(size).randbytes(100)):
                data, where = whole[:size] + more, f"{size} bytes and {len(more)} more"
                tally.note(where, fault_of_reading(data, reader.read(data)))
            tally.note(f"{size} bytes, checked", fault_of_check(whole[:size], checker.read(whole[:size])))


def reading_with(kept: Keeping, many: str, *words: str) -> ManyFiles:
    file = kept.file.parent / f"left{len(words)}"
    return ManyFiles(kept.program, many, file, "data", *words, str(file))


def fault_of_reading(data: bytes, ran: Ran) -> str | None:
    """What is wrong with what the program says of a file, by the form of files: the store after the frames that pass,
    whatever stands behind them, or what the file is, with the place of its damage."""
    fault = fault_of(data)
    if fault is None and reading(data).payloads:
        wanted = standings_in(data)[-1]
        is_well = ran.status == 0 and shown_in(ran.out) == shown(wanted)
        return None if is_well else f"wanted {wanted}; came {ran}"
    place = re.search(r"[0-9]+", fault or "")
    is_told = place is None or re.search(rb"\b%s\b" % place[0].encode(), ran.out + ran.err)
    return None if ran.status in REFUSED and is_told else f"wanted {fault}; came {ran}"


def fault_of_check(data: bytes, ran: Ran) -> str | None:
    """The same of what it says with `--check`: the count of rounds, that of bytes, and how many are torn."""
    fault, found = fault_of(data), reading(data)
    if fault is not None or not found.payloads:
        return None if ran.status in REFUSED else f"wanted {fault}; came {ran}"
    torn, numbers = len(data) - found.end, list(map(int, re.findall(rb"[0-9]+", ran.out)))
    wanted = [standings_in(data)[-1].rounds, len(data), *([torn] if torn else [])]
    is_well = ran.status == 0 and numbers == wanted and (b"torn" in ran.out) == (torn > 0)
    return None if is_well else f"wanted rounds, bytes and what is torn {wanted}; came {ran}"
