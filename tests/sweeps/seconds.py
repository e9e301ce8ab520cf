"""Servers with `--sync second`: a kill loses what was replied in the last second at most, and what is left opens as the
store after some first part of the lines. An orderly end loses nothing. Under load there is about one sync a second, and
none while nothing changes. A file that can't be written ends the server as it does with `--sync round`."""

from __future__ import annotations

import errno
import json
import os
import threading
import time
from contextlib import suppress
from dataclasses import dataclass, field
from functools import partial
from pathlib import Path
from random import Random
from typing import Any

from batches import shelves
from exposition import samples_in
from log_file import Standing, standings_in
from server import NotListening, Serving, connected, free_port
from store import Store, compact
from web import BadResponse, Client

from sweeps.accepts import ENDED
from sweeps.data import BATCH, DOCUMENTS, UNAVAILABLE, ended, fresh, limit_files, opened, over, round_of
from sweeps.doors import DOORS, Asking, Door
from sweeps.kept_files import standing_at
from sweeps.kept_runs import Keeping, a_line, note_line, small_document, standing_of
from sweeps.preloaded import failed_accepts, library_of
from sweeps.program import MEMORY, Ran, Tally, Try, because, until_well
from sweeps.ten_lines import TREE, WEIGHTS
from sweeps.verbose import Telling

TRIED = "servers that sync each second"
SECOND = ("--sync", "second")
# How long after its reply a line may still be lost: a second, and how much longer on a machine with other work.
LOST_AFTER, LATE = 1.0, 1.0
# After how many seconds a server is killed, and how long a client waits between two lines.
KILLED_AFTER, PAUSE = (0.3, 1.3, 2.2, 3.4), 0.005
# For how many seconds syncs are counted, and by how many they may be fewer or more.
COUNTED, OFF = 5, 2
# How long a server may take until its file has what it replied.
SOON = 10.0
# How often a part is tried that goes by timing.
MOST_TRIES = 5
# How long it is watched whether nothing is logged.
SHORT = 0.3
# More lines than a server answers after its file is full.
MOST_LINES = 20_000
PATHS = ["/", "/a", "/a/b", "/all", "/all/c"]
# A tree whose file is longer than a log of some lines, which may be no longer either.
LEAVES = [{"name": f"n{number}", "parent": 0, "weight": 1} for number in range(99)]
LONG_TREE = compact({"nodes": [*DOCUMENTS, *LEAVES], "version": 1})
UNKEPT = b'{"error":"unkept"}\n'
EACH_SECOND = "level=warn event=each-second"


def tries(program: str, room: str) -> list[Try]:
    accepts, calls, threads = (library_of(name, room) for name in ("fail_accept", "file_calls", "refuse_threads"))
    failures = {"no room": None, "a write fails": "write", "a sync fails": "sync"}
    return [
        *(Try(f"killed after {after} s", partial(killed, program, room, after)) for after in KILLED_AFTER),
        Try("killed with waits", partial(killed_with_waits, program, room)),
        *(Try(f"{door.name}, an orderly end", partial(orderly, program, room, accepts, door)) for door in DOORS[:2]),
        *(
            Try(f"{door.name}, {name}", partial(until_failed, program, room, calls, door, kind))
            for door in DOORS
            for name, kind in failures.items()
        ),
        Try("how many syncs there are", partial(counted, program, room, calls)),
        Try("what is told of the file", partial(never_ahead, program, room)),
        Try("what is logged", partial(logged, program, room)),
        *(Try(f"{door.name}, no thread", partial(no_thread, program, room, threads, door)) for door in DOORS),
    ]


def made(program: str, file: Path, *further: str, document: bytes = TREE, **how) -> Serving:
    return Serving(program, document, further=("--data", str(file), *SECOND, *further), **how)


def rounds_in(file: Path) -> int:
    """The count of rounds that the file has by its bytes."""
    return standings_in(file.read_bytes())[-1].rounds


def await_rounds(file: Path, wanted: int) -> int:
    """The count of rounds that the file has, once it is this one, or it took too long."""
    until = time.monotonic() + SOON
    while rounds_in(file) != wanted and time.monotonic() < until:
        time.sleep(0.05)
    return rounds_in(file)


# ---- kills


@dataclass
class Told:
    """The stores that there were, the first before the first line; and when each line had its reply."""

    standings: list[Standing]
    times: list[float] = field(default_factory=list)

    def least(self, killed_at: float) -> int:
        """How many lines may not be lost."""
        return sum(told < killed_at - LOST_AFTER - LATE for told in self.times)


def note_left(program: str, file: Path, told: Told, killed_at: float, where: str, tally: Tally) -> None:
    """Each store that the file had was one after some first part of the lines, and the last is not too old."""
    came = standings_in(file.read_bytes())
    further = iter(told.standings)
    tally.note(f"{where}, the file", None if all(each in further for each in came) else f"it had {came[-3:]}")
    wanted = told.standings[told.least(killed_at) :]
    fault = f"it has {came[-1]}, older than {wanted[0]}"
    tally.note(f"{where}, the last", None if came[-1] in wanted else fault)
    opened_as = standing_at(Keeping(program, "", file, file), PATHS)
    tally.note(f"{where}, opened", None if opened_as == came[-1] else f"wanted {came[-1]}; came {opened_as}")


def killed(program: str, room: str, after: float, tally: Tally) -> None:
    """A client asks line by line until the server is killed, and again once it is put up again."""
    random, document, file = Random(after), small_document(), fresh(room)
    store = Store(document)
    for turn in range(2):
        told = Told([standing_of(store)])
        with made(program, file, document=compact(document)) as server:
            killer = threading.Timer(after, server.started.kill)
            killer.start()
            ask_until_killed(server.port, random, store, told, tally)
            killed_at = time.monotonic()
        note_left(program, file, told, killed_at, f"turn {turn}", tally)
        tally.blame(f"turn {turn}, the replies", None if len(told.times) > 10 else f"there were {len(told.times)}")
        put_back(store, standings_in(file.read_bytes())[-1])


def ask_until_killed(port: int, random: Random, store: Store, told: Told, tally: Tally) -> None:
    with connected(port) as connection, connection.makefile("rb") as replies, suppress(ConnectionError):
        for _ in range(MOST_LINES):
            line = a_line(random, store.tree.paths)
            connection.sendall(line + b"\n")
            reply = replies.readline()
            if not reply.endswith(b"\n"):
                # It may have had its effect all the same.
                store.fault_of(line, b"")
                told.standings.append(standing_of(store))
                break
            told.times.append(time.monotonic())
            told.standings.append(note_line(store, line, reply, tally))
            time.sleep(PAUSE)


def put_back(store: Store, standing: Standing) -> None:
    """The store is again the one that is left."""
    store.tree.weights, store.records = [*standing.weights], [*standing.records]
    store.nodes = [{**row, "weight": weight} for row, weight in zip(store.nodes, standing.weights)]
    store.rounds = standing.rounds


def killed_with_waits(program: str, room: str, tally: Tally) -> None:
    until_well(partial(waited_for, program, room, tally), "waits", tally, MOST_TRIES)


def waited_for(program: str, room: str, tally: Tally) -> str | None:
    """A batch that threads do, of which the server says the waits itself: they are kept in time, with all else."""
    batch, file = shelves(Random(68), count=210), fresh(room)
    document = compact({"nodes": batch["nodes"], "version": 1})
    with made(program, file, document=document, workers=4) as server:
        reply, looked = server.talk(compact({"batch": batch["lists"]}) + b"\n" + WEIGHTS).splitlines()
        came = await_rounds(file, 1)
        tally.note("the rounds", None if came == 1 == round_of(reply) else f"the file has {came}")
    waits = tuple(json.loads(looked)["waits"])
    last = standings_in(file.read_bytes())[-1]
    tally.note("the waits", None if last.waits == waits else f"wanted {waits}; came {last.waits}")
    with opened(program, file, *SECOND) as server:
        again = server.talk(WEIGHTS)
        tally.note("opened", None if again == looked + b"\n" else f"wanted {looked!r}; came {again!r}")
    return None if any(waits) else "nothing was waited for"


# ---- an end that isn't a kill


def orderly(program: str, room: str, library: str, door: Door, tally: Tally) -> None:
    """No connection can be accepted any more, and the last one ends right behind its last reply: all is there."""
    for lines in (1, 7):
        file, port = fresh(room), free_port()
        how = {"env": failed_accepts(library, errno.EBADF, MOST_LINES, 2, port), "port": port}
        with door.serving(program, TREE, ("--data", str(file), *SECOND), **how) as server:
            came = over(server, BATCH * lines, door.command).splitlines()
            end = ended(server)
        rounds = [round_of(line) for line in came]
        tally.note(f"{lines}, the replies", None if rounds == [*range(1, lines + 1)] else f"{rounds}")
        wanted = Ran(3, b"", "".join(f"{line}\n" for line in ENDED).encode())
        tally.compare(f"{lines}, the end", end, wanted)
        tally.note(f"{lines}, the file", None if rounds_in(file) == lines else f"it has {rounds_in(file)} rounds")


# ---- a file that can't be written


def until_failed(program: str, room: str, library: str, door: Door, kind: str | None, tally: Tally) -> None:
    until_well(partial(fails, program, room, library, door, kind, tally), "the end", tally, MOST_TRIES)


def fails(program: str, room: str, library: str, door: Door, kind: str | None, tally: Tally) -> str | None:
    """Lines are answered until the file can't be written. From then on none is, by nobody; the state is told for a
    second; and the server ends with its reason. The file has what it had before."""
    file, how, number = fresh(room), dict[str, Any](), errno.EFBIG if kind is None else errno.EIO
    if kind is None:
        how["preexec_fn"] = partial(limit_files, size_when_begun(program, room) + 8)
    else:
        how["env"] = surroundings(library, file, calls_until(program, room, library, door, kind))
    words = ("--data", str(file), *SECOND)
    with Telling(program, words, LONG_TREE, door, **how) as server, Asking(door, server.port, BATCH) as client:
        count = lines_until_refused(client, tally)
        health = note_state(server.port, tally) if door.is_http else None
        status = server.started.wait(SOON)
        told = server.told()
    tally.note("the lines", None if 0 < count < MOST_LINES else f"{count} were answered")
    tally.note("the status", None if status == 3 else f"it is {status}")
    wanted = because(f"cannot keep rounds in {file}", number).err.decode().splitlines()
    tally.note("why", None if told[-2:] == wanted else f"wanted {wanted}; came {told[-2:]}")
    left, most = rounds_in(file), count + 1 if kind == "sync" else 0
    tally.note("the file", None if left <= most else f"it has {left} rounds, and {most} may be there")
    with opened(program, file, *SECOND) as server:
        came = round_of(server.talk(BATCH))
        tally.note("afterwards", None if came == left + 1 else f"round {came} comes after {left}")
    return health


def size_when_begun(program: str, room: str) -> int:
    file = fresh(room)
    with made(program, file, document=LONG_TREE):
        return file.stat().st_size


def surroundings(library: str, file: Path, failed: int = 0) -> dict[str, str]:
    calls = {"CALLS": str(file.parent / "calls"), "FAILED_NUMBER": str(failed)}
    return {**os.environ, "LD_PRELOAD": library, **calls}


def calls_until(program: str, room: str, library: str, door: Door, kind: str) -> int:
    """The number of the first call of this kind that keeps lines, as a server without a failure makes them."""
    file = fresh(room)
    words = ("--data", str(file), *SECOND)
    with door.serving(program, TREE, words, env=surroundings(library, file)) as server:
        begun = len(calls_in(file))
        over(server, BATCH, "page" if door.is_http else "serve")
        await_rounds(file, 1)
        time.sleep(0.2)
        calls = calls_in(file)
    return next(at for at, call in enumerate(calls, 1) if at > begun and call.startswith(kind))


def calls_in(file: Path) -> list[str]:
    return (file.parent / "calls").read_text().splitlines()


def lines_until_refused(client: Asking, tally: Tally) -> int:
    """How many lines are answered, one after the other, before one isn't."""
    for number in range(MOST_LINES):
        with suppress(ConnectionError):
            client.send()
        came = client.door.reply_in(client.stream)
        if not came.startswith(b'{"places"'):
            wanted = UNKEPT if client.door.is_http else b""
            tally.note("the refusal", None if came == wanted else f"wanted {wanted!r}; came {came!r}")
            return number
        time.sleep(PAUSE)
    return MOST_LINES


def note_state(port: int, tally: Tally) -> str | None:
    """While the state is told, no line is answered and no store shown; or it was told for too short a time."""
    try:
        with Client(port) as client:
            came = [client.get("/health"), client.post(BATCH), client.get("/document"), client.get("/metrics")]
    except (OSError, BadResponse):
        return "it ended before all was asked"
    if None in came:
        return "it ended before all was asked"
    statuses = [each.status for each in came if each]
    wanted = [UNAVAILABLE, UNAVAILABLE, UNAVAILABLE, 200]
    tally.note("the state", None if statuses == wanted else f"wanted {wanted}; came {statuses}")
    return None


# ---- syncs


def counted(program: str, room: str, library: str, tally: Tally) -> None:
    until_well(partial(syncs, program, room, library, tally), "the syncs", tally, MOST_TRIES)


def syncs(program: str, room: str, library: str, tally: Tally) -> str | None:
    """There is about one a second while a client asks, and none while nobody asks, or nothing changes."""
    file = fresh(room)
    with made(program, file, env=surroundings(library, file)) as server:
        begun = count_of_syncs(file)
        lines = ask_for(server.port, COUNTED, BATCH)
        tally.note("the rounds", None if await_rounds(file, lines) == lines else f"the file has {rounds_in(file)}")
        asked = count_of_syncs(file) - begun
        time.sleep(2.2)
        idle = count_of_syncs(file) - begun - asked
        ask_for(server.port, 2, WEIGHTS)
        time.sleep(1.2)
        same = count_of_syncs(file) - begun - asked - idle
    tally.note("idle", None if idle == 0 else f"there were {idle} syncs")
    tally.note("nothing changed", None if same == 0 else f"there were {same} syncs")
    is_well = COUNTED - OFF <= asked <= COUNTED + OFF
    return None if is_well else f"there were {asked} syncs in {COUNTED} seconds"


def count_of_syncs(file: Path) -> int:
    return sum(call.startswith("sync") for call in calls_in(file))


def ask_for(port: int, seconds: float, line: bytes) -> int:
    """How many lines are answered in so many seconds."""
    until, count = time.monotonic() + seconds, 0
    with connected(port) as connection, connection.makefile("rb") as replies:
        while time.monotonic() < until and count < MOST_LINES:
            connection.sendall(line)
            count += bool(replies.readline())
            time.sleep(PAUSE)
    return count


def never_ahead(program: str, room: str, tally: Tally) -> None:
    """No more rounds are told to be kept than the file has by then, while a client asks; and all are in the end."""
    file = fresh(room)
    with made(program, file, command="page") as server, Client(server.port) as client:
        most = 0
        for number in range(1, 500):
            client.post(BATCH)
            if number % 5 == 0:
                samples = samples_at(client)
                kept = samples.get("grove_data_rounds", -1.0)
                most = max(most, int(samples.get("grove_rounds_total", 0) - kept))
                tally.note(f"round {number}", None if 0 <= kept <= rounds_in(file) else f"{kept} are told to be kept")
            time.sleep(PAUSE)
        tally.note("the end", None if await_rounds(file, number) == number else f"the file has {rounds_in(file)}")
        time.sleep(0.2)
        samples = samples_at(client)
        counts = [samples.get(f"grove_{name}") for name in ("rounds_total", "data_rounds", "data_bytes")]
        wanted = [number, number, file.stat().st_size]
        tally.note("the counts", None if counts == wanted else f"wanted {wanted}; came {counts}")
    tally.note("rounds ahead", None if most > 1 else f"no more than {most} weren't kept")


def samples_at(client: Client) -> dict[str, float]:
    response = client.get("/metrics")
    return samples_in(response.body.decode()) if response else {}


# ---- what else is told


def logged(program: str, room: str, tally: Tally) -> None:
    """That a crash may lose a second is logged when it begins, and by nobody else."""
    for door in DOORS:
        for words in (SECOND, ("--sync", "round"), ()):
            wanted = [EACH_SECOND] if words == SECOND else []
            with Telling(program, ("--data", str(fresh(room)), *words), door=door) as server:
                came = server.told_of(1, SOON if wanted else SHORT)
            tally.note(f"{door.name}, {words}", None if came == wanted else f"wanted {wanted}; came {came}")


def no_thread(program: str, room: str, library: str, door: Door, tally: Tally) -> None:
    """Without a thread that serves, or one that ends the connections, nobody is served, and the server ends."""
    for first in (1, 2):
        numbers = {"FIRST_REFUSED": str(first), "LAST_REFUSED": str(first)}
        how = {"env": {**os.environ, "LD_PRELOAD": library, **numbers}}
        try:
            with door.serving(program, TREE, ("--data", str(fresh(room)), *SECOND), **how) as server:
                end = ended(server)
        except NotListening as why:
            end = Ran(*why.ended)
        tally.compare(f"thread {first}", end, MEMORY)
