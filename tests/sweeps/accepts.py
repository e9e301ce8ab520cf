"""Servers that can't accept a connection for a while, or any more, at each port, for each error that accept(2) names:
what passes is tried again, with the store as it was, and what can't pass ends that port alone, once those being served
have ended."""

from __future__ import annotations

import errno
import json
import re
import subprocess
import time
from contextlib import ExitStack
from functools import partial

from server import free_port
from store import Store

from sweeps.busy import is_told, told
from sweeps.descriptors import LEAST_WORK, WATCHED, worked
from sweeps.doors import DOORS, SLOTS, Asking, Door
from sweeps.metrics import metrics_at
from sweeps.preloaded import failed_accepts, library_of
from sweeps.program import Tally, Try, until_well
from sweeps.ten_lines import ADD, TREE
from sweeps.verbose import Telling, untimed

TRIED = "connections beside those that can't be accepted"
# Those of one connection that is gone, and of a network that is; and one that accept(2) doesn't name.
PASSING = (
    *(errno.ECONNABORTED, errno.EPROTO, errno.EPERM, errno.ENETDOWN, errno.ENOPROTOOPT, errno.EHOSTDOWN),
    *(errno.ENONET, errno.EHOSTUNREACH, errno.EOPNOTSUPP, errno.ENETUNREACH, errno.ETIMEDOUT, errno.EIO),
)
# What is lacking, and the event that says so.
LACKING = {
    errno.EMFILE: "no-descriptor",
    errno.ENFILE: "no-descriptor",
    errno.ENOBUFS: "no-memory",
    errno.ENOMEM: "no-memory",
}
LASTING = (errno.EBADF, errno.EINVAL, errno.ENOTSOCK)
# How often a connection can't be accepted before it can; and as often as takes some pauses.
FAILURES, MANY = 3, 500
# After how many failures there is a pause, of how many seconds at most; so many times as long as their pauses many
# failures may take.
PAUSED_AFTER, PAUSE = 64, 0.1
MOST_TIMES_PAUSES = 4
# What is said once no port accepts any more.
ENDED = ["cannot accept connections any more; the log of --verbose has the system's error", "device"]
# So many times it fails that never ends.
FOR_EVER = 10**15
# How long a server that has to go on is watched, and how long one may take to end.
SHORT, LONGEST = 0.3, 30.0


def tries(program: str, room: str) -> list[Try]:
    library = library_of("fail_accept", room)
    parts = [Try(f"{door.name}, errors that pass", partial(errors_pass, program, library, door)) for door in DOORS]
    parts += [Try(f"{door.name}, an interruption", partial(interrupted, program, library, door)) for door in DOORS]
    parts += [Try(f"{door.name}, with --busy", partial(passing_busy, program, library, door)) for door in DOORS]
    parts += [Try(f"{door.name}, many errors", partial(many, program, library, door)) for door in DOORS]
    parts += [Try(f"{door.name}, errors without end", partial(for_ever, program, library, door)) for door in DOORS]
    parts += [Try(f"{door.name}, errors that last", partial(errors_last, program, library, door)) for door in DOORS[:2]]
    return parts + [
        Try("one of two ports", partial(one_of_two, program, library)),
        Try("both ports", partial(both, program, library)),
    ]


def failing(program: str, library: str, door: Door, error: int, first: int, count: int, *further: str) -> Telling:
    """A server at which so many calls for a connection fail with this error, from that of this number on."""
    port = free_port()
    return Telling(program, further, door=door, port=port, env=failed_accepts(library, error, count, first, port))


def failures_told(server: Telling, protocol: str, error: int) -> list[str]:
    """The events that a connection couldn't be accepted for this error, each with the second that it is of."""
    told = [(line, untimed(line)) for line in server.lines()]
    wanted = f"level=warn event=not-accepted protocol={protocol} os_error={error}"
    return [line.partition(".")[0] for line, event in told if event == wanted]


def others_told(server: Telling) -> list[str]:
    """The events by name but for those of connections, and those that one couldn't be accepted."""
    names = [re.search(r" event=([a-z-]+)", line) for line in server.told()]
    told = [found[1] if found else "none" for found in names]
    return [name for name in told if name not in ("accepted", "ended", "not-accepted")]


def note_counted(door: Door, server: Telling, wanted: int, where: str, tally: Tally) -> None:
    """At a door of HTTP: the failures are counted there, and none for sessions."""
    if door.is_http:
        came = metrics_at(server.port)
        counts = [came.get(f'grove_failed_accepts_total{{protocol="{name}"}}') for name in ("http", "tcp")]
        tally.note(f"{where}, the counts", None if counts == [wanted, 0] else f"wanted {wanted} and 0; came {counts}")


# ---- what passes


def errors_pass(program: str, library: str, door: Door, tally: Tally) -> None:
    """Between two connections some can't be accepted: both are answered, over one store."""
    for error in (*PASSING, *LACKING):
        where, store = errno.errorcode[error], Store(json.loads(TREE))
        with failing(program, library, door, error, 2, FAILURES) as server:
            with Asking(door, server.port) as first, Asking(door, server.port) as second:
                first.ask(store, f"{where}, before", tally)
                second.ask(store, f"{where}, after", tally)
                first.ask(store, f"{where}, again", tally)
            note_counted(door, server, FAILURES, where, tally)
            note_told(door, server, error, where, tally)


def note_told(door: Door, server: Telling, error: int, where: str, tally: Tally) -> None:
    """What passes is logged once a second at most, and what is lacking once until a connection is accepted."""
    seconds = failures_told(server, door.protocol, error)
    is_well = len(set(seconds)) == len(seconds) and bool(seconds) == (error in PASSING)
    tally.note(f"{where}, the log", None if is_well else f"came {server.told()}")
    wanted = [LACKING[error]] if error in LACKING else []
    came = others_told(server)
    tally.note(f"{where}, the other events", None if came == wanted else f"wanted {wanted}; came {came}")


def interrupted(program: str, library: str, door: Door, tally: Tally) -> None:
    """A call that a signal interrupts is no failure: nothing is logged or counted."""
    store = Store(json.loads(TREE))
    with failing(program, library, door, errno.EINTR, 1, FAILURES) as server:
        with Asking(door, server.port) as client:
            client.ask(store, "after interruptions", tally)
        note_counted(door, server, 0, "interruptions", tally)
        names = [name for name in others_told(server)]
        is_well = not names and not failures_told(server, door.protocol, errno.EINTR)
        tally.note("the log", None if is_well else f"came {server.told()}")


def passing_busy(program: str, library: str, door: Door, tally: Tally) -> None:
    """With `--busy`, a connection that couldn't be accepted leaves no slot: sixteen have one, and the 17th has none."""
    for error in (errno.ECONNABORTED, errno.ENOMEM):
        store, where = Store(json.loads(TREE)), errno.errorcode[error]
        with ExitStack() as room:
            server = room.enter_context(failing(program, library, door, error, 1, FAILURES, "--busy"))
            for number in range(SLOTS):
                room.enter_context(Asking(door, server.port)).ask(store, f"{where}, client {number}", tally)
            came = told(server.port, door.sent(ADD))
            tally.note(f"{where}, the 17th", None if is_told(door, came) else f"came {came!r}")


def many(program: str, library: str, door: Door, tally: Tally) -> None:
    """So many failures that there are pauses between them: no more than those, and no longer ones. It is tried until a
    machine with other work has done the rest soon."""
    until_well(partial(how_long, program, library, door, tally), "many failures", tally, 5)


def how_long(program: str, library: str, door: Door, tally: Tally) -> str | None:
    """How long the failures took, if they took longer than their pauses by far."""
    store = Store(json.loads(TREE))
    started = time.monotonic()
    with failing(program, library, door, errno.ECONNABORTED, 1, MANY) as server:
        with Asking(door, server.port) as client:
            client.ask(store, "after many failures", tally)
        took = time.monotonic() - started
        least = MANY // PAUSED_AFTER * PAUSE
        tally.note("the time", None if took >= least * 0.9 else f"{MANY} failures took {took:.2f} s")
        note_counted(door, server, MANY, "many failures", tally)
    return f"{MANY} failures took {took:.2f} s" if took > MOST_TIMES_PAUSES * least else None


def for_ever(program: str, library: str, door: Door, tally: Tally) -> None:
    """What never passes takes next to no time of the processor, and the one who is there is answered."""
    for error in (errno.EPERM, errno.ENOMEM):
        store, where = Store(json.loads(TREE)), errno.errorcode[error]
        with failing(program, library, door, error, 2, FOR_EVER) as server:
            with Asking(door, server.port) as client:
                client.ask(store, f"{where}, before", tally)
                before = worked(server.started.pid)
                time.sleep(WATCHED)
                took = worked(server.started.pid) - before
                fault = f"{took:.2f} s of the processor in {WATCHED:g} s"
                tally.note(f"{where}, its work", None if took < LEAST_WORK else fault)
                client.ask(store, f"{where}, beside the failures", tally)
            note_told(door, server, error, where, tally)
            seconds = failures_told(server, door.protocol, error)
            is_well = error in LACKING or len(seconds) >= WATCHED
            tally.note(f"{where}, how often", None if is_well else f"came {seconds}")


# ---- what doesn't


def errors_last(program: str, library: str, door: Door, tally: Tally) -> None:
    """No connection is accepted after the first, which goes on until its client leaves; then the server ends."""
    for error in LASTING:
        where, store = errno.errorcode[error], Store(json.loads(TREE))
        with failing(program, library, door, error, 2, FOR_EVER) as server:
            with Asking(door, server.port) as client:
                client.ask(store, f"{where}, before", tally)
                client.ask(store, f"{where}, after", tally)
                time.sleep(SHORT)
                tally.note(where, None if server.is_running() else "it has ended beside a client")
                client.ask(store, f"{where}, later", tally)
            note_ended(server, where, tally)
            stopped = f"level=error event=stopped protocol={door.protocol} os_error={error}"
            lines = server.told()
            is_well = lines.count(stopped) == 1 and lines[-2:] == ENDED
            tally.note(f"{where}, the log", None if is_well else f"came {lines}")


def note_ended(server: Telling, where: str, tally: Tally) -> None:
    """It ends by itself, with the status for that."""
    try:
        status = server.started.wait(LONGEST)
    except subprocess.TimeoutExpired:
        status = None
    tally.note(f"{where}, the end", None if status == 3 else f"its status is {status}")


def one_of_two(program: str, library: str, tally: Tally) -> None:
    """One port of two accepts no more: the other goes on, and new clients come there."""
    sessions, _, second = DOORS
    for error in LASTING:
        where, store = f"HTTP, {errno.errorcode[error]}", Store(json.loads(TREE))
        with failing(program, library, second, error, 2, FOR_EVER) as server:
            with Asking(second, server.port) as client:
                client.ask(store, f"{where}, before", tally)
            for number in range(2):
                with Asking(sessions, server.first) as client:
                    client.ask(store, f"{where}, session {number}", tally)
            tally.note(where, None if server.is_running() else "it has ended")


def both(program: str, library: str, tally: Tally) -> None:
    """Neither port accepts any connection, and nobody is there: the server ends."""
    for error in LASTING:
        where = f"both, {errno.errorcode[error]}"
        with Telling(program, door=DOORS[2], env=failed_accepts(library, error, FOR_EVER)) as server:
            note_ended(server, where, tally)
            wanted = [f"level=error event=stopped protocol={name} os_error={error}" for name in ("http", "tcp")]
            told = server.told()
            tally.note(f"{where}, the log", None if sorted(told) == sorted([*wanted, *ENDED]) else f"came {told}")
