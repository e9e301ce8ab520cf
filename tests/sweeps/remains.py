"""What is left of clients that have gone: no slot, no number on the board, and no memory that grows with how many they
were. The bytes that a server has are counted as it gets them and gives them back."""

from __future__ import annotations

import json
import os
import socket
import struct
import time
from collections.abc import Callable
from contextlib import ExitStack
from functools import partial
from pathlib import Path

from server import connected
from web import Client, post, request

from sweeps.doors import DOORS, SLOTS, Asking, Door
from sweeps.idle import narrow
from sweeps.metrics import by_protocol, metrics_at, once_well
from sweeps.preloaded import library_of
from sweeps.program import Tally, Try, until_well
from sweeps.ten_lines import ADD, WEIGHTS

TRIED = "clients that have gone"
# How many of each kind come before the bytes are counted for the first time, and how many times as many then come. So
# more than 16 lines come first with none of others beside them: from then on who leads reads them, and the store keeps
# what it reads them with.
FIRST, TIMES = 320, 5
# How many looks wait for a round in all.
WAITS = 10_000
# So many bytes more are no growth, where threads come and go, and where none do: a number of each would be more.
MOST_MORE, MOST_MORE_ALIKE = 16_384, 256
# For how long the bytes have to stay as they are.
SETTLED = 0.3
# How long all may take to have left.
LONGEST = 60.0
# A query that waits for a round that doesn't come.
NEVER = "/nodes?after=18446744073709551615"
# So fast a clock goes by which looks wait in vain.
CLOCK_TIMES = 60
RESET = struct.pack("ii", 1, 0)
# Within how many seconds the state is told beside readers that have one each, and come twice.
SLOW = 10.0
# As many nodes as a tree may have, with long names, and so deep.
NODES, LETTERS, DEEP = 4096, 32, 30


def tries(program: str, room: str) -> list[Try]:
    library, clock = library_of("live_bytes", room), library_of("fast_clock", room)
    ways = {"ask and leave": ask_once, "leave in mid-line": leave_inside, "reset": break_off}
    parts = [
        Try(f"{door.name}, clients that {name}", partial(clients, program, library, room, door, way))
        for door in DOORS
        for name, way in ways.items()
    ]
    return parts + [
        Try("looks that wait", partial(waits, program, library, room)),
        Try("looks that are left", partial(left_looks, program, library, room)),
        Try("looks that wait in vain", partial(vain_looks, program, f"{library} {clock}", room)),
        Try("lines that are refused", partial(refused_lines, program, library, room)),
        Try("slow readers without a slot", partial(slow_readers, program)),
    ]


class Counted:
    """The bytes that a program has by its growths, in a file that it keeps."""

    def __init__(self, library: str, room: str):
        self.file = Path(room, f"live-{os.urandom(6).hex()}")
        self.file.write_bytes(bytes(8))
        self.surroundings = {**os.environ, "LD_PRELOAD": library, "LIVE_BYTES": str(self.file)}

    def now(self) -> int:
        return struct.unpack("q", self.file.read_bytes())[0]

    def settled(self) -> int:
        """The same, once it stays as it is: those who leave have left then."""
        ends, latest = time.monotonic() + LONGEST, self.now()
        while time.monotonic() < ends:
            time.sleep(SETTLED)
            before, latest = latest, self.now()
            if before == latest:
                break
        return latest

    def note_growth(self, before: int, tally: Tally, most: int = MOST_MORE) -> None:
        """No more bytes than before, but for a few."""
        more = self.settled() - before
        tally.note("the bytes", None if more <= most else f"{more} bytes more")


# ---- clients that come and go


def ask_once(door: Door, port: int) -> None:
    with connected(port) as client, client.makefile("rb") as stream:
        client.sendall(door.sent(WEIGHTS))
        door.reply_in(stream)


def leave_inside(door: Door, port: int) -> None:
    with connected(port) as client:
        client.sendall(door.sent(ADD)[:-3])


def break_off(door: Door, port: int) -> None:
    with connected(port) as client:
        client.sendall(door.sent(WEIGHTS))
        client.setsockopt(socket.SOL_SOCKET, socket.SO_LINGER, RESET)


def clients(
    program: str, library: str, room: str, door: Door, way: Callable[[Door, int], None], tally: Tally
) -> None:
    """Many clients of a kind, one after the other. Then all slots are free: as many others have one at once."""
    counted = Counted(library, room)
    with door.serving(program, env=counted.surroundings) as server, ExitStack() as stack:
        come(door, server.port, way, FIRST)
        before = counted.settled()
        come(door, server.port, way, FIRST * TIMES)
        tally.tried += FIRST * (1 + TIMES)
        counted.note_growth(before, tally)
        others = [stack.enter_context(Asking(door, server.port, WEIGHTS)) for _ in range(SLOTS)]
        for other in others:
            other.send()
        came = [other.door.reply_in(other.stream)[:10] for other in others]
        tally.note("the slots", None if came == [b'{"waits":['] * SLOTS else f"came {came}")


def come(door: Door, port: int, way: Callable[[Door, int], None], count: int) -> None:
    """So many clients of a kind. Now and then one of them waits for its reply, so that those before it have been
    accepted, and the system needn't hold all of them."""
    for number in range(count):
        (ask_once if number % SLOTS == 0 else way)(door, port)


# ---- looks


def waits(program: str, library: str, room: str, tally: Tally) -> None:
    """Looks that wait for the next round, which comes: so many at once, again and again."""
    counted = Counted(library, room)
    with DOORS[2].serving(program, env=counted.surroundings) as server, ExitStack() as stack:
        looks = [stack.enter_context(Client(server.port)) for _ in range(SLOTS)]
        session = stack.enter_context(connected(server.first))
        replies = stack.enter_context(session.makefile("rb"))
        before = done = 0
        for rounds in range(WAITS // SLOTS):
            for look in looks:
                look.send(request("GET", f"/nodes?after={rounds}"))
            session.sendall(b'{"batch":[]}\n')
            replies.readline()
            told = [json.loads(look.next().body)["round"] for look in looks]
            done += len(told)
            tally.blame(f"round {rounds}", None if told == [rounds + 1] * SLOTS else f"came {told}")
            before = before or (counted.settled() if done >= FIRST else 0)
        tally.tried += done
        counted.note_growth(before, tally)


def left_looks(program: str, library: str, room: str, tally: Tally) -> None:
    """Looks that wait for no round, and whose clients have left: their slots are free a second later."""
    counted, more = Counted(library, room), []
    with DOORS[2].serving(program, env=counted.surroundings) as server:
        for _ in range(3):
            with ExitStack() as stack:
                looks = [stack.enter_context(Client(server.port)) for _ in range(SLOTS - 1)]
                for look in looks:
                    look.send(request("GET", NEVER))
                once_well(server.port, by_protocol("grove_connections", 0, SLOTS), "they wait", tally)
            once_well(server.port, by_protocol("grove_connections", 0, 1), "they have left", tally)
            more.append(counted.settled())
        counted.note_growth(more[0], tally)


def vain_looks(program: str, library: str, room: str, tally: Tally) -> None:
    """Looks that wait as long as one may, by a clock that goes faster, and are answered then."""
    counted = Counted(library, room)
    surroundings, before = {**counted.surroundings, "CLOCK_TIMES": str(CLOCK_TIMES)}, 0
    with DOORS[2].serving(program, env=surroundings) as server, ExitStack() as stack:
        looks = [stack.enter_context(Client(server.port)) for _ in range(SLOTS)]
        for turn in range(4):
            for look in looks:
                look.send(request("GET", NEVER))
            came = [look.next().status for look in looks]
            tally.note(f"turn {turn}", None if came == [200] * SLOTS else f"came {came}")
            before = before or counted.settled()
        counted.note_growth(before, tally, MOST_MORE_ALIKE)


def refused_lines(program: str, library: str, room: str, tally: Tally) -> None:
    """Lines that are refused, with hints, and ones that are too long: each by the same few names."""
    counted = Counted(library, room)
    text = (b"{}\n" * 20 + b'{"plan":[["get","/nowhere"]]}\n' * 20) * 10
    with DOORS[2].serving(program, further=("--hints",), env=counted.surroundings) as server:
        server_talk(server.first, text)
        before = counted.settled()
        for _ in range(TIMES):
            server_talk(server.first, text)
            with Client(server.port) as client:
                client.post(text)
        tally.tried += TIMES * 2
        counted.note_growth(before, tally)


def server_talk(port: int, text: bytes) -> bytes:
    with connected(port) as client:
        client.sendall(text)
        client.shutdown(socket.SHUT_WR)
        return b"".join(iter(partial(client.recv, 1 << 16), b""))


# ---- places without a slot


def many_long_names() -> bytes:
    """As many nodes as a tree may have, with long names: megabytes of metrics."""
    name = "n" * LETTERS
    parents = [(at - 1) * (at % DEEP != 1) for at in range(1, NODES)]
    rows = [{"parent": None, "name": "", "weight": 1}]
    for at, parent in enumerate(parents, 1):
        rows.append({"parent": parent, "name": f"{name}{at}"[-LETTERS:], "weight": 1})
    return json.dumps({"nodes": rows}).encode()


def slow_readers(program: str, tally: Tally) -> None:
    """All slots are taken. Clients without one ask for megabytes of metrics and read nothing, more of them than there
    is room for: soon after, the state is told to others. It is tried until a machine with other work tells it as soon
    as it may."""
    for further in ((), ("--busy",)):
        until_well(partial(slow_to_tell, program, further, tally), f"{further}", tally, 5)


def slow_to_tell(program: str, further: tuple[str, ...], tally: Tally) -> str | None:
    """How late the state is told beside slow readers, if it is late."""
    with DOORS[1].serving(program, many_long_names(), further) as server, ExitStack() as stack:
        for _ in range(SLOTS):
            stack.enter_context(connected(server.port)).sendall(post(ADD)[:9])
        for _ in range(SLOTS):
            stack.enter_context(narrow(server.port)).sendall(request("GET", "/metrics?nodes=1"))
        began = time.monotonic()
        note_health(server.port, f"{further}", tally)
        took = time.monotonic() - began
    return f"it took {took:.1f} s" if took > SLOW else None


def note_health(port: int, where: str, tally: Tally) -> None:
    """The state is told, before long."""
    ends, came = time.monotonic() + LONGEST, None
    while time.monotonic() < ends:
        with Client(port) as client:
            came = client.get("/health")
        if came.status == 200:
            break
        time.sleep(0.1)
    tally.note(where, None if came and came.status == 200 else f"came {came}")
    samples = metrics_at(port)
    used = samples['grove_connections{protocol="http"}']
    tally.note(f"{where}, the slots", None if used == SLOTS else f"{used} are in use")
