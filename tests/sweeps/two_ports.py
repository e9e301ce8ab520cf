"""Servers with `--http`: the same store at both ports, connection slots of each by itself, names by `--host`, a log of
both, and `/health` while all slots are taken by clients that are slow."""

from __future__ import annotations

import errno
import json
import socket
import time
from contextlib import ExitStack
from functools import partial

from server import HOST, BadServer, Serving, connected, free_port
from store import Store
from web import Client, request, responses_in

from sweeps.doors import DOORS, Door
from sweeps.metrics import Both, metrics_at
from sweeps.program import DEVICE, Ran, Tally, Try, because, until_well
from sweeps.talks import note_replies
from sweeps.ten_lines import ADD, GET, TREE
from sweeps.verbose import Telling, compare

TRIED = "replies and responses at two ports"
SLOTS, HTTP_SLOTS = 16, 64
# How many connections over HTTP without a slot are accepted nevertheless.
ROOM = 8
# How long the state of a server may take, and how often it is asked for.
SOON, LOOKS = 0.1, 20
# How often it is looked whether something is counted.
MOST_LOOKS = 1000
LONGEST = 60.0
HEALTHY = b'{"status":"ok"}\n'
RECEIVED = 'grove_received_bytes_total{protocol="http"}'
# Requests for the state of a server, whose connections would stay open if they had a slot, and others.
STATES = (
    *[request(method, path) for method in ("GET", "HEAD") for path in ("/health", "/health?x", "/metrics")],
    request("GET", "/health", None, "connection: keep-alive"),
    request("GET", "/health", None, "connection: close"),
    b"GET /health HTTP/1.0\r\n\r\n",
    b"GET /health HTTP/1.0\r\nconnection: keep-alive\r\n\r\n",
)
# How often a slot is left to one of eight, and how long the ninth may wait then.
PLACES_LEFT, LONG = 4, 20.0
# The longest head of a request that is answered without a slot, and within how many seconds it has to come.
MOST_HEAD, HEAD_SECONDS = 2048, 1.0
# The most nodes of a tree.
NODES = 4096
# How many clients are tried at once; of more slots it is seen that they are counted.
MOST_CLIENTS = 100


def tries(program: str, room: str) -> list[Try]:
    return [
        Try("one store", partial(one_store, program)),
        Try("the lines that are printed", partial(printed, program)),
        Try("slots of each port", partial(slots_of_each, program)),
        Try("as many slots as are asked for", partial(slots_asked_for, program)),
        Try("names", partial(names, program, DOORS[2])),
        Try("names of a page", partial(names, program, DOORS[1])),
        Try("a port that is taken", partial(taken, program)),
        Try("a log of both", partial(log_of_both, program)),
        Try("the state beside slow clients", partial(state_beside_slow, program, ())),
        Try("the same with --busy", partial(state_beside_slow, program, ("--busy",))),
        Try("the same at a page", partial(state_beside_slow_pages, program)),
        Try("the last response of a connection without a slot", partial(last_response, program)),
        Try("who waits without a slot", partial(waits_without_slot, program)),
        Try("who is turned away without a slot", partial(turned_away, program)),
        Try("as many without a slot as there may be", partial(as_many_without_slot, program)),
        Try("the place of who gets a slot", partial(place_left, program)),
        Try("heads about as long as they may be without a slot", partial(longest_head, program)),
        Try("heads that come late without a slot", partial(late_heads, program)),
    ]


def one_store(program: str, tally: Tally) -> None:
    """Lines at both ports in turn: each sees what the lines before have done."""
    store = Store(json.loads(TREE))
    with Both(program) as server, Client(server.http) as client:
        for turn in range(20):
            note_replies(store, ADD + GET, server.talk(ADD + GET), f"turn {turn}, a session", tally)
            note_replies(store, GET + ADD, client.post(GET + ADD).body, f"turn {turn}, a body", tally)


def printed(program: str, tally: Tally) -> None:
    with Both(program) as server:
        wanted = f"listening {HOST}:{server.http} over http\n".encode()
        tally.note("the second line", None if server.second == wanted else f"came {server.second!r}")


def is_answered(port: int) -> bool:
    """Is a session answered before long?"""
    with connected(port) as client:
        client.settimeout(LONGEST)
        client.sendall(GET)
        return client.recv(1) == b"{"


def slots_of_each(program: str, tally: Tally) -> None:
    """Neither port takes slots of the other."""
    with Both(program) as server, ExitStack() as room:
        sessions = [room.enter_context(connected(server.port)) for _ in range(SLOTS)]
        for client in sessions:
            client.sendall(GET)
            tally.note("a session", None if client.recv(1) == b"{" else "it isn't answered")
        with Client(server.http) as client:
            response = client.post(GET)
        tally.note("beside the sessions", None if response.status == 200 else f"came {response}")
        sessions.pop().close()
        for _ in range(HTTP_SLOTS):
            room.enter_context(Client(server.http)).post(GET)
        tally.note("beside the requests", None if is_answered(server.port) else "no answer")


def slots_asked_for(program: str, tally: Tally) -> None:
    """With `--http-seats N` so many connections have a slot, which the metrics say too."""
    for count in (1, 2, 100, 1023, 1024):
        with Both(program, "--http-seats", str(count), "--busy") as server, ExitStack() as room:
            slots = metrics_at(server.http)['grove_connection_slots{protocol="http"}']
            tally.note(f"{count} slots", None if slots == count else f"there are {slots}")
            if count > MOST_CLIENTS:
                continue
            time.sleep(0.2)
            came = [room.enter_context(Client(server.http)).post(GET).status for _ in range(count)]
            tally.note(f"{count} connections", None if came == [200] * count else f"came {came}")
            with Client(server.http) as late:
                response = late.post(GET)
            tally.note(f"one beyond {count}", None if response.status == 503 else f"came {response}")


def names(program: str, door: Door, tally: Tally) -> None:
    """Requests may name a host that `--host` gives, in any case, and no other."""
    given = ("--host", "grove.example", "--host", "Other.Example")
    wanted = {"grove.example": 200, "GROVE.example:80": 200, "other.example": 200, "localhost": 200, HOST: 200}
    wanted |= {"elsewhere.example": 421, "grove.example.": 421, "a.grove.example": 421}
    with door.serving(program, further=given) as server, Client(server.port) as client:
        for host, status in wanted.items():
            response = client.ask("GET", "/health", None, f"host: {host}")
            tally.note(f"the host {host}", None if response.status == status else f"came {response}")


def taken(program: str, tally: Tally) -> None:
    """A server that can't have its second port, or that is told the same one twice, has served nobody, and ends."""
    with socket.create_server((HOST, 0)) as other:
        second = str(other.getsockname()[1])
        wanted = because(f"cannot listen on {HOST}:{second}", errno.EADDRINUSE)
        tally.compare("the port", ended(Serving(program, TREE, further=("--http", second))), wanted)
    port = free_port()
    explained = because(f"cannot listen on {HOST}:{port}", errno.EADDRINUSE)
    for further, wanted in (((), explained), (("--quiet",), DEVICE)):
        server = Serving(program, TREE, port=port, further=("--http", str(port), *further))
        tally.compare(f"the same port twice, {further}", ended(server), wanted)


def ended(server: Serving) -> Ran:
    """How a server ends that nobody stops."""
    out, err = server.started.communicate(timeout=LONGEST)
    server.room.cleanup()
    return Ran(server.started.returncode, out, err)


def log_of_both(program: str, tally: Tally) -> None:
    """Connections are numbered over both ports; each line is an object with its fields in their order."""
    with Both(program) as unused:
        http = unused.http
    with Telling(program, ("--http", str(http), "--log", "json")) as server:
        server.started.stdout.readline()
        wanted = []
        for number in range(1, 11):
            port = http if number % 2 else server.port
            with connected(port) as client:
                wanted.append(f"level=info event=accepted connection={number} address={HOST}:{client.getsockname()[1]}")
                client.sendall(request("GET", "/health") if number % 2 else GET)
                client.shutdown(socket.SHUT_WR)
                with client.makefile("rb") as replies:
                    replies.read()
            why, lines = ("requests-ended", 0) if number % 2 else ("input-ended", 1)
            wanted.append(f"level=info event=ended connection={number} lines={lines} why={why}")
            server.told_of(len(wanted))
        compare(wanted, server.told_of(len(wanted)), tally)


# ---- slow clients


def take_slots(stack: ExitStack, port: int, count: int, begun: bytes) -> list[socket.socket]:
    """Connections that have sent the beginning of something, and no more."""
    clients = [stack.enter_context(connected(port)) for _ in range(count)]
    for client in clients:
        client.sendall(begun)
    return clients


def state_beside_slow(program: str, further: tuple[str, ...], tally: Tally) -> None:
    """Slow clients have all sixteen slots of the one port and all 64 of the other."""
    with Both(program, *further) as server, ExitStack() as stack:
        take_slots(stack, server.port, SLOTS, b'{"batch":[[["add","/a"')
        take_slots(stack, server.http, HTTP_SLOTS, b"POST / HTTP/1.1\r\nhost: 127.0.0.1\r\ncontent-le")
        note_state(server.http, HTTP_SLOTS, tally)


def state_beside_slow_pages(program: str, tally: Tally) -> None:
    """The same at `grove page`, and all samples of as many nodes as a tree may have."""
    rows = [{"name": f"n{number}" if number else "", "parent": 0 if number else None} for number in range(NODES)]
    document = json.dumps({"nodes": [{**row, "weight": 1000} for row in rows]}).encode()
    with Serving(program, document, command="page") as server, ExitStack() as stack:
        take_slots(stack, server.port, SLOTS, b"POST / HTTP/1.1\r\nhost: 127.0.0.1\r\ncontent-le")
        note_state(server.port, SLOTS, tally)
        weights = [key for key in metrics_at(server.port, "?nodes=1") if key.startswith("grove_node_weight")]
        tally.note("the nodes", None if len(weights) == NODES else f"there are {len(weights)}")


def note_state(port: int, slots: int, tally: Tally) -> None:
    """Health and metrics are answered, and soon, though no slot is free."""
    until_well(lambda: late_state(port, tally), "how soon", tally)
    samples = metrics_at(port)
    used = samples['grove_connections{protocol="http"}']
    tally.note("the slots", None if used == slots else f"{used} are in use")


def late_state(port: int, tally: Tally) -> str | None:
    """How late the latest of some looks was answered, if it was late."""
    latest = 0.0
    for turn in range(LOOKS):
        path = ("/health", "/metrics", "/health?x")[turn % 3]
        began = time.monotonic()
        with Client(port) as client:
            response = client.get(path)
        latest = max(latest, time.monotonic() - began)
        is_well = response.status == 200 and (turn % 3 == 1 or response.body == HEALTHY)
        tally.note(path, None if is_well else f"came {response}")
    return f"the latest took {latest:.3f} s" if latest > SOON else None


def last_response(program: str, tally: Tally) -> None:
    """A response without a slot says that the connection ends, whatever the request says, and nothing comes behind it.
    All bytes of the request are counted."""
    with Both(program, "--http-seats", "1") as server, ExitStack() as stack:
        slow = b"POST / HTTP/1.1\r\n"
        take_slots(stack, server.http, 1, slow)
        before = received_at(server.http, len(slow))
        for text in STATES:
            with connected(server.http) as client:
                client.sendall(text + request("GET", "/health"))
                came = b"".join(iter(partial(client.recv, 1000), b""))
            found = [(each.status, each.fields.get(b"connection")) for each in responses_in(came, text[:4] == b"HEAD")]
            tally.note(f"{text!r}", None if found == [(200, b"close")] else f"came {found}")
            after = metrics_at(server.http)[RECEIVED]
            counted, wanted = after - before, len(text) + len(request("GET", "/metrics"))
            tally.note(f"{text!r}", None if counted == wanted else f"wanted {wanted} bytes; came {counted}")
            before = after


def received_at(port: int, others: int) -> float:
    """How many bytes are counted, once so many are beside those of the looks at it."""
    for looks in range(1, MOST_LOOKS):
        received = metrics_at(port)[RECEIVED]
        if received == others + looks * len(request("GET", "/metrics")):
            return received
        time.sleep(0.02)
    raise BadServer(f"{others} bytes are never counted")


def waits_without_slot(program: str, tally: Tally) -> None:
    """Requests of another kind wait for a slot, each in turn, and get one once others leave."""
    with Both(program, "--http-seats", "2") as server, ExitStack() as stack:
        slow = take_slots(stack, server.http, 2, b"POST / HTTP/1.1\r\n")
        late = [stack.enter_context(Client(server.http)) for _ in range(ROOM + 4)]
        for client in late:
            client.send(request("POST", "/", GET, "connection: close"))
        late[0].connection.settimeout(1.5)
        try:
            came = late[0].connection.recv(1)
            tally.note("without a slot", f"came {came!r}")
        except TimeoutError:
            tally.note("without a slot", None)
        late[0].connection.settimeout(LONGEST)
        slow[0].close()
        for number, client in enumerate(late):
            response = client.next()
            tally.note(f"late {number}", None if response and response.status == 200 else f"came {response}")


def turned_away(program: str, tally: Tally) -> None:
    """With `--busy` whoever has no slot and asks for anything else is turned away, and so is whoever says nothing."""
    with Both(program, "--http-seats", "1", "--busy") as server, ExitStack() as stack:
        take_slots(stack, server.http, 1, b"POST / HTTP/1.1\r\n")
        time.sleep(0.2)
        for text in (request("POST", "/", GET), request("GET", "/nodes"), request("GET", "/healthy"), b"GET /hea", b""):
            with connected(server.http) as late:
                late.sendall(text)
                came = b"".join(iter(partial(late.recv, 1000), b""))
            tally.note(f"{text[:20]!r}", None if came.startswith(b"HTTP/1.1 503 ") else f"came {came!r}")
        with Client(server.http) as client:
            tally.note("health", None if client.get("/health").status == 200 else "it isn't answered")


def place_left(program: str, tally: Tally) -> None:
    """Eight wait without a slot and say nothing. A ninth waits in the system until one of them gets the slot, and keeps
    it: then the ninth has the place that is left, though nobody leaves."""
    for turn in range(PLACES_LEFT):
        with Both(program, "--http-seats", "1") as server, ExitStack() as stack:
            slow = take_slots(stack, server.http, 1, b"POST / HTTP/1.1\r\n")
            time.sleep(SOON)
            take_slots(stack, server.http, ROOM, b"")
            late = stack.enter_context(Client(server.http))
            late.send(request("GET", "/health"))
            time.sleep(HEAD_SECONDS * 1.5)
            slow[0].close()
            late.connection.settimeout(LONG)
            response = late.next()
            tally.note(f"turn {turn}", None if response and response.status == 200 else f"came {response}")


def as_many_without_slot(program: str, tally: Tally) -> None:
    """Beside seven that wait the state is told, and beside eight it waits too, until one of those gets a slot."""
    for begun in (b"", b"GET /healthy"):
        with Both(program, "--http-seats", "1") as server, ExitStack() as stack:
            slow = take_slots(stack, server.http, 1, b"POST / HTTP/1.1\r\n")
            late = [stack.enter_context(Client(server.http)) for _ in range(ROOM - 1)]
            for client in late:
                client.send(begun or request("POST", "/", GET))
            time.sleep(HEAD_SECONDS * 1.5)
            note_state(server.http, 1, tally)
            late.append(stack.enter_context(Client(server.http)))
            late[-1].send(begun or request("POST", "/", GET))
            probe = stack.enter_context(Client(server.http))
            probe.send(request("GET", "/health"))
            probe.connection.settimeout(HEAD_SECONDS * 1.5)
            try:
                tally.note("beside eight", f"came {probe.connection.recv(1)!r}")
            except TimeoutError:
                tally.note("beside eight", None)
            probe.connection.settimeout(LONGEST)
            for client in (*slow, *(each.connection for each in late)):
                client.shutdown(socket.SHUT_RDWR)
            came = probe.next()
            tally.note("the one that waited", None if came and came.status == 200 else f"came {came}")


def head_of(size: int) -> bytes:
    """A request for the state with a head of so many bytes."""
    return request("GET", "/health", None, "x: " + "x" * (size - len(request("GET", "/health", None, "x: "))))


def longest_head(program: str, tally: Tally) -> None:
    with Both(program, "--http-seats", "1", "--busy") as server, ExitStack() as stack:
        take_slots(stack, server.http, 1, b"POST / HTTP/1.1\r\n")
        time.sleep(0.2)
        for size, status in ((MOST_HEAD - 1, 200), (MOST_HEAD, 200), (MOST_HEAD + 1, 503)):
            with Client(server.http) as client:
                client.send(head_of(size))
                came = client.next()
            tally.note(f"a head of {size} bytes", None if came.status == status else f"came {came}")


def late_heads(program: str, tally: Tally) -> None:
    """A head that comes in two parts, soon behind each other and not: its beginning alone is waited for no longer."""
    with Both(program, "--http-seats", "1", "--busy") as server, ExitStack() as stack:
        take_slots(stack, server.http, 1, b"POST / HTTP/1.1\r\n")
        time.sleep(0.2)
        with Client(server.http) as client:
            client.send(request("GET", "/health")[:9])
            time.sleep(HEAD_SECONDS / 4)
            client.send(request("GET", "/health")[9:])
            came = client.next()
        tally.note("soon", None if came.status == 200 else f"came {came}")
        for begun in (b"", request("GET", "/health")[:9]):
            until_well(partial(long_look_at, server.http, begun, tally), f"how long {begun!r} is looked at", tally, 5)


def long_look_at(port: int, begun: bytes, tally: Tally) -> str | None:
    """How long the beginning of a head is looked at, if that is longer than it should be."""
    with Client(port) as client:
        client.send(begun)
        started = time.monotonic()
        came = client.next()
        took = time.monotonic() - started
    tally.note(f"{begun!r} alone", None if came.status == 503 else f"came {came}")
    tally.note(f"how soon {begun!r} is given up", None if took >= HEAD_SECONDS * 0.9 else f"it took {took:.2f} s")
    return f"it took {took:.2f} s" if took > HEAD_SECONDS * 2 else None
