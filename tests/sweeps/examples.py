"""The documents of examples/ and those refused in each way: named and on standard input, the output that is right. The
session of examples/, by the client of bindings/python; each call of that client and of the one for asyncio, and how it
ends if the server is lost."""

from __future__ import annotations

import asyncio
import json
import os
import re
import socket
import sys
import threading
from functools import partial
from pathlib import Path

from server import HOST, Serving, free_port

from sweeps.documents import EXAMPLES, Asked, certified_examples, examples, refused, too_many
from sweeps.program import Ran, Tally, Try, run

TRIED = "answers compared with those that are right"
# Where the client's package is.
PACKAGES = str(Path(__file__).resolve().parents[2] / "bindings/python")


def tries(program: str, room: str) -> list[Try]:
    documents = examples() + certified_examples() + refused() + [too_many()]
    parts = [Try(asked.name, partial(compare, program, f"{room}/{at}", asked)) for at, asked in enumerate(documents)]
    return parts + [
        Try("a session", partial(ask_lines, program)),
        Try("the client's calls", partial(call_client, program)),
        Try("the calls of asyncio's client", partial(call_async_client, program)),
        Try("a client without a server", lose_server),
        Try("the plans of hot_root.json", partial(plan_again, program)),
        Try("hot_root.py", run_hot_root),
    ]


def compare(program: str, file: str, asked: Asked, tally: Tally) -> None:
    with open(file, "wb") as it:
        it.write(asked.text)
    tally.note("on standard input", asked.fault(run(program, *asked.words, text=asked.text)))
    tally.note("in a named file", asked.fault(run(program, *asked.words, file)))


def ask_lines(program: str, tally: Tally) -> None:
    lines, replies = ((EXAMPLES / f"orders.{kind}").read_bytes() for kind in ("lines", "replies"))
    with Serving(program, (EXAMPLES / "orders.json").read_bytes(), workers=4) as server:
        tally.compare("by the client", run_client(server.port, lines), Ran(1, replies, b""))
        wanted = b'{"places":[],"replies":[],"round":3}\n'
        tally.compare("no refusal", run_client(server.port, b'{"batch":[]}\n'), Ran(0, wanted, b""))


def run_client(port: int | str, lines: bytes = b"") -> Ran:
    surroundings = {**os.environ, "PYTHONPATH": PACKAGES, "PYTHONDONTWRITEBYTECODE": "1"}
    return run(sys.executable, "-m", "pickbracken.client", str(port), text=lines, env=surroundings)


def call_client(program: str, tally: Tally) -> None:
    """What each method of the client gives, of the tree of two leaves; the answers are those of docs/SESSIONS.md."""
    need_packages()
    from pickbracken import Access, FlowRow, Plan, Refused, Step
    from pickbracken.client import Client, Round

    def equal(what: str, came: object, wanted: object) -> None:
        tally.note(what, None if came == wanted else f"wanted {wanted}; came {came}")

    def refusal(asked: list) -> str:
        try:
            return str(client.plan(asked))
        except Refused as refused:
            return f"refused {refused}"

    leaf = [Access.get("/a")]
    row = FlowRow("/a", above=0, held=0, first=1, last=1, own=0)
    plan = Plan(1, (Step.lock("/a"), Step.access(0), Step.unlock("/a")), (row,))
    with Serving(program, (EXAMPLES / "two-leaves.json").read_bytes()) as server, Client(server.port) as client:
        equal("batch", client.batch([Access.add("/a", 1), *leaf]), Round((0,), ((11, 11),), 1))
        equal("plan", client.plan(leaf), plan)
        equal("check", client.check(leaf, plan), 1)
        equal("weights", client.weights(), ((5, 1, 1), (0, 0, 0)))
        equal("reweigh", client.reweigh(), 1)
        equal("a refusal", refusal([Access.get("/c")]), "refused no-path")


def call_async_client(program: str, tally: Tally) -> None:
    """The same by tasks that share a connection, and the session of examples/, whose lines go ahead of the replies."""
    need_packages()
    from pickbracken import Access, Refused
    from pickbracken.async_client import AsyncClient
    from pickbracken.client import Lost

    def equal(what: str, came: object, wanted: object) -> None:
        tally.note(what, None if came == wanted else f"wanted {wanted}; came {came}")

    async def ask_all(client: AsyncClient) -> None:
        adds = await asyncio.gather(*(client.batch([Access.add("/a", 1)]) for _ in range(500)))
        equal("500 tasks", sorted(round_.replies[0][0] for round_ in adds), list(range(11, 511)))
        leaf = [Access.get("/a")]
        plan = await client.plan(leaf)
        equal("check", await client.check(leaf, plan), 1)
        equal("weights", await client.weights(), ((5, 1, 1), (0, 0, 0)))
        equal("reweigh", await client.reweigh(), 1)
        refused = await asyncio.gather(client.plan([Access.get("/c")]), return_exceptions=True)
        equal("a refusal", [(type(why), str(why)) for why in refused], [(Refused, "no-path")])

    async def ask_lines(port: int) -> list[bytes]:
        async with AsyncClient(port, seconds=60) as client:
            lines = (EXAMPLES / "orders.lines").read_bytes().splitlines()
            return [reply async for reply in client.send_all(lines)]

    async def ask(port: int) -> None:
        async with AsyncClient(port, seconds=60) as client:
            await ask_all(client)

    async def lose(server: Serving) -> str:
        async with AsyncClient(server.port, seconds=60) as client:
            await client.weights()
            server.started.kill()
            try:
                return str(await client.weights())
            except Lost as why:
                return f"lost, without {why.unanswered} replies"

    with Serving(program, (EXAMPLES / "two-leaves.json").read_bytes(), workers=4) as server:
        asyncio.run(ask(server.port))
    with Serving(program, (EXAMPLES / "orders.json").read_bytes(), workers=4) as server:
        equal("a session", asyncio.run(ask_lines(server.port)), (EXAMPLES / "orders.replies").read_bytes().splitlines())
        equal("a server that is killed", asyncio.run(lose(server)), "lost, without 1 replies")


def need_packages() -> None:
    if PACKAGES not in sys.path:
        sys.path.append(PACKAGES)


def plan_again(program: str, tally: Tally) -> None:
    """The plan of each job is the one that `grove plan` prints for its list."""
    found = json.loads((EXAMPLES / "hot_root.json").read_text())
    for at, job in enumerate(found["jobs"]):
        asked = json.dumps({"nodes": found["nodes"], "list": job["list"]}).encode()
        lines = run(program, "plan", text=asked).out.decode().splitlines()
        planned = [json.loads(line.removeprefix("plan ")) for line in lines if line.startswith("plan ")]
        tally.note(f"job {at}", None if planned == [job["plan"]] else f"its plan is {planned}")


def run_hot_root(tally: Tally) -> None:
    """The example runs, and its last line has both times."""
    ran = run(sys.executable, str(EXAMPLES / "hot_root.py"), "1")
    told = re.search(rb"\nrecord locks [\d.]+ s, settled plans [\d.]+ s: [\d.]+ times as fast\n$", ran.out)
    tally.note("its last line", None if ran.status == 0 and told else f"came {ran}")


def lose_server(tally: Tally) -> None:
    """Nobody listens; a server that reads a line and closes; arguments that name no port."""
    tally.note("no server", lost(run_client(free_port(), b"{}\n")))
    with socket.create_server((HOST, 0)) as listener:
        closing = threading.Thread(target=read_and_close, args=[listener])
        closing.start()
        tally.note("a server that closes", lost(run_client(listener.getsockname()[1], b"{}\n{}\n")))
        closing.join()
    usage = b"usage: python3 -m pickbracken.client PORT < LINES\n"
    tally.compare("no port", run_client("here"), Ran(2, b"", usage))


def read_and_close(listener: socket.socket) -> None:
    connection, _ = listener.accept()
    with connection:
        connection.recv(1)


def lost(ran: Ran) -> str | None:
    """Status 3, no output, and one line that says why."""
    told = ran.err.startswith(b"pickbracken.client: ") and ran.err.count(b"\n") == 1
    return None if ran.status == 3 and not ran.out and told else f"came {ran}"
