#!/usr/bin/env python3
"""quotas_web.py PORT: charges quotas of an organisation, a region, a team and a user, over HTTP, by asyncio alone.

    GET /eu/search/ann

takes one from the quotas at `/`, `/eu`, `/eu/search` and `/eu/search/ann`, in this order, and replies what they have
left. Each is kept by something slow, such as a database, and is read and then written. `AsyncLocks` of bindings/python
keeps others away from each quota meanwhile, and from no quota longer than that: the next request charges `/` while this
one is at `/eu`. The reply is 429 if a quota is used up, and 503 if they aren't had within ten seconds; what was charged
before is then given back. PORT may be 0; the port is printed.
"""
from __future__ import annotations

import asyncio
import json
import sys
from pathlib import Path

sys.path.append(str(Path(__file__).resolve().parent.parent / "bindings/python"))
from pickbracken import AsyncLocks, TimedOut  # noqa: E402

SECONDS = 0.002
TEAMS = ["/eu/search", "/eu/shop", "/us/search", "/us/shop"]
USERS = [f"{team}/{user}" for team in TEAMS for user in ("ann", "bob")]
QUOTAS = {"/": 300, "/eu": 200, "/us": 100}
# A node weighs as much as users go through it.
WEIGHTS = {"/": 8, "/eu": 4, "/us": 4, **dict.fromkeys(TEAMS, 2), **dict.fromkeys(USERS, 1)}


class UsedUp(Exception):
    """Nothing is left of the quota at this path."""


class Quotas:
    """What each quota has left, and the locks by which it's changed."""

    def __init__(self) -> None:
        self.left = {path: QUOTAS.get(path, 50) for path in WEIGHTS}
        self.locks = AsyncLocks(WEIGHTS)

    async def change(self, path: str, amount: int) -> int:
        """Reads a quota and writes what it then has, which takes a while each."""
        await asyncio.sleep(SECONDS / 2)
        left = self.left[path] + amount
        if left < 0:
            raise UsedUp(path)
        await asyncio.sleep(SECONDS / 2)
        self.left[path] = left
        return left

    async def charge(self, user: str) -> dict[str, int]:
        """Charges all quotas from the root down to a user's, and gives what is left of each."""
        left: dict[str, int] = {}
        try:
            async with self.locks.transaction(way_down(user), timeout=10) as accesses:
                async for _, path in accesses:
                    left[path] = await self.change(path, -1)
        except (UsedUp, TimedOut):
            # Others have seen what was charged, so it isn't undone but given back.
            await self.locks.run(list(left), lambda _, path: self.change(path, 1))
            raise
        return left


def way_down(path: str) -> list[str]:
    names = path.split("/")
    return ["/".join(names[:depth]) or "/" for depth in range(1, len(names) + 1)]


async def answer(quotas: Quotas, path: str) -> tuple[str, object]:
    """The status and the reply of a request."""
    if path not in USERS:
        return "404 Not Found", {"error": "no such user"}
    try:
        return "200 OK", {"left": await quotas.charge(path)}
    except UsedUp as why:
        return "429 Too Many Requests", {"error": "used up", "quota": str(why)}
    except TimedOut as why:
        return "503 Service Unavailable", {"error": "busy", "quota": why.path}


async def serve(quotas: Quotas, source: asyncio.StreamReader, sink: asyncio.StreamWriter) -> None:
    """Answers one request of a connection."""
    try:
        head = await source.readuntil(b"\r\n\r\n")
        words = head.decode("latin-1").split(" ", 2)
        status, reply = await answer(quotas, words[1] if len(words) == 3 else "")
        body = json.dumps(reply).encode() + b"\n"
        fields = f"content-type: application/json\r\ncontent-length: {len(body)}\r\nconnection: close\r\n"
        sink.write(f"HTTP/1.1 {status}\r\n{fields}\r\n".encode() + body)
        await sink.drain()
    except (asyncio.IncompleteReadError, asyncio.LimitOverrunError, ConnectionError):
        pass
    finally:
        sink.close()


async def main(port: int) -> None:
    quotas = Quotas()
    server = await asyncio.start_server(lambda source, sink: serve(quotas, source, sink), "127.0.0.1", port)
    host, port = server.sockets[0].getsockname()
    print(f"listening {host}:{port}", flush=True)
    async with server:
        await server.serve_forever()


if __name__ == "__main__":
    if len(sys.argv) != 2 or not sys.argv[1].isdecimal():
        sys.exit("usage: quotas_web.py PORT")
    try:
        asyncio.run(main(int(sys.argv[1])))
    except KeyboardInterrupt:
        pass
