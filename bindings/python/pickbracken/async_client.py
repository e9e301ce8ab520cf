"""A client of `grove serve` for the tasks of an event loop, with the methods of `pickbracken.client`, awaited.

    async with AsyncClient(7777) as client:
        print((await client.batch([Access.get("/bulbs"), Access.take("/bulbs", 1)])).replies)

Nothing is sent twice, as there.
"""

from __future__ import annotations

import asyncio
from collections import deque
from types import TracebackType
from typing import AsyncIterator, Deque, Iterable, Optional, Type

from .client import AHEAD, Lost, need_port, no_reply, with_end
from .requests import AsyncRequests

__all__ = ["AsyncClient"]

# A reply may be so long.
MOST_REPLY = 1 << 26
UNCONNECTED = "the client isn't connected"

class AsyncClient(AsyncRequests):
    """A connection to a server, from `connect` or the beginning of its block on. With `seconds`, a server that gives no
    answer for so long is lost.

    Any number of tasks may share a client. None waits for the replies of others before its line is sent, and each gets
    the replies to its own lines. A task that is cancelled leaves its reply to nobody; its line may have had its
    effect. `Lost` counts the lines of the task that have no reply."""

    def __init__(self, port: int, host: str = "127.0.0.1", seconds: Optional[float] = None) -> None:
        need_port(port)
        self.port, self.host, self.seconds = port, host, seconds
        self.source: Optional[asyncio.StreamReader] = None
        self.sink: Optional[asyncio.StreamWriter] = None
        # Those who wait for a reply, in the order of their lines; and who reads the replies, while there are any.
        self.waiting: Deque[asyncio.Future[bytes]] = deque()
        self.reading: Optional[asyncio.Task[None]] = None
        # Why no line is sent any more.
        self.over = UNCONNECTED

    async def connect(self) -> AsyncClient:
        """Connects to the server, once."""
        if self.over != UNCONNECTED:
            raise Lost(self.over or "the client is connected")
        opening = asyncio.open_connection(self.host, self.port, limit=MOST_REPLY)
        try:
            self.source, self.sink = await asyncio.wait_for(opening, self.seconds)
        except (OSError, asyncio.TimeoutError) as error:
            raise Lost(f"no server at {self.host}:{self.port}: {reason(error)}") from error
        self.over = ""
        return self

    async def __aenter__(self) -> AsyncClient:
        return await self.connect()

    async def __aexit__(
        self, kind: Optional[Type[BaseException]], error: Optional[BaseException], trace: Optional[TracebackType]
    ) -> None:
        await self.close()

    async def close(self) -> None:
        """Closes the connection. Whoever waits for a reply gets `Lost`."""
        self.end("the client is closed")
        if self.reading is not None:
            self.reading.cancel()
            await asyncio.wait([self.reading])
        if self.sink is not None:
            try:
                await self.sink.wait_closed()
            except OSError:
                pass

    async def send(self, line: bytes) -> bytes:
        """The reply to a line, both without a line feed."""
        reply = self.put(with_end(line))
        try:
            await self.drain()
            return await reply
        finally:
            reply.cancel()

    async def send_all(self, lines: Iterable[bytes]) -> AsyncIterator[bytes]:
        """The reply to each of the lines, in order; lines are sent ahead of the replies, up to AHEAD bytes. What comes
        of one line can be used for the next only if each is sent by itself."""
        sent: Deque[asyncio.Future[bytes]] = deque()
        lengths: Deque[int] = deque()
        ahead = 0
        try:
            for line in lines:
                ended = with_end(line)
                while sent and ahead + len(ended) > AHEAD:
                    ahead -= lengths.popleft()
                    yield await first(sent)
                if sent and self.over:
                    break
                sent.append(self.put(ended))
                lengths.append(len(ended))
                ahead += len(ended)
                await self.drain()
            while sent:
                yield await first(sent)
        finally:
            for reply in sent:
                reply.cancel()

    def put(self, ended: bytes) -> asyncio.Future[bytes]:
        """Sends a line, and gives its reply, which is to be awaited."""
        if self.over or self.sink is None:
            raise Lost(self.over, 1)
        reply: asyncio.Future[bytes] = asyncio.get_running_loop().create_future()
        self.waiting.append(reply)
        self.sink.write(ended)
        if self.reading is None:
            self.reading = asyncio.ensure_future(self.read())
        return reply

    async def drain(self) -> None:
        """Waits until the server takes more. One that takes none may have replied to what it took."""
        try:
            if self.sink is not None:
                await self.sink.drain()
        except OSError:
            pass

    async def read(self) -> None:
        """Hands out the replies until nobody waits for one."""
        while self.waiting and self.source is not None:
            try:
                reply = await asyncio.wait_for(self.source.readline(), self.seconds)
            except (OSError, ValueError, asyncio.TimeoutError) as error:
                return self.end(f"the server is lost: {reason(error)}")
            if not reply.endswith(b"\n"):
                return self.end("the server closed the connection before it had answered")
            if not reply.startswith(b"{"):
                return self.end(no_reply(reply))
            whose = self.waiting.popleft()
            if not whose.done():
                whose.set_result(reply[:-1])
        self.reading = None

    def end(self, why: str) -> None:
        """Closes the connection, and tells those who wait."""
        if self.over in ("", UNCONNECTED):
            self.over = why
        if self.sink is not None:
            # (To close it would wait until a server that reads nothing has read all.)
            self.sink.transport.abort()
        for reply in self.waiting:
            if not reply.done():
                reply.set_exception(Lost(why, 1))
        self.waiting.clear()


async def first(sent: Deque[asyncio.Future[bytes]]) -> bytes:
    """The first of the replies that a task waits for."""
    try:
        reply = await sent[0]
    except Lost as why:
        raise Lost(str(why), len(sent)) from why
    sent.popleft()
    return reply


def reason(error: Exception) -> str:
    """What an error says; one of time says nothing."""
    return str(error) or "timed out"
