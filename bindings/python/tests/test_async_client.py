"""The client of an event loop, at servers that answer as each test says, and at one that has a store."""

from __future__ import annotations

import asyncio
import json
import random
import socket
import unittest
from contextlib import asynccontextmanager
from typing import Any, AsyncIterator, Awaitable, Callable, List, Optional

from pickbracken import Access, Refused, Reply, Store
from pickbracken.async_client import AsyncClient
from pickbracken.client import AHEAD, Lost

from test_kept import STOCK

Answer = Callable[[asyncio.StreamReader, asyncio.StreamWriter], Awaitable[None]]


@asynccontextmanager
async def at_port(answer: Answer) -> AsyncIterator[int]:
    """The port of a server; each connection is closed once it is answered."""

    async def serve(source: asyncio.StreamReader, sink: asyncio.StreamWriter) -> None:
        try:
            await answer(source, sink)
        except ConnectionError:
            pass
        finally:
            sink.close()

    server = await asyncio.start_server(serve, "127.0.0.1", 0, limit=1 << 21)
    try:
        yield server.sockets[0].getsockname()[1]
    finally:
        server.close()


@asynccontextmanager
async def served(answer: Answer, seconds: Optional[float] = None) -> AsyncIterator[AsyncClient]:
    """A client of such a server."""
    async with at_port(answer) as port, AsyncClient(port, seconds=seconds) as client:
        yield client


def replying(*replies: bytes, seen: List[bytes]) -> Answer:
    """Answers each line with the next reply, and then closes."""

    async def answer(source: asyncio.StreamReader, sink: asyncio.StreamWriter) -> None:
        for reply in replies:
            seen.append(await source.readline())
            sink.write(reply + b"\n")
            await sink.drain()

    return answer


async def echo(source: asyncio.StreamReader, sink: asyncio.StreamWriter) -> None:
    """Answers each line with what it was, a moment later."""
    while line := await source.readline():
        await asyncio.sleep(0)
        sink.write(b'{"echo":' + line.rstrip() + b"}\n")
        await sink.drain()


def of_store(store: Store) -> Answer:
    async def answer(source: asyncio.StreamReader, sink: asyncio.StreamWriter) -> None:
        while line := await source.readline():
            sink.write(store.answer(line.rstrip(b"\n")) + b"\n")
            await sink.drain()

    return answer


async def silence(source: asyncio.StreamReader, _: asyncio.StreamWriter) -> None:
    while await source.readline():
        pass


class Tasks(unittest.IsolatedAsyncioTestCase):
    async def test_each_gets_the_replies_to_its_own_lines(self) -> None:
        async def use(client: AsyncClient, task: int) -> int:
            right = 0
            for number in range(100):
                line = b"[%d,%d]" % (task, number)
                right += await client.send(line) == b'{"echo":' + line + b"}"
            return right

        async def use_all(client: AsyncClient, task: int) -> int:
            lines = [b"[%d,%d]" % (task, number) for number in range(100)]
            replies = [reply async for reply in client.send_all(lines)]
            return sum(reply == b'{"echo":' + line + b"}" for line, reply in zip(lines, replies))

        async with served(echo) as client:
            counts = await asyncio.gather(*(use(client, n) for n in range(8)), *(use_all(client, n) for n in range(8)))
        self.assertEqual(counts, [100] * 16)

    async def test_lines_do_not_wait_for_the_replies_of_others(self) -> None:
        came: List[bytes] = []

        async def answer(source: asyncio.StreamReader, sink: asyncio.StreamWriter) -> None:
            """Replies once three lines are there."""
            came.extend([await source.readline() for _ in range(3)])
            sink.write(b"{1}\n{2}\n{3}\n")

        async with served(answer) as client:
            replies = await asyncio.gather(*(client.send(b"%d" % number) for number in range(3)))
        self.assertEqual((came, replies), ([b"0\n", b"1\n", b"2\n"], [b"{1}", b"{2}", b"{3}"]))

    async def test_a_cancelled_task_leaves_its_reply_to_nobody(self) -> None:
        drawn, right = random.Random(1), 0

        async def use(client: AsyncClient, number: int) -> None:
            nonlocal right
            reply = await client.send(b"%d" % number)
            assert reply == b'{"echo":%d}' % number, (number, reply)
            right += 1

        async with served(echo) as client:
            tasks = [asyncio.ensure_future(use(client, number)) for number in range(200)]
            for _ in range(20):
                await asyncio.sleep(0)
                drawn.choice(tasks).cancel()
            ended = await asyncio.gather(*tasks, return_exceptions=True)
            cancelled = sum(isinstance(why, asyncio.CancelledError) for why in ended)
            self.assertEqual(right + cancelled, 200)
            self.assertGreater(cancelled, 0)
            self.assertEqual(await client.send(b"7"), b'{"echo":7}')


class Clients(unittest.IsolatedAsyncioTestCase):
    async def test_requests_are_those_of_a_store(self) -> None:
        with Store(STOCK) as store, Store(STOCK) as other:
            async with served(of_store(store)) as client:
                lists = ([Access.get("/a"), Access.set("/b", 3)], [Access.take("/b", 4)])
                told = await client.batch(*lists)
                self.assertEqual(told, other.batch(*lists))
                self.assertEqual(told.replies, ((10, Reply.STORED), (Reply.SHORT,)))
                accesses = [Access.get("/a"), Access.add("/b", 1).lasting(2)]
                planned = await client.plan(accesses)
                self.assertEqual(planned, other.plan(accesses))
                self.assertEqual(await client.check(accesses, planned), planned.cost)
                self.assertEqual(await client.weights(), ((5, 1, 1), (0, 0, 0)))
                self.assertEqual(await client.reweigh(), 1)
                with self.assertRaises(Refused) as caught:
                    await client.plan([Access.get("/c")])
                self.assertEqual((caught.exception.name, caught.exception.hint), ("no-path", None))

    async def test_tasks_share_a_store(self) -> None:
        with Store(STOCK) as store:
            async with served(of_store(store)) as client:
                rounds = await asyncio.gather(*(client.batch([Access.add("/a", 1)]) for _ in range(300)))
        self.assertEqual(sorted(round_.replies[0][0] for round_ in rounds), list(range(11, 311)))

    async def test_a_refusal_has_the_hint_of_its_reply(self) -> None:
        async with served(replying(b'{"error":"no-path","hint":"plan 0: no"}', seen=[])) as client:
            with self.assertRaises(Refused) as caught:
                await client.plan([Access.get("/c")])
        self.assertEqual((caught.exception.name, caught.exception.hint), ("no-path", "plan 0: no"))

    async def test_lines_are_sent_ahead(self) -> None:
        """So many that a server whose replies nobody read would stop reading."""
        seen: List[bytes] = []
        lines = [b"{%d" % number + b"x" * 1000 for number in range(2000)]
        async with served(replying(*(line * 3 for line in lines), seen=seen)) as client:
            ahead, at = 0, 0
            async for reply in client.send_all(lines):
                self.assertEqual(reply, lines[at] * 3)
                at += 1
                ahead = max(ahead, len(client.waiting))
        self.assertEqual((at, len(seen)), (2000, 2000))
        self.assertTrue(1 < ahead <= AHEAD // 1000)

    async def test_who_takes_no_more_leaves_the_replies_to_nobody(self) -> None:
        seen: List[bytes] = []
        async with served(replying(b"{1}", b"{2}", b"{3}", b"{4}", seen=seen)) as client:
            replies = client.send_all([b"a", b"b", b"c"])
            self.assertEqual(await replies.__anext__(), b"{1}")
            await replies.aclose()  # type: ignore[attr-defined]
            strange: List[Any] = ["text", None, b"two\nlines"]
            for line, kind in zip(strange, (TypeError, TypeError, ValueError)):
                with self.assertRaises(kind):
                    await client.send(line)
            self.assertEqual(await client.send(b"d"), b"{4}")
        self.assertEqual(seen, [b"a\n", b"b\n", b"c\n", b"d\n"])

    async def test_long_replies_come_whole(self) -> None:
        long = b"{" + b"x" * 5_000_000
        async with served(replying(long, b"{1}", seen=[])) as client:
            self.assertEqual([await client.send(b"a"), await client.send(b"b")], [long, b"{1}"])


class Losses(unittest.IsolatedAsyncioTestCase):
    async def test_what_has_no_reply_is_told(self) -> None:
        async def answer(source: asyncio.StreamReader, sink: asyncio.StreamWriter) -> None:
            for _ in range(5):
                await source.readline()
            sink.write(b"{1}\n{2}\n")
            await sink.drain()

        async with served(answer) as client:
            replies = client.send_all([b"a", b"b", b"c", b"d", b"e"])
            self.assertEqual([await replies.__anext__(), await replies.__anext__()], [b"{1}", b"{2}"])
            with self.assertRaises(Lost) as caught:
                await replies.__anext__()
            why = "the server closed the connection before it had answered"
            self.assertEqual((str(caught.exception), caught.exception.unanswered), (why, 3))
            with self.assertRaises(Lost) as caught:
                await client.send(b"f")
            self.assertEqual((str(caught.exception), caught.exception.unanswered), (why, 1))

    async def test_each_task_is_told(self) -> None:
        async with served(replying(b"{1}", seen=[])) as client:
            ended = await asyncio.gather(*(client.send(b"a") for _ in range(5)), return_exceptions=True)
        self.assertEqual(ended[0], b"{1}")
        self.assertEqual([type(why) for why in ended[1:]], [Lost] * 4)

    async def test_replies_come_that_came_before_the_end(self) -> None:
        async with served(replying(b"{1}", b"{2}", seen=[])) as client:
            told = []
            with self.assertRaises(Lost) as caught:
                async for reply in client.send_all(b"%0200d" % number for number in range(1_000_000)):
                    told.append(reply)
            self.assertEqual(told, [b"{1}", b"{2}"])
            self.assertGreater(caught.exception.unanswered, 0)

    async def test_a_server_that_takes_too_long_is_lost(self) -> None:
        async with served(silence, seconds=0.05) as client:
            ended = await asyncio.gather(client.reweigh(), client.send(b"{}"), return_exceptions=True)
            self.assertEqual([str(why) for why in ended], ["the server is lost: timed out"] * 2)

    async def test_a_server_that_reads_nothing_is_lost(self) -> None:
        ended = asyncio.Event()

        async def wait(_: asyncio.StreamReader, sink: asyncio.StreamWriter) -> None:
            await ended.wait()

        async with served(wait, seconds=0.2) as client:
            long = b'{"x":"' + b"x" * 16_000_000 + b'"}'
            with self.assertRaises(Lost):
                await asyncio.wait_for(client.send(long), 60)
            await asyncio.wait_for(client.close(), 60)
            ended.set()

    async def test_a_server_of_something_else_is_lost(self) -> None:
        for line, why in ((b"HTTP/1.1 400", "it speaks HTTP"), (b"", "what it said is no JSON object")):
            async with served(replying(line, seen=[])) as client:
                with self.assertRaises(Lost) as caught:
                    await client.weights()
            self.assertEqual(str(caught.exception), f"no reply of the server: {why}")

    async def test_a_closed_client_says_so(self) -> None:
        async with served(silence) as client:
            waiting = asyncio.ensure_future(client.send(b"{}"))
            await asyncio.sleep(0.01)
            await client.close()
            await client.close()
            for asked in (waiting, client.send(b"{}"), client.connect()):
                with self.assertRaises(Lost) as caught:
                    await asked
                self.assertEqual(str(caught.exception), "the client is closed")

    async def test_there_may_be_no_server(self) -> None:
        with socket.create_server(("127.0.0.1", 0)) as listener:
            port = listener.getsockname()[1]
        with self.assertRaises(Lost):
            await AsyncClient(port).connect()
        with self.assertRaises(Lost) as caught:
            await AsyncClient(port).send(b"{}")
        self.assertEqual(str(caught.exception), "the client isn't connected")
        for number in (0, 65_536, -1):
            with self.assertRaises(ValueError):
                AsyncClient(number)


if __name__ == "__main__":
    unittest.main()
