"""The client, at servers that answer as each test says."""

import socket
import subprocess
import sys
import threading
import time
import unittest
from contextlib import contextmanager, suppress
from typing import Any, Callable, Iterator, List, Optional

from pickbracken import Access, FlowRow, Plan, Refused, Reply, Step
from pickbracken.client import AHEAD, Client, InUse, Lost

FLOW = b'[{"above":0,"first":1,"held":0,"last":1,"node":"/a","own":0}]'
HTTP = b"HTTP/1.1 400 Bad Request\r"
PLAN = b'{"cost":1,"flow":%s,"plan":[["lock","/a"],["access",0]]}' % FLOW


@contextmanager
def at_port(answer: Callable[[socket.socket], None]) -> Iterator[int]:
    """The port of a server that takes one connection."""
    with socket.create_server(("127.0.0.1", 0)) as listener:
        serving = threading.Thread(target=lambda: serve(listener, answer))
        serving.start()
        yield listener.getsockname()[1]
        serving.join()


@contextmanager
def served(answer: Callable[[socket.socket], None], seconds: Optional[float] = None) -> Iterator[Client]:
    """A client of such a server."""
    with at_port(answer) as port, Client(port, seconds=seconds) as client:
        yield client


def serve(listener: socket.socket, answer: Callable[[socket.socket], None]) -> None:
    connection, _ = listener.accept()
    with connection:
        answer(connection)


def replying(*replies: bytes, seen: List[bytes]) -> Callable[[socket.socket], None]:
    """Answers each line with the next reply, and then closes."""

    def answer(connection: socket.socket) -> None:
        source = connection.makefile("rb")
        for reply in replies:
            seen.append(source.readline())
            connection.sendall(reply + b"\n")

    return answer


def echo(connection: socket.socket) -> None:
    """Answers each line with what it was, a moment later, until nobody takes that any more."""
    with suppress(OSError):
        for line in connection.makefile("rb"):
            time.sleep(0.0005)
            connection.sendall(b'{"echo":' + line.rstrip() + b"}\n")


def lines_of(thread: int, count: int) -> List[bytes]:
    return [b"[%d,%d]" % (thread, number) for number in range(count)]


class Threads(unittest.TestCase):
    def test_each_gets_the_replies_to_its_own_lines(self) -> None:
        wrong: List[Any] = []

        def use(client: Client, thread: int) -> None:
            for line in lines_of(thread, 200):
                reply = client.send(line)
                if reply != b'{"echo":' + line + b"}":
                    wrong.append((line, reply))

        with served(echo) as client:
            threads = [threading.Thread(target=use, args=(client, number)) for number in range(4)]
            for thread in threads:
                thread.start()
            for thread in threads:
                thread.join()
        self.assertEqual(wrong, [])

    def test_who_takes_replies_one_by_one_is_left_alone(self) -> None:
        came: List[Any] = []

        def use(client: Client) -> None:
            calls: List[Callable[[], bytes]] = [
                lambda: client.send(b"[]"),
                lambda: next(client.send_all([b"[]"])),
            ]
            for call in calls:
                try:
                    came.append(call())
                except InUse:
                    came.append("in use")

        def in_another_thread(client: Client) -> None:
            thread = threading.Thread(target=use, args=(client,))
            thread.start()
            thread.join()

        with served(echo) as client:
            replies = client.send_all(lines_of(1, 3))
            first = next(replies)
            in_another_thread(client)
            rest = [first, *replies]
            in_another_thread(client)
        self.assertEqual(rest, [b'{"echo":' + line + b"}" for line in lines_of(1, 3)])
        self.assertEqual(came, ["in use", "in use", b'{"echo":[]}', b'{"echo":[]}'])


    def test_one_that_waits_is_lost_once_another_closes(self) -> None:
        ended, told = threading.Event(), Told()

        def wait(_: socket.socket) -> None:
            ended.wait(10)

        with served(wait) as client:
            threads = told.started(3, lambda _: client.send(b"[]"))
            while not client.sent:
                time.sleep(0.001)
            begun = time.monotonic()
            client.close()
            closed_in = time.monotonic() - begun
            told.join(threads)
            ended.set()
        self.assertLess(closed_in, 5)
        self.assertEqual((told.kinds(), told.replies), ([Lost] * 3, []))

    def test_all_are_told_that_the_server_is_lost(self) -> None:
        """Each that has no reply yet, whichever line was the last one answered."""
        seen: List[bytes] = []
        told = Told()
        with served(replying(*[b"{1}"] * 5, seen=seen)) as client:
            told.join(told.started(8, lambda _: client.send(b"[]")))
        self.assertEqual((told.kinds(), told.replies), ([Lost] * 3, [b"{1}"] * 5))

    def test_what_is_no_line_leaves_nothing_to_others(self) -> None:
        told = Told()
        lines = [b"two\nlines", b"[1]", b"two\nlines", b"[2]"]
        with served(echo) as client:
            told.join(told.started(4, lambda number: client.send(lines[number])))
        self.assertEqual((told.kinds(), sorted(told.replies)), ([ValueError] * 2, [b'{"echo":[1]}', b'{"echo":[2]}']))

    def test_replies_that_nobody_takes_are_nobody_elses(self) -> None:
        """One ends in the midst of its replies, and others go on."""
        told = Told()

        def use(client: Client, number: int) -> bytes:
            if number % 2:
                return next(client.send_all(lines_of(number, 3)))
            return client.send(b"[%d]" % number)

        def until_free(client: Client, number: int) -> bytes:
            while True:
                try:
                    return use(client, number)
                except InUse:
                    time.sleep(0.001)

        with served(echo) as client:
            told.join(told.started(8, lambda number: until_free(client, number)))
        wanted = [b'{"echo":[%d,0]}' % number if number % 2 else b'{"echo":[%d]}' % number for number in range(8)]
        self.assertEqual((told.kinds(), sorted(told.replies)), ([], sorted(wanted)))

    def test_calls_of_each_kind_have_their_own_replies(self) -> None:
        """A server that answers weights by weights, and reweighings by how many weights have changed."""

        def answer(connection: socket.socket) -> None:
            for line in connection.makefile("rb"):
                reply = b'{"changed":2}' if line.startswith(b'{"reweigh"') else b'{"waits":[0],"weights":[5]}'
                connection.sendall(reply + b"\n")

        told = Told()
        with served(answer) as client:
            calls: List[Callable[[], Any]] = [client.weights, client.reweigh] * 4
            told.join(told.started(8, lambda number: [calls[number]() for _ in range(50)]))
        self.assertEqual(told.kinds(), [])
        self.assertEqual(sorted(told.replies, key=str), sorted([[((5,), (0,))] * 50, [2] * 50] * 4, key=str))


class Told:
    """What threads got, and what they raised."""

    def __init__(self) -> None:
        self.replies: List[Any] = []
        self.errors: List[Exception] = []

    def started(self, count: int, use: Callable[[int], Any]) -> List[threading.Thread]:
        def run(number: int) -> None:
            try:
                self.replies.append(use(number))
            except Exception as why:
                self.errors.append(why)

        threads = [threading.Thread(target=run, args=(number,), daemon=True) for number in range(count)]
        for thread in threads:
            thread.start()
        return threads

    def join(self, threads: List[threading.Thread]) -> None:
        for thread in threads:
            thread.join(20)

    def kinds(self) -> List[type]:
        return [type(error) for error in self.errors]


class Clients(unittest.TestCase):
    def test_requests_and_replies(self) -> None:
        seen: List[bytes] = []
        round_ = b'{"places":[1,0],"replies":[[7,"ok"],["short"]],"round":3}'
        weights = b'{"waits":[0,2],"weights":[5,1]}'
        replies = [round_, PLAN, b'{"cost":1}', weights, b'{"changed":2}', b'{"error":"no-path"}']
        with served(replying(*replies, seen=seen)) as client:
            told = client.batch([Access.get("/a"), Access.set("/a", 1)], [Access.take("/b", 9).lasting(2)])
            self.assertEqual((told.places, told.replies, told.round), ((1, 0), ((7, Reply.STORED), (Reply.SHORT,)), 3))
            plan = client.plan([Access.get("/a")])
            row = FlowRow("/a", above=0, held=0, first=1, last=1, own=0)
            self.assertEqual(plan, Plan(1, (Step.lock("/a"), Step.access(0)), (row,)))
            self.assertEqual(client.check([Access.get("/a")], plan), 1)
            self.assertEqual(client.weights(), ((5, 1), (0, 2)))
            self.assertEqual(client.reweigh(), 2)
            with self.assertRaises(Refused) as caught:
                client.plan([Access.get("/c")])
            self.assertEqual((caught.exception.name, caught.exception.place), ("no-path", ""))
            self.assertIsNone(caught.exception.hint)
        self.assertEqual(seen[0], b'{"batch":[[["get","/a",1],["set","/a",1,1]],[["take","/b",9,2]]]}\n')
        self.assertEqual(seen[3:5], [b'{"weights":null}\n', b'{"reweigh":null}\n'])

    def test_a_refusal_has_the_hint_of_its_reply(self) -> None:
        seen: List[bytes] = []
        reply = b'{"error":"no-path","hint":"plan 0: no node has the path \\"/c\\""}'
        with served(replying(reply, seen=seen)) as client:
            with self.assertRaises(Refused) as caught:
                client.plan([Access.get("/c")])
        why = caught.exception
        self.assertEqual((why.name, why.hint), ("no-path", 'plan 0: no node has the path "/c"'))
        self.assertEqual(str(why), 'no-path; hint: plan 0: no node has the path "/c"')

    def test_lines_are_sent_ahead(self) -> None:
        """So many that a server whose replies nobody read would stop reading."""
        seen: List[bytes] = []
        lines = [b"{%d" % number + b"x" * 1000 for number in range(2000)]
        with served(replying(*(line * 3 for line in lines), seen=seen)) as client:
            ahead = 0
            for line, reply in zip(lines, client.send_all(lines)):
                self.assertEqual(reply, line * 3)
                ahead = max(ahead, len(client.sent))
        self.assertEqual(len(seen), 2000)
        self.assertTrue(1 < ahead <= AHEAD // 1000)

    def test_a_reply_is_that_of_its_line(self) -> None:
        """Also after replies that nobody took, and after what is no line, of which nothing is sent."""
        seen: List[bytes] = []
        with served(replying(b"{1}", b"{2}", b"{3}", b"{4}", seen=seen)) as client:
            self.assertEqual(next(client.send_all([b"a", b"b", b"c"])), b"{1}")
            strange: List[Any] = ["text", None, b"two\nlines"]
            for line, kind in zip(strange, (TypeError, TypeError, ValueError)):
                with self.assertRaises(kind):
                    client.send(line)
            self.assertEqual((client.send(b"d"), len(client.sent)), (b"{4}", 0))
        self.assertEqual(seen, [b"a\n", b"b\n", b"c\n", b"d\n"])

    def test_what_has_no_reply_is_told(self) -> None:
        def answer(connection: socket.socket) -> None:
            source = connection.makefile("rb")
            for _ in range(5):
                source.readline()
            connection.sendall(b"{1}\n{2}\n")

        with served(answer) as client:
            replies = client.send_all([b"a", b"b", b"c", b"d", b"e"])
            self.assertEqual([next(replies), next(replies)], [b"{1}", b"{2}"])
            with self.assertRaises(Lost) as caught:
                next(replies)
            self.assertEqual(caught.exception.unanswered, 3)
            with self.assertRaises(Lost) as caught:
                client.send(b"f")
            self.assertEqual(caught.exception.unanswered, 1)

    def test_replies_come_that_came_before_the_end(self) -> None:
        """A server that takes no more lines has its replies read."""
        seen: List[bytes] = []
        with served(replying(b"{1}", b"{2}", seen=seen)) as client:
            told = []
            with self.assertRaises(Lost) as caught:
                for reply in client.send_all(b"%d" % number for number in range(1_000_000)):
                    told.append(reply)
            self.assertEqual(told, [b"{1}", b"{2}"])
            self.assertGreater(caught.exception.unanswered, 0)

    def test_a_server_that_takes_too_long_is_lost(self) -> None:
        ended = threading.Event()

        def wait(_: socket.socket) -> None:
            ended.wait(10)

        with served(wait, seconds=0.05) as client:
            with self.assertRaises(Lost) as caught:
                client.reweigh()
            self.assertEqual(caught.exception.unanswered, 1)
            ended.set()

    def test_a_server_of_something_else_is_lost(self) -> None:
        for line, why in ((HTTP, "it speaks HTTP"), (b"", "what it said is no JSON object")):
            with served(replying(line, seen=[])) as client:
                with self.assertRaises(Lost) as caught:
                    client.weights()
            told = str(caught.exception), caught.exception.unanswered
            self.assertEqual(told, (f"no reply of the server: {why}", 1))

    def test_the_program_prints_replies_of_a_session_alone(self) -> None:
        with at_port(replying(HTTP, seen=[])) as port:
            words = [sys.executable, "-B", "-m", "pickbracken.client", str(port)]
            ran = subprocess.run(words, input=b"{}\n", capture_output=True, check=False)
        wanted = (3, b"", b"pickbracken.client: no reply of the server: it speaks HTTP\n")
        self.assertEqual((ran.returncode, ran.stdout, ran.stderr), wanted)

    def test_a_port_is_one(self) -> None:
        with socket.create_server(("127.0.0.1", 0)) as listener:
            for port in (listener.getsockname()[1] + 65_536, 65_536, 0, -1):
                with self.assertRaises(ValueError):
                    Client(port)
        for word in ("0", "65536", "x"):
            words = [sys.executable, "-B", "-m", "pickbracken.client", word]
            ran = subprocess.run(words, input=b"{}\n", capture_output=True, check=False)
            self.assertEqual((ran.returncode, ran.stdout, ran.stderr[:6]), (2, b"", b"usage:"))

    def test_there_may_be_no_server(self) -> None:
        with socket.create_server(("127.0.0.1", 0)) as listener:
            port = listener.getsockname()[1]
        with self.assertRaises(Lost):
            Client(port)


if __name__ == "__main__":
    unittest.main()
