"""A client of `grove serve`: a connection that is kept, with a method for each request (docs/SESSIONS.md).

    with Client(7777) as client:
        print(client.batch([Access.get("/bulbs"), Access.take("/bulbs", 1)]).replies)

Nothing is sent twice: a line whose reply hasn't come may have had its effect, and only its caller can know whether it
may be sent again. So once a server is lost, the client is closed.

As a program it sends lines, and prints the replies as they come:

    usage: python3 -m pickbracken.client PORT < LINES        (beside `grove serve --port PORT`)

Each line is sent once the one before is answered. The status is 0, or 1 if a reply was a refusal, 2 if the arguments
are wrong, 3 if there is no server or it is lost, with a line on standard error that says so.
"""

from __future__ import annotations

import socket
import sys
import threading
from collections import deque
from types import TracebackType
from typing import Deque, Iterable, Iterator, Optional, Sequence, Type

from .faults import Error
from .library import checked
from .requests import Requests, Round

__all__ = ["AHEAD", "Client", "InUse", "Lost", "Round"]

# So many bytes of lines may be sent before their replies are read: both sides' buffers have room for as many, so that
# nobody waits for the other to read.
AHEAD = 16_384


class Lost(Error):
    """There is no server, or it closed the connection, took too long, or speaks something else, such as HTTP. The last
    `unanswered` lines have no reply; each of them may have had its effect, or not."""

    def __init__(self, why: str, unanswered: int = 0) -> None:
        super().__init__(why)
        self.unanswered = unanswered


class InUse(Error):
    """Another thread takes the replies to its lines one by one (`send_all`). Nothing was sent."""


class Client(Requests):
    """A connection to a server. With `seconds`, one that gives no answer for so long is lost.

    Threads may share a client. Each waits until the line of another one is answered, and gets the replies to its own
    lines. While one takes the replies of `send_all`, the calls of others raise `InUse`."""

    def __init__(self, port: int, host: str = "127.0.0.1", seconds: Optional[float] = None) -> None:
        need_port(port)
        try:
            self.connection = socket.create_connection((host, port), timeout=seconds)
        except OSError as error:
            raise Lost(f"no server at {host}:{port}: {error}") from error
        self.connection.setsockopt(socket.IPPROTO_TCP, socket.TCP_NODELAY, 1)
        self.source = self.connection.makefile("rb")
        # The lengths of the lines that have no reply yet.
        self.sent: Deque[int] = deque()
        # Held while a line is sent, or a reply is read; and the thread that takes the replies of `send_all`.
        self.lock = threading.Lock()
        self.taken_by: Optional[int] = None

    def __enter__(self) -> Client:
        return self

    def __exit__(
        self, kind: Optional[Type[BaseException]], error: Optional[BaseException], trace: Optional[TracebackType]
    ) -> None:
        self.close()

    def close(self) -> None:
        """Another thread that waits for a reply gets `Lost`."""
        try:
            # To close what another thread reads would wait for the reply.
            self.connection.shutdown(socket.SHUT_RDWR)
        except OSError:
            pass
        self.source.close()
        self.connection.close()

    def send(self, line: bytes) -> bytes:
        """The reply to a line, both without a line feed. Replies to earlier lines that nobody took are passed over."""
        with self.lock:
            self.need_own()
            self.put(line)
            while True:
                reply = self.reply()
                if not self.sent:
                    return reply

    def send_all(self, lines: Iterable[bytes]) -> Iterator[bytes]:
        """The reply to each of the lines, in order; lines are sent ahead of the replies. What comes of one line can be
        used for the next only if each is sent by itself."""
        with self.lock:
            self.need_own()
            # Of earlier lines, whose replies nobody took.
            while self.sent:
                self.reply()
            self.taken_by = threading.get_ident()
        try:
            for line in lines:
                while self.sent and sum(self.sent) + len(line) > AHEAD:
                    yield self.next_reply()
                if not self.put_next(line):
                    break
            while self.sent:
                yield self.next_reply()
        finally:
            self.taken_by = None

    def need_own(self) -> None:
        """Refuses the call while another thread takes replies one by one."""
        if self.taken_by not in (None, threading.get_ident()):
            raise InUse("another thread takes the replies to its lines")

    def next_reply(self) -> bytes:
        with self.lock:
            return self.reply()

    def put_next(self, line: bytes) -> bool:
        with self.lock:
            return self.put(line)

    def put(self, line: bytes) -> bool:
        """Whether the server takes the line. One that takes no more may have replied to the lines before."""
        ended = with_end(line)
        self.sent.append(len(ended))
        try:
            self.connection.sendall(ended)
        except OSError:
            return False
        return True

    def reply(self) -> bytes:
        try:
            reply = self.source.readline()
        except (OSError, ValueError) as error:
            raise self.lost(f"the server is lost: {error}") from error
        if not reply.endswith(b"\n"):
            raise self.lost("the server closed the connection before it had answered")
        if not reply.startswith(b"{"):
            raise self.lost(no_reply(reply))
        self.sent.popleft()
        return reply[:-1]

    def lost(self, why: str) -> Lost:
        unanswered = len(self.sent)
        self.sent.clear()
        self.close()
        return Lost(why, unanswered)


def is_port(number: int) -> bool:
    """Whether a port has this number. (Of a larger one the system would take the last 16 bits.)"""
    return 1 <= number <= 65_535


def need_port(number: int) -> None:
    if not is_port(number):
        raise ValueError(f"{number} is no port: those are 1 to 65535")


def with_end(line: bytes) -> bytes:
    """A line as it is sent. (A line feed in it would make two of it, with a reply each.)"""
    if b"\n" in checked(line):
        raise ValueError("a line has no line feed in it")
    return line + b"\n"


def no_reply(line: bytes) -> str:
    """What is said of a line that is no reply of a session."""
    why = "it speaks HTTP" if line.startswith(b"HTTP/") else "what it said is no JSON object"
    return f"no reply of the server: {why}"


def send_lines(client: Client, lines: Iterable[bytes]) -> bool:
    """Prints the reply to each line. Was one of them a refusal?"""
    refused = False
    for line in lines:
        reply = client.send(line.rstrip(b"\n"))
        refused = refused or reply.startswith(b'{"error":')
        sys.stdout.buffer.write(reply + b"\n")
        sys.stdout.flush()
    return refused


def main(words: Sequence[str]) -> int:
    if len(words) != 1 or not words[0].isdecimal() or not is_port(int(words[0])):
        print("usage: python3 -m pickbracken.client PORT < LINES", file=sys.stderr)
        return 2
    try:
        with Client(int(words[0])) as client:
            return 1 if send_lines(client, sys.stdin.buffer) else 0
    except Lost as why:
        print(f"pickbracken.client: {why}", file=sys.stderr)
        return 3


if __name__ == "__main__":
    sys.exit(main(sys.argv[1:]))
