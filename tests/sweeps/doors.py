"""The ports at which a store is served: that of `serve`, that of `page`, and the second one of `serve --http`. What is
said of all of them is tried at each, by the same code."""

from __future__ import annotations

from dataclasses import dataclass
from typing import BinaryIO

from server import HOST, BadServer, Serving, connected, free_port
from store import Store
from web import post, response_of

from sweeps.program import Tally
from sweeps.talks import note_replies
from sweeps.ten_lines import ADD, TREE

# How many connections each has a slot for, as it is asked for here.
SLOTS = 16


class Second(Serving):
    """A server of sessions and of HTTP. Its port is that of HTTP, and its first one that of sessions."""

    def __init__(self, program: str, document: bytes, further: tuple[str, ...] = (), port: int | None = None, **how):
        self.second = port or free_port()
        super().__init__(program, document, further=("--http", str(self.second), *further), **how)

    def __enter__(self) -> Second:
        super().__enter__()
        self.first, self.port = self.port, self.second
        shown = f"[{self.host}]" if ":" in self.host else self.host
        if (line := self.started.stdout.readline()) != f"listening {shown}:{self.port} over http\n".encode():
            raise BadServer(f"its second line is {line!r}")
        return self


@dataclass(frozen=True)
class Door:
    """A port, by the words with which it is served."""

    name: str
    command: str
    is_second: bool
    # How many descriptors its server has beside those of connections, and how many of them are sockets.
    descriptors: int
    sockets: int

    @property
    def is_http(self) -> bool:
        return self.is_second or self.command == "page"

    @property
    def protocol(self) -> str:
        return "http" if self.is_http else "tcp"

    def connections_with(self, descriptors: int) -> int:
        """How many connections at once so many descriptors are enough for. (A call for a connection has one from the
        start, and at a first port one always waits.)"""
        return descriptors - self.descriptors - self.is_second

    def serving(self, program: str, document: bytes = TREE, further: tuple[str, ...] = (), **how) -> Serving:
        """A server, whose port is this one."""
        if self.is_second:
            return Second(program, document, ("--http-seats", str(SLOTS), *further), **how)
        return Serving(program, document, further=further, command=self.command, **how)

    def sent(self, line: bytes) -> bytes:
        """What a client sends for a line."""
        return post(line) if self.is_http else line

    def reply_in(self, stream: BinaryIO) -> bytes:
        """The reply that comes back; nothing if the connection ends."""
        if not self.is_http:
            return stream.readline()
        response = response_of(stream, "POST")
        return response.body if response else b""


class Asking:
    """A client at a door that asks a line as often as it is told to."""

    def __init__(self, door: Door, port: int, line: bytes = ADD, host: str = HOST):
        self.door, self.line, self.client = door, line, connected(port, host)
        self.stream = self.client.makefile("rb")

    def __enter__(self) -> Asking:
        return self

    def __exit__(self, *_) -> None:
        self.close()

    def close(self) -> None:
        self.stream.close()
        self.client.close()

    def send(self) -> None:
        self.client.sendall(self.door.sent(self.line))

    def note_reply(self, store: Store, where: str, tally: Tally) -> None:
        note_replies(store, self.line, self.door.reply_in(self.stream), where, tally)

    def ask(self, store: Store, where: str, tally: Tally) -> None:
        self.send()
        self.note_reply(store, where, tally)


DOORS = (
    Door("serve", "serve", False, 4, 1),
    Door("page", "page", False, 5, 1),
    Door("serve --http", "serve", True, 6, 2),
)
