"""A call of gRPC by the standard library alone, for a program that is over before gRPC would be loaded.

Each call has a connection of its own, without TLS. Of HTTP/2 and gRPC only what one small request needs is here: no
header of an answer is read, since a call that fails has no message. Whatever comes but a whole message is no answer.
Then the call is made by gRPC, which says what is wrong.
"""
from __future__ import annotations

import socket
import struct
import time
from typing import Any, Callable, Iterator, Optional, Sequence

# Of frames: their types, and flags.
DATA, HEADERS, SETTINGS, PING, WINDOW = 0, 1, 4, 6, 8
ACKNOWLEDGED = LAST = 1
WHOLE, PADDED = 4, 8
# The one stream of a connection, and the connection itself.
CALL, ALL = 1, 0
# As much as it takes is sent to it at once, and its own requests fit into a frame.
WIDEST, WINDOW_AT_FIRST, MOST_REQUEST = 2**31 - 1, 2**16 - 1, 16_000
INITIAL_WINDOW = 4
PREFACE = b"PRI * HTTP/2.0\r\n\r\nSM\r\n\r\n"
# In the table of headers that each connection begins with: `:method: POST` and `:scheme: http`, as bytes of a header
# block; and those of which only the name is there.
POST, PLAIN = b"\x83", b"\x86"
AUTHORITY, PATH = b"\x01", b"\x04"
OTHER = b"\x00"

# For how long it is waited; then gRPC waits for as long as it is told to.
MOST_SECONDS = 2.0

Header = tuple[str, str]


class NoAnswer(Exception):
    """There came no message."""


class Call:
    """One that is made again by gRPC, and from then on by that alone, if it brings no answer."""

    def __init__(
        self,
        address: str,
        path: str,
        serialize: Optional[Callable[[Any], bytes]],
        parse: Callable[[bytes], Any],
        by_grpc: Callable[[], Any],
    ) -> None:
        self.address, self.path, self.serialize, self.parse = address, path, serialize or bytes, parse
        # Makes the call of gRPC.
        self.by_grpc = by_grpc
        self.made: Any = None

    def __call__(self, request: Any, seconds: float, metadata: Sequence[Header] = ()) -> Any:
        if self.made is None:
            try:
                most = min(seconds, MOST_SECONDS)
                return self.parse(answer(self.address, self.path, self.serialize(request), most, metadata))
            except (NoAnswer, OSError):
                self.made = self.made or self.by_grpc()
        return self.made(request, seconds, metadata=metadata)


def answer(address: str, path: str, message: bytes, seconds: float, metadata: Sequence[Header] = ()) -> bytes:
    """The message with which the member answers this one."""
    until = time.monotonic() + seconds
    host, _, port = address.rpartition(":")
    # A name that is a text is looked up by a module that has to be loaded for it.
    at: Any = (host.strip("[]").encode(), int(port))
    if len(message) > MOST_REQUEST:
        raise NoAnswer
    with socket.create_connection(at, seconds) as connection:
        headers = headers_of(address, path, metadata)
        settings = struct.pack(">HI", INITIAL_WINDOW, WIDEST)
        parts = [
            PREFACE,
            frame(SETTINGS, 0, ALL, settings),
            frame(WINDOW, 0, ALL, struct.pack(">I", WIDEST - WINDOW_AT_FIRST)),
            frame(HEADERS, WHOLE, CALL, headers),
            frame(DATA, LAST, CALL, struct.pack(">BI", 0, len(message)) + message),
        ]
        connection.sendall(b"".join(parts))
        return message_of(connection, until)


def headers_of(address: str, path: str, metadata: Sequence[Header]) -> bytes:
    named = [("content-type", "application/grpc"), ("te", "trailers"), *metadata]
    block = [POST, PLAIN, PATH + text(path), AUTHORITY + text(address)]
    return b"".join(block + [OTHER + text(name) + text(value) for name, value in named])


def text(content: str) -> bytes:
    """With its length before it."""
    plain = content.encode()
    return whole(len(plain)) + plain


def whole(number: int) -> bytes:
    """In 7 bits, and then in further bytes of 7 bits."""
    if number < 127:
        return bytes([number])
    number -= 127
    parts = [127]
    while number >= 128:
        parts.append(number % 128 + 128)
        number //= 128
    return bytes([*parts, number])


def frame(kind: int, flags: int, stream: int, content: bytes) -> bytes:
    return struct.pack(">I", len(content))[1:] + struct.pack(">BBI", kind, flags, stream) + content


def message_of(connection: socket.socket, until: float) -> bytes:
    """The first message that comes, once it is whole."""
    came = bytearray()
    for kind, flags, content in frames(connection, until):
        if kind == DATA:
            came += content[1 : len(content) - content[0]] if flags & PADDED else content
            if is_whole(came):
                return bytes(came[5:])
        elif kind in (SETTINGS, PING) and not flags & ACKNOWLEDGED:
            connection.sendall(frame(kind, ACKNOWLEDGED, ALL, content if kind == PING else b""))
        if kind not in (DATA, HEADERS, SETTINGS, PING, WINDOW) or (kind in (DATA, HEADERS) and flags & LAST):
            break
    raise NoAnswer


def is_whole(came: bytearray) -> bool:
    """Is that a message that isn't compressed, with its length before it?"""
    return len(came) >= 5 and not came[0] and len(came) >= 5 + int.from_bytes(came[1:5], "big")


def frames(connection: socket.socket, until: float) -> Iterator[tuple[int, int, bytes]]:
    """The kind, the flags and the content of each."""
    came = bytearray()
    while True:
        size = 9 + int.from_bytes(came[:3], "big")
        if len(came) >= max(9, size):
            yield came[3], came[4], bytes(came[9:size])
            del came[:size]
            continue
        connection.settimeout(max(0.001, until - time.monotonic()))
        more = connection.recv(65536)
        if not more:
            raise NoAnswer
        came += more
