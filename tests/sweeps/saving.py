"""`grove save` at a server, at none, and at ones that send no document: the file is theirs, or as it was. What is no
response is refused as soon as its first bytes have come, though the server waits for more."""

from __future__ import annotations

import errno
import json
import os
import socket
import subprocess
import time
from contextlib import suppress
from functools import partial
from pathlib import Path

from server import HOST, Serving, free_port

from sweeps.canned import Canned
from sweeps.preloaded import library_of
from sweeps.program import DEVICE, Ran, Tally, Try, because, run, until_well
from sweeps.ten_lines import TREE

TRIED = "runs of the client that saves"
SAVED, REFUSED = Ran(0, b"", b""), 1
OLD = b"what was there before\n"
NOT_HTTP = Ran(
    REFUSED,
    b"refused not-http\n",
    b"",
    b'hint: what came is no response of HTTP; save asks "grove page" at its port, or "grove serve" at that of --http\n',
)
HINTS = {
    "status": "the server answers by this status and sends no document; "
    'is it "grove page", or "grove serve" with --http?',
    "not-http": NOT_HTTP.hint.decode().removeprefix("hint: ").rstrip(),
    "bad-length": "the response says no length of its document, or another one than came",
    "": "what the server sent is no document with a tree",
}
# What no response begins with.
NO_RESPONSES = (
    *(b"x", b"\n", 9000 * b"x", b'{"error":"shape"}\n'),
    *(b"http/1.1 200 OK\r\n", b"HTTP 1", b"HTTQ", b"HTTP/2 200\r\n"),
)
# Within how many seconds that is refused: long before `save` gives up a server that sends nothing.
SOON = 15.0
# For how many seconds a server may say nothing, and how many times as fast they pass here.
SILENCE, FASTER = 60.0, 20
# How long a server pauses between two pieces, and before the first if it is slow.
PAUSE, SLOW = 0.02, 3.0
# The most bytes of a document, and of what stands before it.
MOST_DOCUMENT, MOST_HEAD = 4_194_304, 65_536
OTHER_FIELDS = (b"Server: x", b"X-Content-Length: 7", b"Content: 7")
DOCUMENT = b'{"nodes":[{"name":"","parent":null,"value":3,"weight":2}],"version":1}'


def tries(program: str, room: str) -> list[Try]:
    return [
        Try("a page's document", partial(page, program, room)),
        Try("no server", partial(nobody, program, room)),
        Try("responses that have a document", partial(documents, program, room)),
        Try("the longest documents", partial(longest, program, room)),
        Try("documents of every byte", partial(exact, program, room)),
        Try("responses that have none", partial(others, program, room)),
        Try("responses that are cut", partial(cut, program, room)),
        Try("responses in pieces", partial(pieces, program, room)),
        Try("a port of sessions", partial(sessions, program, room)),
        Try("no responses, and then nothing", partial(silent, program, room)),
        Try("servers that fall silent", partial(fallen_silent, program, room)),
        Try("files that can't be written", partial(unwritable, program, room)),
        Try("standard streams that are closed", partial(closed, program, room)),
    ]


def save(program: str, port: int, file: Path, *words: str, **how) -> Ran:
    return run(program, "save", "--port", str(port), *words, str(file), **how)


def note_folder(tally: Tally, what: str, file: Path, wanted: bytes | None) -> None:
    """The file has these bytes, or isn't there, and there is nothing beside it."""
    left = {each.name: each.read_bytes() for each in file.parent.iterdir()}
    right = {} if wanted is None else {file.name: wanted}
    tally.note(what, None if left == right else f"{left}")


def fresh(room: str, name: str, old: bytes | None = OLD) -> Path:
    """A file with these bytes, or none, alone in a folder."""
    folder = Path(room) / f"{name}-{os.urandom(6).hex()}"
    folder.mkdir()
    file = folder / "kept.json"
    if old is not None:
        file.write_bytes(old)
    return file


def page(program: str, room: str, tally: Tally) -> None:
    """The document that is saved is that of the page, and what is served from it has the records again."""
    for old in (None, OLD):
        file = fresh(room, "page", old)
        with Serving(program, TREE, command="page") as server:
            tally.compare("saved", save(program, server.port, file), SAVED)
        nodes = json.loads(file.read_bytes())["nodes"]
        names = [node["name"] for node in json.loads(TREE)["nodes"]]
        tally.note("its nodes", None if [node["name"] for node in nodes] == names else f"{nodes}")
        note_folder(tally, "nothing else", file, file.read_bytes())
        made = run(program, "tree", "--csv", str(file))
        tally.note("it is a document", None if made.status == 0 else f"{made}")


def nobody(program: str, room: str, tally: Tally) -> None:
    file, port = fresh(room, "nobody"), free_port()
    wanted = because(f"cannot reach {HOST}:{port}", errno.ECONNREFUSED)
    tally.compare("nobody", save(program, port, file), wanted)
    tally.compare("quietly", save(program, port, file, "--quiet"), DEVICE)
    note_folder(tally, "as it was", file, OLD)


class Responding(Canned):
    """A server that reads a request's head, sends these bytes, and closes."""

    def __init__(self, text: bytes):
        super().__init__()
        self.text, self.head = text, b""

    def say(self, connection: socket.socket) -> None:
        while b"\r\n\r\n" not in self.head:
            piece = connection.recv(4096)
            if not piece:
                break
            self.head += piece
        with suppress(OSError):
            self.respond(connection)

    def respond(self, connection: socket.socket) -> None:
        connection.sendall(self.text)


class Dripping(Responding):
    """One that sends these pieces, after a while. If it doesn't close then, it waits until its client does."""

    def __init__(self, *texts: bytes, after: float = 0.0, closes: bool = False):
        super().__init__(b"".join(texts))
        self.texts, self.after, self.closes = texts, after, closes

    def respond(self, connection: socket.socket) -> None:
        connection.setsockopt(socket.IPPROTO_TCP, socket.TCP_NODELAY, 1)
        time.sleep(self.after)
        for text in self.texts:
            connection.sendall(text)
            time.sleep(PAUSE)
        if not self.closes:
            connection.recv(1)


def response(body: bytes, *lines: bytes, status: bytes = b"200 OK", version: bytes = b"HTTP/1.1") -> bytes:
    return b"\r\n".join([version + b" " + status, *lines, b"", body])


def sized(body: bytes, status: bytes = b"200 OK") -> bytes:
    return response(body, b"Content-Length: %d" % len(body), status=status)


class Heard(Responding):
    """One that has all that its client sent, up to the end."""

    def respond(self, connection: socket.socket) -> None:
        connection.sendall(self.text)
        connection.shutdown(socket.SHUT_WR)
        while piece := connection.recv(4096):
            self.head += piece


def documents(program: str, room: str, tally: Tally) -> None:
    """A document is taken however its head is written, by servers of HTTP/1.0 and of later versions too, and with no
    words behind the status; it's asked for as a client of HTTP asks."""
    lengths = (b"Content-Length: %d", b"content-length:%d", b"CONTENT-LENGTH:  %d \t", b"cOnTeNt-LeNgTh:\t%d")
    heads = [response(DOCUMENT, *before, length % len(DOCUMENT)) for length in lengths for before in ((), OTHER_FIELDS)]
    length = lengths[0] % len(DOCUMENT)
    heads += [response(DOCUMENT, length, version=version) for version in (b"HTTP/1.0", b"HTTP/1.2")]
    heads += [response(DOCUMENT, length, status=status) for status in (b"200", b"200 ", b"200 All is well")]
    for text in heads:
        file = fresh(room, "document")
        with Responding(text) as server:
            tally.compare(f"{text!r}", save(program, server.port, file), SAVED)
            place = f"{HOST}:{server.port}"
            wanted = f"GET /document HTTP/1.1\r\nHost: {place}\r\nConnection: close\r\n\r\n".encode()
            tally.note("what is asked", None if server.head == wanted else f"{server.head!r}")
        note_folder(tally, "the file", file, DOCUMENT)


def longest(program: str, room: str, tally: Tally) -> None:
    """The longest document, behind a head of any length up to the most, and one of a byte more."""
    for more in (-1, 0, 1):
        document = DOCUMENT.ljust(MOST_DOCUMENT + more)
        for head in (0, MOST_HEAD):
            fields = [b"x: " + b"x" * (head - 60)] if head else []
            text = response(document, *fields, b"Content-Length: %d" % len(document))
            padded = text.replace(b"x: ", b"x: " + b"x" * (head + len(document) - len(text)), 1) if head else text
            note_longest(program, room, padded, document, more <= 0, tally)


def note_longest(program: str, room: str, text: bytes, document: bytes, is_taken: bool, tally: Tally) -> None:
    file, where = fresh(room, "longest"), f"{len(document)} bytes behind {len(text) - len(document)}"
    with Responding(text) as server:
        ran = save(program, server.port, file)
    if is_taken:
        tally.compare(where, ran, SAVED)
    else:
        tally.note(where, None if ran.status == REFUSED else f"came {ran}")
    note_folder(tally, where, file, document if is_taken else OLD)


def exact(program: str, room: str, tally: Tally) -> None:
    """What is saved has the bytes that came: every one that a document may have, in strings and between them, a text
    that is escaped in more ways than one, and as many bytes as a document may have."""
    letters = [*range(0x20, 0x900), *range(0x900, 0x110000, 0x3C1)]
    text = "".join(chr(code) for code in letters if chr(code) not in '"\\' and not 0xD800 <= code < 0xE000)
    spaces = b" \t\r\n\r\n"
    unused = b'"\\u0000\\n\\/' + text.encode() + b'/\\"\\ud83d\\ude00"'
    odd = spaces.join((b"", b"{", b'"' + text.encode() + b'"', b":", unused, b",", DOCUMENT[1:], b""))
    room_left = MOST_DOCUMENT - len(odd)
    long = odd + bytes(spaces[at * at % 7 % 6] for at in range(room_left))
    for document in (odd, spaces + DOCUMENT, DOCUMENT + spaces, long):
        file = fresh(room, "exact")
        with Responding(sized(document)) as server:
            tally.compare(f"{len(document)} bytes", save(program, server.port, file), SAVED)
        is_right = [each.read_bytes() for each in file.parent.iterdir()] == [document]
        tally.note(f"the file of {len(document)} bytes", None if is_right else "it has others")


def others(program: str, room: str, tally: Tally) -> None:
    """Other statuses, bodies that are no document, bodies without a length, and what is no HTTP: each by its name, with
    its hint."""
    for text, fault in (
        (sized(b"no", status=b"404 Not Found"), b"status 404"),
        (sized(DOCUMENT, status=b"503 Busy"), b"status 503"),
        (sized(DOCUMENT, status=b"2000 OK"), b"not-http"),
        (sized(b"{"), b"bad-json"),
        (sized(b"{}"), b"shape nodes"),
        (sized(b'{"nodes":[]}'), b"tree empty"),
        (response(DOCUMENT), b"bad-length"),
        (response(DOCUMENT, b"Content-Length: 1"), b"bad-length"),
        (response(DOCUMENT, b"Content-Length: -1"), b"bad-length"),
        (b'{"error":"shape"}\n', b"not-http"),
        (b"HTTP/1.1\r\n\r\n" + DOCUMENT, b"not-http"),
        (b"HTTP/2 200\r\n\r\n" + DOCUMENT, b"not-http"),
        (b"", b"not-http"),
        (4096 * b"x", b"not-http"),
        (5_000_000 * b"x", b"not-http"),
        (sized(b" " * 4_194_305), b"limit whole"),
    ):
        file = fresh(room, "other")
        with Responding(text) as server:
            ran = save(program, server.port, file)
        tally.compare(f"{text[:60]!r}", ran, Ran(REFUSED, b"refused " + fault + b"\n", b""))
        hint = HINTS.get(fault.decode().split()[0], HINTS[""])
        is_well = ran.hint == f"hint: {hint}\n".encode()
        tally.note(f"{text[:60]!r}, its hint", None if is_well else f"wanted {hint!r}; came {ran.hint!r}")
        note_folder(tally, "as it was", file, OLD)


def cut(program: str, room: str, tally: Tally) -> None:
    """A body that ends before its length."""
    for count in (0, 1, len(DOCUMENT) - 1):
        text = sized(DOCUMENT)
        file = fresh(room, "cut")
        with Responding(text[: len(text) - len(DOCUMENT) + count]) as server:
            closed = "it closed the connection before the end of a reply"
            wanted = because(f"lost the server at {HOST}:{server.port}: {closed}")
            tally.compare(f"{count} bytes", save(program, server.port, file), wanted)
        note_folder(tally, "as it was", file, OLD)


def pieces(program: str, room: str, tally: Tally) -> None:
    """A document is taken if the first bytes of its response come one at a time, at once or after a while."""
    text = sized(DOCUMENT)
    for after in (0.0, SLOW):
        file = fresh(room, "pieces")
        with Dripping(*each_byte(text[:20]), text[20:], after=after, closes=True) as server:
            tally.compare(f"after {after:g} s", save(program, server.port, file), SAVED)
        note_folder(tally, "the file", file, DOCUMENT)


def each_byte(text: bytes) -> list[bytes]:
    return [text[at : at + 1] for at in range(len(text))]


def sessions(program: str, room: str, tally: Tally) -> None:
    """A server of sessions answers each line of the request, and waits for more."""
    for further in ((), ("--hints",)):
        file = fresh(room, "sessions")
        with Serving(program, TREE, further=further) as server:
            note_refused(program, server.port, file, f"{further}", tally)


def silent(program: str, room: str, tally: Tally) -> None:
    """Bytes that begin no response, whole or one at a time, from a server that says nothing behind them."""
    for text in NO_RESPONSES:
        for texts in ((text,), each_byte(text[:10])):
            file = fresh(room, "silent")
            with Dripping(*texts) as server:
                note_refused(program, server.port, file, f"{text[:20]!r} in {len(texts)} pieces", tally)


def fallen_silent(program: str, room: str, tally: Tally) -> None:
    """A server that says nothing, or a part of a document and then nothing, is given up after 60 seconds of that: here
    they go faster. It is tried until a machine with other work gives it up soon."""
    library, text = library_of("short_times", room), sized(DOCUMENT)
    surroundings = {**os.environ, "LD_PRELOAD": library, "SHORTENED": str(FASTER)}
    for said in (b"", text[:9], text[: -len(DOCUMENT)], text[:-1]):
        look = partial(given_up, program, room, surroundings, said, tally)
        until_well(look, f"the time after {len(said)} bytes", tally, 5)


def given_up(program: str, room: str, surroundings: dict[str, str], said: bytes, tally: Tally) -> str | None:
    """How long the server is waited for, if that is too long."""
    file = fresh(room, "silence")
    with Dripping(said) as server:
        began = time.monotonic()
        ran = save(program, server.port, file, env=surroundings)
        took = (time.monotonic() - began) * FASTER
        wanted = because(f"lost the server at {HOST}:{server.port}: it sends nothing")
        tally.compare(f"{len(said)} bytes", ran, wanted)
    tally.note(f"the time after {len(said)} bytes", None if took >= SILENCE * 0.9 else f"it is {took:.1f} s")
    note_folder(tally, "as it was", file, OLD)
    return f"it is {took:.1f} s" if took > SILENCE * 1.4 else None


def note_refused(program: str, port: int, file: Path, what: str, tally: Tally) -> None:
    """What comes is refused soon, and the file is as it was."""
    began = time.monotonic()
    ran = save(program, port, file)
    took = time.monotonic() - began
    tally.compare(what, ran, NOT_HTTP)
    tally.note(f"{what}, its hint", None if ran.hint == NOT_HTTP.hint else f"came {ran.hint!r}")
    tally.note("how soon", None if took < SOON else f"{what}: it took {took:.1f} s")
    note_folder(tally, "as it was", file, OLD)


def unwritable(program: str, room: str, tally: Tally) -> None:
    """A folder that isn't there, a file that is a folder, and a name beside it that is one."""
    gone = Path(room) / "nowhere" / "kept.json"
    with Responding(sized(DOCUMENT)) as server:
        wanted = because(f"cannot save {gone}", errno.ENOENT)
        tally.compare("no folder", save(program, server.port, gone), wanted)
    folder = fresh(room, "folder", None)
    folder.mkdir()
    with Responding(sized(DOCUMENT)) as server:
        wanted = because(f"cannot save {folder}", errno.EISDIR)
        tally.compare("a folder", save(program, server.port, folder), wanted)
    tally.note("nothing beside it", None if list(folder.parent.iterdir()) == [folder] else "something")
    file = fresh(room, "beside")
    beside = Path(f"{file}.new")
    beside.mkdir()
    with Responding(sized(DOCUMENT)) as server:
        wanted = because(f"cannot save {file}", errno.EISDIR)
        tally.compare("a folder beside it", save(program, server.port, file), wanted)
    with Responding(sized(DOCUMENT)) as server:
        tally.compare("a folder beside it, quietly", save(program, server.port, file, "--quiet"), DEVICE)
    tally.note("as it was", None if file.read_bytes() == OLD else "changed")


def closed(program: str, room: str, tally: Tally) -> None:
    """The connection doesn't take the place of a closed stream: nothing that is printed goes to the server, and the
    file is as it would be."""
    refused = Ran(REFUSED, b"refused status 404\n", b"")
    unprinted = because("cannot write standard output", errno.EBADF)
    for text, left, ends in (
        (sized(DOCUMENT), DOCUMENT, (SAVED, SAVED, SAVED)),
        (sized(b"no", status=b"404 Not Found"), OLD, (refused, unprinted, refused)),
    ):
        for stream, wanted in enumerate(ends):
            file = fresh(room, "closed")
            with Heard(text) as server:
                how = {"stdin": subprocess.DEVNULL, "preexec_fn": partial(os.close, stream), "text": None}
                tally.compare(f"stream {stream}, {text[:20]!r}", save(program, server.port, file, **how), wanted)
            place = f"{HOST}:{server.port}"
            asked = f"GET /document HTTP/1.1\r\nHost: {place}\r\nConnection: close\r\n\r\n".encode()
            tally.note(f"what the server got, {stream}", None if server.head == asked else f"{server.head!r}")
            note_folder(tally, f"the file, {stream}", file, left)
