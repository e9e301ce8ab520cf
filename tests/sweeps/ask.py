"""`grove ask` at a server, at none, and at ones that are lost: what it prints is what came, and its status is right
for it."""

from __future__ import annotations

import errno
import json
import os
import signal
import socket
import struct
import subprocess
import time
from collections.abc import Iterable
from functools import partial

from server import HOST, Serving, free_port
from store import Store, compact

from sweeps.canned import Canned
from sweeps.program import DEVICE, Ran, Tally, Try, because, run, until_well
from sweeps.talks import lines_of, look, note_replies
from sweeps.ten_lines import ADD, REPLIES, TEXT, TREE, WEIGHTS

TRIED = "runs of the client, and lines that they asked"
BAD = b'{"batch":3}\n'
OK, REFUSED = 0, 1
REPLY = b'{"places":[0],"replies":[[1]],"round":1}\n'
# For how long a silent server is waited for here, and how long a client may take to end.
WAITED, LONGEST = 2.0, 30.0
# How many lines are timed, and how late an arrival may be told.
LINES_SOON, DELAY = 50, 0.04
# So many hints of one run are printed.
MOST_HINTS = 100
# A line has at most so many bytes.
MOST_BYTES = 1_048_576
# Why there is no whole reply, if the server closes.
LOST = "lost the server at {}: it closed the connection before the end of a reply"


def tries(program: str, room: str) -> list[Try]:
    return [
        Try("ten lines", partial(ten_lines, program)),
        Try("lines as words", partial(as_words, program)),
        Try("statuses", partial(statuses, program)),
        Try("hints", partial(hints, program)),
        Try("lines that are too long", partial(long_lines, program)),
        Try("many lines", partial(many, program)),
        Try("how long lines take", partial(soon, program)),
        Try("no server", partial(nobody, program)),
        Try("servers that are lost", partial(lost, program)),
        Try("how a server is lost", partial(how_lost, program)),
        Try("standard input and output that fail", partial(streams, program)),
        Try("standard streams that are closed", partial(closed, program)),
        Try("bytes as they come", partial(exact, program)),
        Try("a server that falls silent", partial(silent, program)),
    ]


def ask(program: str, port: int, *lines: str, text: bytes = b"") -> Ran:
    return run(program, "ask", "--port", str(port), *lines, text=text)


def has_error(replies: bytes) -> bool:
    return any("error" in json.loads(line) for line in lines_of(replies))


def ten_lines(program: str, tally: Tally) -> None:
    """The ten lines of docs/SESSIONS.md on standard input, with the last line feed and without."""
    for text in (TEXT, TEXT.rstrip(b"\n")):
        with Serving(program, TREE) as server:
            wanted = Ran(REFUSED if has_error(REPLIES) else OK, REPLIES, b"")
            tally.compare(f"{len(text)} bytes", ask(program, server.port, text=text), wanted)


def as_words(program: str, tally: Tally) -> None:
    """The same as arguments. Then nothing is read of standard input."""
    with Serving(program, TREE) as server:
        words = [line.decode() for line in lines_of(TEXT)]
        wanted = Ran(REFUSED if has_error(REPLIES) else OK, REPLIES, b"")
        tally.compare("ten words", ask(program, server.port, *words, text=ADD), wanted)
        wanted = Ran(REFUSED, b'{"error":"shape"}\n' + 2 * b'{"error":"bad-json"}\n', b"")
        tally.compare("a word of two lines, and an empty one", ask(program, server.port, "{}\n", ""), wanted)


def statuses(program: str, tally: Tally) -> None:
    """No line at all, lines that are all answered, and one among them that isn't."""
    store = Store(json.loads(TREE))
    with Serving(program, TREE) as server:
        tally.compare("no line", ask(program, server.port), Ran(OK, b"", b""))
        for text in (ADD, ADD + WEIGHTS, BAD, ADD + BAD + ADD, b"\n", look(store)):
            ran = ask(program, server.port, text=text)
            note_replies(store, text, ran.out, f"{text!r}", tally)
            status = REFUSED if has_error(ran.out) else OK
            tally.note(f"status of {text!r}", None if (ran.status, ran.err) == (status, b"") else f"{ran}")


def hints(program: str, tally: Tally) -> None:
    """Of a server with `--hints`: standard error gets the hint of each refused line, with the line's number if several
    are asked, and standard output the replies as they came. Without it standard error gets nothing."""
    found = "batch is 3, but has to be an array of lists"
    refusal, reply = compact({"error": "shape", "hint": found}), b'{"places":[],"replies":[],"round":1}'
    lines = [BAD.decode().rstrip(), '{"batch":[]}', BAD.decode().rstrip()]
    with Serving(program, TREE, further=("--hints",)) as server:
        ran = ask(program, server.port, lines[0])
        tally.compare("a line", ran, Ran(REFUSED, refusal + b"\n", b""))
        tally.note("its hint", None if ran.hint == b"hint: %s\n" % found.encode() else f"came {ran.hint!r}")
        ran = ask(program, server.port, *lines)
        wanted = b"".join(text + b"\n" for text in (refusal, reply, refusal))
        tally.compare("three lines", ran, Ran(REFUSED, wanted, hints_of((1, 3), found)))
        ran = ask(program, server.port, f"{lines[0]}\n{lines[0]}")
        tally.compare("a word of two lines", ran, Ran(REFUSED, 2 * (refusal + b"\n"), hints_of((1, 2), found)))
        ran = ask(program, server.port, text=200 * BAD)
        wanted = Ran(REFUSED, 200 * (refusal + b"\n"), hints_of(range(1, MOST_HINTS + 1), found))
        tally.compare("many hints", ran, wanted)
    with Serving(program, TREE) as server:
        ran = ask(program, server.port, lines[0])
        tally.compare("without hints", ran, Ran(REFUSED, b'{"error":"shape"}\n', b""))
        tally.note("no hint", None if ran.hint == b"" else f"came {ran.hint!r}")
    with Replying(b'{"error":"a\\u001b[31m","hint":"b\\u001b[31m\\u000ac"}\n') as canned:
        ran = ask(program, canned.port, lines[0])
        is_plain = ran.hint.startswith(b"hint: b") and b"\x1b" not in ran.hint
        tally.note("a hint that a terminal would act upon", None if is_plain else f"came {ran!r} {ran.hint!r}")


def hints_of(numbers: Iterable[int], found: str) -> bytes:
    """What standard error gets if the lines of these numbers have this hint."""
    return b"".join(b"hint: line %d: %s\n" % (number, found.encode()) for number in numbers)


def long_lines(program: str, tally: Tally) -> None:
    """A line that is too long is answered by the client itself: its status is that of a refusal, and the numbers of
    hints count it."""
    long, refusal = b"x" * (MOST_BYTES + 1) + b"\n", b'{"error":"long-line"}\n'
    found = "batch is 3, but has to be an array of lists"
    shape = compact({"error": "shape", "hint": found}) + b"\n"
    with Serving(program, TREE, further=("--hints",)) as server:
        tally.compare("alone", ask(program, server.port, text=long), Ran(REFUSED, refusal, b""))
        ran = ask(program, server.port, text=BAD + long + long + BAD)
        tally.compare("among others", ran, Ran(REFUSED, shape + 2 * refusal + shape, hints_of((1, 4), found)))


def many(program: str, tally: Tally) -> None:
    """Lines with long replies, more of them than any pipe holds."""
    store = Store(json.loads(TREE))
    text = 3000 * WEIGHTS + 20 * ADD + look(store)
    with Serving(program, TREE) as server:
        note_replies(store, text, ask(program, server.port, text=text).out, "many", tally)


def soon(program: str, tally: Tally) -> None:
    """No line waits until what was sent before it has arrived, which takes 40 milliseconds where that is told late."""
    until_well(partial(lines_late, program, tally), "the time", tally)


def lines_late(program: str, tally: Tally) -> str | None:
    """How long lines took, if it was as if most of them had waited."""
    with Serving(program, TREE) as server:
        began = time.monotonic()
        ran = ask(program, server.port, text=LINES_SOON * WEIGHTS)
        took = time.monotonic() - began
    tally.note("the lines", None if ran.out.count(b"\n") == LINES_SOON else f"came {ran}")
    return f"{took:.2f} s" if took > LINES_SOON * DELAY / 2 else None


def nobody(program: str, tally: Tally) -> None:
    port = free_port()
    wanted = because(f"cannot reach {HOST}:{port}", errno.ECONNREFUSED)
    for lines in ((), (ADD.decode(),)):
        tally.compare(f"{len(lines)} lines", ask(program, port, *lines, text=ADD), wanted)
    tally.compare("quietly", ask(program, port, "--quiet", text=ADD), DEVICE)


class Replying(Canned):
    """A server that reads a line for each of some texts, sends that text, and closes in the end."""

    def __init__(self, *texts: bytes):
        super().__init__()
        self.texts = texts

    def say(self, connection: socket.socket) -> None:
        with connection.makefile("rb") as lines:
            for text in self.texts:
                if lines.readline():
                    connection.sendall(text)


def lost(program: str, tally: Tally) -> None:
    """Servers that close before a reply, within one, or behind one. Of a reply that isn't whole nothing is printed."""
    text = 3 * ADD
    for texts in ((), (b"",), (b'{"a',), (b'{"a":1}\n', b'{"b'), (b'{"a":1}\n', b'{"b":2}\n')):
        whole = b"".join(reply for reply in texts if reply.endswith(b"\n"))
        with Replying(*texts) as server:
            # A server that closes with lines unread resets the connection.
            reset = because(f"lost the server at {HOST}:{server.port}", errno.ECONNRESET, whole)
            wanted = (because(LOST.format(f"{HOST}:{server.port}"), out=whole), reset)
            ran = ask(program, server.port, text=text)
            tally.note(f"{texts!r}", None if ran in wanted else f"wanted {wanted[0]}; came {ran}")
        with Replying(*texts) as server:
            ran = ask(program, server.port, "--quiet", text=text)
            tally.compare(f"{texts!r}, quietly", ran, Ran(3, whole, b"device\n"))


def how_lost(program: str, tally: Tally) -> None:
    """A server that closes before a reply or within one, that says more than a line, that speaks HTTP, or that breaks
    off."""
    long = "no reply of the server at {}: more than a line came for one"
    http = "no reply of the server at {}: it speaks HTTP"
    for text, reason in ((b"", LOST), (b'{"a', LOST), (b"{}\n{}\n", long), (b"HTTP/1.1 400 Bad Request\r\n\r\n", http)):
        with Replying(text) as server:
            wanted = because(reason.format(f"{HOST}:{server.port}"))
            tally.compare(f"{text!r}", ask(program, server.port, text=ADD), wanted)
    with Serving(program, TREE, command="page") as server:
        wanted = because(http.format(f"{HOST}:{server.port}"))
        tally.compare("a page", ask(program, server.port, text=WEIGHTS), wanted)
    with Broken() as server:
        wanted = because(f"lost the server at {HOST}:{server.port}", errno.ECONNRESET)
        tally.compare("a connection that is reset", ask(program, server.port, text=ADD), wanted)


class Silent(Canned):
    """A server that answers a line, and then says nothing until its client has left."""

    def say(self, connection: socket.socket) -> None:
        connection.recv(1 << 16)
        connection.sendall(REPLY)
        while connection.recv(1 << 16):
            pass


def silent(program: str, tally: Tally) -> None:
    """A batch may take long, so a reply is waited for as long as nobody ends that. What came before is printed already,
    and a signal ends the client, whichever a person or a script sends."""
    for number in (signal.SIGTERM, signal.SIGINT, signal.SIGHUP):
        with Silent() as server:
            end_by(program, server.port, number, tally)


def end_by(program: str, port: int, number: signal.Signals, tally: Tally) -> None:
    # (who ignores a signal, as under nohup, has children that ignore it)
    words = ["env", "--default-signal", program, "ask", "--port", str(port)]
    with subprocess.Popen(words, stdin=subprocess.PIPE, stdout=subprocess.PIPE, stderr=subprocess.PIPE) as started:
        started.stdin.write(2 * ADD)
        started.stdin.flush()
        came = started.stdout.readline()
        tally.note("the first reply", None if came == REPLY else f"came {came!r}")
        time.sleep(WAITED)
        tally.note("the wait", None if started.poll() is None else f"status {started.poll()}")
        started.send_signal(number)
        out, err = started.communicate(timeout=LONGEST)
        is_well = (started.returncode, out, err) == (-number, b"", b"")
        tally.note(f"its end by {number.name}", None if is_well else f"{started.returncode} {out!r} {err!r}")


class Broken(Canned):
    """A server that reads a line, and resets the connection."""

    def say(self, connection: socket.socket) -> None:
        # Reset between two writes, the client would learn of it by the second, and find no more than an end.
        while (text := connection.recv(1 << 16)) and not text.endswith(b"\n"):
            pass
        connection.setsockopt(socket.SOL_SOCKET, socket.SO_LINGER, struct.pack("ii", 1, 0))


def streams(program: str, tally: Tally) -> None:
    """The client's own input is a folder, or its output is full."""
    with Serving(program, TREE) as server:
        words = ("ask", "--port", str(server.port))
        folder = os.open("/", os.O_RDONLY)
        try:
            ran = run(program, *words, text=None, stdin=folder)
            tally.compare("a folder", ran, because("cannot read standard input", errno.EISDIR))
        finally:
            os.close(folder)
        with open("/dev/full", "wb") as full:
            ran = run(program, *words, text=WEIGHTS, stdout=full)
            tally.compare("full", ran, because("cannot write standard output", errno.ENOSPC))


def closed(program: str, tally: Tally) -> None:
    """The connection doesn't take the place of a closed stream: nothing that is printed goes to the server, and no
    reply of it is read as a line."""
    with Serving(program, TREE, further=("--hints",)) as server:
        right = ask(program, server.port, "x")
        unread = because("cannot read standard input", errno.EISDIR)
        unwritten = because("cannot write standard output", errno.EBADF)
        refused = Ran(REFUSED, right.out, b"")
        for stream, line, wanted in ((0, (), unread), (1, ("x",), unwritten), (2, ("x",), refused)):
            how = {"stdin": subprocess.DEVNULL, "preexec_fn": partial(os.close, stream)}
            ran = run(program, "ask", "--port", str(server.port), *line, text=None, **how)
            tally.compare(f"stream {stream}", ran, wanted)


def exact(program: str, tally: Tally) -> None:
    """Replies of any bytes are printed as they are, those of several reads too, and in the order in which they came.
    Those that begin as an error does give status 1."""
    each = bytes(value for value in range(256) if value != ord("\n"))
    long = bytes(each[at * at % 251 + at % 5] for at in range(100_000))
    odd = (b" \t\x00\xff\r\n", b"\n", b'{"error":"busy"}\n', b'{"error" :1}\n', each + b"\n", long + b"\n")
    for replies in (*((reply,) for reply in odd), odd, odd[::-1]):
        status = REFUSED if any(reply.startswith(b'{"error":') for reply in replies) else OK
        with Replying(*replies) as server:
            came = ask(program, server.port, text=len(replies) * ADD)
            tally.compare(f"{replies[0][:40]!r}", came, Ran(status, b"".join(replies), b""))
