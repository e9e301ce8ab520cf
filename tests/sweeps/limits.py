"""Limits that no document or line of a case shows: each at its number, one below and one above."""

from __future__ import annotations

import errno
import itertools
import json
from functools import partial
from pathlib import Path

from server import Serving
from store import compact

from sweeps.program import Ran, Tally, Try, because, run
from sweeps.ten_lines import TREE

TRIED = "texts and tables about as large as they may be"
# The most nodes of a tree, and how many letters of a text a hint has.
MOST_NODES, MOST_LETTERS = 4096, 48
NEAR = (-1, 0, 1, 2)
# How many characters of a file's name a reason has, and how many hints `ask` prints.
MOST_NAME, MOST_HINTS = 200, 100
# The most bytes of a table, the most letters of a name, the most names of a path, the most of a weight, and the least
# and the most of a value.
MOST_BYTES, LONGEST_NAME, DEEPEST, HEAVIEST = 4_194_304, 32, 32, 1000
LEAST, MOST = -(2**63), 2**63 - 1
# What may stand before the line of a node: each begins and ends in a way of its own.
MARKS = (b"", b"\xef\xbb\xbf")
BEFORE = (b"", b"\n", b"\r\n", b"\r", b"# x\n", b"# x\r\n", b"# x\r# y\n", b"\n\n\r", b'"/"\n', b"/,1\r", b"/\r\n\n")
TOO_LONG_HINT = b'hint: the document has more than the %d bytes that "tree" takes\n' % MOST_BYTES
TOO_LONG = Ran(1, b"refused limit whole\n", b"")
HEADERS = (b"", b"path\n", b"path,weight\r\n", b"path,weight,value\r")


def tries(program: str, room: str) -> list[Try]:
    return [
        Try("tables", partial(tables, program, room)),
        Try("fields of tables", partial(fields, program, room)),
        Try("bytes of tables", partial(table_bytes, program, room)),
        Try("numbers of lines of tables", partial(line_numbers, program, room)),
        Try("texts in hints", partial(texts, program)),
        Try("names of files in reasons", partial(reasons, program)),
        Try("hints of a client", partial(client_hints, program)),
    ]


def tables(program: str, room: str, tally: Tally) -> None:
    """A table of as many nodes as a tree may have, each below the root, is one, and a longer one is refused at the line
    that is too much. So too where the root has no line, and is added."""
    for more in NEAR:
        count = MOST_NODES + more
        names = [f"n{number}" for number in range(1, count)]
        for further, tops in (((), ["/"]), (("--parents",), [])):
            table = Path(room, f"table-{count}{len(tops)}")
            table.write_text("".join(f"{path}\n" for path in [*tops, *(f"/{name}" for name in names)]))
            ran = run(program, "tree", *further, str(table))
            if count > MOST_NODES:
                line = MOST_NODES + len(tops)
                tally.compare(f"{count} nodes, {further}", ran, Ran(1, b"refused line %d too-many\n" % line, b""))
                is_well = ran.hint == b"hint: line %d: a tree has at most %d nodes\n" % (line, MOST_NODES)
                tally.note(f"{count} nodes, {further}, the hint", None if is_well else f"came {ran.hint!r}")
                continue
            made = [node["name"] for node in json.loads(ran.out)["nodes"]] if ran.status == 0 else []
            tally.note(f"{count} nodes, {further}", None if made == ["", *names] else f"{len(made)} nodes, {ran}")


def fields(program: str, room: str, tally: Tally) -> None:
    """A line whose name, path, weight or value is about as large as it may be."""
    lines = [("/" + "n" * size, (1, 0) if size <= LONGEST_NAME else "bad-name") for size in range(30, 35)]
    lines += [("/n" * size, (1, 0) if size <= DEEPEST else "too-deep") for size in range(30, 35)]
    weights = (-1, 0, 1, 2, HEAVIEST - 1, HEAVIEST, HEAVIEST + 1)
    lines += [(f"/n,{weight}", (weight, 0) if 1 <= weight <= HEAVIEST else "bad-weight") for weight in weights]
    values = (LEAST - 1, LEAST, LEAST + 1, -1, 0, MOST - 1, MOST, MOST + 1)
    lines += [(f"/n,1,{value}", (1, value) if LEAST <= value <= MOST else "bad-value") for value in values]
    for line, wanted in lines:
        ran = on_table(program, room, b"/\n%s\n" % line.encode(), "--parents")
        if isinstance(wanted, str):
            tally.compare(line, ran, Ran(1, b"refused line 2 %s\n" % wanted.encode(), b""))
            continue
        last = json.loads(ran.out)["nodes"][-1] if ran.status == 0 else {}
        came = last.get("weight"), last.get("value")
        tally.note(line, None if came == wanted else f"wanted {wanted}; came {ran}")


def on_table(program: str, room: str, text: bytes, *further: str) -> Ran:
    table = Path(room, f"table-{abs(hash(text))}")
    table.write_bytes(text)
    try:
        return run(program, "tree", *further, str(table))
    finally:
        table.unlink()


def table_bytes(program: str, room: str, tally: Tally) -> None:
    """A table of about as many bytes as it may have, most of them a comment."""
    for more in NEAR:
        ran = on_table(program, room, b"/,1,0\n#".ljust(MOST_BYTES + more - 1, b"x") + b"\n")
        is_long = ran == TOO_LONG and ran.hint == TOO_LONG_HINT
        is_well = ran.status == 0 and ran.out.startswith(b'{"nodes":[') if more <= 0 else is_long
        tally.note(f"{MOST_BYTES + more} bytes", None if is_well else f"came {ran}")


def line_numbers(program: str, room: str, tally: Tally) -> None:
    """A refused line is named by how many line feeds come before it, whatever else does."""
    for mark, header, before, between in itertools.product(MARKS, HEADERS, BEFORE, BEFORE[:8]):
        front = mark + before + between if header == b"" else mark + between + header + before
        number = front.count(b"\n") + 1
        ran = on_table(program, room, front + b"/a,0\n")
        wanted = Ran(1, b"refused line %d bad-weight\n" % number, b"")
        tally.compare(f"{front!r}", ran, wanted)
        hint = b'hint: line %d: the weight "0" is no whole number from 1 to 1000\n' % number
        tally.blame(f"{front!r}", None if ran.hint == hint else f"its hint is {ran.hint!r}")


def texts(program: str, tally: Tally) -> None:
    """A text in a line is shown to so many letters, whatever bytes they have."""
    with Serving(program, TREE, further=("--hints",)) as server:
        for letter, shown in (("x", "x"), ("\u00e9", "\\u00e9"), ('"', '\\"')):
            for more in NEAR:
                count = MOST_LETTERS + more
                came = json.loads(server.talk(compact({letter * count: []})))["hint"]
                kept = shown * min(count, MOST_LETTERS) + (".." if count > MOST_LETTERS else "")
                is_well = came.startswith(f'"{kept}" is no request')
                tally.note(f"{count} times {letter!r}", None if is_well else f"came {came!r}")


def reasons(program: str, tally: Tally) -> None:
    """The name of a file that can't be opened is told to so many characters."""
    for more in NEAR:
        name = "x" * (MOST_NAME + more)
        shown = name if more <= 0 else "x" * MOST_NAME + ".."
        ran = run(program, "plan", name)
        tally.compare(f"a name of {len(name)}", ran, because(f"cannot open {shown}", errno.ENOENT))


def client_hints(program: str, tally: Tally) -> None:
    """`ask` prints so many hints, each with the number of its line, and of a single line without one."""
    said = "the line is null, but has to be an object with one member, as {\"plan\":[..]}"
    with Serving(program, TREE, further=("--hints",)) as server:
        for count in (1, 2, *(MOST_HINTS + more for more in NEAR)):
            for words, text in (((), b"null\n" * count), (("null",) * count, b"")):
                ran = run(program, "ask", "--port", str(server.port), *words, text=text)
                came = (ran.hint + ran.err).decode().splitlines()
                numbers = [f"line {at}: " for at in range(1, count + 1)] if count > 1 or not words else [""]
                wanted = [f"hint: {number}{said}" for number in numbers[:MOST_HINTS]]
                fault = None if came == wanted else f"came {came[-2:]}, {len(came)}"
                tally.note(f"{count} lines as {words[:1]}", fault)
