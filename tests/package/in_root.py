"""The archive in a root that has the C library and nothing else: each command there, and the servers."""

from __future__ import annotations

import http.client
import json
import os
import re
import subprocess
import sys
from pathlib import Path

from looking import COMMANDS, note_equal
from packages import PROGRAM, TOP, Packages, Root, called, libraries
from server import HOST, Server, free_port
from sweeps.program import Tally

# What pages show to be called, with what comes of it; but for servers and who asks them, which are tried as such.
SHOWN = re.compile(r"^\$ \./grove (?!serve|page|ask|save)(.*)\n((?:(?!\$ |```).*\n)*)", re.M)
READERS = ["judge", "plan", "plan --document", "draw", "draw --text", "check", "run --workers 1", "audit"]
# The files of the C library that it may be linked with.
C_LIBRARY = {"libc.so.6", "libm.so.6", "ld-linux-x86-64.so.2"}
SERVING = ["--verbose", "--idle", "600"]


def commands_of_pages(packages: Packages, room: Path, tally: Tally) -> None:
    """Each command that README.md and docs/COMMANDS.md show prints what they show."""
    root = Root(packages, room / "root")
    linked = {library.name for library in libraries(packages.prefix / "bin/grove")}
    note_equal(tally, "what it is linked with beside the C library", linked - C_LIBRARY, set())
    pages = [(TOP / name).read_text(encoding="utf-8") for name in ("README.md", "docs/COMMANDS.md")]
    shown = [found for page in pages for found in SHOWN.findall(page)]
    with server_in(root, "serve", "settings.json", "--data", "kept.grove"):
        pass
    for words, wanted in shown:
        # Beside a refusal a page may leave the hint out.
        came = said_in(root, words.split())
        note_equal(tally, words, came if "hint: " in wanted else came.partition("hint: ")[0], wanted)
    unshown = set(COMMANDS) - {words.split()[0] for words, _ in shown}
    note_equal(tally, "commands that no page shows so", unshown, {"serve", "page", "ask", "save"})
    note_equal(tally, "--version", said_in(root, ["--version"]), f"grove {packages.version}\n")
    document = (TOP / "examples/two-leaves.json").read_text()
    judged = "cost 3\nreplies [10,20]\nrecords [0,10,20]\n"
    note_equal(tally, "judge < DOC", said_in(root, ["judge"], document), judged)
    planned = said_in(root, ["plan", "--document", "examples/settings.json"])
    note_equal(tally, "plan --document", said_in(root, ["check"], planned), "cost 16\n")


def commands_on_examples(packages: Packages, room: Path, tally: Tally) -> None:
    """Each command that reads a document prints there of each example what the program prints in the checkout."""
    root = Root(packages, room / "root")
    for file in sorted((TOP / "examples").glob("*.json")):
        for words in READERS:
            outside = called(packages.copy / PROGRAM, *words.split(), file)
            inside = said_in(root, [*words.split(), f"examples/{file.name}"])
            note_equal(tally, f"{words} {file.name}", inside, outside.stdout + outside.stderr)


def said_in(root: Root, words: list[str], text: str | None = None) -> str:
    """What a command prints there. Its documents are those that are installed."""
    there = [re.sub(r"^examples/", f"{root.pages}/examples/", word) for word in words]
    given = {"stdin": subprocess.DEVNULL} if text is None else {"stdin": None, "input": text}
    ran = called(*root.words(*there), **given)
    return ran.stdout + ran.stderr


def served(packages: Packages, room: Path, tally: Tally) -> None:
    """A server there is asked by `ask` there, and by the client of the Python package."""
    root = Root(packages, room / "root")
    lines, replies = ((TOP / f"examples/orders.{kind}").read_text() for kind in ("lines", "replies"))
    client = [sys.executable, "-m", "pickbracken.client"]
    modules = {"PYTHONPATH": str(packages.prefix / "lib/grove/python"), "PYTHONDONTWRITEBYTECODE": "1"}
    for asks in (lambda port: root.words("ask", "--port", port), lambda port: [*client, port]):
        with server_in(root, "serve", "orders.json") as server:
            came = called(*asks(str(server.port)), stdin=None, input=lines, env={**os.environ, **modules})
            note_equal(tally, "replies", (came.stdout, came.returncode), (replies, 1))


def paged(packages: Packages, room: Path, tally: Tally) -> None:
    """The page, the records as a document, and a line in the body of a request."""
    root = Root(packages, room / "root")
    page = (TOP / "crates/grove_page/page/page.html").read_text()
    with server_in(root, "page", "two-leaves.json") as server:
        note_equal(tally, "GET /", asked(server.port, "GET", "/") == page, True)
        weights = asked(server.port, "POST", "/", '{"weights":null}')
        note_equal(tally, "POST /", weights, '{"waits":[0,0,0],"weights":[5,1,1]}\n')
        document = json.loads(asked(server.port, "GET", "/document"))
        note_equal(tally, "GET /document", [node.get("value", 0) for node in document["nodes"]], [0, 10, 20])


def server_in(root: Root, command: str, example: str, *further: str) -> Server:
    tree = f"{root.pages}/examples/{example}"
    program, *words = root.words(command, "--tree", tree, "--port", str(free_port()), *SERVING, *further)
    return Server(program, words)


def asked(port: int, method: str, path: str, body: str | None = None) -> str:
    connection = http.client.HTTPConnection(HOST, port, timeout=60)
    try:
        connection.request(method, path, body)
        return connection.getresponse().read().decode()
    finally:
        connection.close()
