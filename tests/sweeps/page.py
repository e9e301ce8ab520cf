"""The store over HTTP: each row of docs/PAGE.md, in pieces, cut off and among sixteen clients, a store that is kept and
opened again, and hostile requests by a seeded generator, after which honest ones are answered as before."""

from __future__ import annotations

import json
import re
import signal
import socket
import struct
import time
from concurrent.futures import ThreadPoolExecutor
from contextlib import ExitStack
from functools import partial
from pathlib import Path
from random import Random
from urllib.parse import quote

from history import fault_of_history
from hostile import hostile
from pages import MOST_BODY, MOST_KEPT, MOST_LINES, PAGE, after, document_text, fault_of_plain, fault_of_response
from pages import nodes_text
from server import HOST, PIECE, BadServer, Serving, connected
from store import MOST_LINE, Store, compact
from web import BadResponse, Client, chunked, post, request, responses_in

from sweeps.browser import Browser
from sweeps.crowds import SLOTS, is_silent
from sweeps.documents import seeded
from sweeps.doors import DOORS, Door
from sweeps.hostile_lines import note_memory, taken
from sweeps.program import Tally, Try
from sweeps.readable import note_readable
from sweeps.ten_lines import ADD, GET, TEXT, TREE, WEIGHTS

TOP = Path(__file__).parents[2]
TRIED = "requests, most of them hostile"
SEEDED = 8
# How many parts have hostile requests, and how many connections of them each; after so many comes an honest client.
HOSTILE_PARTS, HOSTILE_EACH, HONEST_EVERY = 4, 1000, 50
# A list as the page writes one.
LIST = '[["get","/a"],["add","/b",-3],["take","/a",2,20],["set","/",9,1]]'
# How many fields of a head, and how long a part of each is.
FIELDS = [(1, 8000), (50, 1), (50, 200)]
# Extensions of chunks, and fields behind them.
BESIDE_CHUNKS = [(b"", b""), (b";a=b", b""), (b"", b"x-sum: 1\r\n"), (b' ; a="b c"', b"a: b\r\nc: d\r\n")]
# How many nodes a tree has at most, how often all are asked for ahead, and how many bytes more that may take.
MOST_NODES, AHEAD, MOST_MORE = 4096, 800, 32 << 20
# How many bytes of replies a response has at most, and nodes enough for so many by few lines.
MOST_REPLIES, SOME_NODES = 16_777_216, 401
# How long a body may take on a machine that is busy with other things.
LONG = 30.0
# How long sixteen clients ask; each goes on until it has had a batch and a look.
SECONDS = 3.0
# For how long a round is waited for, how many are waited for in turn, and how many clients hang up each time.
LONGEST_WAIT, ROUNDS, HANGING = 30.0, 4, 3
STATUSES = {100, 200, 400, 403, 404, 405, 413, 414, 421, 431, 501}
PORT = 0
REFUSED = b'{"batch":[[["get","/c"]]]}'
LOOK = ("GET", "/nodes", None)
# What is clicked once the page asks whether weights are to be lowered, if it does; the weights then, and what it says.
CLICKS = [
    ("document.getElementById('keep').click()", [5, 1, 1], ""),
    ("document.getElementById('lowering').close()", [5, 1, 1], ""),
    ("document.getElementById('lower').click()", [3, 1, 1], "1 weight changed at "),
    ("document.getElementById('lower').click()", [2, 1, 1], "1 weight changed at "),
    ("document.getElementById('lower').click()", [1, 1, 1], "1 weight changed at "),
    (None, [1, 1, 1], "no weight changed"),
]
FALLS = r"1 weight of 3 would fall, the greatest from [0-9]+ to [0-9]+, and none would rise\."
ASKS = re.compile(r"No node has waits\. So " + FALLS)
# How long a click that does nothing is watched.
SHORT = 0.3
# For longer than a server takes to look whether a client that waits has left, and how often something comes behind.
LOOKED_AGAIN, BEHIND = 1.5, 2
# The fields of requests that a page sends: the first three are of a page of the server.
ORIGINS = [
    (f"origin: http://{HOST}",),
    (f"Origin:http://{HOST} ",),
    ("origin: http://localhost:8080", "host: localhost:8080"),
    ("origin: http://localhost", "host: localhost:8080"),
    ("origin: http://localhost:8080", "host: localhost"),
    (f"origin: https://{HOST}",),
    (f"origin: http://{HOST}.elsewhere.example",),
    (f"origin: http://{HOST[:-1]}",),
    (f"origin: {HOST}",),
    ("origin: http://",),
    ("origin: http://elsewhere.example",),
    ("origin: null",),
    ("origin:",),
    (f"origin: http://{HOST}", f"origin: http://{HOST}"),
    (f"origin: http://{HOST}, http://{HOST}",),
]
# The hosts that requests may name; a request that names another one isn't served.
HERE = ["127.0.0.1", "127.0.0.1:80", "10.1.2.3:", "localhost", "LocalHost:9", "LOCALHOST", "[::1]", "[::1]:80"]
HERE += ["[::ffff:1.2.3.4]"]
ELSEWHERE = ["elsewhere.example", "localhost.", "localhost.example", "a.localhost", "127.0.0.1.example", "127.1"]
ELSEWHERE += ["1.2.3.256"]
ELSEWHERE += ["01.2.3.4", "0x7f.0.0.1", "2130706433", "127.0.0.1.", "local", "localhost_", ""]
HOSTS = [(f"host: {name}",) for name in HERE + ELSEWHERE]
# Queries of nodes that nothing is waited for: read, ignored, refused, and with a path at which there is no node.
QUERIES = ["", "x=1&x=2", "after=0", "below=/", "below=/a", "below=%2Fb&x", "after=0&below=/a", "below=/a&after=0"]
QUERIES += ["&&after=0&", "after=%30", "af%74er=0&b%65low=/b", "after=000", "AFTER=x", "=0&after=0"]
QUERIES += ["after=", "after", "after=-1", "after=%2B0", "after=+0", "after=0x0", "after=0.0", "after=%E0%A5%A6"]
QUERIES += ["after=0="]
QUERIES += ["after=18446744073709551616", "after=99999999999999999999999", "after=0&after=0", "after=0&x=1&after=1"]
QUERIES += ["below=/a&below=/a", "below=/a&below=/c", "after=x&below=/c", "after=0&below=/c&below=/c"]
QUERIES += ["below=", "below", "below=a", "below=/a/", "below=//", "below=/c", "below=/A", "below=%ff", "below=/%61%"]
QUERIES += ["after=18446744073709551615&below=/c", "after=0&below=/c"]
QUERIES += ["hints", "below=/a&hints=1", "below=/c&hints", "hints=x&after=0&below=c", "below=/c&h%69nts="]
QUERIES += ["below=/c&Hints", "below=/c&hints&hints", "after=x&below=/c&hints", "hints=0&below="]
# What a query asks for hints by, before a path and behind it, and what it doesn't.
ASKING = ("below={}&hints=1", "hints&below={}", "after=0&below={}&hints=", "hints=0&below={}&x")
NOT_ASKING = ("below={}", "below={}&Hints=1", "below={}&hint=1&x=hints", "after=18446744073709551615&below={}")
ROWS = [
    ("GET", "/", None),
    ("HEAD", "/", None),
    LOOK,
    ("POST", "/", TEXT),
    LOOK,
    *[("GET", f"/nodes?{query}", None) for query in QUERIES],
    ("HEAD", "/nodes?after=0&below=/a", None),
    ("HEAD", "/nodes?after=x", None),
    ("POST", "/nodes?after=0", ADD),
    ("GET", "/document?after=x", None),
    ("GET", "/?after=x", None),
    ("HEAD", "/nodes", None),
    ("GET", "/document", None),
    ("HEAD", "/document", None),
    ("POST", "/", b""),
    ("POST", "/", ADD.rstrip(b"\n")),
    ("POST", "/", REFUSED),
    ("POST", "/", REFUSED + b"\n"),
    ("POST", "/", b"\n"),
    ("POST", "/", b"\n\n"),
    ("POST", "/", ADD + REFUSED),
    ("POST", "/?hints", REFUSED),
    ("POST", "/?hints", ADD + REFUSED + b"\xff\n" + b"\n" + WEIGHTS),
    ("POST", "/?hints", ADD),
    ("POST", "/?hints=1", REFUSED),
    ("POST", "/?Hints", REFUSED),
    ("GET", "/?hints", None),
    ("POST", "/none?hints", REFUSED),
    ("POST", "/", b"\xff\n" + ADD + b"\n" + WEIGHTS),
    ("POST", "/", b'{"reweigh":null}'),
    ("GET", "/document", None),
    ("GET", "/none", None),
    ("HEAD", "/none", None),
    ("POST", "/none", ADD),
    ("GET", "/nodes/", None),
    ("PUT", "/", ADD),
    ("DELETE", "/nodes", None),
    ("POST", "/nodes", ADD),
    ("POST", "/document", b""),
    ("PATCH", "/document", ADD),
    ("OPTIONS", "/", None),
    *[("POST", "/", ADD, *fields) for fields in ORIGINS],
    ("GET", "/health", None),
    ("HEAD", "/health", None),
    ("POST", "/health", ADD),
    ("GET", "/metrics", None),
    ("HEAD", "/metrics", None),
    ("POST", "/metrics", ADD),
    *[(*row, *fields) for row in (LOOK, ("POST", "/", ADD), ("GET", "/health", None)) for fields in HOSTS],
    ("HEAD", "/", None, "host: elsewhere.example"),
    ("POST", "/none", ADD, "host: elsewhere.example", "origin: http://elsewhere.example"),
    ("POST", "/", ADD, "host: elsewhere.example", "origin: http://elsewhere.example"),
    ("GET", "/", None, "origin: null"),
    ("GET", "/nodes", None, "origin: http://elsewhere.example"),
    ("PUT", "/", ADD, "origin: null"),
    ("POST", "/nodes", ADD, "origin: null"),
    ("POST", "/none", ADD, "origin: null"),
    LOOK,
]


def tries(program: str, room: str) -> list[Try]:
    parts = [Try(f"hostile requests {part}", partial(hostile_requests, program, part)) for part in range(HOSTILE_PARTS)]
    return parts + [
        Try("each row", partial(each_row, program)),
        Try("each row in pieces", partial(in_pieces, program)),
        Try("requests cut after each byte", partial(cut_after_each, program)),
        Try("bodies", partial(bodies, program)),
        Try("heads and trailers", partial(heads_and_trailers, program)),
        Try("as many nodes as there may be", partial(many_nodes, program)),
        Try("as many replies as a response may have", partial(most_replies, program)),
        Try("what the page asks", partial(what_the_page_asks, program)),
        Try("when the page asks for a reweighing", partial(when_it_reweighs, program)),
        Try("what can be read and reached", partial(read_and_reached, program)),
        Try("nodes below each", partial(below_each, program)),
        *(Try(f"{door.name}, hints for paths", partial(hints_for_paths, program, door)) for door in DOORS[1:]),
        Try("waiting for a round", partial(waiting, program)),
        Try("waiting in vain", partial(waiting_in_vain, program)),
        Try("requests behind a look that waits", partial(behind_a_wait, program)),
        Try("a server that is stopped", partial(stopped, program)),
        Try("connections", partial(connections, program)),
        Try("sixteen at once", partial(sixteen_at_once, program, SECONDS)),
        Try("seventeen at once", partial(seventeen_at_once, program)),
        *(Try(f"kept and opened again, {seed}", partial(kept, program, room, seed)) for seed in range(SEEDED)),
    ]


def serving(program: str, document: bytes, workers: int = 1, **how) -> Serving:
    return Serving(program, document, workers, PORT, command="page", **how)


def note_row(store: Store, row: tuple, response, where: str, tally: Tally) -> None:
    fault = fault_of_response(store, row, response)
    tally.note(where, fault and f"{row[0]} {row[1]} {(row[2] or b'')[:80]!r} {row[3:]}: {fault}")


def note_rows(client: Client, store: Store, rows: list[tuple], where: str, tally: Tally) -> None:
    for number, row in enumerate(rows):
        note_row(store, row, client.ask(*row), f"{where}, request {number}", tally)


# ---- the rows


def each_row(program: str, tally: Tally) -> None:
    """All on one connection, and each on one of its own."""
    store = Store(json.loads(TREE))
    with serving(program, TREE) as server:
        with Client(server.port) as client:
            note_rows(client, store, ROWS, "on one connection", tally)
        for number, row in enumerate(ROWS):
            with Client(server.port) as client:
                note_rows(client, store, [row], f"connection {number}", tally)


def in_pieces(program: str, tally: Tally) -> None:
    """All rows are sent before a response is read."""
    for piece in (1, 7, PIECE):
        store = Store(json.loads(TREE))
        with serving(program, TREE) as server, Client(server.port) as client, ThreadPoolExecutor(1) as pool:
            sender = pool.submit(send_in_pieces, client, b"".join(request(*row) for row in ROWS), piece)
            for number, row in enumerate(ROWS):
                note_row(store, row, client.next(row[0]), f"pieces of {piece}, request {number}", tally)
            sender.result()
            tally.blame(f"pieces of {piece}", None if client.next() is None else "there is a response too many")


def send_in_pieces(client: Client, data: bytes, piece: int) -> None:
    for at in range(0, len(data), piece):
        client.send(data[at : at + piece])
    client.connection.shutdown(socket.SHUT_WR)


def cut_after_each(program: str, tally: Tally) -> None:
    """Each client sends some first bytes of four requests, and no more: those that are whole are answered, and of
    another it may be said that it is none."""
    rows = [LOOK, ("POST", "/", ADD), ("POST", "/", ADD + GET), ("GET", "/document", None)]
    sent = [request(*rows[0]), request(*rows[1]), chunked([ADD[:5], ADD[5:] + GET]), request(*rows[3])]
    ends = [sum(map(len, sent[: number + 1])) for number in range(len(sent))]
    store = Store(json.loads(TREE))
    with serving(program, TREE) as server:
        for size in range(ends[-1] + 1):
            with Client(server.port) as client:
                send_in_pieces(client, b"".join(sent)[:size], PIECE)
                whole = sum(end <= size for end in ends)
                for row in rows[:whole]:
                    note_row(store, row, client.next(row[0]), f"{size} bytes", tally)
                last = client.next()
                is_well = last is None or last.status == 400 and size not in ends and client.next() is None
                tally.note(f"{size} bytes", None if is_well else f"after {whole} requests came {last}")


def many_lines(program: str, tally: Tally) -> None:
    """Bodies of about as many lines as they may have, and as many as they have room for. None takes long."""
    store = Store(json.loads(TREE))
    with serving(program, TREE) as server, Client(server.port) as client:
        for line in (b"\n", ADD, WEIGHTS):
            for count in (MOST_LINES, MOST_LINES + 1, MOST_BODY // len(line)):
                where, started = f"{count} lines of {len(line)} bytes", time.monotonic()
                note_rows(client, store, [("POST", "/", line * count)], where, tally)
                taken = time.monotonic() - started
                tally.note(where, None if taken < LONG else f"it took {taken:.1f} s")


def bodies(program: str, tally: Tally) -> None:
    """Bodies and lines about as long as they may be, in chunks, and after a `100 Continue`."""
    store = Store(json.loads(TREE))
    lines = [WEIGHTS.rstrip(b"\n").ljust(size) for size in (MOST_LINE, MOST_LINE + 1)]
    with serving(program, TREE) as server, Client(server.port) as client:
        for body in [lines[0], lines[1], lines[1] + b"\n" + ADD, ADD * 500, GET * 1000]:
            note_rows(client, store, [("POST", "/", body)], f"a body of {len(body)} bytes", tally)
        full = b"\n".join([ADD.rstrip(b"\n").ljust(MOST_LINE - 1)] * 4) + b"\n"
        for body, ends in ((ADD.ljust(MOST_KEPT), False), (ADD.ljust(MOST_KEPT + 1), True), (full, True)):
            where, port = f"{len(body)} bytes", client.connection.getsockname()[1]
            note_rows(client, store, [("POST", "/", body), ("POST", "/", ADD)], where, tally)
            stays = client.connection.getsockname()[1] == port
            tally.blame(where, None if stays is not ends else f"the connection {'stays' if stays else 'ends'}")
        for sizes in (1, 7, 1000):
            client.send(chunked([full[:2000][at : at + sizes] for at in range(0, 2000, sizes)]))
            note_row(store, ("POST", "/", full[:2000]), client.next("POST"), f"chunks of {sizes}", tally)
        client.send(post(ADD, "expect: 100-continue")[: -len(ADD)])
        response = client.next()
        tally.note("100", None if response.status == 100 else f"came {response}")
        client.send(ADD)
        note_row(store, ("POST", "/", ADD), client.next("POST"), "after a 100", tally)
    many_lines(program, tally)
    for fields in (f"content-length: {MOST_BODY + 1}", "content-length: 99999999999"):
        with serving(program, TREE) as server, Client(server.port) as client:
            response = client.ask("POST", "/", None, fields)
            is_well = response and response.status == 413 and client.next() is None
            tally.note(fields, None if is_well else f"came {response}")
    with serving(program, TREE) as server:
        data = chunked([full, b"x"])
        came = asked_and_ended(server.port, data, False)
        tally.note("too many chunks", fault_of_answers(*came, data))


def heads_and_trailers(program: str, tally: Tally) -> None:
    """Heads as browsers send them that have kept much of other servers on this machine. What chunks may have beside
    their bytes means nothing."""
    store = Store(json.loads(TREE))
    with serving(program, TREE) as server, Client(server.port) as client:
        for count, size in FIELDS:
            fields = [f"cookie: {number}={'a' * size}" for number in range(count)]
            for row in (LOOK, ("GET", "/", None), ("POST", "/", ADD)):
                note_rows(client, store, [(*row, *fields)], f"{count} fields of {size} bytes and more", tally)
        head = request("POST", "/", None, "transfer-encoding: chunked")
        for extension, trailer in BESIDE_CHUNKS:
            client.send(head + b"%x%s\r\n%s\r\n0%s\r\n%s\r\n" % (len(ADD), extension, ADD, extension, trailer))
            note_row(store, ("POST", "/", ADD), client.next("POST"), f"{extension!r}, {trailer!r}", tally)


def many_nodes(program: str, tally: Tally) -> None:
    """They are asked for many times ahead of the responses, which the server doesn't make all at once."""
    document = json.dumps(flat(MOST_NODES)).encode()
    add = compact({"batch": [[["add", f"/n{MOST_NODES - 1}", 5]]]})
    store = Store(json.loads(document))
    with serving(program, document) as server, Client(server.port) as client, ThreadPoolExecutor(1) as pool:
        rows = [("POST", "/", add), LOOK, ("GET", "/document", None), ("POST", "/", WEIGHTS)]
        note_rows(client, store, rows, "alone", tally)
        before, wanted = taken(server, "VmHWM"), nodes_text(store)
        sender = pool.submit(client.send, AHEAD * request(*LOOK))
        for number in range(AHEAD):
            response = client.next()
            is_well = response and (response.status, response.body) == (200, wanted)
            tally.note(f"request {number} of those ahead", None if is_well else f"came {response}")
        sender.result()
        note_memory(taken(server, "VmHWM") - before, MOST_MORE, "with requests ahead", tally)


def most_replies(program: str, tally: Tally) -> None:
    """Replies that fill a response to the last byte, and then more of them: no line behind those is answered."""
    document = json.dumps(flat(SOME_NODES)).encode()
    store = Store(json.loads(document))
    body, add = filling(store), compact({"batch": [[["add", "/n1", 1]]]})
    with serving(program, document) as server:
        with Client(server.port) as client:
            note_rows(client, store, [("POST", "/", body)], "all that there may be", tally)
        with Client(server.port) as client:
            response = client.post(add + b"\n" + body + add)
            fault = fault_of_plain(response, 500, {b'{"error":"replies"}\n'}) if response else "there is no response"
            tally.note("more", fault)
        with Client(server.port) as client:
            note_rows(client, after(store, [add]), [LOOK], "after more", tally)


def flat(count: int) -> dict:
    rows = [{"parent": 0, "name": f"n{number}", "weight": number % 1000 + 1} for number in range(1, count)]
    return {"nodes": [{"parent": None, "name": "", "weight": 7}, *rows]}


def filling(store: Store) -> bytes:
    """A body whose replies have as many bytes as there may be: some lines ask for the weights, others for no node."""
    long, short = len(compact(store.weights(None))) + 1, len(b'{"error":"no-path"}\n')
    many = next(many for many in range(MOST_REPLIES // long, 0, -1) if (MOST_REPLIES - many * long) % short == 0)
    return many * WEIGHTS + (MOST_REPLIES - many * long) // short * (REFUSED + b"\n")


def what_the_page_asks(program: str, tally: Tally) -> None:
    """The lines that the page's script puts together, each once, and the paths that it has in it: none is refused."""
    script = PAGE.read_text()
    lines = {name: line for line, name in re.findall(r"""[`'](\{"([a-z]+)":[^`']*)[`']""", script)}
    tally.note("the lines", None if lines.keys() == {"plan", "batch", "reweigh", "check"} else f"they are {lines}")
    paths = re.findall(r'(?:answerOf\(|href=)"(/[a-z]*)(?:\?hints)?"', script)
    queries = set(re.findall(r"\?[a-z]+=[^`]*", script))
    tally.note("the queries", None if queries == {"?after=${rounds}"} else f"they are {queries}")
    tally.note("the paths", None if {*paths} == {"/", "/nodes", "/document", "/metrics"} else f"they are {paths}")
    store = Store(json.loads(TREE))
    filled = {"${jsonOf(list)}": LIST, '${lists.map(jsonOf).join(",")}': f"{LIST},{LIST}"}
    with serving(program, TREE) as server, Client(server.port) as client:
        for path in paths:
            note_rows(client, store, [("GET", path, None)], "a path", tally)
        for name in ("plan", "check", "batch", "reweigh"):
            line = lines.get(name, "")
            for hole, text in filled.items():
                line = line.replace(hole, text)
            response = client.post(line.encode())
            note_row(store, ("POST", "/", line.encode()), response, name, tally)
            tally.blame(name, None if response.status == 200 else f"{line!r} is refused: {response}")
            if name == "plan":
                planned = json.loads(response.body)
                filled["${check}"] = json.dumps({"flow": planned.get("flow"), "plan": planned.get("plan")})[1:-1]
        # A round has been done since there were none.
        note_row(store, LOOK, client.get("/nodes?after=0"), "a look that waits", tally)


def connections(program: str, tally: Tally) -> None:
    """When a connection stays, and when it ends."""
    last = "GET /nodes HTTP/1.1\r\nhost: localhost\r\nconnection: close\r\n\r\n", True
    old = "GET /nodes HTTP/1.0\r\n\r\n", True
    kept_old = "GET /nodes HTTP/1.0\r\nconnection: keep-alive\r\n\r\n", False
    whole = "GET http://localhost/nodes HTTP/1.1\r\nhost: localhost\r\n\r\n", False
    store = Store(json.loads(TREE))
    with serving(program, TREE) as server:
        for text, ends in (last, old, kept_old, whole):
            with Client(server.port) as client:
                client.send(text.encode())
                note_row(store, LOOK, client.next(), repr(text), tally)
                if ends:
                    tally.blame(repr(text), None if client.next() is None else "the connection stays")
                else:
                    note_rows(client, store, [("POST", "/", ADD)], repr(text), tally)


# ---- looks that wait, and at a part


def when_it_reweighs(program: str, tally: Tally) -> None:
    """Nothing but a click on `Reweigh` asks for one, and where there are no waits only an answer to the page's question
    does. In a browser that is tried, if there is Chromium; else what the script says is looked at alone."""
    script = PAGE.read_text()
    called = script.partition("async function reweigh()")[2].partition("\n}\n")[0]
    guard = r"if \(lowered\.length && !await isToLower\(lowered\)\) return;"
    is_guarded = re.search(guard + r".*\{\"reweigh\":null\}", called, re.S)
    is_well = is_guarded and len(re.findall(r"\breweigh\(\)|, reweigh\b", script)) == 2
    tally.note("the script", None if is_well else f"it has {called!r}")
    if Browser.is_there():
        clicks_on_reweigh(program, tally)


def read_and_reached(program: str, tally: Tally) -> None:
    with serving(program, TREE) as server:
        note_readable(f"http://{HOST}:{server.port}/", PAGE.read_text(), tally)


def clicks_on_reweigh(program: str, tally: Tally) -> None:
    """What clicks on the page's buttons leave of the weights, each time with what the page says."""
    with serving(program, TREE) as server, Browser(f"http://{HOST}:{server.port}/") as page:
        page.until("document.querySelectorAll('#nodes td.weight').length == 3")
        for number, (press, left, told) in enumerate(CLICKS):
            page.run("document.getElementById('reweighed').textContent = ''")
            page.run("document.getElementById('reweigh').click()")
            if press:
                page.until("document.getElementById('lowering').open")
                told_before = page.run("document.getElementById('lowers').textContent")
                tally.note(f"question {number}", None if ASKS.fullmatch(told_before) else f"it says {told_before!r}")
                page.run(press)
                page.until("!document.getElementById('lowering').open")
            page.until(f"document.getElementById('reweighed').textContent.startsWith({told!r})")
            time.sleep(0 if told else SHORT)
            with Client(server.port) as client:
                weights = json.loads(client.post(WEIGHTS).body)["weights"]
            tally.note(f"click {number}", None if weights == left else f"wanted {left}; came {weights}")


def below_each(program: str, tally: Tally) -> None:
    """Of a seeded tree, and of one as deep as there may be: each path as it is and encoded, and others near it."""
    below_root = [{"parent": number, "name": "a", "weight": 1} for number in range(32)]
    deepest = [{"parent": None, "name": "", "weight": 1}, *below_root]
    for document in (seeded(0), json.dumps({"nodes": deepest}).encode()):
        store = Store(json.loads(document))
        with serving(program, document) as server, Client(server.port) as client:
            for path in store.tree.paths:
                for told in (path, quote(path, safe=""), f"{path}a", f"{path}/", path[1:], path.upper()):
                    note_rows(client, store, [("GET", f"/nodes?below={told}", None)], "below", tally)


def hints_for_paths(program: str, door: Door, tally: Tally) -> None:
    """A path that no node has is refused with a hint if the query asks for one, or the server has `--hints`, and else
    to the byte as ever. It is that of line_hints.json for a line `plan` that has the path alone, and here one that
    names a node."""
    wbe = {"/wbe": 'below: no node has the path "/wbe"; "/" has no child "wbe", but "web", which resembles it'}
    for name, hints in (("two-leaves", paths_in_line_hints()), ("settings", wbe)):
        document = (TOP / f"examples/{name}.json").read_bytes()
        for words in ((), ("--hints",)):
            with door.serving(program, document, words) as server, Client(server.port) as client:
                for path, hint in hints.items():
                    for form in (*ASKING, *NOT_ASKING):
                        is_hinted = words or form in ASKING
                        wanted = {"error": "no-path", "hint": hint} if is_hinted else {"error": "no-path"}
                        response = client.get("/nodes?" + form.format(quote(path, safe="")))
                        fault = fault_of_plain(response, 400, {compact(wanted) + b"\n"})
                        tally.note(f"{words} {form} {path!r}", fault)


def paths_in_line_hints() -> dict[str, str]:
    """The hint of each path that a line `plan` of line_hints.json has alone, as it is for a path beside `below`."""
    found = {}
    for row in json.loads((TOP / "tests/line_hints.json").read_text()):
        path = re.fullmatch(r'\{"plan":\[\["get",("[^"]*")\]\]\}', row["line"])
        if path and row["error"] == "no-path":
            found[json.loads(path[1])] = row["hint"].removeprefix("hint: ").replace("plan 0", "below")
    return found


def waiting(program: str, tally: Tally) -> None:
    """Clients wait for the next round, which one more client brings; some hang up meanwhile, and one waits for a round
    that doesn't come."""
    store, never = Store(json.loads(TREE)), 2**64 - 1
    with serving(program, TREE, 2) as server, ExitStack() as room:
        asks, far, *waits = (room.enter_context(Client(server.port)) for _ in range(SLOTS))
        far.send(request("GET", f"/nodes?after={never}&below=/a"))
        for number in range(ROUNDS):
            asked = [f"/nodes?after={store.rounds}{below}" for below in ("", "&below=/b", "&below=/") for _ in waits]
            for client, target in zip(waits, asked):
                client.send(request("GET", target))
            for client in waits[:HANGING]:
                client.close()
            tally.blame("all that wait", None if is_silent(waits[-1].connection) else "one is answered at once")
            started = time.monotonic()
            note_rows(asks, store, [("POST", "/", ADD)], f"round {number}", tally)
            for client, target in list(zip(waits, asked))[HANGING:]:
                note_row(store, ("GET", target, None), client.next(), f"round {number}, a look that waits", tally)
            taken = time.monotonic() - started
            tally.note("the time", None if taken < LONG else f"they waited {taken:.1f} s")
            for client in waits[:HANGING]:
                client.open()
        # What is no round ends no wait.
        waits[-1].send(request("GET", f"/nodes?after={store.rounds}"))
        note_rows(asks, store, [("POST", "/", b'{"reweigh":null}'), ("POST", "/", WEIGHTS), LOOK], "no round", tally)
        for client in (waits[-1], far):
            tally.note("no later round", None if is_silent(client.connection) else "a look is answered")


def behind_a_wait(program: str, tally: Tally) -> None:
    """What is sent behind a look that waits ends no wait, and is answered once the look is; then the connection waits
    for requests as ever."""
    store = Store(json.loads(TREE))
    with serving(program, TREE) as server, Client(server.port) as asks, Client(server.port) as waits:
        for number in range(BEHIND):
            look, behind = ("GET", f"/nodes?after={store.rounds}", None), ("POST", "/", WEIGHTS)
            waits.send(request(*look))
            time.sleep(SHORT)
            waits.send(request(*behind))
            time.sleep(LOOKED_AGAIN)
            tally.note("the look", None if is_silent(waits.connection) else "it is answered")
            note_rows(asks, store, [("POST", "/", ADD)], f"round {number}", tally)
            for row in (look, behind):
                note_row(store, row, waits.next(), f"round {number}, {row[1]}", tally)
            time.sleep(LOOKED_AGAIN)
            note_rows(waits, store, [LOOK], f"after round {number}", tally)


def waiting_in_vain(program: str, tally: Tally) -> None:
    """Looks that wait as long as one may, and then show what there is."""
    store, clients = Store(json.loads(TREE)), 3
    with serving(program, TREE) as server, ExitStack() as room:
        asks, *waits = (room.enter_context(Client(server.port)) for _ in range(1 + clients))
        asked = ["/nodes?after=0", "/nodes?after=1&below=/a", f"/nodes?after={2**64 - 1}"]
        started = time.monotonic()
        for client, target in zip(waits, asked):
            client.send(request("GET", target))
        note_rows(asks, store, [("POST", "/", b'{"reweigh":null}')], "meanwhile", tally)
        # Of a node that there isn't nothing is waited for.
        note_rows(asks, store, [("GET", "/nodes?after=1&below=/c", None)], "no node", tally)
        taken = time.monotonic() - started
        tally.note("no node, the time", None if taken < LONGEST_WAIT / 2 else f"it waited {taken:.1f} s")
        for client, target in zip(waits, asked):
            note_row(store, ("GET", target, None), client.next(), "in vain", tally)
            taken = time.monotonic() - started
            is_well = LONGEST_WAIT - 1 < taken < LONGEST_WAIT + LONG
            tally.note("the time", None if is_well else f"it waited {taken:.1f} s")


def stopped(program: str, tally: Tally) -> None:
    """A look that waits doesn't keep a server from being stopped."""
    for number in (signal.SIGTERM, signal.SIGINT):
        with serving(program, TREE) as server, Client(server.port) as client:
            client.send(request("GET", "/nodes?after=0"))
            tally.note("the look", None if is_silent(client.connection) else "it is answered")
            started = time.monotonic()
            server.started.send_signal(number)
            server.started.wait(LONGEST_WAIT)
            taken = time.monotonic() - started
            tally.note(number.name, None if taken < LONGEST_WAIT / 2 else f"it ended after {taken:.1f} s")


# ---- a store that is kept


def kept(program: str, room: str, seed: int, tally: Tally) -> None:
    """Some batches and new weights; what `GET /document` gives then opens a store that gives the same."""
    random, document = Random(f"kept {seed}"), seeded(seed)
    with serving(program, document, 2) as server, Client(server.port) as client:
        for _ in range(5):
            paths = [node["path"] for node in json.loads(client.get("/nodes").body)["nodes"]]
            lists = [[["add", random.choice(paths), random.randint(-(2**62), 2**62)]] for _ in range(20)]
            client.post(compact({"batch": lists}))
            client.post(b'{"reweigh":null}')
        document = client.get("/document").body
        nodes = json.loads(client.get("/nodes").body)["nodes"]
    store = Store(json.loads(document))
    tally.note("the document", None if document == document_text(store) else f"it is {document!r}")
    known = [(node["path"], node["record"], node["weight"]) for node in nodes]
    wanted = list(zip(store.tree.paths, store.records, store.tree.weights))
    tally.note("the nodes", None if known == wanted else f"wanted {wanted}; came {known}")
    with serving(program, document) as server, Client(server.port) as client:
        again = client.get("/document").body
        tally.note("the document again", None if again == document else f"wanted {document!r}; came {again!r}")
        came = client.get("/nodes").body
        tally.note("the nodes again", None if came == nodes_text(store) else f"came {came!r}")


# ---- many at once


def market() -> bytes:
    """A root, a record that all clients add to, and eight among which they move numbers."""
    rows = [{"parent": None, "name": "", "weight": 9}, {"parent": 0, "name": "all", "weight": 5}]
    rows += [{"parent": 0, "name": f"stall{number}", "weight": 1, "value": 100} for number in range(8)]
    return json.dumps({"nodes": rows}).encode()


def sixteen_at_once(program: str, seconds: float, tally: Tally) -> None:
    """Clients that move numbers, and look at the whole meanwhile: no look finds a move half done."""
    with serving(program, market(), 2) as server, ThreadPoolExecutor(SLOTS) as pool:
        ends = time.monotonic() + seconds
        came = list(pool.map(lambda number: browse(server.port, number, ends), range(SLOTS)))
        with Client(server.port) as client:
            left = json.loads(client.get("/nodes").body)["nodes"]
    batches = [pair for pairs, _, _ in came for pair in pairs]
    for number, (pairs, looks, fault) in enumerate(came):
        tally.tried += len(pairs) + looks
        tally.blame(f"client {number}", fault or (None if pairs and looks else "it did nothing"))
    tally.blame("all batches", fault_of_history(json.loads(market()), batches))
    done = len(batches)
    tally.note("the sum", None if left[1]["record"] == done else f"{left[1]['record']} after {done} batches")


def browse(port: int, number: int, ends: float) -> tuple[list, int, str | None]:
    """One client's batches with their replies, how often it looked, and what was wrong."""
    random = Random(f"browser {number}")
    pairs, looks = [], 0
    with Client(port) as client:
        while time.monotonic() < ends or not (pairs and looks):
            if random.randrange(3) == 0:
                looks += 1
                fault = fault_of_moment(client.get(random.choice(["/nodes", "/document"])))
            else:
                lists = [a_move(random) for _ in range(random.randrange(3))] + [[["add", "/all", 1]]]
                response = client.post(compact({"batch": lists}) + b"\n")
                fault = None if response and response.status == 200 else f"a batch is answered {response}"
                pairs += [] if fault else [(lists, json.loads(response.body))]
            if fault:
                return pairs, looks, fault
    return pairs, looks, None


def a_move(random: Random) -> list:
    here, there = random.sample(range(8), 2)
    size = random.randint(1, 50)
    return [["add", f"/stall{here}", -size], ["get", "/"], ["add", f"/stall{there}", size]]


def fault_of_moment(response) -> str | None:
    if response is None or response.status != 200:
        return f"a look is answered {response}"
    rows = json.loads(response.body)["nodes"]
    total = sum(row.get("record", row.get("value")) for row in rows[2:])
    return None if total == 800 else f"a look finds {total} in all: {response}"


def seventeen_at_once(program: str, tally: Tally) -> None:
    """Sixteen clients stay. What a 17th one asks has no response until one of them has left."""
    store = Store(json.loads(TREE))
    with serving(program, TREE) as server, ExitStack() as room:
        served = [room.enter_context(Client(server.port)) for _ in range(SLOTS)]
        for number, client in enumerate(served):
            note_rows(client, store, [LOOK], f"client {number}", tally)
        late = room.enter_context(Client(server.port))
        late.send(request(*LOOK))
        tally.note("the 17th while all stay", None if is_silent(late.connection) else "it has a response")
        served[SLOTS // 2].close()
        note_row(store, LOOK, late.next(), "the 17th once one has left", tally)


# ---- hostile requests


def hostile_requests(program: str, seed: object, tally: Tally, each: int = HOSTILE_EACH) -> None:
    random = Random(f"hostile {seed}")
    store = Store(json.loads(TREE))
    with serving(program, TREE, 2) as server:
        for number in range(each):
            data = hostile(random)
            came = asked_and_ended(server.port, data, random.randrange(20) == 0)
            tally.note(f"number {number}", fault_of_answers(*came, data))
            if number % HONEST_EVERY == 0:
                honest_client(server, store, f"after number {number}", tally)
        tally.blame("at the end", None if server.is_running() else "the server has ended")
        with ExitStack() as room:
            for _ in range(SLOTS):
                note_rows(room.enter_context(Client(server.port)), store, [LOOK], "at the end", tally)


def honest_client(server: Serving, store: Store, where: str, tally: Tally) -> None:
    with Client(server.port) as client:
        note_rows(client, store, [("POST", "/", ADD), LOOK, ("GET", "/document", None)], where, tally)


def asked_and_ended(port: int, data: bytes, leaves: bool) -> tuple[bytes, bool]:
    """All that came back, and whether the other side broke off. One that leaves resets the connection at once."""
    came = []
    with connected(port) as connection:
        try:
            connection.sendall(data)
            if leaves:
                connection.setsockopt(socket.SOL_SOCKET, socket.SO_LINGER, struct.pack("ii", 1, 0))
                return b"", True
            connection.shutdown(socket.SHUT_WR)
            is_broken = False
        except OSError as error:
            need_broken(error)
            is_broken = True
        try:
            while piece := connection.recv(PIECE):
                came.append(piece)
        except OSError as error:
            need_broken(error)
            is_broken = True
    return b"".join(came), is_broken


def need_broken(error: OSError) -> None:
    """The other side may have reset the connection, but it may not keep it without an answer."""
    if isinstance(error, TimeoutError):
        raise BadServer("no answer, and no end") from None


def fault_of_answers(came: bytes, is_broken: bool, sent: bytes) -> str | None:
    """What is wrong with what came back to these bytes. (A client that is broken off may lose what was sent last.)"""
    try:
        responses = responses_in(came, b"HEAD" in sent)
    except BadResponse as bad:
        return None if is_broken else f"{bad}; to {sent[:300]!r}"
    for number, response in enumerate(responses):
        fault = fault_of_form(response, is_last=number == len(responses) - 1)
        if fault:
            return f"{fault}; to {sent[:300]!r}"
    return None


def fault_of_form(response, is_last: bool) -> str | None:
    if response.status not in STATUSES:
        return f"no such status: {response}"
    if not is_last and response.fields.get(b"connection", b"").lower() == b"close":
        return f"something comes after {response}"
    if response.body and response.fields.get(b"content-type", b"").startswith(b"application/json"):
        lines = response.body.split(b"\n")
        is_well = lines[-1] == b"" and all(isinstance(json.loads(line), dict) for line in lines[:-1])
        return None if is_well else f"a body of no lines: {response}"
    return None
