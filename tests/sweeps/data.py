"""Servers that keep their rounds in a file: what was replied is there after a kill, and what can't be opened or written
is told and left as it was."""

from __future__ import annotations

import errno
import json
import os
import resource
import shutil
import signal
import socket
import subprocess
import time
from concurrent.futures import ThreadPoolExecutor
from contextlib import ExitStack, suppress
from functools import partial
from pathlib import Path
from random import Random
from typing import Callable

from batches import shelves
from exposition import samples_in
from log_file import Standing, file_of, standings_in
from server import NotListening, Server, Serving, connected, free_port, talk, talk_in_turn
from store import LEAST, MOST, compact
from web import BadResponse, Client, Response, post, response_of

from sweeps.descriptors import close_two
from sweeps.preloaded import library_of
from sweeps.program import MEMORY, Ran, Tally, Try, because, run, until_well
from sweeps.server_growths import parts_of
from sweeps.ten_lines import ADD, GET, TREE, WEIGHTS
from sweeps.threads import counting

TRIED = "servers and readers of a file of rounds"
NOBODY = 65534
UNAVAILABLE = 503
# How long a server may take to end once a round couldn't be kept, in seconds.
LONGEST = 30.0
# More bytes than a file of so few rounds has, and how many rounds need more.
ROOM, ROUNDS = 4096, 200
BATCH = b'{"batch":[[["add","/a",1]]]}\n'
DOCUMENTS = json.loads(TREE)["nodes"]
FRAME = 40
# The greatest weight, and the most waits that are counted.
MOST_NUMBER = 1000
# No more rounds are counted.
MOST_ROUNDS = 2**64 - 1
# How many letters a name has at most; a path has as many names.
MOST_LETTERS = 32
# How many clients a server of a file has whose standard streams are closed, and how many lists are planned at once.
CLOSED, LISTS = 4, 64
NOTHING = Response(0, {}, b"")
# How many lines a client sends ahead, and how often it does.
AHEAD, TURNS = 16, 20
PLAN, REWEIGH = b'{"plan":[["get","/a"]]}\n', b'{"reweigh":null}\n'
# Lines that are a round each, that are answered alone, and that can't be read, each between others.
MIXED = [ADD, PLAN, ADD, b"{\n", GET, REWEIGH, ADD, b"\n", ADD, WEIGHTS, REWEIGH, ADD, b'{"get":"/a"}\n', PLAN, GET]
MIXED += [ADD]


def tries(program: str, room: str) -> list[Try]:
    library = library_of("refuse_growth", room)
    # Another user runs a copy. It is made while nothing else is started, which would have it open for a moment.
    os.chmod(room, 0o755)
    own = shutil.copy(program, Path(room) / "grove")
    at_both = [
        Try(f"{command}, killed and put up again", partial(killed, program, room, command))
        for command in ("serve", "page")
    ]
    closed = [
        Try(f"{command}, closed streams", partial(closed_streams, program, room, command))
        for command in ("serve", "page")
    ]
    return [
        *at_both,
        Try("names of each length", partial(names, program, room)),
        Try("the last round that is counted", partial(last_round, program, room)),
        Try("waits of each node", partial(waits, program, room)),
        Try("numbers about as large as they may be", partial(limits, program, room)),
        Try("waits up to the most", partial(most_waits, program, room)),
        Try("other documents beside the file", partial(other_documents, program, room)),
        Try("no file, an empty one, and no document", partial(nothing_there, program, room)),
        Try("two servers of one file", partial(taken, program, room)),
        Try("what the file has, beside its server", partial(beside, program, room)),
        Try("a torn end", partial(torn, program, room)),
        Try("a torn first round", partial(torn_first, program, room)),
        Try("a file that isn't one of ours", partial(not_ours, program, room)),
        Try("no folder and no room", partial(unwritable, program, room)),
        Try("no leave", partial(forbidden, own, room)),
        Try("no room for a round", partial(full, program, room)),
        Try("no room for a round, over HTTP", partial(full_over_http, program, room)),
        Try("what is counted", partial(counted, program, room)),
        *(Try(f"{clients} with lines ahead", partial(ahead, program, room, clients)) for clients in (1, 16)),
        Try("all kinds of lines ahead", partial(mixed, program, room)),
        Try("no file is asked for", partial(unasked, program, room)),
        *closed,
        Try("workers of a server of a file", partial(workers, program, room, library_of("count_threads", room))),
        *parts_of(program, library, partial(without_memory, room)),
    ]


# ---- servers and files


def fresh(room: str) -> Path:
    """A name in a folder of its own, in which there is nothing."""
    folder = Path(room) / f"data-{os.urandom(6).hex()}"
    folder.mkdir()
    return folder / "store.grove"


def made(program: str, file: Path, *further: str, document: bytes = TREE, **how) -> Serving:
    """A server of a document whose rounds are kept in the file."""
    return Serving(program, document, further=("--data", str(file), *further), **how)


def opened(program: str, file: Path, *further: str, command: str = "serve", **how) -> Server:
    """A server of what the file has."""
    return Server(program, [command, "--data", str(file), "--port", str(free_port()), *further], **how)


def left(file: Path) -> dict[str, bytes]:
    """What stands in the folder of the file."""
    return {each.name: each.read_bytes() for each in file.parent.iterdir() if each.is_file()}


def with_rounds(program: str, room: str, rounds: int = 3) -> Path:
    """A file with so many rounds, whose server was killed."""
    file = fresh(room)
    with made(program, file) as server:
        talk_in_turn(server.port, [ADD] * rounds)
    return file


def ended(how: Server) -> Ran:
    """How a server ends that is to end by itself."""
    try:
        out, err = how.started.communicate(timeout=LONGEST)
    except subprocess.TimeoutExpired:
        return Ran(None, b"", b"")
    return Ran(how.started.returncode, out, err)


def refused(program: str, file: Path, document: bytes | None = None, **how) -> Ran:
    """How a server ends that doesn't listen."""
    server = opened(program, file, **how) if document is None else made(program, file, document=document, **how)
    try:
        with server:
            return Ran(None, b"it listens", b"")
    except NotListening as why:
        status, out, err = why.ended
        return Ran(status, out, b"" if status == 1 else err, err)


def round_of(reply: bytes) -> int:
    return int(json.loads(reply)["round"])


# ---- what is kept


def killed(program: str, room: str, command: str, tally: Tally) -> None:
    """After each kill the rounds go on from the last one that was replied, with and without the document, which isn't
    looked at for its values."""
    file, sum_before, rounds = fresh(room), 10, 0
    document: bytes | None = TREE
    for _ in range(6):
        server = opened(program, file, command=command) if document is None else made(program, file, command=command)
        with server:
            lines = GET + ADD
            came = over(server, lines, command).splitlines()
            values = [json.loads(line)["replies"][0][0] for line in came]
            wanted = [sum_before, sum_before + 1]
            tally.note("the records", None if values == wanted else f"wanted {wanted}; came {values}")
            counts = [round_of(line) for line in came]
            wanted = [rounds + 1, rounds + 2]
            tally.note("the rounds", None if counts == wanted else f"wanted {wanted}; came {counts}")
        sum_before, rounds, document = sum_before + 1, rounds + 2, None if document else TREE
    names = sorted(left(file))
    tally.note("the folder", None if names == ["store.grove", "store.grove.lock"] else f"{names}")


def over(server: Server, lines: bytes, command: str) -> bytes:
    if command == "serve":
        return server.talk(lines)
    with Client(server.port) as client:
        response = client.post(lines)
        return response.body if response else b""


def names(program: str, room: str, tally: Tally) -> None:
    """Names of as many letters as they may have, and as deep as they may be, with records and weights at the ends of
    their ranges: the file has the document, and a server of it too."""
    letters = "abcdefghijklmnopqrstuvwxyz0123456789_-"
    rows = [{"name": "", "parent": None, "value": MOST, "weight": 1000}]
    for size in range(1, MOST_LETTERS + 1):
        value, weight = ((LEAST, 1), (MOST, 1000), (-size, size))[size % 3]
        rows.append({"name": letters[:size], "parent": size - 1, "value": value, "weight": weight})
    document, file = compact({"nodes": rows, "version": 1}) + b"\n", fresh(room)
    with made(program, file, document=document):
        pass
    tally.compare("the file", run(program, "data", str(file)), Ran(0, document, b""))
    with opened(program, file, command="page") as server, Client(server.port) as client:
        response = client.get("/document")
        tally.note("the server", None if response and response.body == document else f"came {response}")


def last_round(program: str, room: str, tally: Tally) -> None:
    """A store has counted as many rounds as a number of 64 bits says, or one or two less: it takes as many batches more
    and no further one, and answers all else. A hint says why."""
    refusal = b'{"error":"rounds","hint":"the store has counted %d rounds, and takes no more batches"}\n' % MOST_ROUNDS
    for less in (2, 1, 0):
        file = fresh(room)
        names, numbers = [(None, b""), (0, b"a")], ((1, 1), (0, 7), (0, 0))
        file.write_bytes(file_of(bytes(range(32)), names, [Standing(*numbers, MOST_ROUNDS - less)]))
        reply = b'{"places":[0],"replies":[[%d]],"round":%d}\n'
        sums = [reply % (8 + at, MOST_ROUNDS - less + 1 + at) for at in range(less)]
        wanted = b"".join(sums) + 2 * refusal + b'{"waits":[0,0],"weights":[1,1]}\n'
        with opened(program, file, "--hints") as server:
            came = server.talk((less + 2) * BATCH + WEIGHTS)
        tally.note(f"{less} less", None if came == wanted else f"wanted {wanted!r}; came {came!r}")
        checked = run(program, "data", "--check", str(file))
        tally.note(f"{less} less, the file", None if checked.out.split()[1] == b"%d" % MOST_ROUNDS else f"{checked}")


def waits(program: str, room: str, tally: Tally) -> None:
    """Nodes that were waited for, as often as is counted and less: each has its own number wherever it is told."""
    names, paths = [(None, b""), (0, b"a"), (1, b"b"), (0, b"c")], ["/", "/a", "/a/b", "/c"]
    standing, file = Standing((5, 6, 7, 8), (-1, 2, 3, -4), (1000, 0, 999, 1), 9), fresh(room)
    file.write_bytes(file_of(bytes(range(32)), names, [standing]))
    each = zip(paths, standing.records, standing.waits, standing.weights)
    rows = [dict(zip(("path", "record", "waits", "weight"), row)) for row in each]
    wanted = compact({"nodes": rows, "round": 9}) + b"\n"
    with opened(program, file, command="page") as server, Client(server.port) as client:
        for path in ("/nodes", "/nodes?below=/"):
            came = client.get(path)
            tally.note(path, None if came and came.body == wanted else f"wanted {wanted!r}; came {came}")
        told = json.loads(client.post(WEIGHTS).body)
        is_well = told == {"waits": [*standing.waits], "weights": [*standing.weights]}
        tally.note("the line", None if is_well else f"came {told}")
        samples = samples_in(client.get("/metrics?nodes=1").body.decode())
        counted = tuple(samples[f'grove_node_waits{{path="{path}"}}'] for path in paths)
        tally.note("the metrics", None if counted == standing.waits else f"came {counted}")


def limits(program: str, room: str, tally: Tally) -> None:
    """Weights and waits that no store has aren't opened; those at each end are, and so are all records and rounds."""
    for which, number, is_well in (
        *(("weights", weight, 1 <= weight <= MOST_NUMBER) for weight in (0, 1, 2, MOST_NUMBER, MOST_NUMBER + 1)),
        *(("waits", count, count <= MOST_NUMBER) for count in (0, 1, MOST_NUMBER, MOST_NUMBER + 1, 2**32, 2**64 - 1)),
        *(("records", record, True) for record in (LEAST, -1, MOST)),
        *(("rounds", rounds, True) for rounds in (0, MOST_ROUNDS)),
    ):
        numbers = {"weights": (5, 6), "records": (7, 8), "waits": (9, 10), "rounds": 11}
        numbers[which] = number if which == "rounds" else (numbers[which][0], number)
        file, standing = fresh(room), Standing(**numbers)
        data = file_of(bytes(range(32)), [(None, b""), (0, b"a")], [standing])
        file.write_bytes(data)
        told = Ran(0, f"rounds {standing.rounds}\nbytes {len(data)}\nwhole\n".encode(), b"")
        wanted = told if is_well else because(f"cannot open {file}: what it has is no store")
        tally.compare(f"{which} {number}", run(program, "data", "--check", str(file)), wanted)


def most_waits(program: str, room: str, tally: Tally) -> None:
    """Waits are counted up to 1,000. It is tried until some node with 998 was waited for twice by a long round."""
    until_well(partial(waits_beyond, program, room, tally), "waits", tally)


def waits_beyond(program: str, room: str, tally: Tally) -> str | None:
    """Whether no node had more waits than are counted."""
    batch = shelves(Random("waits up to the most"))
    nodes, file = batch["nodes"], fresh(room)
    count = len(nodes)
    before = Standing((1,) * count, (0,) * count, (MOST_NUMBER - 2,) * (count - 1) + (MOST_NUMBER,), 0)
    names = [(node["parent"], node["name"].encode()) for node in nodes]
    file.write_bytes(file_of(bytes(range(32)), names, [before]))
    with opened(program, file, "--workers", "4") as server:
        came = server.talk(compact({"batch": batch["lists"]}) + b"\n" + WEIGHTS)
    found = json.loads(came.splitlines()[-1])["waits"]
    is_well = MOST_NUMBER - 2 <= min(found) and max(found) == found[-1] == MOST_NUMBER
    tally.note("the waits", None if is_well else f"{found}")
    return None if MOST_NUMBER in found[:-1] else f"the most are {max(found[:-1])}"


def other_documents(program: str, room: str, tally: Tally) -> None:
    """A document of other values and weights is as good; one of other names is refused by the first path that differs,
    and the file is as it was."""
    file = with_rounds(program, room)
    before = file.read_bytes()
    nodes = [{**node, "value": 7, "weight": 900} for node in DOCUMENTS]
    with made(program, file, document=json.dumps({"nodes": nodes}).encode()) as server:
        came = server.talk(GET + WEIGHTS)
        tally.note("other values", None if b"[[13]]" in came and b"900" not in came else f"{came!r}")
    more = [*DOCUMENTS, {"parent": 0, "name": "z", "weight": 1}]
    renamed = [*DOCUMENTS[:-1], {**DOCUMENTS[-1], "name": "other"}]
    first, last = (f"/{DOCUMENTS[at]['name']}" for at in (1, -1))
    for name, nodes, path, hint in (
        ("a node more", more, "/z", hint_of_more("document", "/z", "file")),
        ("a node less", DOCUMENTS[:-1], last, hint_of_more("file", last, "document")),
        ("another name", renamed, "/other", f'the document has "/other" where the file has "{last}"'),
        ("the root alone", DOCUMENTS[:1], first, hint_of_more("file", first, "document")),
    ):
        file.write_bytes(before)
        came = refused(program, file, json.dumps({"nodes": nodes}).encode())
        tally.compare(name, came, Ran(1, f"refused data other-node {path}\n".encode(), b""))
        tally.note(f"{name}, the file", None if file.read_bytes() == before else "it is another one")
        tally.note(f"{name}, the hint", None if came.hint == f"hint: {hint}\n".encode() else f"{came.hint!r}")


def hint_of_more(has: str, path: str, lacks: str) -> str:
    return f'the {has} has "{path}", and the {lacks} no node behind those before'


def nothing_there(program: str, room: str, tally: Tally) -> None:
    file = fresh(room)
    wanted = because(f"cannot open {file}", errno.ENOENT)
    tally.compare("no file and no document", refused(program, file), wanted)
    tally.note("nothing is made", None if not left(file) else f"{left(file)}")
    file.write_bytes(b"")
    wanted = because(f"cannot open {file}: it is empty; with --tree it is made of a document")
    tally.compare("an empty file", refused(program, file), wanted)
    with made(program, file) as server:
        came = server.talk(ADD)
        tally.note("an empty file and a document", None if b"[[11]]" in came else f"{came!r}")


def taken(program: str, room: str, tally: Tally) -> None:
    """The second server ends, and the first goes on; once that is killed the file is free."""
    file = fresh(room)
    wanted = because(f"cannot open {file}: another server has it open")
    with made(program, file) as first:
        tally.compare("with the document", refused(program, file, TREE), wanted)
        tally.compare("without it", refused(program, file), wanted)
        tally.compare("of a page", refused(program, file, command="page"), wanted)
        came = first.talk(ADD)
        tally.note("the first", None if b"[[11]]" in came else f"{came!r}")
    with opened(program, file) as second:
        came = second.talk(GET)
        tally.note("afterwards", None if b"[[11]]" in came else f"{came!r}")


def beside(program: str, room: str, tally: Tally) -> None:
    """`grove data` says what the server has, while that has the file open, and changes nothing."""
    file = fresh(room)
    second = free_port()
    with made(program, file, "--http", str(second)) as server:
        server.started.stdout.readline()
        for rounds in range(1, 6):
            server.talk(ADD)
            with Client(second) as client:
                response = client.get("/document")
            document = response.body if response else b""
            before = left(file)
            tally.compare("the document", run(program, "data", str(file)), Ran(0, document, b""))
            wanted = f"rounds {rounds}\nbytes {file.stat().st_size}\nwhole\n".encode()
            tally.compare("the check", run(program, "data", "--check", str(file)), Ran(0, wanted, b""))
            tally.note("the folder", None if left(file) == before else "it has changed")


def torn(program: str, room: str, tally: Tally) -> None:
    """Whatever is cut off the last round, the file has those before, as `data` says and a server goes on with."""
    file = with_rounds(program, room)
    whole, size = file.read_bytes(), 0
    with opened(program, file):
        pass
    file.write_bytes(whole)
    checked = run(program, "data", "--check", str(file))
    tally.compare("whole", checked, Ran(0, f"rounds 3\nbytes {len(whole)}\nwhole\n".encode(), b""))
    # A round of one record: its place and value, and those of the count of rounds.
    size = FRAME + 2 * 12
    for cut in (1, 7, 31, 32, 33, size - 8, size - 1, size):
        file.write_bytes(whole[:-cut])
        end = f"torn {size - cut}" if cut < size else "whole"
        wanted = f"rounds 2\nbytes {len(whole) - cut}\n{end}\n".encode()
        tally.compare(f"{cut} bytes less", run(program, "data", "--check", str(file)), Ran(0, wanted, b""))
        with opened(program, file) as server:
            came = server.talk(ADD)
            tally.note(f"{cut} bytes less, served", None if b'[[13]],"round":3' in came else f"{came!r}")


def torn_first(program: str, room: str, tally: Tally) -> None:
    """A file with no whole round, and a part of the first one behind the snapshot of a store that had counted seven, or
    none: it has that store, and so many bytes are torn. A server goes on from there, and leaves a whole file."""
    names = [(None, b""), (0, b"a")]
    for rounds in (0, 7):
        before, after = (Standing((5, 6), (7, 8 + more), (0, 9), rounds + more) for more in (0, 1))
        snapshot, whole = (file_of(bytes(range(32)), names, kept) for kept in ([before], [before, after]))
        for size in range(len(snapshot) + 1, len(whole)):
            file, end = fresh(room), size - len(snapshot)
            file.write_bytes(whole[:size])
            where, wanted = f"{end} bytes of round {rounds + 1}", f"rounds {rounds}\nbytes {size}\ntorn {end}\n"
            tally.compare(where, run(program, "data", "--check", str(file)), Ran(0, wanted.encode(), b""))
            if end % FRAME != 1:
                continue
            with opened(program, file) as server:
                came = server.talk(BATCH)
            wanted = f'{{"places":[0],"replies":[[9]],"round":{rounds + 1}}}\n'
            tally.note(f"{where}, served", None if came == wanted.encode() else f"came {came!r}")
            data = file.read_bytes()
            is_well = standings_in(data) == [before, after] and len(data) == len(whole)
            tally.note(f"{where}, what is left", None if is_well else f"came {standings_in(data)}, {len(data)} bytes")


def not_ours(program: str, room: str, tally: Tally) -> None:
    """Each with its reason or its refusal, and as it was."""
    whole = with_rounds(program, room).read_bytes()
    at = len(whole) - 2 * (FRAME + 2 * 12)
    damaged = whole[: at + 20] + bytes([whole[at + 20] ^ 1]) + whole[at + 21 :]
    is_damaged = Ran(1, f"refused data damaged {at}\n".encode(), b"")
    for name, data, why in (
        ("a text", b"what another program wrote\n", ": it isn't a file of --data"),
        ("a document", TREE, ": it isn't a file of --data"),
        ("a head that is cut", whole[:43], ": it isn't a file of --data"),
        ("another version", whole[:8] + b"\x02" + whole[9:], ": it has version 2, and this grove reads version 1"),
        ("a head alone", whole[:44], ": what it has is no store"),
        ("a torn snapshot", whole[: at - FRAME - 2 * 12 - 1], ": what it has is no store"),
        ("a damaged round", damaged, None),
    ):
        file = fresh(room)
        file.write_bytes(data)
        wanted = because(f"cannot open {file}{why}") if why else is_damaged
        for what, document in (("with a document", TREE), ("alone", None)):
            tally.compare(f"{name}, {what}", refused(program, file, document), wanted)
        for words in (("data",), ("data", "--check")):
            tally.compare(f"{name}, {' '.join(words)}", run(program, *words, str(file)), wanted)
        tally.note(f"{name}, the file", None if file.read_bytes() == data else "it is another one")
    for name in (room, "/dev/null"):
        wanted = because(f"cannot open {name}: it is no regular file")
        tally.compare(name, refused(program, Path(name), TREE), wanted)


def unwritable(program: str, room: str, tally: Tally) -> None:
    """`device` with the system's reason, and all is as it was."""
    file = Path(room) / "none" / "store.grove"
    wanted = because(f"cannot open {file}", errno.ENOENT)
    tally.compare("no folder", refused(program, file, TREE), wanted)
    file = with_rounds(program, room)
    before = left(file)
    small = partial(limit_files, 100)
    came = refused(program, file, preexec_fn=small)
    tally.compare("no room", came, because(f"cannot write {file}", errno.EFBIG))
    tally.note("no room, the folder", None if left(file) == before else f"{sorted(left(file))}")


def forbidden(program: str, room: str, tally: Tally) -> None:
    """A folder in which nobody may write, and a file that nobody may. Root may all, so the program then runs as another
    user."""
    other = {"user": NOBODY, "group": NOBODY, "extra_groups": []} if os.geteuid() == 0 else {}
    for mode, of_folder in ((0o444, 0o555), (0o400, 0o777)):
        file = with_rounds(program, room)
        before = left(file)
        os.chmod(file, mode)
        os.chmod(file.parent, of_folder)
        wanted = because(f"cannot open {file}", errno.EACCES)
        tally.compare(f"mode {mode:o} in {of_folder:o}", refused(program, file, **other), wanted)
        os.chmod(file.parent, 0o755)
        os.chmod(file, 0o644)
        tally.note(f"mode {mode:o}, the folder", None if left(file) == before else f"{sorted(left(file))}")


def limit_files(most: int) -> None:
    """Lets no file of this process grow beyond so many bytes."""
    signal.signal(signal.SIGXFSZ, signal.SIG_IGN)
    resource.setrlimit(resource.RLIMIT_FSIZE, (most, most))


def full(program: str, room: str, tally: Tally) -> None:
    """The line whose round can't be kept gets no reply, nor does a later one; those who idle and those who read nothing
    are ended too. What was replied is there."""
    file = fresh(room)
    small = partial(limit_files, ROOM)
    with made(program, file, preexec_fn=small) as server, connected(server.port) as idle:
        with connected(server.port) as deaf:
            deaf.setblocking(False)
            with suppress(OSError):
                for _ in range(10_000):
                    deaf.send(WEIGHTS * 64)
            time.sleep(0.2)
            came = talk_until_end(server.port)
            is_quiet = idle.recv(1) == b""
        end = ended(server)
    rounds = [round_of(line) for line in came]
    tally.note("the replies", None if rounds == list(range(1, len(rounds) + 1)) else f"{rounds}")
    tally.note("one who idles", None if is_quiet else "it was sent something")
    wanted = because(f"cannot keep rounds in {file}", errno.EFBIG)
    tally.compare("the end", end, wanted)
    checked = run(program, "data", "--check", str(file))
    known = int(checked.out.split()[1]) if checked.status == 0 else -1
    tally.note("what is kept", None if len(rounds) <= known <= len(rounds) + 1 else f"{len(rounds)}; {checked}")
    with opened(program, file) as server:
        reply = server.talk(BATCH)
        tally.note("afterwards", None if round_of(reply) == known + 1 else f"{reply!r}")


def talk_until_end(port: int) -> list[bytes]:
    """Asks line by line until nothing comes back any more."""
    came = []
    with connected(port) as connection, connection.makefile("rb") as replies:
        for _ in range(ROUNDS):
            connection.sendall(BATCH)
            line = replies.readline()
            if not line:
                break
            came.append(line)
    return came


def full_over_http(program: str, room: str, tally: Tally) -> None:
    """The same by 503, which `/health` gives too until the server ends. It ends by itself, also if the client stays and
    nobody else comes."""
    for stays in (False, True):
        file = fresh(room)
        with made(program, file, command="page", preexec_fn=partial(limit_files, ROOM)) as server:
            with Client(server.port) as client:
                status, last = post_until_refused(client)
                wanted = (UNAVAILABLE, b'{"error":"unkept"}\n')
                tally.note("the response", None if (status, last) == wanted else f"{status} {last!r}")
                health = [] if stays else healths(server.port)
                end = ended(server)
        tally.note("the state", None if stays or {*health} == {UNAVAILABLE} else f"{set(health)}")
        tally.compare("the end", end, because(f"cannot keep rounds in {file}", errno.EFBIG))


def post_until_refused(client: Client) -> tuple[int, bytes]:
    """Posts line by line until one isn't done, and gives the status and the body of that response."""
    for _ in range(ROUNDS):
        response = client.post(BATCH)
        if response is None or response.status != 200:
            return (response.status, response.body) if response else (0, b"")
    return 200, b""


def healths(port: int) -> list[int]:
    """What the state is said to be, until nobody is there."""
    told = []
    with suppress(OSError, BadResponse, socket.timeout):
        for _ in range(1000):
            with Client(port) as client:
                response = client.get("/health")
            if response is None:
                break
            told.append(response.status)
            time.sleep(0.01)
    return told


def without_memory(room: str, program: str, how: dict, where: str, tally: Tally) -> None:
    """A growth of the server is refused. What it replied is there afterwards, and at most the next round; if a round
    couldn't be kept for that, the server has ended."""
    file = fresh(room)
    try:
        with made(program, file, **how) as server:
            came = [round_of(line) for line in four_rounds(server.port).splitlines()]
            wanted = list(range(1, len(came) + 1))
            tally.note(where, None if came == wanted else f"{came}")
            if len(came) < 4:
                note_lasting(server, len(came), where, tally)
    except NotListening as why:
        came = []
        tally.compare(where, Ran(*why.ended), MEMORY)
    with made(program, file) as server:
        known = round_of(server.talk(ADD)) - 1
        tally.note(f"{where}, afterwards", None if len(came) <= known <= 5 else f"{len(came)} replies; {known} rounds")
    shutil.rmtree(file.parent)


def four_rounds(port: int) -> bytes:
    """The replies; none if the server has ended already, for want of a thread."""
    try:
        return talk_in_turn(port, [ADD] * 4)
    except OSError:
        return b""


def note_lasting(server: Server, rounds: int, where: str, tally: Tally) -> None:
    """The session ended for want of memory. Either the round couldn't be kept, and the server ends with `memory`; or it
    wasn't done, and the server goes on."""
    with suppress(OSError):
        line = server.talk(ADD)
        if line:
            tally.note(f"{where}, the next", None if round_of(line) == rounds + 1 else f"{line!r}")
            return
    tally.compare(f"{where}, the end", ended(server), MEMORY)


# ---- what else is told


def counted(program: str, room: str, tally: Tally) -> None:
    """The rounds, the bytes of the file, and a sync for each round that changed something."""
    file = fresh(room)
    with made(program, file, command="page") as server, Client(server.port) as client:
        for rounds in range(1, 5):
            for lines in (BATCH, WEIGHTS, b'{"plan":[["get","/a"]]}\n', b'{"get":"/a"}\n'):
                client.post(lines)
            response = client.get("/metrics")
            samples = samples_in(response.body.decode()) if response else {}
            wanted = {
                "grove_data_rounds": rounds,
                "grove_data_bytes": file.stat().st_size,
                "grove_data_sync_duration_seconds_count": rounds,
            }
            came = {name: samples.get(name) for name in wanted}
            tally.note("the counts", None if came == wanted else f"wanted {wanted}; came {came}")
    with opened(program, file, command="page") as server, Client(server.port) as client:
        response = client.get("/metrics")
        samples = samples_in(response.body.decode()) if response else {}
        came = [samples.get(f"grove_{name}") for name in ("rounds_total", "data_rounds")]
        tally.note("put up again", None if came == [rounds, rounds] else f"{came}")


def ahead(program: str, room: str, clients: int, tally: Tally) -> None:
    """What a client has sent ahead shares a sync, and shares it with what others have, in one of some tries."""
    until_well(partial(ahead_once, program, room, clients, tally), "the syncs", tally)


def ahead_once(program: str, room: str, clients: int, tally: Tally) -> str | None:
    """Each line is a round later than the one before it, and what was replied is there after a kill. Whether most of
    what clients sent shared no sync with what others did."""
    file, second = fresh(room), free_port()
    with made(program, file, "--http", str(second)) as server:
        server.started.stdout.readline()
        with ThreadPoolExecutor(clients) as pool:
            came = list(pool.map(in_turns, [server.port] * clients))
        with Client(second) as client:
            response = client.get("/metrics")
        samples = samples_in(response.body.decode()) if response else {}
    rounds = [[round_of(reply) for reply in replies] for replies in came]
    for number, each in enumerate(rounds):
        is_well = len(each) == AHEAD * TURNS and each == sorted({*each})
        tally.note(f"the rounds of client {number}", None if is_well else f"{each}")
    last = max(map(max, rounds))
    counts = [samples.get(f"grove_{name}") for name in ("rounds_total", "data_rounds", "lines_total")]
    wanted = [last, last, clients * AHEAD * TURNS]
    tally.note("the counts", None if counts == wanted else f"wanted {wanted}; came {counts}")
    syncs = samples.get("grove_data_sync_duration_seconds_count", 0)
    tally.note("the syncs", None if 0 < syncs <= clients * TURNS else f"{syncs} of {last} rounds")
    wanted = f"rounds {last}\nbytes {file.stat().st_size}\nwhole\n".encode()
    tally.compare("afterwards", run(program, "data", "--check", str(file)), Ran(0, wanted, b""))
    is_shared = clients == 1 or syncs <= clients * TURNS / 2
    return None if is_shared else f"{syncs} syncs are hardly shared by {clients} clients"


def in_turns(port: int) -> list[bytes]:
    """Sends so many batches at once, and the next ones when all replies are there."""
    came = []
    with connected(port) as connection, connection.makefile("rb") as replies:
        for _ in range(TURNS):
            connection.sendall(BATCH * AHEAD)
            came += [replies.readline() for _ in range(AHEAD)]
    return came


def mixed(program: str, room: str, tally: Tally) -> None:
    """Lines that are sent at once have the replies that they have one by one, and leave the same."""
    wanted, wanted_left = kept_of(program, room, talk_in_turn, MIXED)
    came, came_left = kept_of(program, room, talk, b"".join(MIXED))
    tally.note("the replies", None if came == wanted else f"wanted {wanted!r}; came {came!r}")
    tally.note("what is left", None if came_left == wanted_left else f"wanted {wanted_left}; came {came_left}")


def kept_of(program: str, room: str, talks: Callable, lines: bytes | list[bytes]) -> tuple[bytes, tuple[Ran, bytes]]:
    """What lines are replied that a client sends so, and what the file has then: its document, and its waits with the
    next round."""
    file = fresh(room)
    with made(program, file) as server:
        came = talks(server.port, lines)
    document = run(program, "data", str(file))
    with opened(program, file) as server:
        return came, (document, server.talk(WEIGHTS + GET))


def unasked(program: str, room: str, tally: Tally) -> None:
    """Nothing is written, and nothing of a file is counted."""
    folder = fresh(room).parent
    with Serving(program, TREE, command="page") as server, Client(server.port) as client:
        client.post(BATCH)
        response = client.get("/metrics")
        tally.note("the counts", "a file is counted" if response is None or b"grove_data" in response.body else None)
        names = sorted(os.listdir(server.room.name))
        tally.note("the folder", None if names == ["tree.json"] and not os.listdir(folder) else f"{names}")


# ---- servers of a file alone


def closed_streams(program: str, room: str, command: str, tally: Tally) -> None:
    """Standard input and standard error of a server of a file are closed: no connection, and no file, takes the place
    of either, so none gets the log."""
    file = with_rounds(program, room)
    with opened(program, file, "--verbose", command=command, preexec_fn=close_two) as server, ExitStack() as stack:
        clients = [stack.enter_context(connected(server.port)) for _ in range(CLOSED)]
        for number, client in enumerate(clients):
            came = over_one(client, BATCH, command)
            tally.note(f"client {number}", None if came == number + 4 else f"it was told {came}")
        tally.note("the server", None if server.is_running() else "it has ended")
    checked = run(program, "data", "--check", str(file))
    tally.note("the file", None if checked.out.startswith(b"rounds %d\n" % (3 + CLOSED)) else f"{checked}")
    beside = {name: len(text) for name, text in left(file).items() if name != file.name}
    tally.note("the lock", None if beside == {f"{file.name}.lock": 0} else f"{beside}")


def over_one(client: socket.socket, line: bytes, command: str) -> int | None:
    """The round of the reply, whatever comes; nothing, if it is no reply."""
    client.sendall(line if command == "serve" else post(line))
    with client.makefile("rb") as stream:
        came = stream.readline() if command == "serve" else (response_of(stream, "POST") or NOTHING).body
    return round_of(came) if came.startswith(b'{"places"') else None


def workers(program: str, room: str, library: str, tally: Tally) -> None:
    """A server of a file plans by as many workers as it is told, as one of a document does: for each further one a
    thread is started beside that of the connection."""
    names = [f"n{number}" for number in range(LISTS)]
    rows = [{"parent": 0, "name": name, "weight": 1} for name in names]
    document = json.dumps({"nodes": [{"parent": None, "name": "", "weight": 1}, *rows]}).encode()
    line = json.dumps({"batch": [[["get", f"/{name}"]] for name in names]}).encode() + b"\n"
    file = fresh(room)
    with made(program, file, document=document):
        pass
    for count in (1, 2, 4):
        with counting(library) as (how, told):
            with opened(program, file, "--workers", str(count), **how) as server:
                server.talk(line)
            started = told().count(b"+")
        # (The first one looks after a round that can't be kept, and the second one has the connection.)
        wanted = 2 + count - 1
        tally.note(f"{count} workers", None if started == wanted else f"{started} threads were started, not {wanted}")
