"""What is tried of the library, and what is needed for it."""

from __future__ import annotations

import ctypes
import json
import os
import shutil
import socket
import subprocess
import time
from collections import Counter
from collections.abc import Iterator
from concurrent.futures import ThreadPoolExecutor
from contextlib import contextmanager
from dataclasses import dataclass
from pathlib import Path

import naming
from comparing import Answer, all_documents, by_program, made_once, note_answers, read_answers, streams_of
from numbering import Numbers, differences
from storing import note_talk, talks, written
from sweeps.documents import EXAMPLES
from sweeps.program import Tally
from tool_trials import Trial
from valuing import Judged, lines_of, note_values

TOP = Path(__file__).resolve().parents[2]
LIBRARY = TOP / "out/library"
# The longest that a command may take.
SECONDS = 600.0
STRICT = ["-Wall", "-Wextra", "-pedantic", "-Werror"]
# A program counts the blocks that it has, and refuses one.
WRAPS = [f"-Wl,--wrap={name}" for name in ("malloc", "realloc", "free")]
HERE = Path(__file__).resolve().parent
# How many lines a store in C and in Rust answers.
FEW_LINES = 300
# How many transactions are made in C where the environment doesn't say it.
FEW_TRANSACTIONS = "10000"
# What a store of examples/settings.json replies to `note_store`.
STORE_SAID = """\
{"places":[0],"replies":[[9]],"round":1}
{"error":"shape"}
{"waits":[0,0,0,0,0,0,0,0,0,0,0,0,0,0,0],"weights":[50,10,2,2,4,1,1,10,2,4,1,1,10,1,1]}
"""
# Where Debian's packages have the crates of others.
DEBIAN_CRATES = """\
[source.crates-io]
replace-with = "debian"

[source.debian]
directory = "/usr/share/cargo/registry"
"""
MANIFEST = """\
[package]
name = "NAME"
version = "0.1.0"
edition = "2024"

[[bin]]
name = "NAME"
path = "SOURCE"

[dependencies]
pickbracken = { path = "CRATE" }
"""


@dataclass(frozen=True)
class Given:
    """What is tried, and how much of it if that can be chosen."""

    program: str
    documents: int
    seed: int
    lines: int


def called(*words: str | Path, **how) -> subprocess.CompletedProcess:
    """Runs a command, and keeps what it prints."""
    how = {"stdin": subprocess.DEVNULL, "timeout": SECONDS, "text": True, **how}
    return subprocess.run(list(map(str, words)), stdout=subprocess.PIPE, stderr=subprocess.PIPE, check=False, **how)


def note_well(tally: Tally, where: str, ran: subprocess.CompletedProcess) -> None:
    """Notes that a command has ended with status 0."""
    said = (ran.stdout + ran.stderr).strip()[-2000:]
    tally.note(where, None if ran.returncode == 0 else f"status {ran.returncode}: {said}")


def note_equal(tally: Tally, where: str, found: object, wanted: object) -> None:
    tally.note(where, None if found == wanted else f"wanted {wanted!r}; came {found!r}")


# ---- C


def example_in_c(_given: Given, room: Path, tally: Tally) -> None:
    """Compiled without a warning, by the static library and by the shared one, they say what the program does."""
    for standard in ("c99", "c11", "c17"):
        for library in ("libgrove.a", "libgrove.so"):
            made = compiled("bindings/c/plan.c", room, library, f"-std={standard}")
            note_well(tally, f"{standard}, {library}", made)
            note_example(tally, room)
            made = compiled("bindings/c/store.c", room, library, f"-std={standard}")
            note_well(tally, f"store, {standard}, {library}", made)
            note_store(tally, room)
            made = compiled("bindings/c/locks.c", room, library, f"-std={standard}", "-pthread")
            note_well(tally, f"locks, {standard}, {library}", made)
            note_locks(tally, room)


def note_example(tally: Tally, room: Path) -> None:
    wanted = (EXAMPLES / "settings.plan.txt").read_text()
    ran = example_on(room, EXAMPLES / "settings.json")
    note_equal(tally, "settings.json", (ran.returncode, ran.stdout, ran.stderr), (0, f"{wanted}cost 16\n", ""))
    (room / "none.json").write_bytes(b"[]")
    ran = example_on(room, room / "none.json")
    note_equal(tally, "none.json", (ran.returncode, ran.stdout, ran.stderr), (1, "refused shape whole\n", ""))
    note_unread(tally, "plan", room)


def note_store(tally: Tally, room: Path) -> None:
    lines = b'{"batch":[[["add","/web/workers",1]]]}\n{}\n{"weights":null}'
    surroundings = {**os.environ, "LD_LIBRARY_PATH": str(LIBRARY)}
    for name, wanted in (("settings.json", (0, STORE_SAID)), ("none.json", (1, "refused shape whole\n"))):
        document = room / name if (room / name).exists() else EXAMPLES / name
        ran = called(room / "program", document, input=lines.decode(), stdin=None, env=surroundings)
        note_equal(tally, f"store of {name}", (ran.returncode, ran.stdout), wanted)
    note_unread(tally, "store", room)


def note_locks(tally: Tally, room: Path, *under: str) -> None:
    ran = called(*under, room / "program", env={**os.environ, "LD_LIBRARY_PATH": str(LIBRARY)})
    wanted = "4000 moves, and the shelves hold 400\n"
    note_equal(tally, "locks", (ran.returncode, ran.stdout, ran.stderr), (0, wanted, ""))


def note_unread(tally: Tally, name: str, room: Path) -> None:
    """A folder, and what isn't there, can't be read."""
    for document in (room, room / "nothing"):
        ran, wanted = example_on(room, document), f"{name}: can't read {document}\n"
        note_equal(tally, f"{name} of {document}", (ran.returncode, ran.stdout, ran.stderr), (3, "", wanted))


def compiled(source: str, room: Path, library: str, *words: str) -> subprocess.CompletedProcess:
    """Compiles a program with a library, as `program` in the room."""
    folders = [f"-I{TOP / 'include'}", f"-I{HERE}"]
    return called("cc", *STRICT, *words, *folders, TOP / source, LIBRARY / library, "-o", room / "program")


def example_on(room: Path, document: Path, *under: str) -> subprocess.CompletedProcess:
    return called(*under, room / "program", document, env={**os.environ, "LD_LIBRARY_PATH": str(LIBRARY)})


def header_in_cpp(_given: Given, room: Path, tally: Tally) -> None:
    """Both headers."""
    folder = f"-I{TOP / 'include'}"
    for header in ("grove.h", "grove_locks.h"):
        (room / "header.cpp").write_text(f'#include "{header}"\n')
        made = called("c++", *STRICT, folder, "-c", room / "header.cpp", "-o", room / "header.o")
        note_well(tally, header, made)


def valgrind(_given: Given, room: Path, tally: Tally) -> None:
    """Nothing is read or written that isn't the call's, and nothing is left."""
    note_well(tally, "compiled", compiled("bindings/c/plan.c", room, "libgrove.a", "-g"))
    words = ["valgrind", "--quiet", "--error-exitcode=9", "--leak-check=full", "--show-leak-kinds=all"]
    for name in ("settings.json", "slow-log.json"):
        note_equal(tally, name, example_on(room, EXAMPLES / name, *words).returncode, 0)
    compile_trial("handles", room, tally)
    document, bare, _ = written_for_handles(room, EXAMPLES / "two-leaves-certified.json")
    note_well(tally, "handles", called(*words, room / "program", document, bare))
    compile_trial("stores", room, tally)
    note_well(tally, "stores", called(*words, room / "program", *written_for_stores(room)))
    compile_trial("numbers", room, tally)
    note_well(tally, "numbers", called(*words, room / "program", EXAMPLES / "settings.json"))
    note_well(tally, "compiled locks", compiled("bindings/c/locks.c", room, "libgrove.a", "-g", "-pthread"))
    note_locks(tally, room, *words)


def buffers(_given: Given, room: Path, tally: Tally) -> None:
    """Each call with no room, one byte too little, just enough and 1 GiB; with each allocation failed in turn; and
    again and again."""
    compile_trial("buffers", room, tally)
    for name in ("settings.json", "orders-history.json", "two-leaves-certified.json", "stock-let-go-early.json"):
        note_well(tally, name, called(room / "program", EXAMPLES / name))


def handles(_given: Given, room: Path, tally: Tally) -> None:
    """The calls by a handle of a tree, likewise."""
    compile_trial("handles", room, tally)
    for name in ("settings.json", "two-leaves-certified.json"):
        document, bare, strange = written_for_handles(room, EXAMPLES / name)
        note_well(tally, name, called(room / "program", document, document, bare, strange))


def stores(_given: Given, room: Path, tally: Tally) -> None:
    """The calls by a handle of a store, likewise."""
    compile_trial("stores", room, tally)
    note_well(tally, "stores", called(room / "program", *written_for_stores(room)))


def numbers(_given: Given, room: Path, tally: Tally) -> None:
    """The calls over numbers, likewise."""
    compile_trial("numbers", room, tally)
    note_well(tally, "numbers", called(room / "program", EXAMPLES / "settings.json"))


def locks_in_c(_given: Given, room: Path, tally: Tally) -> None:
    """Transactions of sixteen threads by include/grove_locks.h, some of which are broken off."""
    made = compiled("tests/library/transactions.c", room, "libgrove.a", "-std=c99", "-O1", "-pthread")
    note_well(tally, "compiled", made)
    note_well(tally, "transactions", called(room / "program", os.environ.get("GROVE_TRANSACTIONS", FEW_TRANSACTIONS)))


def compile_trial(name: str, room: Path, tally: Tally) -> None:
    made = compiled(f"tests/library/{name}.c", room, "libgrove.a", "-g", "-O1", *WRAPS)
    note_well(tally, f"compiled {name}", made)


def written_for_handles(room: Path, document: Path) -> list[Path]:
    """The document with its plan and flow; and that without its nodes, and with others, which are no tree."""
    whole = json.loads(planned(document.read_bytes()))
    bare = {name: value for name, value in whole.items() if name != "nodes"}
    written = {"whole": whole, "bare": bare, "strange": {**bare, "nodes": 7}}
    for name, parts in written.items():
        (room / name).write_text(json.dumps(parts))
    return [room / name for name in written]


def written_for_stores(room: Path) -> tuple[Path, Path]:
    """A document, and the line of a plan over it."""
    (room / "line").write_bytes(b'{"plan":[["get","/a"],["add","/b",1,7]]}')
    return EXAMPLES / "two-leaves-certified.json", room / "line"


# ---- Rust


def rust(_given: Given, room: Path, tally: Tally) -> None:
    """Its tests, its example, its form, its pages, and nothing that clippy would have otherwise."""
    surroundings = {**os.environ, "GROVE_LIBRARY": str(LIBRARY), "CARGO_TARGET_DIR": str(room / "target")}
    pages = {**surroundings, "RUSTDOCFLAGS": "-D warnings"}
    from_crate = {**surroundings, "GROVE_LIBRARY": os.path.relpath(LIBRARY, crate_at(room).resolve())}
    for words, where in (
        (["fmt", "--check"], surroundings),
        (["clippy", "--offline", "--all-targets", "--", "-D", "warnings"], surroundings),
        (["test", "--offline"], surroundings),
        (["run", "--offline", "--example", "stock"], from_crate),
        (["doc", "--offline", "--no-deps"], pages),
    ):
        note_well(tally, words[0], called("cargo", *words, cwd=crate_at(room), env=where))
    note_no_library(room, tally, surroundings)


def tokio(_given: Given, room: Path, tally: Tally) -> None:
    """The crate for tasks of tokio, over that of Debian: its tests, its form, and nothing that clippy would have."""
    crate = shutil.copytree(TOP / "bindings/tokio", crate_at(room).with_name("tokio"))
    (crate / ".cargo").mkdir()
    (crate / ".cargo/config.toml").write_text(DEBIAN_CRATES)
    surroundings = {**os.environ, "GROVE_LIBRARY": str(LIBRARY), "CARGO_TARGET_DIR": str(room / "target")}
    for words in (
        ["fmt", "--check"],
        ["clippy", "--offline", "--all-targets", "--", "-D", "warnings"],
        ["test", "--offline"],
    ):
        note_well(tally, words[0], called("cargo", *words, cwd=crate, env=surroundings))


def note_no_library(room: Path, tally: Tally, surroundings: dict[str, str]) -> None:
    """Without the library cargo says where it was looked for, also if the variable is empty, as if it weren't set."""
    crate = crate_at(room)
    for named, looked in (("nowhere", f"{crate}/nowhere"), ("", f"{crate}/lib, nor in {crate}/../../out/library")):
        ran = called("cargo", "build", "--offline", cwd=crate, env={**surroundings, "GROVE_LIBRARY": named})
        told = f"libgrove.a is not in {looked}" in ran.stderr and "tools/library makes it" in ran.stderr
        tally.note(f"no library, {named!r}", None if ran.returncode and told else f"{ran.returncode}: {ran.stderr}")


def crate_at(room: Path) -> Path:
    """A copy of the crate, beside the examples."""
    if not (room / "bindings").exists():
        shutil.copytree(TOP / "bindings/rust", room / "bindings/rust", ignore=shutil.ignore_patterns("target"))
        shutil.copytree(EXAMPLES, room / "examples")
    return room / "bindings/rust"


# ---- Python


def names(_given: Given, _room: Path, tally: Tally) -> None:
    """The package and the crate have the names that docs/LIBRARY.md has for them."""
    for where, fault in naming.differences():
        tally.note(where, fault)


def python(_given: Given, _room: Path, tally: Tally) -> None:
    """The unit tests of the package."""
    words = ["-B", "-m", "unittest", "discover", "-s", "tests"]
    note_well(tally, "tests", called("python3", *words, cwd=TOP / "bindings/python", env=with_package()))


def types(_given: Given, _room: Path, tally: Tally) -> None:
    words = ["--strict", "--cache-dir=/dev/null"]
    folder = TOP / "bindings/python"
    note_well(tally, "package", called("mypy", *words, "pickbracken", "building/wheels.py", cwd=folder))
    tests = sorted((folder / "tests").glob("*.py"))
    note_well(tally, "tests", called("mypy", *words, *tests, cwd=folder, env={**os.environ, "MYPYPATH": str(folder)}))


def locks_of_redis(_given: Given, room: Path, tally: Tally) -> None:
    """Two processes whose locks a Redis keeps."""
    with socket.create_server(("127.0.0.1", 0)) as free:
        port = str(free.getsockname()[1])
    words = ["redis-server", "--port", port, "--bind", "127.0.0.1", "--save", "", "--appendonly", "no", "--dir", room]
    with started(*words) as server:
        wait_for_port(int(port))
        ran = called("python3", "-B", EXAMPLES / "redis_locks.py", port, env=with_package())
        wanted = "200 transfers: the sum is 1600, 0 locks are held\n"
        note_equal(tally, "transfers", (ran.returncode, ran.stdout, ran.stderr), (0, wanted, ""))
        tally.note("the server", None if server.poll() is None else "it has ended")


def quotas_over_http(_given: Given, _room: Path, tally: Tally) -> None:
    """Sixty requests at once for a user who has fifty left: fifty are answered, and the rest is given back."""
    words = ["python3", "-B", EXAMPLES / "quotas_web.py", "0"]
    with started(*words, env=with_package(), stdout=subprocess.PIPE) as server:
        port = int((server.stdout.readline() if server.stdout else b"0").split(b":")[-1])
        with ThreadPoolExecutor(60) as threads:
            replies = list(threads.map(lambda _: fetched(port, "/eu/search/ann"), range(60)))
        statuses = Counter(reply.split(" ")[1] for reply in replies)
        note_equal(tally, "sixty requests", statuses, {"200": 50, "429": 10})
        reply = fetched(port, "/us/shop/bob").split("\r\n\r\n")[-1]
        left = {"/": 249, "/us": 99, "/us/shop": 49, "/us/shop/bob": 49}
        note_equal(tally, "another user", json.loads(reply), {"left": left})
        note_equal(tally, "nobody", fetched(port, "/us/shop").split(" ")[1], "404")


def fetched(port: int, path: str) -> str:
    """What comes of a request, all of it."""
    with socket.create_connection(("127.0.0.1", port), timeout=SECONDS) as connection:
        connection.sendall(f"GET {path} HTTP/1.1\r\nhost: here\r\n\r\n".encode())
        return b"".join(iter(lambda: connection.recv(65_536), b"")).decode()


@contextmanager
def started(*words: str | Path, **how) -> Iterator[subprocess.Popen[bytes]]:
    """A program that goes on meanwhile."""
    silent = {"stdin": subprocess.DEVNULL, "stdout": subprocess.DEVNULL, "stderr": subprocess.DEVNULL}
    with subprocess.Popen(list(map(str, words)), **{**silent, **how}) as running:
        try:
            yield running
        finally:
            running.kill()


def wait_for_port(port: int) -> None:
    until = time.monotonic() + 30
    while time.monotonic() < until:
        try:
            socket.create_connection(("127.0.0.1", port)).close()
            return
        except OSError:
            time.sleep(0.05)


def with_package() -> dict[str, str]:
    return {**os.environ, "PYTHONPATH": str(TOP / "bindings/python"), "GROVE_LIBRARY": str(LIBRARY)}


# ---- The same by each language


def c_says_the_same(given: Given, room: Path, tally: Tally) -> None:
    """What the program prints, and its refusals, to the byte, by documents and by values; so the other two."""
    note_well(tally, "compiled", compiled("tests/library/answers.c", room, "libgrove.a", "-std=c99", "-O1"))
    note_same(given, room, tally, [room / "program"])
    note_well(tally, "compiled values", compiled("tests/library/values.c", room, "libgrove.a", "-std=c99", "-O1"))
    note_each_value(given, room, tally, Judged.COST, [room / "program"])


def numbers_say_the_same(given: Given, _room: Path, tally: Tally) -> None:
    """The calls over numbers, of what each document's tree, list, plan and flow are in numbers."""
    compared, library = 0, Numbers(LIBRARY / "libgrove.so")
    for number, document in enumerate(documents_of(given.documents, given.seed)):
        for fault in differences(library, said, document):
            tally.note(f"document {number}, {document!r:.200}", fault)
            compared += 1
    library.close()
    tally.blame("compared", None if compared > given.documents else f"only {compared}")


def rust_says_the_same(given: Given, room: Path, tally: Tally) -> None:
    note_same(given, room, tally, [built_in_rust("answers", room, tally)])
    note_each_value(given, room, tally, Judged.WHOLE, [built_in_rust("values", room, tally)])


def python_says_the_same(given: Given, room: Path, tally: Tally) -> None:
    note_same(given, room, tally, ["python3", "-B", HERE / "answers.py"], env=with_package())
    words = ["python3", "-B", HERE / "values.py"]
    note_each_value(given, room, tally, Judged.WHOLE, words, env=with_package())


def note_same(given: Given, room: Path, tally: Tally, words: list[str | Path], **how) -> None:
    """Compares the answers of a program that makes each call on each document."""
    documents, found = documents_of(given.documents, given.seed), []
    for stream in streams_of(documents, room):
        with stream.open("rb") as source:
            ran = called(*words, stdin=source, text=False, **how)
        tally.blame("it ran", None if ran.returncode == 0 else f"status {ran.returncode}: {ran.stderr[-2000:]!r}")
        found += read_answers(ran.stdout)
    wanted = by_program(given.program, documents)
    note_answers(tally, documents, found, wanted)
    refused = sum(status == 1 for status, _ in wanted)
    tally.blame("faults among them", None if refused > len(documents) else f"only {refused}")


def note_each_value(
    given: Given, room: Path, tally: Tally, judged: Judged, words: list[str | Path], **how
) -> None:
    """Compares what a program says of values, by numbers, with what grove prints of the documents that they are in, and
    so with what is said of these."""
    documents = documents_of(given.documents, given.seed)
    (room / "values.lines").write_bytes(b"".join(map(lines_of, documents)))
    with (room / "values.lines").open("rb") as source:
        ran = called(*words, stdin=source, text=False, **how)
    tally.blame("it ran", None if ran.returncode == 0 else f"status {ran.returncode}: {ran.stderr[-2000:]!r}")
    note_values(tally, documents, read_answers(ran.stdout), by_program(given.program, documents), judged)


def built_in_rust(name: str, room: Path, tally: Tally) -> Path:
    """A program of this folder that uses the crate."""
    project = room / name
    project.mkdir()
    values = {"NAME": name, "SOURCE": str(HERE / f"{name}.rs"), "CRATE": str(crate_at(room))}
    manifest = MANIFEST
    for word, value in values.items():
        manifest = manifest.replace(word, value)
    (project / "Cargo.toml").write_text(manifest)
    surroundings = {**os.environ, "GROVE_LIBRARY": str(LIBRARY), "CARGO_TARGET_DIR": str(room / "target")}
    note_well(tally, name, called("cargo", "build", "--release", "--offline", cwd=project, env=surroundings))
    return room / "target/release" / name


# ---- A store by each language


def c_store_says_the_same(given: Given, room: Path, tally: Tally) -> None:
    """What a server of one worker replies to each line, to the byte; so the other two."""
    note_well(tally, "compiled", compiled("bindings/c/store.c", room, "libgrove.a", "-std=c99", "-O1"))
    note_lines(given, FEW_LINES, room, tally, [room / "program"])


def rust_store_says_the_same(given: Given, room: Path, tally: Tally) -> None:
    note_lines(given, FEW_LINES, room, tally, [built_in_rust("lines", room, tally)])


def python_store_says_the_same(given: Given, room: Path, tally: Tally) -> None:
    note_lines(given, given.lines, room, tally, ["python3", "-B", HERE / "lines.py"], env=with_package())


def note_lines(given: Given, count: int, room: Path, tally: Tally, words: list[str | Path], **how) -> None:
    """Compares the replies of a program that opens a store and answers lines."""
    for talk in talks(given.program, count):
        document, lines = written(talk, room)
        with lines.open("rb") as source:
            ran = called(*words, document, stdin=source, text=False, **how)
        tally.blame("it ran", None if ran.returncode == 0 else f"status {ran.returncode}: {ran.stderr[-2000:]!r}")
        note_talk(tally, talk, ran.stdout)


@made_once
def documents_of(count: int, seed: int) -> tuple[bytes, ...]:
    return tuple(all_documents(count, seed, planned))


def planned(document: bytes) -> bytes:
    """The document with its settled plan and flow in it; as it is if it is refused."""
    status, text = said("grove_c_plan_document", document)
    return text if status == 0 else document


def said(name: str, document: bytes) -> Answer:
    """What a call of the shared library says."""
    library = ctypes.CDLL(str(LIBRARY / "libgrove.so"))
    call, room = library[name], 1 << 20
    call.restype = Told
    while True:
        text = ctypes.create_string_buffer(room)
        told = call(document, ctypes.c_size_t(len(document)), text, ctypes.c_size_t(room))
        if told.status != ROOM:
            return told.status, text.raw[: told.length]
        room = told.length


class Told(ctypes.Structure):
    """How a call ended."""

    _fields_ = [("status", ctypes.c_uint32), ("length", ctypes.c_size_t)]


ROOM = 2


TRIALS = [
    Trial("example_in_c", example_in_c, ("cc",)),
    Trial("header_in_cpp", header_in_cpp, ("c++",)),
    Trial("buffers", buffers, ("cc",)),
    Trial("handles", handles, ("cc",)),
    Trial("stores", stores, ("cc",)),
    Trial("numbers", numbers, ("cc",)),
    Trial("locks_in_c", locks_in_c, ("cc",)),
    Trial("valgrind", valgrind, ("cc", "valgrind")),
    Trial("rust", rust, ("cargo", "cargo-fmt", "cargo-clippy")),
    Trial("tokio", tokio, ("cargo", "cargo-fmt", "cargo-clippy", "tokio")),
    Trial("names", names, ("python3",)),
    Trial("python", python, ("python3",)),
    Trial("types", types, ("mypy",)),
    Trial("locks_of_redis", locks_of_redis, ("python3", "redis-server")),
    Trial("quotas_over_http", quotas_over_http, ("python3",)),
    Trial("c_says_the_same", c_says_the_same, ("cc",)),
    Trial("numbers_say_the_same", numbers_say_the_same, ("python3",)),
    Trial("rust_says_the_same", rust_says_the_same, ("cargo",)),
    Trial("python_says_the_same", python_says_the_same, ("python3",)),
    Trial("c_store_says_the_same", c_store_says_the_same, ("cc",)),
    Trial("rust_store_says_the_same", rust_store_says_the_same, ("cargo",)),
    Trial("python_store_says_the_same", python_store_says_the_same, ("python3",)),
]
