"""The calls of a document by each language, compared with what the program prints of it, to the byte."""

from __future__ import annotations

import hashlib
import multiprocessing
import os
from concurrent.futures import ProcessPoolExecutor
from dataclasses import dataclass
from functools import lru_cache, partial, wraps
from pathlib import Path
from threading import Lock
from typing import Callable, Iterator, ParamSpec, TypeVar

from documents import Plans, answers_in, framed, some_document, with_bounds
from sweeps.documents import examples
from sweeps.program import Tally, run

# The calls of the library, in the order of answers.*, by the arguments of the program that say the same.
CALLS = {
    ("plan",): "grove_c_plan",
    ("plan", "--document"): "grove_c_plan_document",
    ("check",): "grove_c_check",
    ("judge",): "grove_c_judge",
    ("draw",): "grove_c_draw_svg",
    ("draw", "--text"): "grove_c_draw_text",
    ("audit",): "grove_c_audit",
}
# Bytes that are no document, or that break off.
BROKEN = [b"", b"\0", b"{", b"[]", b"null", b"\xff{}", b"{}", b'{"nodes":[]}', b" " * 4_194_305]
# How many documents a process asks the program of at a time, and how many are in one stream.
CHUNK, STREAM = 50, 2_000
# A longer text is kept as its beginning and its digest.
LONGEST = 300

# A status, and the lines or the fault without `refused`.
Answer = tuple[int, bytes]
Asked, Made = ParamSpec("Asked"), TypeVar("Made")


def made_once(make: Callable[Asked, Made]) -> Callable[Asked, Made]:
    """The same, kept for the next that ask alike; who asks while it is made waits for it."""
    kept, turn = lru_cache(maxsize=1)(make), Lock()

    @wraps(make)
    def made(*asked: Asked.args, **named: Asked.kwargs) -> Made:
        with turn:
            return kept(*asked, **named)

    return made


def all_documents(count: int, first: int, planned: Plans) -> list[bytes]:
    """The examples, what is no document, records at the bound of what they hold, and so many seeded ones, from a seed
    on."""
    own = dict.fromkeys(example.text for example in examples())
    seeded = (some_document(seed, planned) for seed in range(first, first + count))
    return [*own, *BROKEN, *with_bounds(planned), *seeded]


@made_once
def by_program(program: str, documents: tuple[bytes, ...]) -> list[Answer]:
    """What the program says, a process for each command of each document."""
    # Other trials run meanwhile, so this process, with their locks in whatever state they are, isn't forked.
    with ProcessPoolExecutor(os.cpu_count(), multiprocessing.get_context("forkserver")) as pool:
        parts = pool.map(partial(answers_of, program), documents, chunksize=CHUNK)
        return [answer for part in parts for answer in part]


def answers_of(program: str, document: bytes) -> list[Answer]:
    return [answer_of(program, words, document) for words in CALLS]


def answer_of(program: str, words: tuple[str, ...], document: bytes) -> Answer:
    ran = run(program, *words, text=document)
    if ran.status == 1 and not ran.err and ran.out.startswith(b"refused ") and ran.out.endswith(b"\n"):
        return 1, short(ran.out[len(b"refused ") : -1])
    # What is neither an answer nor a refusal is said by no call.
    return (0, short(ran.out)) if ran.status == 0 and not ran.err else (255, str(ran).encode())


def short(text: bytes) -> bytes:
    return text if len(text) <= LONGEST else text[:LONGEST] + hashlib.sha256(text).digest()


@dataclass(frozen=True)
class Difference:
    """The first difference of two lists of answers."""

    document: int
    words: tuple[str, ...]
    found: Answer
    wanted: Answer

    def __str__(self) -> str:
        return f"wanted {self.wanted!r:.300}; came {self.found!r:.300}"


def note_answers(tally: Tally, documents: tuple[bytes, ...], found: list[Answer], wanted: list[Answer]) -> None:
    """Notes each call of each document."""
    words = list(CALLS)
    tally.blame("answers", None if len(found) == len(wanted) else f"{len(found)} for {len(wanted)} calls")
    for at, (came, right) in enumerate(zip(found, wanted)):
        number, call = divmod(at, len(words))
        fault = None if came == right else str(Difference(number, words[call], came, right))
        tally.note(f"document {number}, {documents[number]!r:.200}: {' '.join(words[call])}", fault)


def streams_of(documents: tuple[bytes, ...], room: Path) -> Iterator[Path]:
    """The documents as files of some each."""
    for start in range(0, len(documents), STREAM):
        file = room / f"documents {start}"
        file.write_bytes(b"".join(map(framed, documents[start : start + STREAM])))
        yield file


def read_answers(stream: bytes) -> list[Answer]:
    return [(status, short(text)) for status, text in answers_in(stream)]
