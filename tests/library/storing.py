"""Lines that a store inside a program is sent, by seeded documents, and what a server of one worker replies to them."""

from __future__ import annotations

from dataclasses import dataclass
from pathlib import Path
from random import Random
from typing import Iterator

from server import Serving
from store import MOST_LINE
from sweeps.broken_lines import broken, good_lines
from sweeps.documents import seeded
from sweeps.program import Tally
from sweeps.talks import lines_of

# How many lines each document has.
EACH = 500
# One line in so many is about as long as a line may be.
LONG = 100
LENGTHS = [MOST_LINE - 1, MOST_LINE, MOST_LINE + 1, 2 * MOST_LINE]


@dataclass(frozen=True)
class Talk:
    """The lines that the store of a document gets, and the replies of a server."""

    document: bytes
    lines: bytes
    replies: bytes


def talks(program: str, count: int) -> Iterator[Talk]:
    """So many lines, over some documents."""
    for seed in range(-(-count // EACH)):
        document = seeded(seed)
        lines = lines_for(program, document, Random(f"a store inside {seed}"), min(EACH, count - seed * EACH))
        with Serving(program, document) as server:
            yield Talk(document, lines, server.talk(lines))


def lines_for(program: str, document: bytes, random: Random, count: int) -> bytes:
    """Lines of every kind, one in three of them broken; some are about as long as one may be."""
    good = good_lines(program, random, document)
    lines: list[bytes] = []
    while len(lines) < count:
        line = broken(random, good) if random.randrange(3) == 0 else random.choice(good)
        lines += line.ljust(random.choice(LENGTHS) if random.randrange(LONG) == 0 else 0).split(b"\n")
    return b"\n".join(lines[:count]) + b"\n"


def note_talk(tally: Tally, talk: Talk, came: bytes) -> None:
    """Notes each line, whose reply has to be the server's, to the byte."""
    lines, replies, wanted = lines_of(talk.lines), lines_of(came), lines_of(talk.replies)
    is_whole = len(lines) == len(replies) == len(wanted)
    tally.blame("replies", None if is_whole else f"{len(replies)} and {len(wanted)} to {len(lines)} lines")
    for line, reply, right in zip(lines, replies, wanted):
        tally.note(f"line {line!r:.200}", None if reply == right else f"wanted {right!r:.300}; came {reply!r:.300}")


def written(talk: Talk, room: Path) -> tuple[Path, Path]:
    """The document and the lines as files."""
    document, lines = room / "document.json", room / "asked.txt"
    document.write_bytes(talk.document)
    lines.write_bytes(talk.lines)
    return document, lines
