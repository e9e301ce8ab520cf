"""The texts of a case's sections. README.md says in which manners they are written."""
import re

import combs  # noqa: F401 (its makers join the others)
from makers import MAKERS

MANNERS = {"bare", "escaped", "made"}
ESCAPES = {"n": b"\n", "r": b"\r", "t": b"\t", "\\": b"\\"}


class BadCase(Exception):
    """The file isn't in the form of a case."""


def bytes_of(body, manners):
    """The bytes that a section stands for: its lines, each with its line feed, unless a manner says otherwise."""
    if len(manners) > 1 or not MANNERS.issuperset(manners):
        raise BadCase(f"no section is written {' '.join(manners)}")
    if "escaped" in manners:
        return unescaped(body.replace("\n", ""))
    if "made" in manners:
        return made(body)
    return (body.removesuffix("\n") if manners else body).encode()


def unescaped(text):
    """The text with what `\\n`, `\\r`, `\\t`, `\\\\` and `\\xHH` stand for in their places."""

    def byte(match):
        escape = match.group(1)
        return ESCAPES.get(escape) or bytes.fromhex(escape[1:])

    parts = re.split(r"(\\(?:[nrt\\]|x[0-9a-f]{2}))", text)
    if any("\\" in part for part in parts[::2]):
        raise BadCase("an escape that isn't known")
    return b"".join(byte(re.fullmatch(r"\\(.*)", part)) if at % 2 else part.encode() for at, part in enumerate(parts))


def made(body):
    """The lines, in which `= MAKER WORDS` stands for what a maker gives, and `= fill N` for blanks up to N bytes."""
    pieces, size = [], None
    for line in body.split("\n")[:-1]:
        maker, _, rest = line.removeprefix("= ").partition(" ")
        if not line.startswith("= "):
            pieces.append(line.encode() + b"\n")
        elif maker == "fill" and size is None:
            place, size = len(pieces), int(rest)
        elif maker in MAKERS:
            pieces.append(MAKERS[maker](rest).encode())
        else:
            raise BadCase(f"no maker is {maker}")
    if size is not None:
        blanks = size - sum(map(len, pieces))
        if blanks < 0:
            raise BadCase(f"it has {-blanks} bytes more than are to be filled")
        pieces.insert(place, b" " * blanks)
    return b"".join(pieces)
