"""What the check of each crate stands on: its own sources, and what they name of the crates below. Printed as JSON, so
that two checkouts can be compared:

    python3 tools/views.py

What they name of a crate below are contracts of public calls, with the definitions that these cite, and definitions of
specs/. A name of a call is one wherever the word stands; so a crate may get too many, and none is left out.
"""
from __future__ import annotations

import json
import re
import sys
from collections.abc import Iterator
from functools import cache
from hashlib import sha256

sys.dont_write_bytecode = True

from contracts import blocks, contract, exported, functions, head, named, sources
from definitions import TOP, WORD, closure, imports_of, read_specs
from proof_times import below

# What no check of an edit reads.
TESTS = ("tests.rt", "examples.rt")
FILES = read_specs()
# A definition of specs/: its crate, its module and its name.
Root = tuple[str, str, str]


def mark(*texts: str) -> str:
    """A short text that differs if one of these does, but for blanks and lines of comments."""
    plain = re.sub(r"(?m)^\s*(--|//).*$", "", "\n".join(texts))
    return sha256(re.sub(r"\s+", " ", plain).encode()).hexdigest()[:16]


def texts_of(crate: str) -> list[str]:
    """The sources of a crate, but for its tests."""
    folder = TOP / "crates" / crate
    files = [file for part in ("src", "specs", "proofs") for file in sorted((folder / part).rglob("*"))]
    return [file.read_text(encoding="utf-8") for file in files if file.is_file() and file.name not in TESTS]


@cache
def cited(roots: frozenset[Root]) -> dict[str, str]:
    """The definitions that are reached from these, by name: their crate and their text."""
    return {f"{it.file.label()} {it.name}": "\n".join(it.lines) for it in closure(FILES, roots)}


def promises_of(crate: str) -> Iterator[tuple[str, str]]:
    """The public calls and types of a crate: the name, and a mark of what callers know of it."""
    names = exported(crate)
    for text in sources(crate):
        imports = imports_of(text)
        for item in blocks(text):
            owner = head(item)
            if owner is None or (names is not None and owner not in names):
                continue
            for name, said in [(owner, known_of(item)), *methods_of(item)]:
                defined = cited(frozenset(named(said, imports)))
                yield name, mark(said, *(f"{key} {defined[key]}" for key in sorted(defined)))


def known_of(item: str) -> str:
    """What callers know of a type: its ghost parts, and its variants or public fields."""
    ghosts = re.findall(r"(?ms)^\s*ghost (?!use).*?[;}]$", functions(item)[0])
    fields = [item] if item.startswith("pub enum") else re.findall(r"(?m)^    pub \w+:.*$", item)
    return "\n".join([*ghosts, *fields])


def methods_of(item: str) -> Iterator[tuple[str, str]]:
    """The functions of an item, or the function that it is: each with its signature and its contract."""
    for function in functions(item)[1:]:
        name = re.match(r"(?:pub )?fn (\w+)", function)
        if name:
            signature = re.split(r"(?m)^\s*(?:requires|ensures)\b| \{$", function)[0]
            yield name[1], signature + contract(function)


def view_of(crate: str, under: set[str], promises: dict[str, dict[str, str]]) -> dict[str, str]:
    """What a crate names of those below it: each with a mark."""
    texts = texts_of(crate)
    words = set(WORD.findall("\n".join(texts)))
    roots = {root for text in texts for root in imports_of(text).values() if root[0] in under}
    found = {name: mark(text) for name, text in cited(frozenset(roots)).items() if not name.startswith(f"{crate}/")}
    for lower in under:
        found |= {f"{lower} {name}": it for name, it in promises[lower].items() if name in words}
    return found


def main() -> None:
    under = below((TOP / "crates.txt").read_text(encoding="utf-8"))
    promises: dict[str, dict[str, str]] = {}
    for crate in under:
        promises[crate] = {}
        for name, known in promises_of(crate):
            promises[crate][name] = mark(promises[crate].get(name, ""), known)
    views = {crate: {"own": mark(*texts_of(crate)), **view_of(crate, under[crate], promises)} for crate in under}
    print(json.dumps(views))


if __name__ == "__main__":
    main()
