"""Whether the recipes of CONTRIBUTING.md name what is there: each name beside its file, in the crate that is told."""
from __future__ import annotations

import re
from collections.abc import Iterator
from pathlib import Path

from definitions import TOP

PAGE = "CONTRIBUTING.md"
ITEM = re.compile(r"^\d+\. .*(?:\n(?!\d+\. |\n).*)*", re.M)
CRATE = re.compile(r"\bgrove_(?!etcd)\w+\b")
FILE = r"`((?:[\w-]+/)*\w+\.(?:rt|antt|py|rs|json|h|html|c))`"
NAMES = r"((?:`[\w:]+`(?: \([^)]*\))?(?:, | or | and )?)+)"
# Names that are in a file, and a file with names in brackets behind it.
NAMES_IN_FILE = re.compile(rf"{NAMES} in {FILE}")
FILE_WITH_NAMES = re.compile(rf"{FILE} \({NAMES}")
PARTS = "src/", "specs/", "proofs/", "must-fail/"


def recipe_faults() -> Iterator[str | None]:
    """Of each name that a recipe has beside a file whether the file is there and has it."""
    seen = 0
    for item in ITEM.findall((TOP / PAGE).read_text(encoding="utf-8")):
        for place, names, file in names_in(item):
            seen += 1
            path = path_of(item, place, file)
            text = path.read_text(encoding="utf-8") if path.is_file() else ""
            for name in names:
                is_there = re.search(rf"\b{re.escape(name.rpartition('::')[2])}\b", text)
                yield None if is_there else f"{PAGE}: there is no {name} in {path.relative_to(TOP)}"
    yield None if seen else f"{PAGE}: no recipe has a name beside a file"


def names_in(item: str) -> Iterator[tuple[int, list[str], str]]:
    for found in NAMES_IN_FILE.finditer(item):
        yield found.start(), spans(found[1]), found[2]
    for found in FILE_WITH_NAMES.finditer(item):
        yield found.start(), spans(found[2]), found[1]


def spans(text: str) -> list[str]:
    return re.findall(r"`([\w:]+)`", re.sub(r"\([^)]*\)", "", text))


def path_of(item: str, place: int, file: str) -> Path:
    """Where a file is: by its path, or in the crate or the folder that the item was about before."""
    if (TOP / file).is_file():
        return TOP / file
    if file.startswith(PARTS):
        known = CRATE.findall(item[:place]) or CRATE.findall(item)
        return TOP / "crates" / (known[-1] if known else "") / file
    folders = re.findall(r"\btests/\w+", item[:place])
    return TOP / (folders[-1] if folders else "tests") / file
