"""The must-fail edits: those of the gate in each crate, and those of tests/edits; and whether each can be applied."""

from __future__ import annotations

from collections.abc import Iterator
from pathlib import Path

TOP = Path(__file__).resolve().parent.parent
CRATES = TOP / "crates"
EDITS = TOP / "tests/edits"


def edits_in(folder: Path) -> list[Path]:
    return sorted(folder.glob("*.edit"))


def kept_of(name: str) -> list[Path]:
    """A crate's edits that the gate doesn't try."""
    return edits_in(EDITS / name)


def all_of(name: str) -> list[Path]:
    return edits_in(CRATES / name / "must-fail") + kept_of(name)


def crates() -> list[str]:
    return sorted(folder.name for folder in CRATES.iterdir())


def pairs_of(edit: Path) -> Iterator[tuple[str, str, str]]:
    """The file, the old text and the new one of each change of an edit."""
    file = old = ""
    for line in edit.read_text(encoding="utf-8").splitlines():
        word, _, text = line.partition(": ")
        if word == "file":
            file = text.strip()
        elif word == "old":
            old = text
        elif word in ("new", "new:"):
            yield file, old, text


def fault_of(crate: Path, edit: Path) -> str | None:
    """Why an edit can't be applied, if it can't."""
    texts: dict[str, str] = {}
    for file, old, new in pairs_of(edit):
        if not (crate / file).is_file():
            return f"there is no {file}"
        text = texts.get(file) or (crate / file).read_text(encoding="utf-8")
        if text.count(old) != 1:
            return f"its old text stands {text.count(old)} times in {file}: {old}"
        texts[file] = text.replace(old, new)
    return None if texts else "it changes nothing"
