"""The arguments of a call, as far as an unproved run has to understand them.

grove_words decides what arguments mean. Here stands only which one names a document, where a server is to listen, and
whether standard input is read. That is so only of arguments that are right: the program itself refuses wrong ones,
before it reads.
"""

from __future__ import annotations

import ipaddress
import os
from dataclasses import dataclass, field

from listening import Place

READING = ("judge", "check", "plan", "draw", "run", "audit", "tree")
SERVING = ("serve", "page")
SAVING = "save"
VALUED = (
    *("--tree", "--port", "--bind", "--address", "--workers", "--idle"),
    *("--http", "--http-seats", "--host", "--log", "--sync"),
)
FLAGS = (
    *("--quiet", "--explain", "--document", "--text", "--any-port", "--busy", "--verbose", "--hints"),
    *("--csv", "--parents"),
)
# What the program takes of a document: no more than a byte above the longest history.
MOST_BYTES = 67_108_864
# The name that a document has for the program.
DOCUMENT = "document"


@dataclass
class Given:
    """The arguments, with what was found in them: values by their option and plain ones, each with its place."""

    words: list[str]
    command: str = "judge"
    values: dict[str, tuple[int, str]] = field(default_factory=dict)
    plain: list[tuple[int, str]] = field(default_factory=list)
    is_known: bool = True

    def __post_init__(self) -> None:
        if self.words:
            self.command = self.words[0]
        at, takes_options = 1, True
        while at < len(self.words):
            word = self.words[at]
            option, is_joined, value = word.partition("=")
            if not takes_options or not word.startswith("-") or word == "-":
                self.plain.append((at, word))
            elif word == "--":
                takes_options = False
            elif option in VALUED and is_joined:
                self.values[option] = at, value
            elif option in VALUED and at + 1 < len(self.words):
                at += 1
                self.values[option] = at, self.words[at]
            elif word not in FLAGS:
                self.is_known = False
            at += 1

    def serves(self) -> bool:
        return self.command in SERVING

    def reads_input(self) -> bool:
        return self.command in (*READING, "ask") and self.is_known and not self.plain

    def document(self) -> tuple[int, str] | None:
        """The name of the document's file, which `save` writes, and the place of the argument that has it."""
        if self.serves():
            return self.values.get("--tree")
        return self.plain[0] if self.command in (*READING, SAVING) and self.plain else None

    def is_quiet(self) -> bool:
        """Whether it is to be left out why something fails."""
        return "--quiet" in self.words

    def takes_any_port(self) -> bool:
        """Whether a server is to listen at a port that nobody names."""
        return self.serves() and "--any-port" in self.words and "--port" not in self.values

    def place(self) -> Place | None:
        """Where a server is to listen, if its port is named."""
        _, address = self.values.get("--bind", (0, "127.0.0.1"))
        _, port = self.values.get("--port", (0, ""))
        try:
            return Place(ipaddress.ip_address(address), int(port)) if self.serves() else None
        except ValueError:
            return None


@dataclass
class HandedIn:
    """The arguments with which the program is called, the flags that hand it the document, and the names to put
    back."""

    words: list[str]
    flags: list[str]
    renamed: tuple[str, str] | None = None

    def put_back(self, said: bytes) -> bytes:
        """What the program says of a file, with the name that the caller gave it."""
        if self.renamed:
            for verb in ("open", "read", "save"):
                passed, typed = (os.fsencode(f"cannot {verb} {name}: ") for name in self.renamed)
                said = said.replace(passed, typed, 1)
        return said


def hand_in(given: Given, room: str) -> HandedIn:
    """Copies the document into the room. One that can't be opened is named by its whole path, since the program can't
    either, and so is the file to save in, since the program works in another folder."""
    named = given.document()
    if not named or not named[1]:
        return HandedIn(given.words, [])
    at, name = named
    copy, whole = os.path.join(room, DOCUMENT), os.path.join(os.getcwd(), name)
    by_path = HandedIn(renamed_at(given.words, at, name, whole), [], (whole, name))
    if given.command == SAVING:
        return by_path
    try:
        with open(name, "rb", buffering=0) as source:
            copy_part(source.fileno(), copy)
    except OSError:
        return by_path
    return HandedIn(renamed_at(given.words, at, name, DOCUMENT), ["--data", f"{DOCUMENT}={copy}"])


def renamed_at(words: list[str], at: int, name: str, wanted: str) -> list[str]:
    """The arguments with another name in one of them, at its end."""
    return [*words[:at], words[at][: len(words[at]) - len(name)] + wanted, *words[at + 1 :]]


def copy_part(source: int, copy: str) -> int:
    """Copies what can be read, as far as the program would read it, and returns how many bytes that were."""
    count = 0
    with open(copy, "wb") as target:
        while count <= MOST_BYTES:
            piece = os.read(source, min(1 << 20, MOST_BYTES + 1 - count))
            if not piece:
                break
            target.write(piece)
            count += len(piece)
    return count
