"""What the program's help says of it, read into parts: the manual page and the completions are made from these."""

from __future__ import annotations

import re
import subprocess
from dataclasses import dataclass, field

# A line of a list begins so far to the left, and what goes on from the line before farther to the right.
LEFTMOST, DEEPEST = 2, 6


class BadHelp(Exception):
    """The help hasn't the form that is read here."""


@dataclass(frozen=True)
class Entry:
    """A line of a list: a command, an argument or an option, as `-h, --help`, `--tree <DOC>` or `[LINE]...`."""

    name: str
    text: str

    def words(self) -> list[str]:
        """The ways to write an option."""
        return re.findall(r"(?<!\S)-[\w-]+", self.name)

    def value(self) -> str | None:
        """What an option takes, or what an argument is."""
        found = re.search(r"[<\[]([A-Z]+)[>\]]", self.name)
        return found[1] if found else None


@dataclass
class Help:
    """The help of the program or of a command: what it is, how it is called, and its lists by their titles."""

    about: str
    usage: str
    lists: dict[str, list[Entry]] = field(default_factory=dict)

    def entries(self, title: str) -> list[Entry]:
        return self.lists.get(title, [])

    def options(self) -> list[Entry]:
        return self.entries("Options")

    def arguments(self) -> list[Entry]:
        return self.entries("Arguments")


@dataclass(frozen=True)
class Helps:
    """The help of the program, and that of each of its commands, in the order in which it lists them."""

    program: Help
    commands: dict[str, Help]


def helps_of(program: str) -> Helps:
    """Asks the program. Its own command `help` is none of those that have a help."""
    top = read(asked(program))
    names = [entry.name for entry in top.entries("Commands") if entry.name != "help"]
    return Helps(top, {name: read(asked(program, name)) for name in names})


def asked(program: str, *words: str) -> str:
    ran = subprocess.run([program, *words, "--help"], stdin=subprocess.DEVNULL, capture_output=True, text=True)
    if ran.returncode or ran.stderr:
        raise BadHelp(f"{' '.join(words)} --help: status {ran.returncode}, {ran.stderr.strip()}")
    return ran.stdout


def read(text: str) -> Help:
    """Paragraphs that an empty line parts: what it is, its usage, and lists with a title each."""
    about, usage, *lists = re.split(r"\n\n+", text.strip("\n"))
    if not usage.startswith("Usage: "):
        raise BadHelp(f"no usage: {usage!r}")
    found = Help(" ".join(about.split()), " ".join(usage.removeprefix("Usage: ").split()))
    for paragraph in lists:
        title, *lines = paragraph.split("\n")
        if not re.fullmatch(r"[A-Z][a-z]+:", title):
            raise BadHelp(f"no list: {paragraph!r}")
        found.lists[title.rstrip(":")] = entries_of(lines)
    return found


def entries_of(lines: list[str]) -> list[Entry]:
    entries: list[Entry] = []
    for line in lines:
        indent = len(line) - len(line.lstrip(" "))
        if LEFTMOST <= indent <= DEEPEST:
            name, _, text = line.strip().partition("  ")
            entries.append(Entry(name, text.strip()))
        elif indent > DEEPEST and entries:
            last = entries.pop()
            entries.append(Entry(last.name, f"{last.text} {line.strip()}".strip()))
        else:
            raise BadHelp(f"no line of a list: {line!r}")
    return entries
