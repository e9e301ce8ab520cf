"""What a crash may leave of a file at each moment of a program's run, by the record of its calls that `watch_files.c`
wrote: what was synced is there, and of what wasn't any part may be."""

from __future__ import annotations

import struct
from dataclasses import dataclass, field
from pathlib import Path
from random import Random
from typing import Callable, Iterable, Iterator, TypeVar

from log_file import frame_at, is_damaged, reading

T = TypeVar("T")
OPEN, WRITE, SYNC, TRUNCATE, RENAME, UNLINK, SENT, CAME = range(1, 9)
HEAD = struct.Struct("<IIQQqII")
STANDARD_OUTPUT = 1
# How many bytes a piece has, of which each is there or not.
PIECES = (1, 8, 512)


@dataclass(frozen=True)
class Entry:
    """A call's beginning or end: of which inode, where and with which bytes; at its end what it gave, or minus the
    error."""

    kind: int
    is_end: bool
    call: int
    file: int
    place: int
    name: str
    data: bytes


def entries_in(record: Path) -> list[Entry]:
    """All of a record. (The last one may have been cut short, if the program was killed.)"""
    data, at, found = record.read_bytes(), 0, []
    while at + HEAD.size <= len(data):
        kind, is_end, call, file, place, name, size = HEAD.unpack_from(data, at)
        at += HEAD.size + name + size
        if at <= len(data):
            text, rest = data[at - name - size : at - size], data[at - size : at]
            found.append(Entry(kind, bool(is_end), call, file, place, text.decode(), rest))
    return found


# ---- the disk


@dataclass(eq=False)
class Change:
    """Bytes that were written, or the place at which a file was cut, and need not be on the disk. If a sync has failed
    for it, no later one brings it there."""

    place: int
    data: bytes | None
    is_done: bool = False
    is_lost: bool = False

    def on(self, base: bytes) -> bytes:
        if self.data is None:
            return base[: self.place].ljust(self.place, b"\0")
        return base[: self.place].ljust(self.place, b"\0") + self.data + base[self.place + len(self.data) :]


@dataclass(eq=False)
class File:
    """What is on the disk of a file, and the changes since, in order."""

    durable: bytes = b""
    changes: list[Change] = field(default_factory=list)

    def latest(self) -> bytes:
        found = self.durable
        for change in self.changes:
            found = change.on(found)
        return found

    def sync(self, changes: list[Change]) -> None:
        for change in changes:
            if not change.is_lost:
                self.durable = change.on(self.durable)
        self.changes = [change for change in self.changes if change not in changes or change.is_lost]


@dataclass(eq=False)
class Move:
    """Names that lead to other files, or to none, and need not yet."""

    names: dict[str, File | None]
    is_done: bool = False
    is_lost: bool = False


class Disk:
    """The files of a folder, by the entries that it is told, one after the other."""

    def __init__(self, folder: str, files: dict[str, bytes]):
        self.folder = folder
        self.names: dict[str, File | None] = {name: File(data) for name, data in files.items()}
        self.moves: list[Move] = []
        self.inodes: dict[int, File] = {}
        # The calls under way, by their numbers.
        self.opening: dict[int, tuple[int, int]] = {}
        self.changing: dict[int, Change] = {}
        self.syncing: dict[int, list[Change]] = {}
        self.settling: dict[int, list[Move]] = {}
        self.moving: dict[int, Move] = {}

    def tell(self, entry: Entry) -> bool:
        """Whether what a crash may leave is something else then."""
        told = {
            OPEN: self.opened,
            WRITE: self.changed,
            TRUNCATE: self.changed,
            SYNC: self.settled if entry.name == self.folder else self.synced,
            RENAME: self.moved,
            UNLINK: self.moved,
        }
        return entry.kind in told and told[entry.kind](entry)

    def named(self, name: str) -> File | None:
        """What a name leads to, for the program itself."""
        found = self.names.get(name)
        for move in self.moves:
            found = move.names.get(name, found)
        return found

    def file_of(self, entry: Entry) -> File:
        """The file of an inode; one that was there before the record has a name."""
        if entry.file not in self.inodes:
            self.inodes[entry.file] = self.named(entry.name) or File()
        return self.inodes[entry.file]

    def opened(self, entry: Entry) -> bool:
        """(The inode is known at the end; at the beginning it is 0 if the file isn't there.)"""
        if not entry.is_end:
            self.opening[entry.call] = entry.file, entry.place
            return False
        had, empties = self.opening.pop(entry.call)
        if entry.place < 0:
            return False
        if not had:
            self.inodes[entry.file] = File()
            self.moves.append(Move({entry.name: self.inodes[entry.file]}, is_done=True))
        elif empties:
            self.file_of(entry).changes.append(Change(0, None, is_done=True))
        return True

    def changed(self, entry: Entry) -> bool:
        """From its beginning on it may be there, if it fails too."""
        if not entry.is_end:
            change = Change(entry.place, entry.data if entry.kind == WRITE else None)
            self.file_of(entry).changes.append(change)
            self.changing[entry.call] = change
            return True
        change = self.changing.pop(entry.call)
        change.is_done = True
        if change.data is not None and entry.place >= 0:
            change.data = change.data[: entry.place]
        return False

    def synced(self, entry: Entry) -> bool:
        """What was done before it began."""
        file = self.file_of(entry)
        if not entry.is_end:
            self.syncing[entry.call] = [change for change in file.changes if change.is_done]
            return False
        changes = self.syncing.pop(entry.call)
        if entry.place >= 0:
            file.sync(changes)
        for change in changes:
            change.is_lost = True
        return True

    def settled(self, entry: Entry) -> bool:
        """The same of the folder's names."""
        if not entry.is_end:
            self.settling[entry.call] = [move for move in self.moves if move.is_done]
            return False
        moves = self.settling.pop(entry.call)
        if entry.place >= 0:
            for move in moves:
                if not move.is_lost:
                    self.names.update(move.names)
            self.moves = [move for move in self.moves if move not in moves or move.is_lost]
        for move in moves:
            move.is_lost = True
        return True

    def moved(self, entry: Entry) -> bool:
        if entry.is_end:
            move = self.moving.pop(entry.call)
            move.is_done = True
            if entry.place < 0:
                self.moves.remove(move)
            return entry.place < 0
        file = self.file_of(entry)
        names: dict[str, File | None] = {entry.name: None}
        if entry.kind == RENAME:
            names[entry.data.decode()] = file
        self.moving[entry.call] = Move(names)
        self.moves.append(self.moving[entry.call])
        return True

    def led_to(self, name: str) -> list[File | None]:
        """What the name may lead to after a crash."""
        found = [self.names.get(name)]
        found += [move.names[name] for move in self.moves if name in move.names]
        return [file for at, file in enumerate(found) if file not in found[:at]]


# ---- states


def contents_of(file: File, old: bytes, random: Random, most: int) -> Iterator[bytes]:
    """What may stand in a file: of what changed all, nothing, each part from the front, each part from the end, and any
    pieces. Where a part isn't there, the file ends, or what was there before stands in its place, or zeros, random
    bytes, or old ones. No more than so many places are taken where it is cut."""
    base, full = file.durable, file.latest()
    yield base
    if base == full:
        return
    yield full
    if any(change.data is None for change in file.changes):
        return
    first = next((at for at, (was, now) in enumerate(zip(base, full)) if was != now), min(len(base), len(full)))
    size = len(full) - first
    places = range(1, size) if size <= most else sorted(random.sample(range(1, size), most))
    yield from (full[: first + place] for place in places)
    for filler in (bytes(size), random.randbytes(size)):
        yield from torn(base, full, filler, first, places, random)
    if old:
        filler, seal = (old * (size // len(old) + 1))[:size], reading(base).seal
        for data in torn(base, full, filler, first, places, random):
            if data == full or not holds_other_frame(seal, data, len(base)):
                yield data


def torn(base: bytes, full: bytes, filler: bytes, first: int, places: Iterable[int], random: Random) -> Iterator[bytes]:
    """What stands in a file if of the bytes from the first one on that changes only some are there, and others in place
    of the rest: those that were there before, or else those of the filler."""
    before, now = full[:first], full[first:]
    filler = base[first:] + filler[len(base) - first :]
    for place in places:
        yield before + now[:place] + filler[place:]
        yield before + filler[:place] + now[place:]
    yield before + filler
    for piece in PIECES:
        pieces = ((now if random.random() < 0.5 else filler)[at : at + piece] for at in range(0, len(now), piece))
        yield before + b"".join(pieces)


def holds_other_frame(seal: bytes, data: bytes, at: int) -> bool:
    """Whether a whole frame stands behind a file that nobody has put there. No crash leaves one, which is a premise of
    what is promised."""
    return frame_at(seal, data, at) is not None or is_damaged(seal, data, at)


@dataclass(frozen=True)
class Span:
    """How many rounds have to be in a file, and how many may be; -1 if it need not be a store yet."""

    acknowledged: int
    sent: int

    def among(self, all_of: list[T]) -> list[T]:
        """What stands there after so many."""
        return all_of[max(self.acknowledged, 0) : self.sent + 1]


@dataclass(frozen=True)
class State:
    """What a crash may leave of a file, or that it isn't there, at the first and at the last moment of some between
    which the disk is the same."""

    data: bytes | None
    first: Span
    last: Span


# Given an entry of a connection, raises the counts of what is acknowledged and sent.
Counting = Callable[[Entry, "Counts"], None]


@dataclass
class Counts:
    acknowledged: int
    sent: int
    # Of each connection the last bytes that came, and of each call under way those that it sends.
    tails: dict[int, bytes] = field(default_factory=dict)
    sending: dict[int, bytes] = field(default_factory=dict)

    def span(self) -> Span:
        return Span(self.acknowledged, self.sent)


@dataclass
class Record:
    """What a program did with a file, where that and others were there before it began, and how many rounds that file
    had then."""

    file: str
    before: dict[str, bytes]
    entries: list[Entry]
    counting: Counting
    first: int

    def states(self, random: Random, most: int, begin: int = 0) -> Iterator[State]:
        """All that a crash may leave at each moment from the entry of this number on. Between two changes of the disk
        it is the same, and has to be right for the first and the last of these moments."""
        disk, counts = Disk(str(Path(self.file).parent), self.before), Counts(self.first, max(self.first, 0))
        since = counts.span()
        for at, entry in enumerate(self.entries):
            if entry.kind in (SENT, CAME):
                self.counting(entry, counts)
                continue
            if at >= begin and may_change(entry):
                for data in self.left_by(disk, random, most):
                    yield State(data, since, counts.span())
            if disk.tell(entry):
                since = counts.span()
        for data in self.left_by(disk, random, most):
            yield State(data, since, counts.span())

    def left_by(self, disk: Disk, random: Random, most: int) -> Iterator[bytes | None]:
        old = self.before.get(self.file, b"")
        for file in disk.led_to(self.file):
            if file is None:
                yield None
            else:
                yield from contents_of(file, file.durable[-most:] or old, random, most)


def may_change(entry: Entry) -> bool:
    """Whether a disk may be another one after it."""
    return entry.is_end == (entry.kind in (OPEN, SYNC))
