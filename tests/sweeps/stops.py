"""`grove save` with its calls about files counted: they come in the order by which the file is the old one or the new
one, whenever the machine stops. It is stopped before each of them, and each of them fails."""

from __future__ import annotations

import errno
import os
from functools import partial
from pathlib import Path

from sweeps.preloaded import library_of
from sweeps.program import DEVICE, MEMORY, Ran, Tally, Try, because, run
from sweeps.saving import DOCUMENT, OLD, SAVED, Responding, fresh, note_folder, save, sized

TRIED = "runs of the client that saves, whose calls about files were counted"
# A document that is written in several pieces.
LARGE = DOCUMENT.replace(b',"version"', b',"other":"' + 3_000_000 * b"x" + b'","version"')
# How the library stops the program.
STOPPED = 99
# What a name may lead to, if the machine stops in between.
BROKEN = b"neither"


def tries(program: str, room: str) -> list[Try]:
    library = library_of("file_calls", room)
    texts = {"a document": DOCUMENT, "a large document": LARGE}
    parts = {"in order": in_order, "stopped before each call": stopped, "a call that fails": failed}
    return [
        Try(f"{name}, {part}", partial(call, program, library, room, text))
        for name, text in texts.items()
        for part, call in parts.items()
    ] + [Try("the folders of names", partial(folders, program, library, room))]


class Saving:
    """A file, and what `save` did about it the last time."""

    def __init__(self, program: str, library: str, room: str, text: bytes):
        self.program, self.library, self.text = program, library, text
        self.file, self.reports = fresh(room, "stops"), Path(fresh(room, "reports", None))

    def run(self, **numbers: int) -> Ran:
        """Saves the text; a number stops the program before a call, or lets that fail."""
        self.reports.unlink(missing_ok=True)
        told = {name: str(number) for name, number in numbers.items()}
        surroundings = {**os.environ, "LD_PRELOAD": self.library, "CALLS": str(self.reports), **told}
        with Responding(sized(self.text)) as server:
            return save(self.program, server.port, self.file, env=surroundings)

    def calls(self) -> list[list[str]]:
        """Each call by its words, in order: no name here has a blank."""
        return [line.split() for line in self.reports.read_text().splitlines()]


def in_order(program: str, library: str, room: str, text: bytes, tally: Tally) -> None:
    """A new file beside the old one is written whole and synced. Then it gets the name, and the folder is synced."""
    saving = Saving(program, library, room, text)
    tally.compare("saved", saving.run(), SAVED)
    note_folder(tally, "the file", saving.file, text)
    file, beside, folder = str(saving.file), f"{saving.file}.new", str(saving.file.parent)
    calls = saving.calls()
    written = [call for call in calls if call[:2] == ["write", beside]]
    size = sum(int(call[2]) for call in written)
    tally.note("what is written", None if size == len(text) else f"{size} bytes of {len(text)}")
    wanted = [["open", beside, "to-write-anew"], *written, ["sync", beside], ["rename", beside, file]]
    wanted += [["open", folder, "to-read"], ["sync", folder]]
    tally.note("the calls", None if calls == wanted else f"wanted {wanted}; came {calls}")
    for count in range(len(calls) + 1):
        found = left_by(calls[:count], file, beside, folder)
        tally.note(f"after {count} calls", "neither the old file nor the new one" if BROKEN in found else None)
    tally.note("in the end", None if left_by(calls, file, beside, folder) == {b"new"} else "it may be the old one")


def folders(program: str, library: str, room: str, tally: Tally) -> None:
    """It is the folder of the file that is synced, however the file is named: by its name alone too."""
    inner = Path(room, "folders", "inner")
    inner.mkdir(parents=True)
    for name, folder in (
        ("file", "."),
        ("./file", "."),
        ("inner/file", "inner"),
        ("inner/../inner//file", "inner/../inner/"),
        (f"{inner}/file", str(inner)),
    ):
        reports = Path(fresh(room, "reports", None))
        surroundings = {**os.environ, "LD_PRELOAD": library, "CALLS": str(reports)}
        with Responding(sized(DOCUMENT)) as server:
            ran = run(program, "save", "--port", str(server.port), name, env=surroundings, cwd=inner.parent)
        tally.compare(name, ran, SAVED)
        calls = [line.split() for line in reports.read_text().splitlines()][-3:]
        synced = str(Path(inner.parent, folder).resolve())
        wanted = [["rename", f"{name}.new", name], ["open", folder, "to-read"], ["sync", synced]]
        tally.note(f"the folder of {name}", None if calls == wanted else f"wanted {wanted}; came {calls}")


def left_by(calls: list[list[str]], file: str, beside: str, folder: str) -> set[bytes]:
    """What the name may lead to once the machine has stopped after these calls: only what is synced is sure."""
    is_whole, found, latest = False, {b"old"}, b"old"
    for call in calls:
        if call[:2] in (["open", beside], ["write", beside]):
            is_whole = False
        elif call == ["sync", beside]:
            is_whole = True
        elif call[0] == "rename" or call[:2] == ["open", file] and call[2] != "to-read":
            latest = b"new" if is_whole and call == ["rename", beside, file] else BROKEN
            found |= {latest}
        elif call == ["sync", folder]:
            found = {latest}
    return found


def stopped(program: str, library: str, room: str, text: bytes, tally: Tally) -> None:
    """The file is the old one before the new one has its name, and the new one from then on. What is left beside it is
    in nobody's way."""
    saving = Saving(program, library, room, text)
    saving.run()
    names = [call[0] for call in saving.calls()]
    for number in range(1, len(names) + 1):
        saving.file.write_bytes(OLD)
        ran = saving.run(STOPPED_BEFORE=number)
        tally.note(f"stopped before call {number}", None if ran.status == STOPPED else f"{ran}")
        wanted = text if "rename" in names[: number - 1] else OLD
        tally.note(f"the file at call {number}", None if saving.file.read_bytes() == wanted else "it is another one")
        tally.compare(f"saved after call {number}", saving.run(), SAVED)
        note_folder(tally, f"the folder after call {number}", saving.file, text)


def failed(program: str, library: str, room: str, text: bytes, tally: Tally) -> None:
    """`device`, or `memory` where the system lacks that, and the file is as it was, with nothing beside it; only if its
    folder alone can't be synced, it is the new one."""
    saving = Saving(program, library, room, text)
    saving.run()
    names = [call[0] for call in saving.calls()]
    for number in range(1, len(names) + 1):
        saving.file.write_bytes(OLD)
        wanted = because(f"cannot save {saving.file}", errno.EIO)
        tally.compare(f"call {number} fails", saving.run(FAILED_NUMBER=number), wanted)
        left = text if "rename" in names[: number - 1] else OLD
        note_folder(tally, f"the folder after call {number}", saving.file, left)
        saving.file.write_bytes(OLD)
        lacking = saving.run(FAILED_NUMBER=number, FAILED_ERROR=errno.ENOMEM)
        tally.compare(f"call {number} lacks memory", lacking, MEMORY)
        note_folder(tally, f"the folder after call {number} without memory", saving.file, left)
    tally.blame("the status", None if wanted.status == DEVICE.status else "it is another one")
