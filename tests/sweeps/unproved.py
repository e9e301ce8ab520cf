"""`./grove` in a checkout in which nothing is built: it says what the proved program says, and leaves no process."""

from __future__ import annotations

import os
import re
import shutil
import signal
import subprocess
import threading
import time
from functools import partial
from pathlib import Path

from server import HOST, free_port, talk

from sweeps.program import Ran, Tally, Try
from sweeps.ten_lines import TEXT, TREE

TRIED = "answers and what is left behind"
TOP = Path(__file__).resolve().parents[2]
# What a run is compiled from, and by.
PARTS = ("grove", "crates.txt", "HANDLES", "crates", "tools")
# The whole of what an unproved run says beside the program's own lines.
SAYS_SO = re.compile(rb"grove: this answer is unproved [^\n]*; \./grove prove makes [^\n]*\n")
# How long a run may take to compile, and how long to end. A process that gets a signal to end may take a moment to be
# gone.
COMPILES, ENDS, GONE = 1800.0, 60.0, 10.0
# The memory that a run takes, in kB.
MEMORY_EACH = 3_000_000


def tries(program: str, room: str) -> list[Try]:
    turns = threading.BoundedSemaphore(side_by_side())
    trials = [Trial(program, room, name, turns) for name in ("accepted", "refused", "served")]
    documents = zip(trials, ("two-leaves.json", "stock-let-go-early.json"))
    parts = [Try(f"a document that is {trial.name}", partial(answer, trial, it)) for trial, it in documents]
    return [*parts, Try("a server that is ended", partial(serve, trials[2]))]


def side_by_side() -> int:
    """How many runs there is memory for at once."""
    available = re.search(r"^MemAvailable: +(\d+)", Path("/proc/meminfo").read_text(), re.MULTILINE)
    return max(1, int(available[1]) // MEMORY_EACH) if available else 1


class Trial:
    """A folder in which the proved program and the script are called, one after the other, by the same arguments."""

    def __init__(self, program: str, room: str, name: str, turns: threading.BoundedSemaphore):
        self.program, self.name, self.turns = program, name, turns
        self.room = Path(os.path.realpath(room), name)
        self.folder, self.files, self.checkout = (self.room / it for it in ("here", "files", "checkout"))
        for folder in (self.folder, self.files, self.checkout, self.room / "there"):
            folder.mkdir(parents=True)
        for part in PARTS:
            if (TOP / part).is_dir():
                shutil.copytree(TOP / part, self.checkout / part, ignore=shutil.ignore_patterns("out", "__pycache__"))
            else:
                shutil.copy(TOP / part, self.checkout / part)

    def document(self, text: bytes) -> str:
        """Puts a document outside the checkout. Its path has what a path may have."""
        (self.room / "there" / "a=b c.json").write_bytes(text)
        return "../there/a=b c.json"

    def start(self, program: str | Path, *words: str) -> subprocess.Popen:
        """Starts it so that whatever it starts works below the room, and keeps its files there."""
        streams = {"stdin": subprocess.DEVNULL, "stdout": subprocess.PIPE, "stderr": subprocess.PIPE}
        environment = {**os.environ, "TMPDIR": str(self.files)}
        return subprocess.Popen([program, *words], cwd=self.folder, env=environment, bufsize=0, **streams)

    def start_unproved(self, *words: str) -> subprocess.Popen:
        return self.start(self.checkout / "grove", *words)

    def note_left(self, tally: Tally) -> None:
        """Nothing is left: no process that works below the room, and no file. What is left is ended here."""
        ends = time.monotonic() + GONE
        while (processes := processes_in(self.room)) and time.monotonic() < ends:
            time.sleep(0.05)
        files = os.listdir(self.files)
        for process in processes:
            os.kill(process, signal.SIGKILL)
        tally.note("left behind", f"processes {processes}" if processes else None)
        tally.note("left behind", f"files {files}" if files else None)
        tally.note("built", "the program" if (self.checkout / "crates/grove/out").exists() else None)


def processes_in(folder: Path) -> list[int]:
    """The processes that work in the folder, or below it."""
    found = []
    for process in Path("/proc").glob("[0-9]*"):
        try:
            works_in = os.readlink(process / "cwd")
            state = (process / "stat").read_text(errors="replace").rpartition(")")[2].split()[0]
        except OSError:
            continue
        if works_in.startswith(f"{folder}/") and state != "Z":
            found.append(int(process.name))
    return found


def ended(started: subprocess.Popen) -> Ran:
    watch = threading.Timer(COMPILES, started.terminate)
    watch.start()
    out, err = started.communicate()
    watch.cancel()
    return Ran(started.returncode, out, err)


def without_notice(ran: Ran, tally: Tally) -> Ran:
    """What is left if the line is taken away by which a run says that it is unproved."""
    notice = SAYS_SO.match(ran.err)
    tally.note("the first line", None if notice else f"it doesn't say that it is unproved: {ran}")
    return Ran(ran.status, ran.out, ran.err[notice.end() :] if notice else ran.err)


def answer(trial: Trial, name: str, tally: Tally) -> None:
    """A document's answer, with its hint."""
    words = ("judge", trial.document((TOP / "examples" / name).read_bytes()))
    wanted = ended(trial.start(trial.program, *words))
    with trial.turns:
        came = ended(trial.start_unproved(*words))
    tally.compare("unproved", without_notice(came, tally), wanted)
    trial.note_left(tally)


def serve(trial: Trial, tally: Tally) -> None:
    """A server's line, its replies, and what it logs as it comes; then it is ended by SIGTERM."""
    words = ("serve", "--tree", trial.document(TREE), "--verbose", "--port", str(free_port()))
    wanted = served(trial.start(trial.program, *words), int(words[-1]), tally)
    with trial.turns:
        came = served(trial.start_unproved(*words), int(words[-1]), tally)
    tally.compare("unproved", without_notice(came[0], tally), wanted[0])
    tally.note("replies", None if came[1] == wanted[1] else f"wanted {wanted[1]!r}; came {came[1]!r}")
    trial.note_left(tally)


def served(started: subprocess.Popen, port: int, tally: Tally) -> tuple[Ran, bytes]:
    """How a server ended, with times and the port of its client left out, and what it replied."""
    watch = threading.Timer(COMPILES, started.terminate)
    watch.start()
    listening = started.stdout.readline()
    watch.cancel()
    told = b""
    try:
        replies = talk(port, TEXT) if listening else b""
        # It tells of its client a moment later, and the script passes that on in another.
        told = told_up_to(started, b" event=ended ") if listening else b""
    finally:
        started.send_signal(signal.SIGTERM)
    try:
        out, err = started.communicate(timeout=ENDS)
    except subprocess.TimeoutExpired:
        tally.blame("SIGTERM", f"not ended after {ENDS:g} s")
        started.kill()
        out, err = started.communicate()
    client = re.compile(rb"time=\S+|\b%s:\d+" % HOST.encode())
    return Ran(started.returncode, listening + out, client.sub(b"CLIENT", told + err)), replies


def told_up_to(started: subprocess.Popen, last: bytes) -> bytes:
    """The lines on standard error up to one that has this; if it doesn't come, the program is ended."""
    watch = threading.Timer(ENDS, started.terminate)
    watch.start()
    told = b""
    while line := started.stderr.readline():
        told += line
        if last in line:
            break
    watch.cancel()
    return told
