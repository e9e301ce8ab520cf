"""Devices that fail or come in pieces: `device` and status 3 if one was needed, else the whole answer."""

from __future__ import annotations

import errno
import os
import resource
import select
import shutil
import signal
import tempfile
import threading
from dataclasses import replace
from functools import partial

from sweeps.documents import EXAMPLES, Asked, certified_examples, examples, helped, wrong_words
from sweeps.growths import is_told
from sweeps.preloaded import library_of
from sweeps.program import DEVICE, Ran, Tally, Try, because, run
from sweeps.served_devices import failing

TRIED = "runs with a device that is closed, full, of another kind, or in pieces"
NOBODY = 65534
# How many bytes go in or out at once if each read or write fails, and more of these than any run has.
PIECE = 40
MOST_CALLS = 20_000
# A terminal holds no more than this before it is read. Ctrl-D is typed at the end of an input.
TERMINAL_HOLDS = 4000
END_OF_INPUT = b"\x04"
# The members of the document that each command awaits; `tree` awaits a table.
AWAITED = {
    "judge": ("nodes", "list", "plan"),
    "check": ("nodes", "list", "plan", "flow"),
    "plan": ("nodes", "list"),
    "draw": ("nodes", "list"),
    "run": ("nodes", "lists"),
    "audit": ("nodes", "jobs", "events"),
    "tree": (),
}
# What is said if no command is named.
UNNAMED = b'hint: no command is named, so this is "judge"; "grove --help" lists the commands\n'
# What is said before the system's reason.
NO_READ, NO_WRITE = "cannot read standard input", "cannot write standard output"
# If standard error fails too, nothing can be printed.
SILENT = Ran(3, b"", b"")


def tries(program: str, room: str) -> list[Try]:
    library = library_of("fail_device", room)
    fixed = [
        Try("standard output", partial(failing_output, program)),
        Try("standard output that takes some bytes", partial(cut_output, program)),
        Try("standard output, quietly", partial(quiet_output, program)),
        Try("standard input, quietly", partial(quiet_input, program)),
        Try("a call, quietly", partial(quiet_call, program, library)),
        Try("standard output that takes nothing", partial(idle_output, program, library)),
        Try("each write of standard output", partial(fail_each, program, library, "output")),
        Try("each read of standard input", partial(fail_each, program, library, "input")),
        Try("standard error while there is an answer", partial(unused_errors, program)),
        Try("standard error while there is something to tell", partial(failing_errors, program)),
        Try("standard output and standard error", partial(failing_both, program)),
        Try("standard input", partial(failing_input, program)),
        Try("standard input beside a named file", partial(unused_input, program)),
        Try("a name that is no readable file", partial(unreadable_names, program)),
        Try("a file without leave to read", partial(forbidden, program, room)),
        Try("an endless input", partial(endless, program)),
        Try("a terminal as standard input", partial(terminal, program)),
    ]
    pieces = [Try(f"{it.name}, in pieces", partial(in_pieces, program, it)) for it in examples() + certified_examples()]
    return fixed + pieces


def answered() -> list[Asked]:
    """Runs that end with something on standard output."""
    return examples() + named_examples() + helped()


def failing_output(program: str, tally: Tally) -> None:
    for asked in answered():
        with open("/dev/full", "wb") as full:
            ran = run(program, *asked.words, text=asked.text, stdout=full)
            tally.compare(f"{asked.name}, full", ran, because(NO_WRITE, errno.ENOSPC))
        tally.compare(f"{asked.name}, closed", closing(program, ">&-", asked), because(NO_WRITE, errno.EBADF))
        with unread() as pipe:
            ran = run(program, *asked.words, text=asked.text, stdout=pipe)
            tally.compare(f"{asked.name}, a pipe that nobody reads", ran, because(NO_WRITE, errno.EPIPE))


def quiet(asked: Asked) -> Asked:
    """The same arguments with `--quiet`."""
    return replace(asked, words=(*asked.words, "--quiet"))


def quiet_output(program: str, tally: Tally) -> None:
    for asked in map(quiet, examples() + named_examples()):
        with open("/dev/full", "wb") as full:
            tally.compare(f"{asked.name}, full", run(program, *asked.words, text=asked.text, stdout=full), DEVICE)
        tally.compare(f"{asked.name}, closed", closing(program, ">&-", asked), DEVICE)
        with unread() as pipe:
            ran = run(program, *asked.words, text=asked.text, stdout=pipe)
            tally.compare(f"{asked.name}, a pipe that nobody reads", ran, DEVICE)


def quiet_input(program: str, tally: Tally) -> None:
    for command in ("judge", "check", "plan", "run", "draw", "audit", "tree"):
        asked = Asked(command, (command, "--quiet"), b"", 3)
        tally.compare(f"{command}, closed", closing(program, "<&-", asked), DEVICE)
        with opened(str(EXAMPLES), os.O_RDONLY) as folder:
            tally.compare(f"{command}, a folder", run(program, *asked.words, text=None, stdin=folder), DEVICE)


def quiet_call(program: str, library: str, tally: Tally) -> None:
    """The first read, or write, that fails."""
    for asked in map(quiet, examples()):
        for kind in ("input", "output"):
            with failing(library, kind, 1, {}) as (how, _):
                ran = run(program, *asked.words, text=asked.text, **how)
            tally.compare(f"{asked.name}, {kind}", ran, DEVICE)


def idle_output(program: str, library: str, tally: Tally) -> None:
    """Each write takes no byte, and reports no fault."""
    for asked in examples():
        surroundings = {**os.environ, "LD_PRELOAD": library, "OUTPUT_AT_MOST": "0"}
        ran = run(program, *asked.words, text=asked.text, env=surroundings)
        tally.compare(f"{asked.name}, nothing taken", ran, because(f"{NO_WRITE}: write zero"))


def cut_output(program: str, tally: Tally) -> None:
    """A file that takes so many bytes and no more: it holds just the first part of the whole answer."""
    for asked in examples():
        whole = asked.output or b""
        for most in sorted({*range(min(8, len(whole))), len(whole) // 2, len(whole) - 1}):
            tally.note(f"{asked.name}, {most} bytes", cut_after(program, asked, most, whole))


def cut_after(program: str, asked: Asked, most: int, whole: bytes) -> str | None:
    with tempfile.TemporaryFile() as file:
        ran = run(program, *asked.words, text=asked.text, stdout=file, preexec_fn=partial(limit_files, most))
        file.seek(0)
        came = Ran(ran.status, file.read(), ran.err)
    wanted = because(NO_WRITE, errno.EFBIG, whole[:most])
    return None if came == wanted else f"wanted {wanted}; came {came}"


def fail_each(program: str, library: str, kind: str, tally: Tally) -> None:
    """One write, or one read, of some bytes fails, and those after it would not: nothing more goes out."""
    for asked in examples():
        for number in range(1, MOST_CALLS):
            with failing(library, kind, number, {f"{kind.upper()}_AT_MOST": str(PIECE)}) as (how, ends):
                ran = run(program, *asked.words, text=asked.text, **how)
                if not is_told(ends):
                    tally.blame(f"{asked.name}, no {kind} failed", asked.fault(ran))
                    break
            out = (asked.output or b"")[: PIECE * (number - 1)] if kind == "output" else b""
            wanted = because(NO_WRITE if kind == "output" else NO_READ, errno.EIO, out)
            tally.compare(f"{asked.name}, {kind} {number}", ran, wanted)
        else:
            tally.blame(asked.name, f"there is still more {kind}")


def limit_files(most: int) -> None:
    """Lets no file of this process grow beyond so many bytes; a write that would is cut, and the next one fails."""
    signal.signal(signal.SIGXFSZ, signal.SIG_IGN)
    resource.setrlimit(resource.RLIMIT_FSIZE, (most, most))


def unused_errors(program: str, tally: Tally) -> None:
    for asked in answered():
        with open("/dev/full", "wb") as full:
            ran = run(program, *asked.words, text=asked.text, stderr=full)
            tally.note(f"{asked.name}, full", asked.fault(ran))
        tally.note(f"{asked.name}, closed", asked.fault(closing(program, "2>&-", asked)))


def failing_errors(program: str, tally: Tally) -> None:
    for asked in wrong_words() + [Asked("no such file", ("judge", "no-such-file"), b"", 3)]:
        with open("/dev/full", "wb") as full:
            tally.compare(f"{asked.name}, full", run(program, *asked.words, stderr=full), SILENT)
        tally.compare(f"{asked.name}, closed", closing(program, "2>&-", asked), SILENT)


def failing_both(program: str, tally: Tally) -> None:
    for asked in answered():
        with open("/dev/full", "wb") as full:
            ran = run(program, *asked.words, text=asked.text, stdout=full, stderr=full)
            tally.compare(f"{asked.name}, full", ran, SILENT)
        tally.compare(f"{asked.name}, closed", closing(program, ">&- 2>&-", asked), SILENT)


def failing_input(program: str, tally: Tally) -> None:
    unread, folded = because(NO_READ, errno.EBADF), because(NO_READ, errno.EISDIR)
    for words in ((), ("judge",), ("check",), ("plan",), ("run",), ("draw",), ("audit",), ("tree",)):
        asked = Asked(" ".join(words) or "no words", words, b"", 3)
        tally.compare(f"{asked.name}, closed", closing(program, "<&-", asked), unread)
        with opened(str(EXAMPLES), os.O_RDONLY) as folder:
            tally.compare(f"{asked.name}, a folder", run(program, *words, text=None, stdin=folder), folded)
        with opened("/dev/null", os.O_WRONLY) as sink:
            tally.compare(f"{asked.name}, only for writing", run(program, *words, text=None, stdin=sink), unread)
        tally.compare(f"{asked.name}, all closed", closing(program, "<&- >&- 2>&-", asked), SILENT)


def unused_input(program: str, tally: Tally) -> None:
    """Runs on a named file, which need no standard input."""
    for asked in named_examples():
        tally.note(f"{asked.name}, closed", asked.fault(closing(program, "<&-", asked)))
        with opened(str(EXAMPLES), os.O_RDONLY) as folder:
            tally.note(f"{asked.name}, a folder", asked.fault(run(program, *asked.words, text=None, stdin=folder)))


def named_examples() -> list[Asked]:
    """The examples, each as a named file and with a standard input of nothing."""
    return [named(it) for it in examples()]


def named(asked: Asked) -> Asked:
    *words, file = asked.name.split()
    return replace(asked, name=f"{asked.name} by name", words=(*words, str(EXAMPLES / file)), text=b"")


def unreadable_names(program: str, tally: Tally) -> None:
    reasons = {
        str(EXAMPLES): because(f"cannot read {EXAMPLES}", errno.EISDIR),
        f"{EXAMPLES}/two-leaves.json/below": because(
            f"cannot open {EXAMPLES}/two-leaves.json/below", errno.ENOTDIR
        ),
        "no-such-file": because("cannot open no-such-file", errno.ENOENT),
        "-": because("cannot open -", errno.ENOENT),
        "": because("cannot open ", errno.ENOENT),
        "n" * 5000: because(f"cannot open {'n' * 200}..", errno.ENAMETOOLONG),
    }
    for command in ("judge", "check", "plan"):
        for name, wanted in reasons.items():
            tally.compare(f"{command} {name[:60]!r}", run(program, command, name), wanted)
            tally.compare(f"{command} {name[:60]!r}, quietly", run(program, command, "--quiet", name), DEVICE)


def forbidden(program: str, room: str, tally: Tally) -> None:
    """A file that the user of the program may not read; root may read all, so the program then runs as nobody."""
    os.chmod(room, 0o711)
    own = shutil.copy(program, f"{room}/program")
    for asked in named_examples():
        *words, named_file = asked.words
        file = shutil.copy(named_file, room)
        as_nobody = {"user": NOBODY, "group": NOBODY, "extra_groups": []} if os.geteuid() == 0 else {}
        os.chmod(file, 0o644)
        tally.note(f"{asked.name}, with leave", asked.fault(run(own, *words, file, cwd="/", **as_nobody)))
        os.chmod(file, 0)
        wanted = because(f"cannot open {file}", errno.EACCES)
        tally.compare(f"{asked.name}, without leave", run(own, *words, file, cwd="/", **as_nobody), wanted)
        os.remove(file)


def endless(program: str, tally: Tally) -> None:
    """An input that never ends is read until it is over the limit, and no further."""
    wanted = Ran(1, b"refused limit whole\n", b"")
    for command in ("judge", "check", "plan"):
        tally.compare(f"{command}, named", run(program, command, "/dev/zero"), wanted)
        with opened("/dev/zero", os.O_RDONLY) as zeros:
            tally.compare(f"{command}, standard input", run(program, command, text=None, stdin=zeros), wanted)


def terminal(program: str, tally: Tally) -> None:
    """At a terminal it is said what is awaited there, word for word, unless the document has a name."""
    for asked in (it for it in examples() if it.status == 0 and len(it.text) < TERMINAL_HOLDS):
        awaited = awaited_by(asked.words[0])
        ran = typed(program, asked.words, asked.text)
        is_well = ran == Ran(0, asked.output, b"") and ran.hint == awaited
        fault = f"wanted {asked.output!r} and {awaited!r}; came {ran}, {ran.hint!r}"
        tally.note(asked.name, None if is_well else fault)
    for command in AWAITED:
        ran = typed(program, (command,), b"/\n" if command == "tree" else b"{}")
        is_well = (ran.hint + ran.err).startswith(awaited_by(command)) and ran.status == (0 if command == "tree" else 1)
        tally.note(command, None if is_well else f"wanted {awaited_by(command)!r}; came {ran}")
    ran, wanted = typed(program, (), b"{}"), UNNAMED + awaited_by("judge")
    is_well = ran.err.startswith(wanted) and (ran.status, ran.out) == (1, b"refused shape nodes\n")
    tally.note("no words", None if is_well else f"wanted {wanted!r}; came {ran}")
    for asked in named_examples():
        tally.note(asked.name, asked.fault(typed(program, asked.words, b"")))


def awaited_by(command: str) -> bytes:
    """What is said of the input that the command awaits."""
    if command == "tree":
        said = "reads lines of path,weight,value from standard input, up to their end (Ctrl-D)"
    else:
        *others, last = (f'"{member}"' for member in AWAITED[command])
        members = f"{', '.join(others)} and {last}" if others else last
        said = f"reads a JSON document with {members} from standard input, up to its end (Ctrl-D)"
    return f'hint: "{command}" {said}\n'.encode()


def typed(program: str, words: tuple[str, ...], text: bytes) -> Ran:
    """Runs the program at a terminal at which this is typed, and then the end of the input."""
    keyboard, screen = os.openpty()
    try:
        os.write(keyboard, text + (b"" if text.endswith(b"\n") else b"\n") + END_OF_INPUT)
        return run(program, *words, text=None, stdin=screen)
    finally:
        os.close(screen)
        os.close(keyboard)


def in_pieces(program: str, asked: Asked, tally: Tally) -> None:
    for size in (1, 7):
        tally.note(f"of {size}", asked.fault(run_on_pieces(program, asked, size)))


def run_on_pieces(program: str, asked: Asked, size: int) -> Ran:
    """Runs the program on a pipe that keeps pieces apart: a read gives one of them at most."""
    ends, starts = os.pipe2(os.O_DIRECT | os.O_CLOEXEC)
    pieces = [asked.text[at : at + size] for at in range(0, len(asked.text), size)]
    writer = threading.Thread(target=write_pieces, args=(starts, pieces))
    writer.start()
    try:
        return run(program, *asked.words, text=None, stdin=ends)
    finally:
        # (a writer of more than was read is released)
        os.close(ends)
        writer.join()


def write_pieces(starts: int, pieces: list[bytes]) -> None:
    try:
        for piece in pieces:
            os.write(starts, piece)
    except BrokenPipeError:
        pass
    finally:
        os.close(starts)


def closing(program: str, streams: str, asked: Asked) -> Ran:
    """Runs the program with streams closed, as the shell's redirections say."""
    return run("sh", "-c", f'exec "$@" {streams}', "sh", program, *asked.words, text=asked.text)


class opened:
    """An open file as a descriptor, closed at the end."""

    def __init__(self, path: str, flags: int) -> None:
        self.descriptor = os.open(path, flags | os.O_CLOEXEC)

    def __enter__(self) -> int:
        return self.descriptor

    def __exit__(self, *_) -> None:
        os.close(self.descriptor)


class unread(opened):
    """The end for writing of a pipe whose end for reading is closed, also in a run that is just being started."""

    def __init__(self) -> None:
        ends, self.descriptor = os.pipe()
        os.close(ends)
        poll = select.poll()
        poll.register(self.descriptor, 0)
        poll.poll(60_000)
