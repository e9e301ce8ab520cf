"""Runs of the program, and the count of what a sweep found wrong with them."""

from __future__ import annotations

import os
import signal
import subprocess
from dataclasses import dataclass, field
from typing import Callable

from hints import split_hint

# The longest that a run may take: it ends in milliseconds, but a machine may stand still for seconds.
SECONDS = 60.0
# How many wrong runs a try prints before it ends.
MOST_FAULTS = 3
# How often something is tried that goes by timing, and so need not be seen the first time.
MOST_TRIES = 20
# The statuses of an answer and of a refusal, beside which a hint may stand.
ANSWERED = (0, 1)


@dataclass(frozen=True)
class Ran:
    """How a run ended. No status: it was stopped, since it took too long. Of the hint only the form is compared."""

    status: int | None
    out: bytes
    err: bytes
    hint: bytes = field(default=b"", compare=False)

    def __str__(self) -> str:
        ended = f"not ended after {SECONDS:g} s" if self.status is None else f"status {self.status}"
        return f"{ended}, output {short(self.out)}, errors {short(self.err)}"


DEVICE = Ran(3, b"", b"device\n")
MEMORY = Ran(3, b"", b"memory\n")


def because(reason: str, number: int | None = None, out: bytes = b"") -> Ran:
    """The reason, with the system's error of a number, before `device`; `--quiet` leaves `DEVICE`."""
    system = f": {os.strerror(number)} (os error {number})" if number else ""
    return Ran(3, out, f"{reason}{system}\ndevice\n".encode())


def short(text: bytes) -> str:
    return repr(text) if len(text) <= 100 else f"{text[:80]!r}.. ({len(text)} bytes)"


def run(program: str, *words: str, text: bytes | None = b"", **how) -> Ran:
    """Runs the program on this standard input. `how` is Popen's, for a stream that isn't a pipe; no text: stdin too."""
    streams = {"stdin": subprocess.PIPE, "stdout": subprocess.PIPE, "stderr": subprocess.PIPE, **how}
    with subprocess.Popen([program, *words], start_new_session=True, **streams) as started:
        try:
            out, err = started.communicate(text, timeout=SECONDS)
        except subprocess.TimeoutExpired:
            os.killpg(started.pid, signal.SIGKILL)
            out, err = started.communicate()
            return Ran(None, out or b"", err or b"")
    hint, errors = split_hint(err or b"") if started.returncode in ANSWERED else (b"", err or b"")
    return Ran(started.returncode, out or b"", errors, hint)


class Enough(Exception):
    """A try has found enough that is wrong."""


@dataclass
class Tally:
    """How much a try has tried, and the first few things that were wrong."""

    tried: int = 0
    faults: list[str] = field(default_factory=list)

    def note(self, where: str, fault: str | None) -> None:
        """Counts one more thing tried; no fault if it was right."""
        self.tried += 1
        self.blame(where, fault)

    def blame(self, where: str, fault: str | None) -> None:
        """Prints a fault, if there is one, of what is counted already. Ends the try once it has printed enough of
        them."""
        if fault:
            self.faults.append(f"{where}: {fault}")
        if len(self.faults) >= MOST_FAULTS:
            raise Enough

    def compare(self, where: str, ran: Ran, wanted: Ran) -> None:
        self.note(where, None if ran == wanted else f"wanted {wanted}; came {ran}")


def until_well(look: Callable[[], str | None], where: str, tally: Tally, most: int = MOST_TRIES) -> None:
    """Looks again as long as there is a fault in what goes by timing, as that no two lines were there at once, and
    prints it if it is there each time. What has to be right each time is noted by each look."""
    for _ in range(most):
        fault = look()
        if not fault:
            return
    tally.blame(where, f"{fault}, in any of {most} tries")


@dataclass(frozen=True)
class Try:
    """One part of a sweep, which passes or fails as a whole."""

    name: str
    call: Callable[[Tally], None]

    def tally(self) -> Tally:
        tally = Tally()
        try:
            self.call(tally)
        except Enough:
            pass
        except Exception as error:
            tally.faults.append(f"stopped: {type(error).__name__}: {error}")
        if not tally.tried and not tally.faults:
            tally.faults.append("nothing was tried")
        return tally
