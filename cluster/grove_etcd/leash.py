"""A leash: a timer of the kernel that kills this process while work goes on without a sign of life, before another
worker may do that work.

It needs no thread of the process. So it also ends one that was stopped, that has no processor, or whose thread doesn't
come to give signs.
"""
from __future__ import annotations

import ctypes
import os
import signal
import threading
import time
from types import TracebackType

from .refusals import Failed

# Linux's own goes on while the machine sleeps. Without work any other will do.
CLOCK: int = getattr(time, "CLOCK_BOOTTIME", time.CLOCK_MONOTONIC)
# Of <signal.h> and <time.h>.
SIGEV_SIGNAL, TIMER_ABSTIME, SIZE_OF_EVENT = 0, 1, 64
# How much sooner the process is killed than another worker may take its job up: for clocks that don't go at one speed,
# and for the time that the signal takes.
MARGIN_SHARE, MARGIN_SECONDS, MOST_SHARE = 0.1, 0.05, 0.5
# A container's first process is the init of its own, to which the kernel sends no such signal.
INIT = 1


class SignalEvent(ctypes.Structure):
    """`struct sigevent` of Linux."""

    _fields_ = [
        ("value", ctypes.c_void_p),
        ("signal", ctypes.c_int),
        ("notify", ctypes.c_int),
        ("rest", ctypes.c_char * (SIZE_OF_EVENT - ctypes.sizeof(ctypes.c_void_p) - 2 * ctypes.sizeof(ctypes.c_int))),
    ]


class Span(ctypes.Structure):
    """`struct timespec`."""

    _fields_ = [("seconds", ctypes.c_long), ("nanoseconds", ctypes.c_long)]


class Setting(ctypes.Structure):
    """`struct itimerspec`; a time of 0 disarms the timer."""

    _fields_ = [("interval", Span), ("at", Span)]


def now() -> float:
    """The time by the clock of leashes."""
    return time.clock_gettime(CLOCK)


def length_of(patience: float) -> float:
    """For how many seconds after a sign of life the process lives, if others are as patient as that."""
    return patience - min(MARGIN_SHARE * patience + MARGIN_SECONDS, MOST_SHARE * patience)


class Leash:
    """One timer, from its beginning to its end as a context. It is armed for each work, and put off by signs."""

    def __init__(self) -> None:
        if os.getpid() == INIT:
            raise Failed(
                "work needs a timer that kills the worker, and process 1 of a container can't be killed: run it below "
                "an init, such as that of docker run --init"
            )
        self.calls = ctypes.CDLL(None, use_errno=True)
        if not hasattr(time, "CLOCK_BOOTTIME") or not hasattr(self.calls, "timer_create"):
            raise Failed("work needs a timer that kills the worker, and this system hasn't one of Linux")
        self.timer, self.lock, self.is_armed = ctypes.c_void_p(), threading.Lock(), False
        event = SignalEvent(signal=signal.SIGKILL, notify=SIGEV_SIGNAL)
        need(self.calls.timer_create(CLOCK, ctypes.byref(event), ctypes.byref(self.timer)))

    def __enter__(self) -> Leash:
        return self

    def __exit__(self, _kind: type[BaseException] | None, _why: BaseException | None, _: TracebackType | None) -> None:
        with self.lock:
            self.is_armed = False
            self.calls.timer_delete(self.timer)

    def arm(self, until: float) -> None:
        """Has the process killed at that time; at once if it has passed."""
        with self.lock:
            self.is_armed = True
            self.set(until)

    def put_off(self, until: float) -> None:
        """The same, if it is still armed."""
        with self.lock:
            if self.is_armed:
                self.set(until)

    def disarm(self) -> None:
        with self.lock:
            self.is_armed = False
            self.set_timer(0.0)

    def pull(self) -> None:
        """Kills the process at once, if the leash is armed."""
        with self.lock:
            if self.is_armed:
                os.kill(os.getpid(), signal.SIGKILL)

    def set(self, until: float) -> None:
        """The timer may end a process that goes on for a moment yet; so one that is late does it by itself."""
        self.set_timer(until)
        if now() >= until:
            os.kill(os.getpid(), signal.SIGKILL)

    def set_timer(self, until: float) -> None:
        seconds = int(until)
        at = Span(seconds, min(int((until - seconds) * 1e9), 999_999_999))
        need(self.calls.timer_settime(self.timer, TIMER_ABSTIME, ctypes.byref(Setting(at=at)), None))


def need(status: int) -> None:
    """Raises the error of the last call, if that failed."""
    if status:
        raise Failed(f"work needs a timer that kills the worker: {os.strerror(ctypes.get_errno())}")
