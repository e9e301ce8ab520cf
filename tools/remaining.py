"""How long the rest of a proof takes, by what was measured once and by how fast it goes."""

from __future__ import annotations

from dataclasses import dataclass

# Of the processors that may be used a proof of many crates keeps so many busy; that of one crate at most so many.
BUSY, ALONE = 0.9, 3.0
# For how long what was seen so far counts less than what is known beforehand: seconds by the clock, and of processors.
FIRST_CLOCK, FIRST_WORK = 240.0, 300.0
# What of a crate is left at the least as long as it runs.
LAST_PART = 0.05


@dataclass(frozen=True)
class Part:
    """A crate's proof: the processor seconds that it takes by the table, those that it has used, and whether it is
    proved."""

    weight: float
    used: float = 0.0
    is_proved: bool = False


@dataclass(frozen=True)
class Machine:
    """The processors that may be used, and the load average of other work before it began."""

    processors: float
    load: float

    @property
    def rate(self) -> float:
        """The processor seconds a second that can be had, as far as is known beforehand."""
        return BUSY * self.processors * self.processors / (self.processors + self.load)


def seconds_left(parts: dict[str, Part], under: dict[str, set[str]], elapsed: float, machine: Machine) -> float:
    """How long the rest of these takes, lowest first: as fast as it went so far, but no faster than the longest way up
    to the program."""
    proved = [part for part in parts.values() if part.is_proved]
    dearer = (sum(part.used for part in proved) + FIRST_WORK) / (sum(part.weight for part in proved) + FIRST_WORK)
    used = sum(part.used for part in parts.values())
    rate = (used + FIRST_CLOCK * machine.rate) / (elapsed + FIRST_CLOCK)
    left = {name: rest_of(part, dearer) for name, part in parts.items()}
    ways: dict[str, float] = {}
    for name in left:
        ways[name] = left[name] + max((ways[lower] for lower in under[name] if lower in ways), default=0.0)
    alone = min(ALONE, machine.processors) / (BUSY * machine.processors)
    return max(sum(left.values()) / rate, max(ways.values()) / (rate * min(alone, 1.0)))


def rest_of(part: Part, dearer: float) -> float:
    """The processor seconds that a crate still takes if all take so many times what the table says."""
    whole = part.weight * dearer
    return 0.0 if part.is_proved else max(whole - part.used, LAST_PART * whole)


def minutes_said(seconds: float, least: int | None) -> int:
    """What is said of so many seconds: never more than a fifth above the least that was said."""
    minutes = max(1, round(seconds / 60))
    return minutes if least is None else min(minutes, max(least, least * 6 // 5))
