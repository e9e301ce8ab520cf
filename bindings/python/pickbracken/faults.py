"""Why a call has no answer."""

from __future__ import annotations

from typing import List, Optional, Sequence

# How many words of a fault's text name the item at fault, before the fault's own name.
BEFORE = {"row": 2, "step": 2, "access": 2, "node": 2, "event": 2, "tree": 1}

# What the program prints of each fault of a list, a plan or a flow, by the number that calls over numbers have for it.
FAULTS = {
    1: "limit list",
    2: "no-path list {place}",
    3: "bad-length list {place}",
    4: "step {place} strange",
    5: "step {place} relock",
    6: "step {place} parent-not-held",
    7: "step {place} not-held",
    8: "step {place} wrong-access",
    9: "step {place} access-not-held",
    10: "access {place} missing",
    11: "node {path} still-held",
    12: "rows {place}",
    13: "sign {place}",
    14: "too-big {place}",
    15: "lock-balance {place}",
    16: "release-balance {place}",
    17: "value {cost}",
}
STILL_HELD = 11


class Error(Exception):
    """A call has no answer."""


class Refused(Error):
    """What was handed in is refused: by the rule of this name, for what stands at this place.

    `name` is a word, as `parent-not-held`; `place` is what breaks the rule, as `step 7`, `list 3` or `node /a`, and
    empty where the fault is told of nothing; `text` is both, as the program prints them. `hint` says what is wrong and
    where, for a person, if a server with `--hints` has said it.
    """

    def __init__(self, text: str, hint: Optional[str] = None) -> None:
        super().__init__(text if hint is None else f"{text}; hint: {hint}")
        words = text.split(" ")
        name = words.pop(min(name_at(words), len(words) - 1))
        self.text = text
        self.name = "access-missing" if name == "missing" and "access" in words else name
        self.place = " ".join(words)
        self.hint = hint


class NoMemory(Error, MemoryError):
    """An allocation failed."""


class Closed(Error, ValueError):
    """It was closed before."""


class OtherVersion(Error, OSError):
    """The library that was found isn't of the package's version. Nothing was called."""

    def __init__(self, library: str, package: str) -> None:
        super().__init__(f"the version of libgrove is {library}, and that of the package pickbracken {package}")
        self.library, self.package = library, package


class BadPath(Error, ValueError):
    """This is no path from the root down, as `/` or `/a/b`."""


class NoNode(BadPath):
    """No node has this path. (So what is no path at all has none.)"""


class TimedOut(Error, TimeoutError):
    """The node of this path wasn't had in time, after so many accesses were done. They stay done: a transaction of
    which none was, or that is undone first, may be begun again."""

    def __init__(self, path: str, done: int) -> None:
        super().__init__(f"{path} wasn't had in time, after {done} accesses")
        self.path, self.done = path, done


class Unfinished(Error, RuntimeError):
    """The block of a transaction was left without an error, and only so many of its accesses were begun."""

    def __init__(self, done: int, wanted: int) -> None:
        super().__init__(f"{done} of {wanted} accesses were begun")
        self.done, self.wanted = done, wanted


class Nested(Error, RuntimeError):
    """This thread or this task is in a transaction of these locks. Of two in one each could wait for the other."""


def name_at(words: List[str]) -> int:
    """Which of the words of a fault's text is its name."""
    if words[0] == "job":
        return 2 + name_at(words[2:])
    return BEFORE.get(words[0], 0)


def fault_text(number: int, place: int, cost: int, paths: Sequence[str]) -> str:
    """What the program prints of a fault, but for the bound that isn't the plan's cost."""
    path = paths[place] if number == STILL_HELD else ""
    return FAULTS[number].format(place=place, cost=cost, path=path)
