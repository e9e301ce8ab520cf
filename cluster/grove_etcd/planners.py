"""What plans a list: the library, inside this process, if it is there, or else the `grove` program."""
from __future__ import annotations

import sys
from dataclasses import dataclass
from typing import Callable, Optional

from .program import GROVE, PACKAGES, ask, by_first_words
from .refusals import Failed, Refused


@dataclass(frozen=True)
class By:
    """What gives for a document the lines that `grove plan` prints, each by its first word."""

    name: str
    plan: Callable[[str], dict[str, str]]


def planner_of(program: Optional[str]) -> By:
    """The program that is named. If none is named it is the library, or the default program if there is no library."""
    return by_program(program) if program is not None else by_library() or by_program(str(GROVE))


def by_program(program: str) -> By:
    return By(program, lambda document: ask(program, "plan", document))


def by_library() -> Optional[By]:
    """None if Python can't load the library: the package isn't there, or has no shared object for this machine."""
    if str(PACKAGES) not in sys.path:
        sys.path.append(str(PACKAGES))
    try:
        from pickbracken import library

        library.loaded()
    except (ImportError, OSError):
        return None
    return By("the library", plan_by_library)


def plan_by_library(document: str) -> dict[str, str]:
    from pickbracken import NoMemory, document as calls, faults

    try:
        return by_first_words(calls.plan(document.encode()))
    except faults.Refused as refused:
        raise Refused(refused.text) from refused
    except NoMemory as why:
        raise Failed("the library is out of memory") from why
