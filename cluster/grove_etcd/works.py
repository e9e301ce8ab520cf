"""The work of an access: a function that the command line names, or time alone."""
from __future__ import annotations

import importlib
import time

from .attempt import Work
from .jobs import Access, slots_of
from .refusals import Failed


def work_named(text: str) -> Work:
    """The function of `MODULE:FUNCTION`."""
    module, _, name = text.partition(":")
    try:
        found = vars(importlib.import_module(module)).get(name)
    except Exception as why:  # any error of the module is printed as one line
        raise Failed(f"{text}: {type(why).__name__}: {why}") from why
    if not callable(found):
        raise Failed(f"{text}: the module has no such function")
    work: Work = found
    return work


def slots(seconds: float) -> Work:
    """Each access takes so many seconds for each of its slots."""

    def wait(access: Access, _record: int, _token: str) -> None:
        time.sleep(seconds * slots_of(access))

    return wait
