"""The form of an access, and how many a list may have (docs/FORMATS.md)."""
from __future__ import annotations

from typing import Any

from .documents import LEAST, MOST, is_whole

MOST_ACCESSES, MOST_SLOTS = 64, 1000
ITEMS = {"get": 2, "set": 3, "add": 3, "take": 3}


def is_access(access: Any) -> bool:
    if not isinstance(access, list) or len(access) < 2 or not isinstance(access[0], str):
        return False
    items = ITEMS.get(access[0], 0)
    numbers = access[2:items]
    lengths = access[items:]
    return (
        items <= len(access) <= items + 1
        and items > 0
        and isinstance(access[1], str)
        and all(is_whole(number, LEAST, MOST) for number in numbers)
        and all(is_whole(length, 1, MOST_SLOTS) for length in lengths)
    )
