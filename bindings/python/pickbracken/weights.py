"""Weights of nodes, and how often they are waited for (docs/PROTOCOL.md has the rule)."""

from __future__ import annotations

MOST_WEIGHT = MOST_WAITS = 1_000


def need_weight(path: str, weight: int) -> int:
    if not isinstance(weight, int) or not 1 <= weight <= MOST_WEIGHT:
        raise ValueError(f"{path!r} weighs {weight!r}, which is no whole number from 1 to {MOST_WEIGHT}")
    return weight


def need_waits(path: str, count: int) -> int:
    """How often a node was waited for. (More than MOST_WAITS times has the same effect.)"""
    if not isinstance(count, int) or count < 0:
        raise ValueError(f"{path!r} was waited for {count!r} times, which is no whole number from 0 on")
    return min(count, MOST_WAITS)


def new_weight(weight: int, waits: int) -> int:
    return min(MOST_WEIGHT, 1 + (weight - 1) // 2 + waits)
