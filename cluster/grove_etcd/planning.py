"""Settled plans, over the nodes on the ways down to the accessed ones alone.

A plan depends on the tree with its weights, and on the nodes and lengths of the accesses, but on no name. So a plan is
kept with numbers in place of names, and serves each list whose ways have the same form. Whether it is legal depends on
no more, so it is judged once.
"""
from __future__ import annotations

import json
from typing import Any, Hashable, Mapping, Optional

from .accesses import MOST_ACCESSES, is_access
from .jobs import Job, slots_of
from .judging import need_legal
from .planners import planner_of
from .tree import rows_of, way_down, ways_down
from .values import written

MOST_KEPT = 1024


class Planner:
    """Plans by the program of this name; without a name by the library, or if there is none by the default program."""

    def __init__(self, grove: Optional[str] = None) -> None:
        self.by = planner_of(grove)
        self.kept: dict[Hashable, list[list[Any]]] = {}

    def plan(self, accesses: list[Any], weights: Mapping[str, int]) -> list[list[Any]]:
        """The plan, or the refusal of the `grove` program. Weights are those of the nodes on the ways."""
        ways = ways_down(named(accesses))
        paths = [path for path in ways if all(above in weights for above in way_down(path))]
        number_of = {path: number for number, path in enumerate(paths)}
        form = form_of(number_of, weights, accesses)
        if form is None:
            return self.ask(paths, weights, accesses)
        if form not in self.kept:
            if len(self.kept) == MOST_KEPT:
                self.kept.clear()
            plan = self.ask(paths, weights, accesses)
            self.kept[form] = [[kind, what if kind == "access" else number_of[what]] for kind, what in plan]
        return [[kind, what if kind == "access" else paths[what]] for kind, what in self.kept[form]]

    def ask(self, paths: list[str], weights: Mapping[str, int], accesses: list[Any]) -> list[list[Any]]:
        """A plan that is legal, whoever makes it."""
        rows = rows_of(paths, weights, {})
        lines = self.by.plan(written({"version": 2, "nodes": rows, "list": accesses}))
        plan: list[list[Any]] = json.loads(lines["plan"])
        need_legal(Job("", 0, accesses, plan), weights)
        return plan


def named(accesses: Any) -> list[str]:
    """The root, and the paths of accesses. What hasn't the form of an access is left for the `grove` program to
    refuse."""
    items = accesses if isinstance(accesses, list) else []
    paths = [access[1] for access in items if isinstance(access, list) and len(access) > 1]
    return ["/", *(path for path in paths if isinstance(path, str) and path.startswith("/"))]


def form_of(number_of: Mapping[str, int], weights: Mapping[str, int], accesses: Any) -> Hashable | None:
    """What the plan depends on, by the numbers of the nodes on the ways, in preorder; None if the list can't be
    planned, or possibly can't be."""
    if not isinstance(accesses, list) or len(accesses) > MOST_ACCESSES:
        return None
    if not all(is_access(access) and access[1] in number_of for access in accesses):
        return None
    # (The root, which has no node above it, comes first.)
    tree = tuple((number_of[way_down(path)[-2:][0]], weights[path]) for path in number_of)
    return tree, tuple((number_of[access[1]], slots_of(access)) for access in accesses)
