"""Tables of figures: the rows of one run as they come, or of several runs at their end, each with the median of each
figure, and the least and the greatest of each ratio."""

from __future__ import annotations

import statistics
import sys
from collections.abc import Callable, Iterable, Iterator, Sequence
from dataclasses import dataclass


@dataclass(frozen=True)
class Column:
    """What the figures are called, and how they are written."""

    name: str
    width: int
    form: str
    is_ratio: bool = False

    def head(self, runs: int) -> str:
        bounds = ("least", "most") if self.is_ratio and runs > 1 else ()
        return " ".join(f"{name:>{self.width}}" for name in (self.name, *bounds))

    def text(self, found: Iterable[float | None]) -> str:
        """Of the figures of each run; blank if there are none."""
        known = [figure for figure in found if figure is not None]
        if not known:
            return " " * self.width
        bounds = (min(known), max(known)) if self.is_ratio and len(known) > 1 else ()
        return " ".join(f"{figure:>{self.width}{self.form}}" for figure in (statistics.median(known), *bounds))


@dataclass(frozen=True)
class Row:
    """The words that it begins with, and its figures in groups. There may be fewer groups than the table has."""

    words: tuple[str | int, ...]
    groups: tuple[tuple[float | None, ...], ...]


@dataclass(frozen=True)
class Table:
    """The form of the words, what they are called, and the columns in groups."""

    form: str
    names: tuple[str, ...]
    groups: tuple[tuple[Column, ...], ...]

    def head(self, runs: int) -> str:
        return self.line(self.names, [[column.head(runs) for column in columns] for columns in self.groups])

    def row(self, found: Sequence[Row]) -> str:
        """One row of the same one of each run."""
        groups = zip(self.groups, zip(*(row.groups for row in found)))
        return self.line(found[0].words, [texts(columns, figures) for columns, figures in groups])

    def line(self, words: tuple[str | int, ...], groups: list[list[str]]) -> str:
        return " | ".join([" ".join([self.form.format(*words), *groups[0]]), *map(" ".join, groups[1:])])


def texts(columns: Iterable[Column], figures: Iterable[tuple[float | None, ...]]) -> list[str]:
    """The columns of a group, with its figures in each run."""
    return [column.text(found) for column, found in zip(columns, zip(*figures))]


def show(table: Table, runs: int, measure: Callable[[], Iterator[Row]]) -> None:
    """Measures so many times, one run after the other; what is measured gives the same rows each time."""
    print(table.head(runs), flush=True)
    if runs == 1:
        for row in measure():
            print(table.row([row]), flush=True)
        return
    for found in zip(*(run_of(measure, number, runs) for number in range(1, runs + 1)), strict=True):
        print(table.row(found), flush=True)


def run_of(measure: Callable[[], Iterator[Row]], number: int, runs: int) -> list[Row]:
    print(f"run {number} of {runs}", file=sys.stderr, flush=True)
    return list(measure())
