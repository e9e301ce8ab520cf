"""How far jobs are. All is counted, and of jobs only those are read that are under way or set aside."""
from __future__ import annotations

from dataclasses import dataclass
from typing import Iterable, Iterator

from .counted import Counted
from .jobs import Aside, Progress
from .keys import Keys, last_part
from .members import PAGE, Members
from .past import Epoch, epochs_in, names_below, past_job, pasts, told_of
from .refusals import Refused
from .setting_aside import aside_of
from .wire import Entry, reading


@dataclass(frozen=True)
class Standing:
    """An epoch's jobs, how many of them have ended, and how many were left out before they began, which don't wait for
    a worker; how many nodes are held, and which epochs are closed and kept."""

    epoch: int
    jobs: int
    ended: int
    left_out: int
    held: int
    epochs: dict[int, Epoch]
    revision: int
    is_open: bool = True

    @staticmethod
    def read(members: Members, keys: Keys, epoch: int | None) -> Standing:
        return Standing.of(members, keys, Counted.begin(members, keys), epoch)

    @staticmethod
    def of(members: Members, keys: Keys, counted: Counted, epoch: int | None) -> Standing:
        small = Small.read(members, keys, counted)
        at, now = counted.head.revision, counted.head.epoch
        epochs = {number: of for number, of in small.epochs.items() if number < now}
        begun = held_by(members, keys, small.begun, at)
        aside = small.aside
        held = sum(len(nodes) for nodes in begun.values() if nodes) + sum(len(each.holds) for each in aside.values())
        if epoch is not None and epoch != now:
            if epoch not in epochs:
                raise Refused("no-jobs")
            count = len(epochs[epoch].jobs)
            return Standing(epoch, count, count, 0, held, epochs, at, False)
        closed = sum(len(of.jobs) for of in epochs.values())
        every, fresh, known = counted.counts()
        going = sum(nodes is not None for nodes in begun.values()) + sum(bool(each.groups) for each in aside.values())
        jobs, ended = every - closed, known - closed - going
        there = sum(each.why != "job-gone" for each in aside.values())
        left_out = jobs - ended - fresh - len(begun) - there
        return Standing(now, jobs, ended, max(0, left_out), held, epochs, at)

    @property
    def closed(self) -> list[int]:
        return sorted(self.epochs)

    def each(self, members: Members, keys: Keys) -> Iterator[tuple[str, Progress, bool]]:
        """Each job with its progress, and whether it is left out: it hasn't ended, and nothing says who does it."""
        if self.is_open:
            known = {name for of in self.epochs.values() for name in of.jobs}
            names = sorted(names_below(members, keys, "p", self.revision) - known)
        else:
            names = self.epochs[self.epoch].jobs
        found = pasts(members, keys, names, self.revision)
        told = {name for kind in "qua" for name in names_below(members, keys, kind, self.revision)}
        return ((name, past.progress, not past.has_ended() and name not in told) for name, past in found.items())


@dataclass(frozen=True)
class Small:
    """What there are few keys of: the epochs that are kept, the jobs under way, and those that are set aside."""

    epochs: dict[int, Epoch]
    begun: list[str]
    aside: dict[str, Aside]

    @staticmethod
    def read(members: Members, keys: Keys, counted: Counted) -> Small:
        """Nothing is asked for, unless there are many all the same."""

        def all_of(kind: str) -> dict[str, Entry]:
            entries = counted.few.below(keys.whole(kind))
            return entries if len(entries) < PAGE else members.below(keys.whole(kind), counted.head.revision).entries

        aside = {last_part(key): aside_of(entry.value) for key, entry in all_of("a").items()}
        return Small(epochs_in(all_of("x")), list(map(last_part, all_of("u"))), aside)


def held_by(members: Members, keys: Keys, names: Iterable[str], revision: int) -> dict[str, list[str] | None]:
    names = list(names)
    reads = [reading(key, revision) for name in names for key in (keys.job(name), keys.progress(name))]
    found = members.read_all(reads, revision).entries
    held: dict[str, list[str] | None] = dict.fromkeys(names)
    for name in names:
        job, progress = found.get(keys.job(name)), found.get(keys.progress(name))
        if job is not None and progress is not None:
            now = told_of(Progress, name, progress.value)
            whole = past_job(name, job, True)
            held[name] = (whole if now.dropped is None else whole.cut(now.dropped)).held_at(now.step)
    return held


def record_at(members: Members, keys: Keys, path: str) -> str:
    found = members.get(keys.weight(path), keys.record(path))
    if found.value(keys.weight(path)) is None:
        raise Refused(f"no-path {path}")
    return found.value(keys.record(path)) or "0"
