"""What jobs left in etcd, as of one revision: those in no closed epoch, and those of one epoch."""
from __future__ import annotations

import re
from dataclasses import dataclass
from typing import Iterable

from .jobs import Event, Job, Kind, Progress, Step
from .judging import read_job
from .keys import MOST_KEY, Keys, last_part
from .members import Members
from .refusals import NoForm, Refused
from .values import Kept, Value
from .wire import Entry, Found, reading, reading_below

NUMBER = re.compile("[0-9]{10}")


@dataclass(frozen=True)
class Taken:
    """A group that a job took at a revision, with the number of its first step. Once the job is dropped, it is the one
    that is left of it."""

    revision: int
    job: Job
    first: int
    event: Event

    @property
    def steps(self) -> list[Step]:
        return self.job.steps[self.first : self.first + self.event.takes]

    @property
    def is_handed(self) -> bool:
        """Is it only the lock of a node that another job handed to this one?"""
        return self.event.place > 0 and [step.kind for step in self.steps] == [Kind.LOCK]

    @property
    def next_step(self) -> Step | None:
        """The step before which the group stopped."""
        number = self.first + self.event.takes
        return self.job.steps[number] if number < len(self.job.steps) else None


@dataclass(frozen=True)
class Past:
    """A job with its progress and its groups. One that was dropped is what is left of it."""

    job: Job
    progress: Progress
    taken: list[Taken]
    # The nodes that it names, as it was submitted; none if it has done nothing.
    nodes: frozenset[str] = frozenset()

    def has_ended(self) -> bool:
        return bool(self.taken) and self.progress.has_ended()


@dataclass(frozen=True)
class Epoch(Value):
    """The jobs of a closed epoch, and whether they are being forgotten."""

    jobs: list[str]
    going: bool = False


def epochs_of(members: Members, keys: Keys, revision: int = 0) -> dict[int, Epoch]:
    """The epochs that are kept, by number; the open one is among them if an audit of it broke off."""
    return epochs_in(members.below(keys.whole("x"), revision).entries)


def epochs_in(entries: dict[str, Entry]) -> dict[int, Epoch]:
    return {number_of(key): epoch_of(key, entry.value) for key, entry in entries.items()}


def number_of(key: str) -> int:
    """The epoch's number with which the key ends."""
    number = last_part(key)
    if not NUMBER.fullmatch(number):
        raise Refused(f"stray-epoch {key}")
    return int(number)


def epoch_of(key: str, text: str) -> Epoch:
    try:
        return Epoch.read(text)
    except NoForm as why:
        raise Refused(f"stray-epoch {key}") from why


def told_of(kind: type[Kept], name: str, text: str) -> Kept:
    """What was put for a job. No group puts what hasn't its form."""
    try:
        return kind.read(text)
    except NoForm as why:
        raise Refused(f"left-out {name}") from why


def names_below(members: Members, keys: Keys, kind: str, revision: int) -> set[str]:
    pages = members.pages(keys.whole(kind), revision, keys_only=True)
    return {last_part(key) for page in pages for key in page.entries if len(key) <= MOST_KEY}


def begun_names(members: Members, keys: Keys, revision: int) -> list[str]:
    """The names of all jobs that have begun, and aren't forgotten."""
    pages = members.pages(keys.whole("j"), revision, keys_only=True)
    return [last_part(key) for page in pages for key in page.entries]


def pasts(members: Members, keys: Keys, names: Iterable[str], revision: int) -> dict[str, Past]:
    """What these jobs left, by name."""
    names = list(names)
    reads = []
    for name in names:
        reads += [reading(keys.job(name), revision), reading(keys.progress(name), revision)]
        reads.append(reading_below(keys.events(name), revision=revision))
    found = members.read_all(reads, revision)
    events: dict[str, list[str]] = {name: [] for name in names}
    for key in sorted(found.below(keys.whole("e"))):
        events[key.split("/")[2]].append(key)
    return {name: past_of(keys, name, found, events[name]) for name in names}


def past_of(keys: Keys, name: str, found: Found, events: list[str]) -> Past:
    if keys.job(name) not in found.entries:
        raise Refused(f"left-out {name}")
    standing = found.value(keys.progress(name))
    progress = told_of(Progress, name, standing) if standing is not None else None
    has_done = progress is not None and progress.dropped != 0
    job = past_job(name, found.entries[keys.job(name)], has_done)
    nodes = frozenset(job.nodes()) if has_done else frozenset()
    progress = progress or Progress(0, len(job.plan))
    taken, step, dropped = [], 0, None
    for key in events:
        event = told_of(Event, name, found.entries[key].value)
        if event.dropped is not None and dropped is None:
            dropped = step
        taken.append(Taken(found.revision_of(key), job, step, event))
        job = job.cut(step) if event.dropped is not None else job
        step += event.takes
    if progress.dropped != dropped:
        raise Refused(f"left-out {name}")
    need_whole(keys, progress, found, events, step, job)
    is_same = taken and taken[0].revision > job.put_at and found.version_of(keys.job(name)) == 1
    if taken and dropped != 0 and not is_same:
        raise Refused(f"job-rewritten {name}")
    return Past(job, progress, taken, nodes)


def past_job(name: str, entry: Entry, has_done: bool = False) -> Job:
    """The job. If it has done nothing it may be none; then it is an empty one."""
    try:
        return read_job(name, entry.value, entry.put_at)
    except Refused as why:
        if has_done:
            raise Refused(f"malformed {name}") from why
        return Job(name, 0, [], [], put_at=entry.put_at)


def need_whole(keys: Keys, progress: Progress, found: Found, events: list[str], step: int, job: Job) -> None:
    """Refuses the job unless its events are those of all its groups, each put once, and lead to its progress."""
    version = found.version_of(keys.progress(job.name))
    are_all = [keys.event(job.name, number) for number in range(progress.groups)] == events
    if not are_all or version != progress.groups or any(found.version_of(key) != 1 for key in events):
        raise Refused(f"left-out {job.name}")
    if progress.step != step or progress.steps != len(job.plan):
        raise Refused(f"not-at-its-end {job.name}")


def in_order(pasts: Iterable[Past]) -> list[Taken]:
    """The groups of all these jobs, in the order of their revisions and of their places there."""
    return sorted(
        (taken for past in pasts for taken in past.taken), key=lambda taken: (taken.revision, taken.event.place)
    )
