"""Short jobs in one transaction: those that nobody has begun, that have no work, and whose nodes are all free.

They are done whole, one after the other, in the state that was seen. So no node is held once the transaction is made.
Those that have nodes in common are in one chunk, and each chunk is made, or fails, by itself (sharing.py). The events
of a chunk have the same revision, and so a place in it.
"""
from __future__ import annotations

from dataclasses import dataclass, field
from typing import Collection, Iterable

from .groups import Group, Limits, group_of
from .jobs import Job, Kind, Progress
from .keys import Keys
from .members import MOST_OPERATIONS, Members
from .refusals import Refused
from .sharing import MOST_SHARED, Commits, Part
from .wire import Entry, Found, Guard, Operation, deleting, putting, reading, reading_below, unchanged

# Of chunks in one transaction. None reads what another one changes, so each is one part of it.
MOST_CHUNKS = 16
# Of jobs that wait, whatever for: if they are so few, one read tells of which nodes there are lines.
MOST_WAITERS = 64
assert MOST_CHUNKS + MOST_SHARED <= MOST_OPERATIONS


@dataclass(frozen=True)
class Short:
    """A job, with the nodes that it locks and those that it accesses."""

    job: Job
    locked: frozenset[str]
    accessed: frozenset[str]

    @staticmethod
    def of(job: Job) -> Short:
        locked = frozenset(step.path for step in job.steps if step.kind is Kind.LOCK)
        accessed = frozenset(step.path for step in job.steps if step.kind is Kind.ACCESS)
        return Short(job, locked, accessed)

    @property
    def nodes(self) -> frozenset[str]:
        return self.locked | self.accessed

    @property
    def fits(self) -> bool:
        """Is there room for it in a chunk of its own?"""
        return size_of(1, self.locked, self.accessed) <= MOST_SHARED


def size_of(jobs: int, locked: Collection[str], accessed: Collection[str]) -> int:
    """How many the reads are, or the guards, or the changes of so many jobs at these nodes, whichever are most."""
    records = len(accessed)
    return max(2 * len(locked) + records, 2 * jobs + len(locked) + records, 3 * jobs + records)


@dataclass
class Chunk:
    """Jobs that are read together, of which no other chunk has a node."""

    jobs: list[Job] = field(default_factory=list)
    locked: set[str] = field(default_factory=set)
    accessed: set[str] = field(default_factory=set)

    def take(self, some: list[Short]) -> bool:
        """Takes these jobs, if there is room for all."""
        locked = self.locked.union(*(each.locked for each in some))
        accessed = self.accessed.union(*(each.accessed for each in some))
        if size_of(len(self.jobs) + len(some), locked, accessed) > MOST_SHARED:
            return False
        self.locked, self.accessed = locked, accessed
        self.jobs += [each.job for each in some]
        return True

    def take_some(self, some: list[Short]) -> list[Job]:
        """Takes those for which there is room, one after the other, and gives the others."""
        return [each.job for each in some if not self.take([each])]

    def reads(self, keys: Keys) -> list[Operation]:
        """Of each node that is locked who holds it, and the records."""
        owners = [reading(keys.owner(path)) for path in self.locked]
        return [*owners, *(reading(keys.record(path)) for path in self.accessed)]

    def reads_of_lines(self, keys: Keys) -> list[Operation]:
        """Of each node that is locked who is the first that waits."""
        return [reading_below(keys.waiters(path), limit=1, keys_only=True) for path in self.locked]


@dataclass
class Together:
    """A chunk's jobs as they were seen, and those that it does."""

    keys: Keys
    found: Found
    done: list[tuple[Job, Group]] = field(default_factory=list)
    # The keys that say that nobody has begun these.
    fresh: list[str] = field(default_factory=list)
    # Those that have to be done one by one.
    left: list[Job] = field(default_factory=list)
    records: dict[str, int] = field(default_factory=dict)
    seen: dict[str, int] = field(default_factory=dict)

    def add(self, job: Job) -> None:
        """Does the job, which nobody had begun when it was chosen, if it can be done whole."""
        group = self.group(job)
        if group is None:
            self.left.append(job)
            return
        guarded = [*map(self.keys.owner, group.locked), *map(self.keys.record, group.records)]
        self.seen |= {each: self.found.revision_of(each) for each in guarded}
        self.fresh.append(self.keys.fresh(job.age, job.name))
        self.seen |= dict.fromkeys([self.fresh[-1], self.keys.job(job.name)], job.put_at)
        self.records |= {path: group.records[path] for path in group.changed}
        for path, record in group.records.items():
            entry = self.found.entries.get(self.keys.record(path), Entry("0", 0, 0, 0))
            self.found.entries[self.keys.record(path)] = entry._replace(value=str(record))
        group.place = len(self.done)
        self.done.append((job, group))

    def group(self, job: Job) -> Group | None:
        """All of the job's steps as one group; None if they can't be taken at once."""
        try:
            group = group_of(self.keys, job, job.steps, Progress(0, len(job.plan)), self.found, Limits())
        except Refused:
            return None
        return group if group.ends() and not job.is_late() else None

    def part(self) -> Part:
        """If it isn't made, it is read whether others have begun the jobs."""
        guards: list[Guard] = [unchanged(key, revision) for key, revision in self.seen.items()]
        return Part(guards, self.changes(), [], [], own=[reading(key, keys_only=True) for key in self.fresh])

    def changes(self) -> list[Operation]:
        changes = [putting(self.keys.record(path), str(record)) for path, record in self.records.items()]
        changes += map(deleting, self.fresh)
        for job, group in self.done:
            changes.append(putting(self.keys.progress(job.name), group.after().text()))
            changes.append(putting(self.keys.event(job.name, 0), group.event().text()))
        return changes

    def are_taken(self, now: Found) -> bool:
        """Has another worker begun one of the jobs?"""
        return any(key not in now.entries for key in self.fresh)


def by_nodes(jobs: Iterable[Short]) -> list[list[Short]]:
    """The jobs in lists of which no two have a node in common."""
    lists: list[list[Short]] = []
    list_at: dict[str, int] = {}
    for job in jobs:
        first, *others = sorted({list_at[node] for node in job.nodes if node in list_at}) or [len(lists)]
        lists += [[]] if first == len(lists) else []
        for other in others:
            lists[first] += lists[other]
            list_at |= {node: first for each in lists[other] for node in each.nodes}
            lists[other] = []
        lists[first].append(job)
        list_at |= dict.fromkeys(job.nodes, first)
    return [some for some in lists if some]


@dataclass(frozen=True)
class Outcome:
    """The names of jobs that were done, how many chunks weren't made, whether that was so since another worker has
    begun one of their jobs, the jobs that have to be done one by one, and those for which there was no room."""

    ended: list[str] = field(default_factory=list)
    failed: int = 0
    are_taken: bool = False
    left: list[Job] = field(default_factory=list)
    rest: list[Job] = field(default_factory=list)

    @property
    def goes_on(self) -> bool:
        """Is there a next transaction for those for which there was no room?"""
        return bool(self.rest) and not self.failed and not self.left


@dataclass(frozen=True)
class Batch:
    """The jobs of one transaction, in chunks; those that none takes, and those for which there is no room in it."""

    chunks: list[Chunk]
    large: list[Job]
    rest: list[Job]

    @staticmethod
    def of(jobs: list[Job]) -> Batch:
        short = list(map(Short.of, jobs))
        chunks, rest = [Chunk()], list[Job]()
        for some in by_nodes(each for each in short if each.fits):
            if chunks[-1].take(some):
                continue
            if chunks[-1].jobs and len(chunks) < MOST_CHUNKS:
                chunks.append(Chunk())
            rest += chunks[-1].take_some(some)
        return Batch([chunk for chunk in chunks if chunk.jobs], [each.job for each in short if not each.fits], rest)

    def seen(self, keys: Keys, members: Members) -> Found:
        """Each key that matters is guarded, so what is read needn't be of one revision."""
        reads = [read for chunk in self.chunks for read in chunk.reads(keys)]
        waiters = reading_below(keys.whole("v"), MOST_WAITERS, keys_only=True)
        found = members.read_side_by_side([waiters, *reads], since=1)
        if len(found.below(keys.whole("v"))) < MOST_WAITERS:
            return found
        lines = [read for chunk in self.chunks for read in chunk.reads_of_lines(keys)]
        return members.read_side_by_side([*reads, *lines], since=1)

    def do(self, keys: Keys, members: Members, commits: Commits) -> Outcome:
        """Does as many of the jobs as can be done whole."""
        if not self.chunks:
            return Outcome(left=self.large, rest=self.rest)
        found = self.seen(keys, members)
        every = [Together(keys, found) for _ in self.chunks]
        for together, chunk in zip(every, self.chunks):
            for job in chunk.jobs:
                together.add(job)
        tried = [together for together in every if together.done]
        dones = list(commits.make_all([together.part() for together in tried])) if tried else []
        made = [together for together, done in zip(tried, dones) if done.succeeded]
        failed = [(together, done.found) for together, done in zip(tried, dones) if not done.succeeded]
        return Outcome(
            [job.name for together in made for job, _ in together.done],
            len(failed),
            any(together.are_taken(now) for together, now in failed),
            [] if failed else self.large + [job for together in every for job in together.left],
            list(self.rest),
        )
