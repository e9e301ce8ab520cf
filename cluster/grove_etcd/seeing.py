"""A job as a worker sees it: its progress, the worker that goes on with it, and what its next steps need, all at one
revision."""
from __future__ import annotations

from dataclasses import dataclass, replace

from .groups import MOST_STEPS, Group, Limits
from .jobs import Job, Kind, Progress, Step, UnderWay
from .keys import Keys
from .wire import Entry, Found, Guard, Operation, reading, reading_below, reading_last, unchanged

# Of reads for the next steps.
MOST_READS = 120


@dataclass(frozen=True)
class Seen:
    progress: Progress
    # None if nobody has begun the job yet.
    under_way: UnderWay | None
    found: Found
    # Whether it was read at which revision the job itself was put.
    reads_job: bool = False

    def claim(self, keys: Keys, job: Job) -> Guard:
        """The guard that nobody else has begun the job, gone on with it, or taken it up."""
        key = keys.under_way(job.name) if self.under_way else keys.fresh(job.age, job.name)
        return unchanged(key, self.found.revision_of(key))

    def is_for(self, worker: str) -> bool:
        return self.under_way is None or self.under_way.by == worker

    def read_with(self, found: Found) -> Seen:
        """The same, at the revision of the transaction that put it, with what that transaction read."""
        put = {key: Entry(entry.value, found.revision, 0, 0) for key, entry in self.found.known.items()}
        return Seen(self.progress, self.under_way, found.with_known(put))

    def freed(self, keys: Keys, path: str, revision: int) -> Seen:
        """The same, except that a watch has reported the node to be free since this revision."""
        entry = Entry("", revision, 0, 0)
        return replace(self, found=Found(revision, {**self.found.entries, keys.owner(path): entry}))


def window(job: Job, step: int) -> list[Step]:
    """The steps that the next group may take."""
    steps: list[Step] = []
    reads = 0
    for each in job.steps[step : step + MOST_STEPS]:
        reads += 3 if each.kind is Kind.LOCK else 1
        if reads > MOST_READS:
            break
        steps.append(each)
    return steps


def is_last(job: Job, step: int) -> bool:
    """Are the steps from this one on a single group, whatever other jobs do, if each access has work?"""
    kinds = [each.kind for each in job.steps[step:]]
    return len(kinds) <= len(window(job, step)) and Kind.LOCK not in kinds and Kind.ACCESS not in kinds[1:]


def reads_for(keys: Keys, job: Job, step: int, limits: Limits) -> list[Operation]:
    """What has to be read of the job, and before the steps from this one on. One that has taken steps is begun."""
    fresh = [] if step else [keys.fresh(job.age, job.name)]
    own = map(reading, [*fresh, keys.under_way(job.name), keys.progress(job.name)])
    is_there = reading(keys.job(job.name), keys_only=True)
    return [*own, is_there, *reads_of_steps(keys, job, step, limits, True)]


def reads_of_steps(keys: Keys, job: Job, step: int, limits: Limits, stands: bool) -> list[Operation]:
    """What has to be read before these steps; `stands` is whether the job may stand in the first one's line."""
    reads: list[Operation] = []
    records: set[str] = set()
    for number, each in enumerate(window(job, step)):
        if each.kind is Kind.ACCESS:
            if limits.works and number:
                records.add(each.path)
                break
            records.add(each.path)
        elif each.kind is Kind.LOCK:
            own = keys.waiter(each.path, job.age, job.name)
            line = keys.waiters(each.path)
            reads += [reading(keys.owner(each.path)), reading_below(line, limit=1, keys_only=True)]
            if stands and not number:
                reads.append(reading_last(line, own, keys_only=True))
        else:
            # The job to which the node is handed.
            reads.append(reading_below(keys.waiters(each.path), limit=1))
    return reads + [reading(keys.record(path)) for path in sorted(records)]


def seen(keys: Keys, job: Job, found: Found) -> Seen | None:
    """The job as it was read; None if it has ended, or is forgotten. The key by which nobody has begun it was put with
    the job; one that was put again says nothing."""
    fresh = found.entries.get(keys.fresh(job.age, job.name))
    if fresh is not None and fresh.put_at == job.put_at:
        return Seen(Progress(0, len(job.plan)), None, found, True)
    under_way, progress = found.value(keys.under_way(job.name)), found.value(keys.progress(job.name))
    if under_way is None:
        return None
    now = Progress.read(progress) if progress is not None else Progress(0, len(job.plan))
    return Seen(now, UnderWay.read(under_way), found, True)


def left_by(keys: Keys, job: Job, group: Group, under_way: UnderWay) -> Seen | None:
    """The job as the worker's group leaves it, without a revision; None if the job ends, or if it depends on what the
    transaction finds."""
    after = group.after()
    if after.has_ended() or group.blocked is not None:
        return None
    texts = {keys.under_way(job.name): under_way.text(), keys.progress(job.name): after.text()}
    return Seen(after, under_way, Found(0, {key: Entry(text, 0, 0, 0) for key, text in texts.items()}))


def contested(keys: Keys, group: Group, before: Found, now: Found) -> str | None:
    """The first of the nodes that the group locks to which another job came in between."""
    for path in group.locked:
        if any(before.revision_of(key) != now.revision_of(key) for key in (keys.owner(path), keys.record(path))):
            return path
    return None
