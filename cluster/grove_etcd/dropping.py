"""A job is dropped: it ends where it is. What it has done stays, and what it holds is let go.

Its last event says so. From then on it is the job of the accesses that it has done, by a plan that unlocks what it
holds (`Job.cut`), so audits follow it as they follow any other. The unlocks are groups as those of any job.
"""
from __future__ import annotations

from typing import Optional

from .jobs import Event, Job, Progress, UnderWay
from .keys import Keys
from .wire import Operation, deleting, putting

# Of a job that nobody began by its deadline, and of one that an operator drops.
LATE, BY_OPERATOR = "late", "dropped"


def drop(keys: Keys, job: Job, progress: Progress, why: str) -> list[Operation]:
    """Puts the progress and the event; and if it still holds nodes, that anybody may go on with it."""
    after = progress.drop(job)
    event = Event(0, False, {}, dropped=why)
    changes = [
        putting(keys.progress(job.name), after.text()),
        putting(keys.event(job.name, progress.groups), event.text()),
    ]
    path = line_of(job, progress)
    if path is not None:
        changes.append(deleting(keys.waiter(path, job.age, job.name)))
    if not after.has_ended():
        changes.append(putting(keys.under_way(job.name), UnderWay("").text()))
    return changes


def line_of(job: Job, progress: Progress) -> Optional[str]:
    """The node in whose line the job stands."""
    return job.steps[progress.step].path if progress.waits and not progress.has_ended() else None
