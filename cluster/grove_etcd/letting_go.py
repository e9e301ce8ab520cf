"""Drops jobs that are set aside, and lets go of the nodes that they hold."""
from __future__ import annotations

from typing import Iterable, Iterator, Optional

from .dropping import BY_OPERATOR, drop
from .jobs import Job, Progress
from .judging import read_job
from .keys import Keys
from .members import Members
from .past import past_job
from .refusals import Refused
from .setting_aside import names_of
from .signs import Abandoned
from .turns import FOREVER
from .wire import Entry, Found, Guard, deleting, unchanged
from .worker import Worker


def drop_all(members: Members, keys: Keys, names: Iterable[str]) -> Iterator[tuple[str, list[str]]]:
    """Ends these jobs, which have to be set aside; gives each with the nodes that it let go."""
    for name in names_of(members, keys, list(names)):
        yield name, drop_one(members, keys, name)


def drop_one(members: Members, keys: Keys, name: str) -> list[str]:
    own = keys.aside(name), keys.job(name), keys.progress(name), keys.under_way(name)
    found = members.get(*own)
    guards: list[Guard] = [unchanged(key, found.revision_of(key)) for key in own]
    progress = found.entries.get(keys.progress(name))
    if keys.job(name) not in found.entries:
        if progress is not None:
            raise Refused(f"job-gone {name}")
        members.write([deleting(keys.aside(name))], guards)
        return []
    job = job_of(keys, name, found, progress)
    now = Progress.read(progress.value) if progress else Progress(0, len(job.plan))
    taken_away = [deleting(keys.aside(name)), deleting(keys.under_way(name))]
    changes = drop(keys, job, now, BY_OPERATOR)
    held = job.held_at(now.step)
    if held:
        del taken_away[1]
    if not members.write([*taken_away, *changes], guards) and not is_dropped(members, keys, name):
        raise Refused(f"not-set-aside {name}")
    if held:
        let_go(members, keys, name)
    return held


def is_dropped(members: Members, keys: Keys, name: str) -> bool:
    """It is, if the first call was made, and brought no answer."""
    progress = members.get(keys.progress(name)).value(keys.progress(name))
    return progress is not None and Progress.read(progress).dropped is not None


def job_of(keys: Keys, name: str, found: Found, progress: Optional[Entry]) -> Job:
    """What isn't a job has done nothing, so it is dropped as an empty one."""
    entry = found.entries[keys.job(name)]
    try:
        return read_job(name, entry.value, entry.put_at)
    except Refused:
        if progress is not None:
            raise
        return past_job(name, entry)


def let_go(members: Members, keys: Keys, name: str) -> None:
    """Unlocks what the dropped job holds, unless a worker is faster."""
    found = members.get(keys.under_way(name))
    if found.entries:
        worker = Worker(members, keys, leashed=False)
        worker.turns.take(FOREVER)
        worker.go_on_with(Abandoned(name, found.revision_of(keys.under_way(name))))
