"""Reads jobs for a worker, and judges them: what isn't a job, or has no legal plan, is set aside before anything is
locked for it. So it is named, and ends no worker."""
from __future__ import annotations

from typing import Iterable, NamedTuple, Optional

from .failures import cut, why_of
from .jobs import Aside, Job, Progress, UnderWay
from .journal import Journal
from .judging import is_path, need_legal, read_job
from .keys import DIGITS_OF_AGE, MOST_KEY, Keys, last_part
from .members import Members
from .refusals import NoForm, Refused
from .wire import Entry, Found, absent, deleting, putting, reading, unchanged

# Of paths that are known to be those of nodes; and of a key that is too long, what is said of it.
MOST_KNOWN, MOST_SAID = 100_000, 80


class Fresh(NamedTuple):
    """That nobody has begun a job: the key that says so, the revision at which it was put, and the node at which the
    job begins, by its submitter."""

    key: str
    put_at: int
    node: str


def fresh_in(found: dict[str, Entry]) -> dict[str, Fresh]:
    """The oldest first; without keys that are too long."""
    return {
        last_part(key): Fresh(key, entry.put_at, entry.value)
        for key, entry in sorted(found.items())
        if len(key) <= MOST_KEY
    }


class Reader:
    def __init__(self, members: Members, keys: Keys, journal: Journal) -> None:
        self.members, self.keys, self.journal = members, keys, journal
        # The jobs that nobody has begun, by name.
        self.fresh: dict[str, Fresh] = {}
        # Nodes stay for good.
        self.nodes: set[str] = set()

    def note(self, found: dict[str, Entry], are_more: bool = False) -> dict[str, Fresh]:
        """By name the jobs of which these keys say that nobody has begun them, the oldest first; or more of those that
        were noted last. A key that is too long for one is deleted."""
        fresh = fresh_in(found)
        for key in (key for key in found if len(key) > MOST_KEY):
            self.journal.log("stray", key=f"{key[:MOST_SAID]}..")
            self.members.write([deleting(key)])
        self.fresh = {**self.fresh, **fresh} if are_more else fresh
        return fresh

    def oldest(self) -> float:
        """When the first of these jobs was submitted, in seconds; 0 if there is none, or its key doesn't say that."""
        first = next(iter(self.fresh.values()), None)
        age = first.key.split("/")[2] if first else ""
        return int(age) / 1e6 if age.isdecimal() and len(age) <= DIGITS_OF_AGE else 0.0

    def jobs(self, names: list[str]) -> list[Job]:
        """Those of these that are jobs. With them it is read whether there are the nodes at which they begin."""
        if not names:
            return []
        fresh = [self.fresh[name] for name in names if name in self.fresh]
        begun_at = {each.node for each in fresh} - self.nodes
        unknown = {self.keys.weight(path): path for path in filter(is_path, begun_at)}
        reads = [reading(self.keys.job(name)) for name in names]
        # The key by which nobody has begun a job was put with the job.
        since = max(each.put_at for each in fresh) if len(fresh) == len(names) else 0
        found = self.members.read_side_by_side(reads + [reading(key, keys_only=True) for key in unknown], since)
        self.nodes |= {path for key, path in unknown.items() if key in found.entries}
        jobs = [job for job in (self.job(name, found) for name in names) if job is not None]
        self.know({path for job in jobs for path in job.nodes()})
        return [job for job in jobs if self.is_legal(job)]

    def job(self, name: str, found: Found) -> Optional[Job]:
        entry = found.entries.get(self.keys.job(name))
        try:
            return self.need_fresh(need_job(name, entry))
        except Refused as why:
            self.set_aside(name, str(why))
        except Exception as why:  # whatever stands there
            self.set_aside(name, why_of(why))
        return None

    def need_fresh(self, job: Job) -> Job:
        """The key by which nobody has begun a job is put with the job."""
        fresh = self.fresh.get(job.name)
        if fresh is not None and fresh.key != self.keys.fresh(job.age, job.name):
            raise Refused("malformed age")
        if fresh is not None and fresh.put_at != job.put_at:
            raise Refused("job-rewritten")
        return job

    def know(self, paths: Iterable[str]) -> None:
        """Finds out which of these are nodes: by one member, and those that it doesn't have by all."""
        if len(self.nodes) > MOST_KNOWN:
            self.nodes.clear()
        unknown = {self.keys.weight(path): path for path in set(paths) - self.nodes}
        for since in (1, 0):
            found = self.members.read_side_by_side([reading(key, keys_only=True) for key in unknown], since)
            self.nodes |= {unknown.pop(key) for key in found.entries}

    def is_legal(self, job: Job) -> bool:
        try:
            need_legal(job, self.nodes)
        except Refused as why:
            self.set_aside(job.name, str(why))
            return False
        return True

    def under_way(self, key: str, entry: Entry) -> Optional[UnderWay]:
        """None of a job that an older version has set aside. One whose value hasn't its form is set aside."""
        try:
            under_way = UnderWay.read(entry.value)
            if not is_path(under_way.waits or "/"):
                raise NoForm("UnderWay", entry.value)
            return None if under_way.is_aside() else under_way
        except Exception as why:  # whatever stands there
            self.set_aside(last_part(key), why_of(why))
            return None

    def aside(self, name: str, why: str, found: Found) -> Aside:
        """With what the job holds, as far as that can be told by what stands of it."""
        try:
            progress = Progress.read(found.entries[self.keys.progress(name)].value)
            job = need_job(name, self.members.get(self.keys.job(name)).entries.get(self.keys.job(name)))
            whole = job if progress.dropped is None else job.cut(progress.dropped)
            return Aside(cut(why), 0, whole.held_at(progress.step), progress.groups)
        except Exception:  # whatever stands there
            return Aside(cut(why), groups=found.version_of(self.keys.progress(name)))

    def set_aside(self, name: str, why: str) -> None:
        """Without having locked anything for it. What has ended, or has been begun since, is only begun no more."""
        self.journal.log("set_aside", job=name, why=cut(why))
        own, put_at, _ = self.fresh.pop(name, Fresh(self.keys.under_way(name), 0, ""))
        found = self.members.get(own, self.keys.under_way(name), self.keys.progress(name))
        put_at = put_at or found.revision_of(own)
        if not put_at:
            return
        aside = putting(self.keys.aside(name), self.aside(name, why, found).text())
        is_begun = self.keys.under_way(name) in found.entries or self.keys.progress(name) in found.entries
        if own != self.keys.under_way(name) and is_begun:
            self.members.write([deleting(own)], [unchanged(own, put_at)])
            return
        guards = [unchanged(own, put_at), *([absent(self.keys.progress(name))] if not is_begun else [])]
        self.members.write([deleting(own), aside], guards)


def need_job(name: str, entry: Optional[Entry]) -> Job:
    if entry is None:
        raise Refused("job-gone")
    if entry.version != 1:
        raise Refused("job-rewritten")
    return read_job(name, entry.value, entry.put_at)
