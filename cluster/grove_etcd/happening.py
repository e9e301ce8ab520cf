"""What happens in a store at one revision after the other, checked against the events of that revision: no key of a
job, of a node or of an epoch is put or deleted but by what an event, or the follower itself, tells of."""
from __future__ import annotations

from collections import OrderedDict, deque
from dataclasses import replace
from typing import Iterable, Optional

from .auditing import Auditor
from .chain import Passing
from .head import head_text
from .jobs import Event, Progress
from .keys import MOST_KEY, Keys
from .members import Members
from .past import Past, Taken, epoch_of, number_of, past_job, told_of
from .refusals import NoForm, Refused
from .stream import Change, Moment
from .weights import Weight
from .wire import Entry, reading

# Of jobs that were put lately, and are kept until they begin; and of the bytes of all their texts.
MOST_RECENT, MOST_BYTES = 16384, 2**23
# Of epochs that are being forgotten.
MOST_GONE = 64


class Happening:
    def __init__(self, members: Members, keys: Keys, auditor: Auditor) -> None:
        self.members, self.keys, self.auditor = members, keys, auditor
        self.recent: OrderedDict[str, Entry] = OrderedDict()
        self.size = 0
        # The last epoch that was forgotten here, and the names of its jobs, and of those shortly before.
        self.forgotten, self.gone = 0, deque[frozenset[str]](maxlen=MOST_GONE)

    def forget(self, number: int, names: Iterable[str]) -> None:
        """From now on the epoch may be deleted."""
        self.forgotten = number
        self.gone.append(frozenset(names))

    @property
    def passing(self) -> Passing:
        return self.auditor.ledger.passing

    def take(self, moment: Moment) -> None:
        """Refuses what no event of this revision tells of."""
        changes: dict[str, dict[str, Change]] = {}
        for change in moment.changes:
            kind, rest = self.keys.parts(change.key)
            changes.setdefault(kind, {})[rest] = change
        self.need_fixed(changes, moment.revision)
        self.take_jobs(changes.get("p", {}), moment.revision)
        groups = self.groups(changes.get("e", {}), changes.get("j", {}), moment.revision)
        nodes = {step.path for group in groups for step in group.steps}
        hands = {path: self.passing.hands.get(path, 0) for path in nodes}
        for group in groups:
            self.auditor.ledger.pass_by(group)
        self.need_owners(changes.get("o", {}), nodes, hands)
        self.need_records(changes.get("r", {}), groups)
        self.take_progress(changes.get("j", {}), groups)
        self.need_nobody_left_out(changes, moment.revision)

    # What only the programs of an operator put

    def need_fixed(self, changes: dict[str, dict[str, Change]], revision: int) -> None:
        for rest, change in changes.get("m", {}).items():
            if change.value is None or not is_reweighed(change):
                raise Refused(f"stray-weight {rest}")
        for kind in ("x", "head", "load", "b"):
            for change in changes.get(kind, {}).values():
                self.need_own(kind, change, revision)

    def need_own(self, kind: str, change: Change, revision: int) -> None:
        """It was put when an epoch was closed, here or by another audit, or deleted when one was forgotten here."""
        if kind == "x" and change.value is not None and not self.auditor.has_written(change.key, change.value):
            self.auditor.follow_close(number_of(change.key), epoch_of(change.key, change.value), revision)
        if change.value is None and kind in "xb" and number_of(change.key) <= self.forgotten:
            return
        if change.value is not None and kind == "x" and epoch_of(change.key, change.value).going and self.forgotten:
            return
        if not self.auditor.has_written(change.key, change.value):
            self.auditor.follow_rest(revision)
        if not self.auditor.has_written(change.key, change.value):
            raise Refused(f"stray-epoch {change.key}")
        if kind == "head" and change.value is not None:
            self.auditor.see_head(change.value)
        if kind == "head" and change.value == head_text(self.auditor.head.epoch):
            self.auditor.head = replace(self.auditor.head, put_at=revision)

    # Jobs

    def take_jobs(self, jobs: dict[str, Change], revision: int) -> None:
        for name, change in jobs.items():
            if change.value is None and not self.is_forgotten(name):
                raise Refused(f"job-gone {name}")
            if change.value is not None and (change.version != 1 or self.is_known(name)):
                raise Refused(f"job-rewritten {name}")
            if change.value is not None:
                self.remember(name, Entry(change.value, revision, revision, 1))

    def is_known(self, name: str) -> bool:
        return name in self.auditor.ledger.pasts

    def is_forgotten(self, name: str) -> bool:
        """Is it a job of an epoch that was forgotten here?"""
        return any(name in names for names in self.gone)

    def remember(self, name: str, entry: Entry) -> None:
        self.recent[name] = entry
        self.size += len(entry.value)
        while len(self.recent) > MOST_RECENT or self.size > MOST_BYTES:
            self.size -= len(self.recent.popitem(last=False)[1].value)

    def groups(self, events: dict[str, Change], progress: dict[str, Change], revision: int) -> list[Taken]:
        """What the jobs' events of this revision tell, in order."""
        names = {rest.partition("/")[0] for rest, change in events.items() if change.value is not None}
        for rest, change in events.items():
            if change.value is None and not self.is_forgotten(rest.partition("/")[0]):
                raise Refused(f"left-out {rest.partition('/')[0]}")
        self.know({name for name in names if not self.is_known(name)}, revision)
        groups = [
            self.group(rest, change, progress, revision)
            for rest, change in events.items()
            if change.value is not None
        ]
        return sorted(groups, key=lambda group: group.event.place)

    def know(self, names: Iterable[str], revision: int) -> None:
        """Reads the jobs that begin at this revision, unless they were put lately."""
        entries = {name: self.recent.pop(name) for name in names if name in self.recent}
        self.size -= sum(len(entry.value) for entry in entries.values())
        missing = [name for name in names if name not in entries]
        found = self.members.read_all([reading(self.keys.job(name), revision) for name in missing], revision)
        for name in missing:
            entry = found.entries.get(self.keys.job(name))
            if entry is None:
                raise Refused(f"left-out {name}")
            entries[name] = entry
        for name, entry in entries.items():
            if entry.version != 1 or entry.put_at >= revision:
                raise Refused(f"job-rewritten {name}")
            job = past_job(name, entry)
            past = Past(job, Progress(0, len(job.plan)), [], frozenset(job.nodes()))
            self.auditor.ledger.pasts[name] = past

    def group(self, rest: str, change: Change, progress: dict[str, Change], revision: int) -> Taken:
        """The job's next group, whose number and progress have to be the next ones."""
        name, _, number = rest.partition("/")
        past = self.auditor.ledger.pasts[name]
        if number != f"{len(past.taken):06}" or change.version != 1 or name not in progress:
            raise Refused(f"left-out {name}")
        event = told_of(Event, name, change.value or "")
        step = past.progress.step
        if event.dropped is not None and past.progress.dropped is not None:
            raise Refused(f"left-out {name}")
        return Taken(revision, past.job, step, event)

    def take_progress(self, progress: dict[str, Change], groups: list[Taken]) -> None:
        told = {group.job.name: group for group in groups}
        for name, change in progress.items():
            if change.value is None and self.is_forgotten(name):
                continue
            if change.value is None or name not in told:
                raise Refused(f"left-out {name}")
            self.auditor.ledger.put(self.after(told[name], told_of(Progress, name, change.value), change.version))

    def after(self, group: Taken, progress: Progress, version: int) -> Past:
        """What the job has done once it has taken the group."""
        name = group.job.name
        past = self.auditor.ledger.pasts[name]
        is_dropped = group.event.dropped is not None
        dropped = group.first if is_dropped else past.progress.dropped
        job = group.job.cut(group.first) if is_dropped else past.job
        step = group.first + group.event.takes
        if progress.dropped != dropped or not progress.groups == version == len(past.taken) + 1:
            raise Refused(f"left-out {name}")
        if progress.step != step or progress.steps != len(job.plan):
            raise Refused(f"not-at-its-end {name}")
        nodes = frozenset() if is_dropped and not past.taken else past.nodes
        return replace(past, job=job, progress=progress, taken=[*past.taken, group], nodes=nodes)

    # Nodes

    def need_owners(self, owners: dict[str, Change], nodes: set[str], hands: dict[str, int]) -> None:
        """Each owner that the groups have changed was put, once, and no other one."""
        moved = {path for path in nodes if self.passing.hands.get(path, 0) != hands[path]}
        for path in moved ^ owners.keys():
            raise Refused(f"left-out {path}")
        for path, change in owners.items():
            if change.value is None or (change.value or None) != self.passing.holders.get(path):
                raise Refused(f"left-owner {path}")

    def need_records(self, records: dict[str, Change], groups: list[Taken]) -> None:
        """Each record that was put is the one that the last group tells which has one of the node."""
        told = {path: record for group in groups for path, record in group.event.records.items()}
        for path in told.keys() ^ records.keys():
            raise Refused(f"stray-record {path}")
        for path, record in told.items():
            if records[path].value != str(record):
                raise Refused(f"stray-record {path}")

    # What says that a job waits for a worker, is under way, or is set aside

    def need_nobody_left_out(self, changes: dict[str, dict[str, Change]], revision: int) -> None:
        for kind in "qua":
            for rest, change in changes.get(kind, {}).items():
                name, is_job = rest.rpartition("/")[2], len(change.key) <= MOST_KEY
                if change.value is None and is_job and not self.is_elsewhere(name, changes):
                    self.need_there(name, revision)

    def is_elsewhere(self, name: str, changes: dict[str, dict[str, Change]]) -> bool:
        """Does another key say so from this revision on, or has the job ended?"""
        put = any(name in changes.get(kind, {}) and changes[kind][name].value is not None for kind in "ua")
        past = self.auditor.ledger.pasts.get(name)
        return put or (past is not None and past.has_ended())

    def need_there(self, name: str, revision: int) -> None:
        own = {kind: self.keys.whole(kind) + name for kind in "puaj"}
        found = self.members.get(*own.values(), revision=revision)
        text: Optional[str] = found.value(own["j"])
        has_ended = text is not None and told_of(Progress, name, text).has_ended()
        if own["p"] in found.entries and not has_ended and not {own["u"], own["a"]} & found.entries.keys():
            raise Refused(f"left-out {name}")


def is_reweighed(change: Change) -> bool:
    """Is the loaded record the same as before?"""
    if change.before is None or change.value is None:
        return False
    try:
        return Weight.read(change.before).loaded == Weight.read(change.value).loaded
    except NoForm:
        return False
