"""Collects an epoch's history into a document for `grove audit`, closes an epoch, and forgets one."""
from __future__ import annotations

import json
from collections import Counter, deque
from dataclasses import dataclass, replace
from pathlib import Path
from typing import Callable, Iterable, Mapping, Optional, TypeVar

from .chain import Chain, Left, Passing, nodes_at
from .head import Head, head_text, need_store
from .jobs import Job
from .keys import Keys
from .ledger import Ledger
from .loading import batches
from .members import Compacted, Members
from .past import Epoch, Past, Taken, begun_names, epochs_of, in_order, names_below, pasts
from .program import ask
from .refusals import Failed, Refused
from .tree import rows_of, ways_down
from .values import written
from .wire import Operation, choosing, deleting, deleting_below, deleting_from, put_before, putting, unchanged

# How often an audit begins again whose revision was compacted.
TRIES = 5
Result = TypeVar("Result")


@dataclass(frozen=True)
class Audited:
    """The lines that `grove audit` printed of an epoch, by their first word; the jobs have the numbers of `jobs`."""

    epoch: int
    jobs: list[str]
    lines: dict[str, str]


class History:
    """An epoch's jobs and nodes, as they stood at the head's revision."""

    def __init__(
        self, members: Members, keys: Keys, head: Head, number: int, jobs: list[Past], every: Passing, closed_at: int
    ) -> None:
        """`every` is what all jobs did that are in no closed epoch; the last one was closed at a revision that may be
        later than the head's."""
        self.head, self.number, self.jobs = head, number, jobs
        self.names = [past.job.name for past in jobs]
        self.named = {path for past in jobs for path in past.nodes}
        self.paths = ways_down(self.named | {"/"})
        nodes = nodes_at(members, keys, self.named, number, head, closed_at)
        self.chain = Chain(head, number, nodes, self.jobs, every)
        self.chain.check()
        self.events = Events([past.job for past in self.jobs], in_order(self.jobs), self.chain)

    def left(self) -> dict[str, Left]:
        return {path: self.chain.left(path) for path in sorted(self.named)}

    def document(self) -> str:
        """Weights don't matter to a run. A node that no job of the epoch names has the record 0 in the document."""
        opening = {path: self.chain.opening(path) for path in self.named}
        left = {path: left.record for path, left in self.left().items()}
        rows = rows_of(self.paths, dict.fromkeys(self.paths, 1), opening)
        jobs = [{"list": past.job.accesses, "plan": past.job.plan} for past in self.jobs]
        replies = [past.progress.replies for past in self.jobs]
        standing = {"records": [left.get(path, 0) for path in self.paths], "replies": replies}
        return written(
            {"version": 2, "nodes": rows, "jobs": jobs, "events": self.events.listed, "standing": standing}
        )


class Events:
    """What an epoch's jobs did, step by step, by the numbers of the jobs. A mark that was made while a job of an
    earlier epoch held the node isn't in the epoch's run, but counts as a wait. So does one before a lock that its job
    didn't come to, since it was dropped."""

    def __init__(self, jobs: list[Job], groups: Iterable[Taken], chain: Chain) -> None:
        self.listed: list[list[object]] = []
        self.earlier_waits: Counter[str] = Counter()
        number_of = {job.name: number for number, job in enumerate(jobs)}
        passing = Passing()
        for group in groups:
            number, step = number_of[group.job.name], group.next_step
            passing.pass_by(group)
            self.listed += [["take", number]] * group.event.takes
            if not group.event.mark:
                continue
            is_earlier = step and step.path not in passing.holders and chain.was_held(step.path, group)
            if step and (is_earlier or not comes_to(jobs[number], group)):
                self.earlier_waits[step.path] += 1
            else:
                self.listed.append(["mark", number])


def comes_to(job: Job, group: Taken) -> bool:
    """Has the job, as it is in the end, the lock before which the group stopped?"""
    rest = job.steps[group.first + group.event.takes :]
    return bool(rest) and rest[0] == group.next_step


class Auditor:
    """Audits one epoch after the other, each of jobs as they stood at one revision, and closes them."""

    def __init__(self, members: Members, keys: Keys, grove: str, head: Optional[Head] = None) -> None:
        self.members, self.keys, self.grove = members, keys, grove
        self.head = head or need_store(members, keys)
        self.epochs = epochs_of(members, keys, self.head.revision)
        self.closed_at = self.head.revision
        # If what happens is followed, what was put for the epochs that were closed here, until that is seen.
        self.written: Optional[deque[dict[str, str]]] = None
        closed = {name for number, of in self.epochs.items() if number < self.head.epoch for name in of.jobs}
        begun = [name for name in begun_names(members, keys, self.head.revision) if name not in closed]
        self.ledger = Ledger(pasts(members, keys, begun, self.head.revision).values())
        need_all(members, keys, self.head.revision, len(closed), self.ledger.pasts)

    def audit(self, number: Optional[int] = None, document: Optional[str] = None) -> Audited:
        """Audits an epoch. Without a number it is the open one, which is then closed, and the next one opened."""
        number = self.head.epoch if number is None else number
        jobs = self.open_jobs() if number == self.head.epoch else self.closed_jobs(number)
        if not jobs:
            raise Refused("no-jobs")
        history = History(
            self.members, self.keys, self.head, number, jobs, self.ledger.passing, self.closed_at
        )
        text = history.document()
        if document:
            write_to(document, text)
        lines = ask(self.grove, "audit", text)
        if number == self.head.epoch:
            self.close(history, json.loads(lines["waits"]))
        return Audited(number, history.names, lines)

    def follow_close(self, number: int, epoch: Epoch, revision: int) -> None:
        """Another audit begins to close the open epoch at this revision. It has to put what this one would."""
        known = self.ledger.pasts
        if epoch.going or number != self.head.epoch or not all(name in known for name in epoch.jobs):
            return
        self.head = replace(self.head, revision=revision)
        jobs = [known[name] for name in epoch.jobs]
        history = History(self.members, self.keys, self.head, number, jobs, self.ledger.passing, revision)
        lines = ask(self.grove, "audit", history.document())
        self.note_written(history, json.loads(lines["waits"]))
        self.ledger.chooser.take(history.names)
        self.ledger.close(history.names, history.chain.own)
        self.head = replace(self.head, epoch=number + 1)

    def follow_rest(self, revision: int) -> None:
        """The same, if an audit, maybe this one before it was stopped, had begun to do so when this one began."""
        begun = self.epochs.get(self.head.epoch)
        if begun is not None:
            self.follow_close(self.head.epoch, begun, revision)

    def note_written(self, history: History, waits: list[int]) -> None:
        if self.written is not None:
            self.written.append(put_by(self.keys, history, waits))

    def has_written(self, key: str, value: Optional[str]) -> bool:
        """It may be put more than once, if an answer was lost."""
        return any(key in written and written[key] == value for written in self.written or ())

    def see_head(self, value: str) -> None:
        """The head comes last of what closing an epoch puts, so no more comes of that one."""
        while self.written and self.written.popleft()[self.keys.head()] != value:
            """Of an epoch before it, likewise."""

    def open_jobs(self) -> list[Past]:
        """Those of the open epoch, if an audit of it broke off, or else a choice."""
        begun = self.epochs.get(self.head.epoch)
        if begun is None:
            names = self.ledger.chooser.choose()
        else:
            names = begun.jobs
            if not all(name in self.ledger.pasts for name in names):
                raise Refused(f"left-out {min(set(names) - self.ledger.pasts.keys())}")
            self.ledger.chooser.take(names)
        return [self.ledger.pasts[name] for name in names]

    def closed_jobs(self, number: int) -> list[Past]:
        if number > self.head.epoch or number not in self.epochs:
            raise Refused("no-jobs")
        names = self.epochs[number].jobs
        return list(pasts(self.members, self.keys, names, self.head.revision).values())

    def close(self, history: History, waits: list[int]) -> None:
        """Closes the epoch, and goes on with the next."""
        self.note_written(history, waits)
        close(self.members, self.keys, history, waits)
        self.ledger.close(history.names, history.chain.own)
        now = need_store(self.members, self.keys)
        if now.epoch != self.head.epoch + 1:
            raise Refused("other-audit")
        self.head = replace(now, revision=self.head.revision)
        self.closed_at = now.revision


def need_all(members: Members, keys: Keys, revision: int, closed: int, begun: Mapping[str, Past]) -> None:
    """Refuses if a job has neither ended, nor waits for a worker, nor is under way or set aside. All jobs are counted,
    and their names are read only if one is left out, or one that isn't there is set aside."""
    ended = [name for name, past in begun.items() if past.has_ended()]
    left = sum(members.count(keys.whole(kind), revision) for kind in "qua")
    if members.count(keys.whole("p"), revision) == closed + left + len(ended):
        return
    kinds = {kind: names_below(members, keys, kind, revision) for kind in "pqua"}
    closed_names = {name for of in epochs_of(members, keys, revision).values() for name in of.jobs}
    out = kinds["p"] - kinds["q"] - kinds["u"] - kinds["a"] - set(ended) - closed_names
    if out:
        raise Refused(f"left-out {min(out)}")


def audit(
    members: Members, keys: Keys, grove: str, number: Optional[int] = None, document: Optional[str] = None
) -> Audited:
    """Audits an epoch. If etcd compacts what is read meanwhile, it begins again."""
    return audit_each(members, keys, grove, lambda auditor: auditor.audit(number, document))


def audit_each(members: Members, keys: Keys, grove: str, use: Callable[[Auditor], Result]) -> Result:
    for _ in range(TRIES):
        try:
            return use(Auditor(members, keys, grove))
        except Compacted:
            """What was read is compacted; what is there now is read."""
    return use(Auditor(members, keys, grove))


def write_to(file: str, text: str) -> None:
    try:
        Path(file).write_text(text, encoding="utf-8")
    except OSError as why:
        raise Failed(f"{file}: {why.strerror}") from why


def close(members: Members, keys: Keys, history: History, waits: list[int]) -> None:
    """Puts the epoch's jobs first, so that the next audit finishes one that broke off, and the new head last. If
    another audit has closed the epoch meanwhile, it stays as it is."""
    head = history.head
    key, text = keys.closed(head.epoch), Epoch(history.names).text()
    begun = members.write([putting(key, text)], [head.guard(keys), unchanged(key, 0)])
    if not begun and members.get(key).value(key) != text:
        raise Refused("other-audit")
    for batch in batches(putting(*each) for each in left_by(keys, history, waits)):
        members.write(batch, [head.guard(keys)])
    members.write([putting(keys.head(), head_text(head.epoch + 1))], [head.guard(keys)])


def left_by(keys: Keys, history: History, waits: list[int]) -> Iterable[tuple[str, str]]:
    for path, left in history.left().items():
        yield keys.left(path, history.number), left.text()
    for path, count in zip(history.paths, waits):
        whole = count + history.events.earlier_waits[path]
        if whole:
            yield keys.waits(history.number, path), str(whole)


def put_by(keys: Keys, history: History, waits: list[int]) -> dict[str, str]:
    """All that closing the epoch puts."""
    jobs, head = Epoch(history.names).text(), head_text(history.number + 1)
    return {keys.closed(history.number): jobs, keys.head(): head, **dict(left_by(keys, history, waits))}


def forget(members: Members, keys: Keys, number: int) -> None:
    """Deletes a closed epoch's jobs and events, and what epochs before it left of its nodes. It has to be the oldest
    one, so that for each epoch that is kept there is what the epochs before it left."""
    head = need_store(members, keys)
    epochs = epochs_of(members, keys)
    if number not in epochs or number >= head.epoch:
        raise Refused("no-jobs")
    if number != min(epochs):
        raise Refused("epoch-not-oldest")
    names = epochs[number].jobs
    if not epochs[number].going:
        gone = pasts(members, keys, names, head.revision)
        nodes = {path for past in gone.values() for path in past.nodes}
        old = (deleting_from(keys.all_left(path), keys.left(path, number)) for path in sorted(nodes))
        for batch in batches(old):
            members.write(batch)
        members.write([putting(keys.closed(number), Epoch(names, going=True).text())])
    begun_at = members.get(keys.closed(number)).revision_of(keys.closed(number))
    for batch in batches(choosing([put_before(keys.job(name), begun_at)], deletions(keys, name), []) for name in names):
        members.write_wide(batch)
    members.write([deleting(keys.closed(number))])


def deletions(keys: Keys, name: str) -> list[Operation]:
    """Of a job that is of this name still: an ID that was forgotten may be submitted again before all is done."""
    return [deleting(keys.job(name)), deleting(keys.progress(name)), deleting_below(keys.events(name))]


def is_going(members: Members, keys: Keys, number: int) -> bool:
    """Has the forgetting of this epoch begun, and not ended?"""
    epoch = epochs_of(members, keys).get(number)
    return epoch is not None and epoch.going
