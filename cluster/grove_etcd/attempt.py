"""A worker's attempt at one job: group after group, with the work before each access, and a wait if a node is held.

The job is the worker's as long as no other worker has put `u/NAME`, which guards each group. So of two workers at one
job one finds its guard broken, and drops the job. When to take a job up is a guess by the clock. If it is wrong, the
work is done again, and nothing else: the worker that does it is ended before (leash.py).

If there is work, the transaction of a job's last group also begins the worker's next job: a nested transaction takes
the first group of that job, if its guards hold.
"""
from __future__ import annotations

import os
import time
from concurrent.futures import ThreadPoolExecutor
from contextlib import contextmanager
from dataclasses import dataclass, field, replace
from functools import cached_property, partial
from typing import Callable, Iterator, Optional

from .dropping import LATE, drop, line_of
from .failures import cut, why_of
from .groups import Group, Limits, Turn, group_of, older_waiter, record_of
from .jobs import Access, Aside, Event, Job, Kind, Progress, Step, UnderWay, Waiter
from .journal import Journal
from .keys import Keys, last_part
from .leash import now
from .members import MOST_OPERATIONS, Lost, Members, Unfit, pauses
from .ready import MOST_INNER, Beginning, MakesReady, Ready
from .refusals import Failed, NoForm, Refused
from .seeing import MOST_READS, Seen, contested, is_last, left_by, reads_for, reads_of_steps, seen, window
from .sharing import Commits, Part
from .signs import PATIENCE, Abandoned, Signs, Stills
from .turns import FOREVER, WOKEN_SECONDS, Turns
from .waiting import Watched, wait
from .wire import Change, Done, Found, Guard, Operation, choosing, deleting, other_than, putting, reading, unchanged

# Does the work of an access while its node is held. It is called with the access, the record that it finds, and a token
# that is the same for each try at this access, and differs from that of any other access.
Work = Callable[[Access, int, str], None]
# As long as this a pause lasts at most until it is looked whether the worker is to end.
LONGEST_NAP_SECONDS = 0.5
# For how many moments a job that waits keeps its turn, as long as its node changes hands in each.
MOMENTS = 2
# What is said of a worker that was lost while there was work for it.
LOST = "its worker ended, or gave no sign of life"


@dataclass
class Means:
    """What all attempts of a worker share."""

    members: Members
    keys: Keys
    name: str
    # Without work, accesses take no time.
    work: Optional[Work] = None
    # A job without a sign of life for so many seconds is taken up, if its last one doesn't say more.
    patience: float = PATIENCE
    # A job whose work has failed so many times at an access is set aside.
    tries: int = 5
    journal: Journal = field(default_factory=Journal)
    # The group in progress is the last one.
    stopping: bool = False
    stills: Stills = field(default_factory=Stills)
    # So many jobs go on at once, each of which needs a turn for that; without turns, whoever calls decides.
    turns: Optional[Turns] = None
    # Threads that make transactions ready, and aren't used at present.
    unused: list[MakesReady] = field(default_factory=list)

    @cached_property
    def signs(self) -> Signs:
        return Signs(self.members, self.keys, self.name, self.patience, self.journal)

    @cached_property
    def commits(self) -> Commits:
        return Commits(self.members)

    @contextmanager
    def makes_ready(self) -> Iterator[MakesReady]:
        makes = self.unused.pop() if self.unused else MakesReady()
        yield makes
        if makes.has_thread:
            self.unused.append(makes)

    @contextmanager
    def waited(self, name: str, node: str = "") -> Iterator[None]:
        """While a job waits, signs of life are given, and it needs no turn."""
        if self.turns is not None:
            self.turns.give_to_wait(name, node)
        with self.signs.during():
            yield

    def keeps_turn(self) -> float:
        """For how many seconds a job that begins to wait keeps its turn."""
        return self.turns.kept_for() if self.turns else 0.0

    def takes_turn(self, name: str, seconds: float) -> bool:
        return self.turns is None or self.turns.take_again(name, seconds)

    @cached_property
    def aside(self) -> ThreadPoolExecutor:
        """Reads more jobs while work goes on."""
        return ThreadPoolExecutor(1)

    def sign(self, waits: str | None = None, fails: int = 0, why: str = "") -> UnderWay:
        """What this worker puts for a job that it goes on with."""
        return UnderWay(self.name, waits, fails, why, patience=self.patience)

    def is_still(self, last: Abandoned, under_way: UnderWay) -> bool:
        """Has there been no sign of life for as long as this worker is patient, and as the last sign says?"""
        patience = max(self.patience, under_way.patience)
        own = self.stills.is_still(self.keys.under_way(last.name), last.revision, patience)
        return self.stills.is_still(last.sign, last.signed, patience) and own if last.sign else own


class Attempt:
    def __init__(self, means: Means, job: Job) -> None:
        self.means, self.members, self.keys = means, means.members, means.keys
        self.job = job
        # The job that the worker does next, and that job as it was seen at this one's last commit, which may begin it.
        self.following: Attempt | None = None
        self.ahead: Seen | None = None
        # It has waited, so that others have gone on meanwhile; and it has a turn again.
        self.has_waited, self.has_turn = False, True
        # What is done as soon as it waits.
        self.when_it_waits: Callable[[], None] = lambda: None
        # Others came to its nodes in between, and nobody had begun it.
        self.stepped_back = False
        # It would wait, and too many do.
        self.is_left_for_later = False
        self.limits = Limits(works=means.work is not None)
        self.worked_at: int | None = None
        # The group that follows the work, as it was made ready.
        self.ready: Ready | None = None
        # When the transaction was sent that put last that the job is this worker's.
        self.signed_at = 0.0
        self.pauses: Iterator[float] = pauses()
        self.reads_at: dict[int, list[Operation]] = {}

    def run(self, found: Seen | None) -> None:
        """Goes on until the job has ended, is set aside, or is another worker's, or until the worker has to stop."""
        while found is not None:
            if not found.is_for(self.means.name):
                self.means.journal.log("dropped", job=self.job.name)
                return
            self.follow_drop(found)
            if self.means.stopping and self.worked_at != found.progress.step:
                self.leave(found)
                return
            found = self.go_on_or_set_aside(found)

    def go_on_or_set_aside(self, found: Seen) -> Seen | None:
        """What can't be done of a job, as if a record is no number, ends no worker: the job is set aside, for an
        operator to look at."""
        try:
            self.need_same_job(found)
            return self.go_on(found)
        except Refused as why:
            self.means.journal.log("stray", job=self.job.name, why=why)
            self.set_aside(found, str(why), 0)
        except Unfit as why:
            self.set_aside(found, why_of(why), 0)
        except (Lost, Failed):
            raise
        except Exception as why:  # a value in etcd that hasn't its form, whoever put it
            self.set_aside(found, why_of(why), 0)
        return None

    def need_same_job(self, found: Seen) -> None:
        """Refuses to go on if the job's key was put again, or is gone, as far as that was read."""
        key = self.keys.job(self.job.name)
        if found.reads_job and found.found.revision_of(key) != self.job.put_at:
            raise Refused("job-rewritten" if key in found.found.entries else "job-gone")

    def go_on(self, found: Seen) -> Seen | None:
        """Does work, takes a group, or waits. Gives the job as it is then; None if there is no more to do."""
        progress = found.progress
        if progress.has_ended() and progress.groups:
            return None
        if found.under_way is None and self.job.is_late():
            return self.end_late(found)
        if self.needs_work(progress):
            return self.do_work(found)
        ready, self.ready = self.ready, None
        if ready is not None and ready.found is found and not (self.means.stopping and ready.begins):
            return self.make(ready)
        group = self.group(found)
        if group.does_nothing():
            return self.wait(found, group)
        if found.under_way is None and self.is_one_too_many(group):
            self.is_left_for_later = True
            return None
        return self.commit(found, group)

    def is_one_too_many(self, group: Group) -> bool:
        """Would the job wait, and do as many of this worker's jobs as may?"""
        return group.blocked is not None and self.means.turns is not None and self.means.turns.is_full()

    def follow_drop(self, found: Seen) -> None:
        """From when the job is dropped on, it is another one."""
        at = found.progress.dropped
        if at is not None and len(self.job.plan) != found.progress.steps:
            self.job = self.job.cut(at)
            self.reads_at.clear()

    def end_late(self, found: Seen) -> Seen | None:
        self.means.journal.log("late", job=self.job.name)
        changes = [deleting(self.keys.fresh(self.job.age, self.job.name))]
        changes += drop(self.keys, self.job, found.progress, LATE)
        self.members.write(changes, [found.claim(self.keys, self.job), self.is_same_job()])
        return None

    def is_same_job(self) -> Guard:
        return unchanged(self.keys.job(self.job.name), self.job.put_at)

    def group(self, found: Seen) -> Group:
        """The job's next group. It ends before it would be more than one transaction takes."""
        steps = window(self.job, found.progress.step)
        while True:
            group = group_of(self.keys, self.job, steps, found.progress, found.found, self.limits)
            if group.taken < 2 or self.size_of(found, group) + MOST_INNER <= MOST_OPERATIONS:
                return group
            steps = before_an_unlock(steps[: group.taken])

    def size_of(self, found: Seen, group: Group) -> int:
        """At most so many changes are the group's: those of the job itself, of nodes, of records and of those that are
        handed a node."""
        own = 5
        return own + len(group.hands) + len(group.changed) + 3 * len(self.handed(found, group))

    def look(self, step: int, revision: int = 0) -> Seen | None:
        """Reads the job as it is now, or as of this revision or a later one; `step` is a guess of the next step."""
        reads = self.reads_ahead(step, self.reads(step))
        found = self.members.read_since(reads, revision) if revision else self.members.read(reads)
        return self.at(step, self.found_in(found))

    def reads(self, step: int) -> list[Operation]:
        """What has to be read before the steps from this one on."""
        if step not in self.reads_at:
            self.reads_at[step] = reads_for(self.keys, self.job, step, self.limits)
        return self.reads_at[step]

    def reads_ahead(self, step: int, own: list[Operation]) -> list[Operation]:
        """These reads; if only one group is left, also those that the next job begins with."""
        if self.following is None or not self.limits.works or not is_last(self.job, step):
            return own
        # This job's reads come last: only they give the values of the waiters, which it needs.
        both = self.following.reads(0) + own
        return both if len(both) <= MOST_READS else own

    def at(self, step: int, found: Seen | None) -> Seen | None:
        """The job, if it was seen with what its next steps need; else read again, as if its node was handed to it."""
        if found is None or found.progress.step == step:
            return found
        return self.look(found.progress.step, found.found.revision)

    # Groups

    def commit(self, found: Seen, group: Group) -> Seen | None:
        return self.make(self.made_ready(found, group))

    def made_ready(self, found: Seen, group: Group) -> Ready:
        """A transaction that takes the steps, and reads what comes next."""
        after, begins = group.after(), self.beginning(found, group)
        group.place = int(begins is not None)
        guards, changes = self.guards(found, group), self.changes(found, group)
        leaves = left_by(self.keys, self.job, group, self.means.sign())
        otherwise, then = self.reads(found.progress.step), self.reads_then(after, leaves)
        about, inner = self.about(found, group), MOST_INNER
        if begins and max(len(guards), len(changes) + 1, len(otherwise)) + begins.size <= MOST_OPERATIONS:
            then, about, inner = [begins.operation()], about | begins.about, begins.size
        else:
            begins = None
            if len(changes) + len(then) > MOST_OPERATIONS - MOST_INNER:
                then = []
        part = Part(guards, changes, then, otherwise, about, inner).written()
        return Ready(found, group, part, leaves, begins, bool(then))

    def about(self, found: Seen, group: Group) -> frozenset[str]:
        """The nodes and the jobs that the group is about."""
        nodes = {*group.locked, *group.hands, *group.records, *([group.blocked] if group.blocked else [])}
        handed = {last_part(key) for key, _ in self.handed(found, group).values()}
        line = line_of(self.job, found.progress)
        return frozenset({*nodes, *handed, self.job.name, *([line] if line else [])})

    def make(self, ready: Ready) -> Seen | None:
        """Sends the transaction; gives the job as it is then."""
        step, sent_at = ready.found.progress.step, now()
        try:
            done = self.means.commits.make(ready.part)
        except Lost as lost:
            return self.look_again(step, lost)
        if done.succeeded:
            self.signed_at = sent_at
            return self.committed(ready, done)
        self.means.journal.log("commit_failed")
        return self.give_way(ready.group, ready.found, self.at(step, self.found_in(done.found)))

    def committed(self, ready: Ready, done: Done) -> Seen | None:
        group = ready.group
        self.means.journal.log("commit")
        self.limits = Limits(works=self.limits.works)
        if group.blocked is not None:
            self.means.journal.log("waits", job=self.job.name, node=group.blocked)
        if ready.leaves is not None and ready.looks:
            return ready.leaves.read_with(done.found)
        after = group.after()
        if not after.has_ended():
            return self.found_in(done.found) if ready.looks else self.look(after.step)
        self.means.journal.log("ended", job=self.job.name, groups=after.groups)
        if self.following is not None:
            begun = ready.begins.leaves if ready.begins and done.ends_with_then() else None
            try:
                self.ahead = self.following.found_after(done.found, begun, self.signed_at)
            except Exception:  # likewise
                self.ahead = None
        return None

    def found_after(self, found: Found, begun: Seen | None, ended_at: float) -> Seen | None:
        """The job as it is after the transaction that ended another job, and was sent at that time, and that may have
        begun this one."""
        if begun is not None:
            self.signed_at = ended_at
            return begun.read_with(found)
        found_now = self.found_in(found)
        under_way = found_now.under_way if found_now is not None else None
        if under_way is not None and under_way.waits and under_way.by == self.means.name:
            self.signed_at = ended_at
            self.means.journal.log("waits", job=self.job.name, node=under_way.waits)
        return found_now

    def found_in(self, found: Found) -> Seen | None:
        return seen(self.keys, self.job, found)

    def beginning(self, found: Seen, group: Group) -> Beginning | None:
        """How the next job is begun in the group's transaction, if that ends this job, and nobody had begun the next
        one when it was seen."""
        following = self.following
        if following is None or self.means.stopping or not (self.limits.works and group.after().has_ended()):
            return None
        try:
            ahead = following.found_in(found.found)
            if ahead is None or ahead.under_way is not None or following.job.is_late():
                return None
            return following.begin_after(ahead, group, set(self.handed(found, group)))
        except Exception:  # it is raised again, and the next job set aside, once that is attempted by itself
            return None

    def begin_after(self, found: Seen, ending: Group, handed: set[str]) -> Beginning | None:
        """The job's first group. A node that the ending job unlocks isn't free yet. If it is handed to a third job,
        this one stands in line for it."""
        group = group_of(self.keys, self.job, window(self.job, 0), found.progress, found.found, self.limits)
        after, free = group.after(), ending.hands.keys() - handed
        if after.has_ended() or group.blocked in free or ending.hands.keys() & set(group.locked):
            return None
        if self.is_one_too_many(group):
            return None
        leaves = left_by(self.keys, self.job, group, self.means.sign())
        then = [*self.changes(found, group), *self.reads_then(after, leaves)]
        return Beginning(self.guards(found, group), then, self.reads(0), leaves, self.about(found, group))

    def give_way(self, group: Group, before: Seen, now: Seen | None) -> Seen | None:
        """If others came to a node in between, the job stands in line for it; if it isn't begun, it is left for
        later."""
        path = contested(self.keys, group, before.found, now.found) if now is not None else None
        self.limits = replace(self.limits, contested=path)
        self.stepped_back = path is not None and now is not None and now.under_way is None
        return None if self.stepped_back else now

    def look_again(self, step: int, lost: Lost) -> Seen | None:
        """Reads the job after a commit without an answer, which may have been made."""
        self.means.journal.log("lost", job=self.job.name, why=lost)
        time.sleep(next(self.pauses))
        return self.look(step)

    def reads_then(self, after: Progress, leaves: Seen | None) -> list[Operation]:
        """Reads what comes after the group; of the job itself only what isn't known."""
        if after.has_ended():
            return self.following.reads(0) if self.following else []
        known = leaves is not None
        return self.reads_ahead(after.step, self.reads_of_steps(after.step) if known else self.reads(after.step))

    def reads_of_steps(self, step: int) -> list[Operation]:
        """What has to be read before the steps from this one on, if the job stands in no line."""
        return reads_of_steps(self.keys, self.job, step, self.limits, False)

    def guards(self, found: Seen, group: Group) -> list[Guard]:
        """What has to hold so that the group's steps are the job's next ones, and allowed."""
        owners = [self.keys.owner(path) for path in group.locked]
        records = [self.keys.record(path) for path in group.records]
        same = [*owners, *records]
        same += [self.keys.progress(self.job.name), *(key for key, _ in self.handed(found, group).values())]
        own = [found.claim(self.keys, self.job), self.is_same_job()]
        return own + [unchanged(key, found.found.revision_of(key)) for key in same]

    def handed(self, found: Seen, group: Group) -> dict[str, tuple[str, Waiter]]:
        """The nodes that are unlocked and have a line, each with the key and the value of the first in it."""
        handed = {}
        for path in (path for path, held in group.hands.items() if not held):
            line = found.found.below(self.keys.waiters(path))
            first = min(line, default=None)
            waiter = waiter_of(line[first].value) if first is not None else None
            if first is not None and waiter is not None:
                handed[path] = first, waiter
        return handed

    def changes(self, found: Seen, group: Group) -> list[Operation]:
        """The puts and deletions of the group: progress, event, owners, records, and the job's place in line."""
        keys, name, after = self.keys, self.job.name, group.after()
        changes = self.progress_and_event(group)
        changes += self.claims(found, group, after)
        handed = self.handed(found, group)
        owners = {path: name if held else "" for path, held in group.hands.items()}
        owners |= {path: last_part(key) for path, (key, _) in handed.items()}
        changes += [putting(keys.owner(path), owner) for path, owner in owners.items()]
        places = enumerate(handed.values(), group.place + 1)
        changes += [each for place, first in places for each in self.hand_over(place, *first)]
        changes += [putting(keys.record(path), str(group.records[path])) for path in sorted(group.changed)]
        if found.progress.waits and group.taken:
            first = self.job.steps[found.progress.step].path
            changes.append(deleting(keys.waiter(first, self.job.age, name)))
        return changes

    def hand_over(self, place: int, key: str, waiter: Waiter) -> list[Operation]:
        """The first in line takes the lock in the transaction that unlocks the node."""
        name = last_part(key)
        event = putting(self.keys.event(name, waiter.group), Event(1, False, {}, place).text())
        return [deleting(key), putting(self.keys.progress(name), Progress.of(waiter.progress).text()), event]

    def progress_and_event(self, group: Group) -> list[Operation]:
        """Puts progress and event. If the group stops before a node, a nested transaction finds out whether it is held,
        which makes a mark."""

        def puts(is_held: bool) -> list[Operation]:
            event = self.keys.event(self.job.name, group.progress.groups)
            after = group.after(is_held)
            puts = [putting(self.keys.progress(self.job.name), after.text())]
            if group.blocked is not None:
                own = self.keys.waiter(group.blocked, self.job.age, self.job.name)
                puts.append(putting(own, Waiter.after(after).text()))
            return [*puts, putting(event, group.event(is_held).text())]

        if group.blocked is None:
            return puts(False)
        return [choosing([other_than(self.keys.owner(group.blocked), "")], puts(True), puts(False))]

    def claims(self, found: Seen, group: Group, after: Progress) -> list[Operation]:
        """The keys that say that the job is begun, this worker's, or ended."""
        fresh = [deleting(self.keys.fresh(self.job.age, self.job.name))] if found.under_way is None else []
        key = self.keys.under_way(self.job.name)
        if not after.has_ended():
            return [*fresh, putting(key, self.means.sign(group.blocked).text())]
        return fresh or [deleting(key)]

    # Work

    def needs_work(self, progress: Progress) -> bool:
        is_access = not progress.has_ended() and self.job.steps[progress.step].kind is Kind.ACCESS
        return self.limits.works and is_access and self.worked_at != progress.step

    def do_work(self, found: Seen) -> Seen | None:
        """Does the work of the next access, with signs of life before it and in it."""
        step = self.job.steps[found.progress.step]
        record = record_of(self.keys, step.path, found.found)
        under_way = found.under_way or self.means.sign()
        with self.means.signs.during():
            if not self.means.signs.is_sure(self.signed_at):
                return self.put_under_way(found, under_way)
            failure = self.failure_of(found, self.job.accesses[step.access], record, f"{self.job.name}/{step.access}")
        if failure is None:
            self.worked_at = found.progress.step
            return found
        return self.fail(found, under_way.fails + 1, why_of(failure))

    def failure_of(self, found: Seen, access: Access, record: int, token: str) -> BaseException | None:
        """Does the work; meanwhile the group that follows is made ready."""
        with self.means.makes_ready() as makes:
            # (The signs come first: while they call the system the other thread would go on, and work wait for it.)
            self.means.signs.begin()
            makes.begin(lambda: self.made_ready(found, self.group(found)))
            try:
                self.perform(access, record, token)
            except BaseException as why:  # whatever the work raises, SystemExit among them, means that it has failed
                return why
            finally:
                self.means.signs.end()
                self.ready = makes.end()
        return None

    def take_up(self, found: Seen, last: UnderWay, sign: Abandoned) -> Seen | None:
        """Goes on with a job with which nobody does, unless its worker has given a sign since. A worker that was lost
        at an access with work counts as a failure of it, since the work may be what has ended the worker."""
        is_lost = last.by not in ("", self.means.name) and self.needs_work(found.progress)
        fails, why = last.fails + is_lost, LOST if is_lost else last.why
        if fails >= self.means.tries and is_lost:
            self.set_aside(found, why, fails)
            return None
        return self.put_under_way(found, self.means.sign(last.waits, fails, why), sign)

    def perform(self, access: Access, record: int, token: str) -> None:
        """Calls the work, once for each try. A process that the work has forked, and that comes back, is no worker."""
        if self.means.work is not None:
            self.means.journal.log("work", job=token)
            own = os.getpid()
            try:
                # A list of its own, since the work may change it.
                self.means.work(list(access), record, token)
            finally:
                if os.getpid() != own:
                    os._exit(1)

    def fail(self, found: Seen, fails: int, why: str) -> Seen | None:
        """Sets the job aside, or pauses before the next try."""
        self.means.journal.log("work_failed", job=self.job.name, fails=fails, why=why)
        if fails >= self.means.tries:
            self.set_aside(found, why, fails)
            return None
        return self.pause(found, self.means.sign(fails=fails, why=why))

    def pause(self, found: Seen, under_way: UnderWay) -> Seen | None:
        """Waits until the next try, with signs of life. Other jobs go on meanwhile."""
        until, last = time.monotonic() + next(self.pauses), self.put_under_way(found, under_way)
        self.following = None
        self.when_it_waits()
        with self.means.waited(self.job.name):
            while last is not None and time.monotonic() < until and not self.means.stopping:
                time.sleep(min(until - time.monotonic() + 0.001, LONGEST_NAP_SECONDS))
        self.has_waited, self.has_turn = True, self.means.takes_turn(self.job.name, FOREVER)
        return last

    def set_aside(self, found: Seen, why: str, fails: int) -> None:
        """Nobody goes on with the job until an operator says so. It keeps what it holds, and leaves the line in which
        it stands."""
        holds, groups = self.job.held_at(found.progress.step), found.progress.groups
        self.means.journal.log("set_aside", job=self.job.name, why=cut(why), holds=" ".join(holds))
        claim = found.claim(self.keys, self.job)
        name = self.job.name
        own = self.keys.under_way(name) if found.under_way else self.keys.fresh(self.job.age, name)
        changes = [deleting(own), putting(self.keys.aside(name), Aside(cut(why), fails, holds, groups).text())]
        path = line_of(self.job, found.progress)
        if path is not None:
            changes.append(deleting(self.keys.waiter(path, self.job.age, name)))
        self.members.write(changes, [claim])

    def leave(self, found: Seen) -> None:
        """Lets other workers go on with the job at once. That is repeated until it is answered: as long as the job
        names this worker, and that gives signs for others, nobody else takes it up."""
        if found.under_way is not None:
            self.means.journal.log("left", job=self.job.name)
            left = putting(self.keys.under_way(self.job.name), replace(found.under_way, by="").text())
            self.members.write([left], [found.claim(self.keys, self.job)])

    def put_under_way(self, found: Seen, under_way: UnderWay, last: Abandoned | None = None) -> Seen | None:
        """Puts the worker that goes on with the job; gives the job as it is then. If another worker has gone on with it
        up to its last sign, that worker's next sign finds it."""
        changes = [putting(self.keys.under_way(self.job.name), under_way.text())]
        guards = [found.claim(self.keys, self.job)]
        if last is not None and last.sign:
            guards.append(unchanged(last.sign, last.signed))
            changes.append(deleting(last.sign))
        if found.under_way is None:
            changes.append(deleting(self.keys.fresh(self.job.age, self.job.name)))
        reads, sent_at = self.reads(found.progress.step), now()
        try:
            done = self.members.commit(guards, changes, reads, reads)
        except Lost as lost:
            return self.look_again(found.progress.step, lost)
        if done.succeeded:
            self.signed_at = sent_at
        return self.at(found.progress.step, self.found_in(done.found))

    # Waiting

    def wait(self, found: Seen, group: Group) -> Seen | None:
        """Waits for the job before this one in line, or if there is none for the node."""
        path = str(group.blocked)
        before = older_waiter(self.keys, self.job, path, found.found) if self.limits.queues else None
        if before is None and group.turn is not Turn.HELD:
            return self.look(found.progress.step)
        woken = self.woken_soon(found, path, before)
        return woken() if woken is not None else self.park(found, path, before)

    def woken_soon(self, found: Seen, path: str, before: str | None) -> Callable[[], Seen | None] | None:
        """Waits for a moment, in which the job keeps its turn, and for another one if the node has changed hands in it;
        gives how it is then to be had, if it is woken."""
        seconds, owner = self.means.keeps_turn(), self.keys.owner(path)
        hands = found.found.revision_of(owner)
        for _ in range(MOMENTS if seconds else 0):
            with self.means.signs.during():
                came = self.wait_once(found, path, before, seconds)
            if came is not None or self.means.stopping:
                return came
            last, hands = hands, self.members.read_since([reading(owner)], hands).revision_of(owner)
            if hands == last:
                break
        return None

    def park(self, found: Seen, path: str, before: str | None) -> Seen | None:
        """The worker's other jobs go on while this one waits. If they all go on once it is woken, it is left for
        another worker."""
        self.has_waited, self.following = True, None
        self.when_it_waits()
        with self.means.waited(self.job.name, path):
            woken = self.woken(found, path, before)
        self.has_turn = self.means.takes_turn(self.job.name, WOKEN_SECONDS)
        if self.has_turn:
            return woken()
        self.leave(found)
        return None

    def woken(self, found: Seen, path: str, before: str | None) -> Callable[[], Seen | None]:
        """Waits; gives how the job is then to be had."""
        while not self.means.stopping:
            came = self.wait_once(found, path, before, self.means.patience)
            if came is not None:
                return came
            if before is not None and self.is_nobody(before):
                self.limits = replace(self.limits, queues=False)
                break
        return partial(self.look, found.progress.step)

    def wait_once(
        self, found: Seen, path: str, before: str | None, seconds: float
    ) -> Callable[[], Seen | None] | None:
        """None if it isn't woken in time."""
        if before is None:
            return self.wait_at(found, path, seconds)
        until, step = time.monotonic() + seconds, found.progress.step
        came = self.left_by_the_one_before(found, path, before, seconds)
        if came is None:
            return None
        # If the node was held when the line was read, a watch tells of all that has become of it since.
        if came.key == before and found.found.value(self.keys.owner(path)):
            came = self.free_or_own(found, path, max(0.0, until - time.monotonic())) or came
        return partial(self.look, step + (came.value == self.job.name), came.revision)

    def wait_at(self, found: Seen, path: str, seconds: float) -> Callable[[], Seen | None] | None:
        came = self.free_or_own(found, path, seconds)
        if came is None:
            return None
        if not came.value and self.limits.works:
            # Before the work no record is needed, so nothing has to be read.
            freed = found.freed(self.keys, path, came.revision)
            return lambda: freed
        return partial(self.look, found.progress.step + bool(came.value), came.revision)

    def left_by_the_one_before(self, found: Seen, path: str, before: str, seconds: float) -> Change | None:
        """That the job before this one has left the line; or this one, to which the node may be handed all the same, by
        a job that hasn't seen those before it."""
        own = self.keys.waiter(path, self.job.age, self.job.name)
        watched = Watched(before, own + "\0", (before, own))
        return wait(self.members, watched, found.found.revision, seconds, lambda change: change.value is None)

    def free_or_own(self, found: Seen, path: str, seconds: float) -> Change | None:
        """That the node is free, or this job's."""
        watched, ours = Watched(self.keys.owner(path)), ("", self.job.name)
        return wait(self.members, watched, found.found.revision, seconds, lambda change: change.value in ours)

    def is_nobody(self, waiter: str) -> bool:
        """Stands a job in line that isn't under way? It may have been set aside, or be gone."""
        key = self.keys.under_way(last_part(waiter))
        found = self.members.get(key, waiter)
        return waiter in found.entries and key not in found.entries


def before_an_unlock(steps: list[Step]) -> list[Step]:
    """Fewer of these steps, so that none of those that are left out first is a lock: whether its node is held wouldn't
    be looked at."""
    numbers = range(len(steps) // 2, len(steps))
    return steps[: next((number for number in numbers if steps[number].kind is not Kind.LOCK), len(steps) - 1)]


def waiter_of(text: str) -> Waiter | None:
    """What is put for the first in line, if that has its form; the node is handed to nobody otherwise."""
    try:
        waiter = Waiter.read(text)
        Progress.of(waiter.progress)
    except NoForm:
        return None
    return waiter
