"""A worker: does jobs that nobody has begun, and those with which nobody goes on any more.

A job belongs to no worker for good. A worker may die at any time. Another one takes its job up once there has been no
sign of life for a while. So many jobs go on at once as the worker has turns; any number of others wait (turns.py).
"""
from __future__ import annotations

import random
import threading
import time
import uuid
from collections import deque
from concurrent.futures import Future
from contextlib import contextmanager
from dataclasses import dataclass
from functools import partial
from typing import Any, Callable, Iterable, Iterator, Optional, Sequence

from .attempt import Attempt, Means, Work
from .failures import why_of
from .head import need_store
from .jobs import Job, UnderWay
from .journal import Journal
from .keys import Keys, last_part
from .leash import Leash
from .members import Lost, Members, pauses
from .reading import Fresh, Reader, fresh_in
from .refusals import Failed
from .seeing import Seen
from .shares import LEFT_SECONDS, Shares
from .signs import PATIENCE, Abandoned
from .together import Batch, Outcome
from .turns import Turns
from .waiting import Watched, wait
from .wire import Found, after, deleting, reading, reading_below, reading_from, unchanged

# How many jobs are looked at at once, and how many are chosen of them: with work, and without.
MOST_LOOKED_AT, MOST_BEGUN, LEAST_BEGUN = 768, 12, 2
MOST_SHORT, MOST_CHOSEN = 3072, 1536
# How many of the latter are read for one transaction. After two of fewer jobs within a moment, for how long it is
# waited until it is looked for more: shortly if the last one had few, since then its submitters may wait for each.
MOST_TOGETHER, FEW, MOMENT_SECONDS, GATHER_SECONDS, LONG_GATHER_SECONDS = 192, 8, 0.2, 0.02, 0.05
# If all that it looks at would only wait, how many times as many more it looks through.
MOST_BEYOND = 8
# How long a worker pauses if others come to the nodes of its jobs.
STEP_BACK_SECONDS, LONGEST_STEP_BACK_SECONDS = 0.05, 1.5
# How often it is looked whether the worker is to end, while all turns are taken.
LOOK_SECONDS = 1.0
# The same, while its other threads have chosen all jobs that nobody has begun.
CHOSEN_SECONDS = 0.02
# The same, while they are in the shares of other workers.
SHARED_SECONDS = 0.04
# The same, while each of some jobs would be one too many that waits.
FULL_SECONDS = 0.2
# For how long a worker's last sign is kept that nobody has missed.
GONE_SECONDS = 60.0
# How many jobs of one worker wait at most, if it isn't told.
MOST_WAITING = 256


@dataclass(frozen=True)
class Task:
    """What a thread does with the jobs of these names, which no other thread chooses meanwhile. It gives whether it
    still has its turn."""

    names: set[str]
    do: Callable[[set[str]], bool]


class Worker:
    attempt = Attempt

    def __init__(
        self,
        members: Members,
        keys: Keys,
        work: Optional[Work] = None,
        patience: float = PATIENCE,
        tries: int = 5,
        journal: Optional[Journal] = None,
        leashed: bool = True,
        threads: int = 1,
        most_waiting: int = MOST_WAITING,
    ) -> None:
        """A job without a sign of life for `patience` seconds is taken up. One whose work has failed `tries` times at
        an access is set aside. So many `threads` do work at once; `most_waiting` others may wait beside them.

        If work goes on without a sign of life that etcd confirms, this process is killed (SIGKILL) shortly before
        another worker may take its job up. If not `leashed` it isn't, and its work may go on with the node unheld."""
        name = uuid.uuid4().hex[:12]
        self.count, self.turns = threads, Turns(threads, most_waiting)
        self.means = Means(members, keys, name, work, patience, tries, journal or Journal(), turns=self.turns)
        self.members, self.keys = members, keys
        self.leashed = leashed and work is not None
        self.reader = Reader(members, keys, self.means.journal)
        self.threads: set[threading.Thread] = set()
        # The jobs that its threads have chosen; what is begun of these is what they go on with.
        self.lock, self.chosen = threading.Lock(), set[str]()
        # The chosen jobs that were read for threads that wait for the one before them; and when it was looked last.
        self.rests, self.looked_at = list[Job](), 0.0
        # The first error of one of them.
        self.error: Optional[BaseException] = None
        # How many tasks have ended, and what is waited for while there is none.
        self.ended, self.idles = 0, set[Any]()
        # How many times in a row others have come to the nodes in between.
        self.clashes = 0
        self.shares = Shares(name, work is None)
        # When it did few jobs in one transaction last.
        self.gathered_at = float("-inf")
        # How many jobs it looks at at once; and the last key of those beyond them that it has looked through.
        self.most, self.beyond = MOST_SHORT if work is None else MOST_LOOKED_AT, ""
        self.pauses = pauses()
        # The jobs that nobody had begun when it looked last, as far as it looked, and since when the oldest has been.
        self.fresh, self.oldest = 0, 0.0
        self.means.journal.gauges |= self.gauges()

    def gauges(self) -> dict[str, tuple[str, Callable[[], float]]]:
        """What is measured of a worker."""
        return {
            "grove_fresh_jobs": (f"Jobs that nobody has begun, up to {self.most}.", lambda: self.fresh),
            "grove_oldest_fresh_job_seconds": (
                "For how long the oldest of them has been submitted, by its submitter's clock.",
                lambda: max(0.0, time.time() - self.oldest) if self.fresh else 0.0,
            ),
            "grove_worker_waiting_jobs": ("Jobs of this worker that wait.", lambda: self.turns.waiting),
            "grove_worker_commit_seconds": ("How long the last transaction took.", lambda: self.means.commits.seconds),
        }

    def stop(self) -> None:
        """Ends after the groups in progress; others may go on with the jobs at once."""
        self.means.stopping = True
        self.members.end_watches()
        self.note_end()

    def run(self, until_ended: bool = False) -> None:
        """Does jobs until it is stopped, or until all have ended or are set aside."""
        need_store(self.members, self.keys)
        with self.on_leash(), self.means.signs.during():
            self.means.journal.log("started", worker=self.means.name)
            try:
                # By it others leave this worker a share.
                self.means.signs.give_now()
                self.do_jobs(until_ended)
            finally:
                self.end()
            self.means.journal.log("stopped", worker=self.means.name)
        if self.error is not None:
            raise self.error

    def end(self) -> None:
        """Once all its threads have."""
        self.stop()
        for thread in list(self.threads):
            thread.join()
        if self.error is None:
            self.means.signs.stop()

    @contextmanager
    def on_leash(self) -> Iterator[None]:
        if not self.leashed:
            yield
            return
        with Leash() as leash:
            self.means.signs.leash = leash
            try:
                yield
            finally:
                self.means.signs.leash = None

    def do_jobs(self, until_ended: bool) -> None:
        """Whenever there is a turn, something is done in another thread."""
        while not self.means.stopping and self.error is None:
            if not self.turns.is_free(LOOK_SECONDS):
                continue
            if time.monotonic() - self.looked_at < LOOK_SECONDS and self.rests and self.start(self.rest):
                continue
            ended, found = self.ended, self.look()
            fresh, begun = self.fresh_of(found), self.under_way_of(found)
            if until_ended and not fresh and not begun:
                return
            if self.start(partial(self.task, found, fresh, begun)):
                continue
            if not fresh or self.turns.waits:
                self.idle(found, ended)
            else:
                self.await_share()

    def start(self, choose: Callable[[], Optional[Task]]) -> bool:
        """Does in another thread what is chosen, which gives the turn back. False if that is nothing. If woken jobs
        have taken all turns meanwhile, nothing is chosen."""
        if not self.turns.take():
            return True
        task = None
        try:
            task = choose()
        finally:
            if task is None:
                self.turns.give()
        if task is not None:
            self.start_thread(task)
        return task is not None

    def task(self, found: Found, fresh: dict[str, Fresh], begun: dict[str, UnderWay]) -> Optional[Task]:
        """What there is to do: a job with which nobody goes on, those that another thread has left, or others that
        nobody has begun."""
        left = self.abandoned(begun, found)
        if left:
            abandoned = random.choice(left)
            return self.chosen_for([abandoned.name], lambda names: self.go_on_with(abandoned))
        rest = self.rest()
        if rest is not None:
            return rest
        some = self.some_of(fresh, self.workers(found)) or self.some_beyond(found)
        if some:
            return self.chosen_for(some, lambda names: self.run_some(in_order(some, names), names))
        return None

    def rest(self) -> Optional[Task]:
        """Jobs that another thread has left, without those that would wait behind another one of this worker."""
        avoided = self.turns.avoided()
        with self.lock:
            jobs = [job for job in self.rests if job.begins_at() not in avoided]
            self.rests = [job for job in self.rests if job.begins_at() in avoided]
        if not jobs:
            return None
        return Task({job.name for job in jobs}, partial(self.run_batch, jobs))

    def chosen_for(self, some: list[str], do: Callable[[set[str]], bool]) -> Task:
        """No other thread of this worker chooses these jobs until the task is done, or comes to wait for one. The task
        gets the set of their names, to which it adds those that it chooses itself."""
        return Task(self.choose(some), do)

    def choose(self, names: Iterable[str]) -> set[str]:
        """Those of these that no thread had chosen."""
        with self.lock:
            chosen = set(names) - self.chosen
            self.chosen |= chosen
        return chosen

    def let_go(self, names: set[str]) -> None:
        """Other threads may choose these again."""
        with self.lock:
            self.chosen -= names

    def leave_rest(self, name: str, attempts: deque[Attempt], names: set[str]) -> None:
        """A job waits, and keeps its thread. Another thread goes on with those that were read with it."""
        jobs = [attempt.job for attempt in attempts]
        attempts.clear()
        with self.lock:
            self.rests += jobs
            self.chosen -= names - {name, *(job.name for job in jobs)}
            names.intersection_update({name})

    def start_thread(self, task: Task) -> None:
        """If the system gives it no more threads, the jobs are left for later."""

        def run() -> None:
            has_turn = True
            try:
                has_turn = task.do(task.names)
            except BaseException as why:  # the main thread raises it
                self.error = self.error or why
                self.stop()
            finally:
                self.let_go(task.names)
                if has_turn:
                    self.turns.give()
                self.threads.discard(threading.current_thread())
                self.note_end()

        thread = threading.Thread(target=run)
        self.threads.add(thread)
        try:
            thread.start()
        except RuntimeError as why:
            self.means.journal.log("no_thread", why=why)
            self.threads.discard(thread)
            self.let_go(task.names)
            self.turns.give()
            time.sleep(FULL_SECONDS)

    def note_end(self) -> None:
        """What one task has done may be what another can go on with."""
        self.ended += 1
        for watch in list(self.idles):
            watch.cancel()

    def look(self) -> Found:
        """Reads the oldest jobs that nobody has begun, those under way, and the workers' signs."""
        self.looked_at = time.monotonic()
        fresh, begun, signs = (self.keys.whole(kind) for kind in "qus")
        return self.members.read([reading_below(fresh, self.most), reading_below(begun), reading_below(signs)])

    def fresh_of(self, found: Found) -> dict[str, Fresh]:
        """By name the jobs that nobody has begun, the oldest first."""
        fresh = self.reader.note(found.below(self.keys.whole("q")))
        self.fresh, self.oldest = len(fresh), self.reader.oldest()
        return fresh

    def under_way_of(self, found: Found) -> dict[str, UnderWay]:
        """Those that aren't set aside."""
        begun = found.below(self.keys.whole("u"))
        each = ((last_part(key), self.reader.under_way(key, entry)) for key, entry in begun.items())
        return {name: under_way for name, under_way in each if under_way is not None}

    def some_of(self, fresh: dict[str, Fresh], workers: set[str]) -> list[str]:
        """Some of these jobs, which nobody has begun; no more than leaves as many for each thread of these workers."""
        avoided, chosen = self.turns.avoided(), self.chosen
        both = ((name, each.node) for name, each in fresh.items())
        nodes = {name: node for name, node in both if name not in chosen and node not in avoided}
        if self.means.work is None:
            return self.shares.choose(nodes, workers, min(MOST_CHOSEN, max(1, len(nodes) // self.count)))
        # As many are left for each thread of each worker.
        share = len(nodes) // (self.count * len(workers))
        return self.shares.choose(nodes, workers, min(MOST_BEGUN, max(LEAST_BEGUN, share)))

    def some_beyond(self, found: Found) -> list[str]:
        """Some of those that come after the jobs that were looked at, if these are as many as are looked at. It goes on
        where it has ended the last time."""
        seen = found.below(self.keys.whole("q"))
        for _ in range(MOST_BEYOND if len(seen) >= self.most else 0):
            start = max(self.beyond, max(seen)) + "\0"
            more = self.members.read([reading_from(start, after(self.keys.whole("q")), self.most)])
            self.beyond = max(more.entries, default="")
            some = self.some_of(self.reader.note(more.entries, are_more=True), self.workers(found))
            if some or not more.entries:
                return some
        return []

    def workers(self, found: Found) -> set[str]:
        """The workers that give signs of life, and this one. The last sign of one that is long gone is deleted."""
        there = {self.means.name}
        for key, entry in found.below(self.keys.whole("s")).items():
            if not self.means.stills.is_still(key, entry.put_at, self.means.patience):
                there.add(last_part(key))
            elif self.means.stills.is_still(key, entry.put_at, GONE_SECONDS + self.means.patience):
                self.members.write([deleting(key)], [unchanged(key, entry.put_at)])
        return there

    def jobs(self, names: list[str]) -> list[Job]:
        return self.reader.jobs(names)

    def run_some(self, some: list[str], names: set[str]) -> bool:
        """Reads the first of these, and does them all."""
        return self.run_batch(self.jobs(some[:MOST_TOGETHER]), names, some[MOST_TOGETHER:])

    def run_batch(self, jobs: list[Job], names: set[str], later: Sequence[str] = ()) -> bool:
        """Does jobs that nobody has begun: without work as many as possible in one transaction, and the others one by
        one, until it meets one that another worker has begun."""
        if self.means.work is None:
            jobs = self.do_together(jobs, list(later))
        return self.do_one_by_one(jobs, names)

    def do_together(self, jobs: list[Job], later: list[str]) -> list[Job]:
        """Does jobs in one transaction after the other, as long as each is made, and reads the later ones meanwhile.
        Gives those jobs that have to be done one by one."""
        until, outcome = time.monotonic() + LOOK_SECONDS, Outcome(rest=jobs)
        while outcome.goes_on and not (self.means.stopping or self.turns.is_wanted() or time.monotonic() > until):
            batch = Batch.of(outcome.rest)
            room = max(0, MOST_TOGETHER - len(batch.rest))
            more, later = self.means.aside.submit(self.jobs, later[:room]), later[room:]
            outcome = self.do_batch(batch)
            outcome.rest.extend(more.result())
        if len(outcome.ended) < MOST_TOGETHER and not outcome.left:
            self.gather(len(outcome.ended))
        return outcome.left

    def gather(self, done: int) -> None:
        """If there was such a transaction a moment ago, too, jobs come some at a time: some more are waited for."""
        last, self.gathered_at = self.gathered_at, time.monotonic()
        if self.gathered_at - last < MOMENT_SECONDS:
            time.sleep(GATHER_SECONDS if done < FEW else LONG_GATHER_SECONDS)

    def do_batch(self, batch: Batch) -> Outcome:
        try:
            outcome = batch.do(self.keys, self.members, self.means.commits)
        except Lost as lost:
            self.means.journal.log("lost", why=lost)
            time.sleep(next(self.pauses))
            return Outcome(failed=1)
        self.pauses = pauses()
        for name in outcome.ended:
            self.means.journal.log("ended", job=name, groups=1)
        if outcome.ended:
            self.means.journal.log("commit")
        for _ in range(outcome.failed):
            self.means.journal.log("commit_failed")
        self.shares.note(outcome.are_taken)
        self.step_back(outcome.failed > 0 and not (outcome.are_taken or outcome.ended))
        return outcome

    def do_one_by_one(self, jobs: list[Job], names: set[str]) -> bool:
        """If it ends early, it still goes on with a job that was begun with the end of the one before. It ends after
        one that has waited. Gives whether it still has its turn. The names are those of the jobs that were chosen."""
        until = time.monotonic() + self.means.patience
        ahead: Seen | None = None
        is_idle, attempts = bool(jobs), deque(self.attempts(jobs))
        for attempt in self.in_turn(attempts, names):
            found = ahead or self.first_look(attempt)
            if found is None or not found.is_for(self.means.name):
                break
            if time.monotonic() > until:
                attempt.following = None
            attempt.when_it_waits = partial(self.leave_rest, attempt.job.name, attempts, names)
            attempt.run(found)
            ahead, is_idle = attempt.ahead, is_idle and attempt.is_left_for_later
            self.step_back(attempt.stepped_back)
            if not attempt.has_turn:
                return False
            is_begun = ahead is not None and ahead.under_way is not None
            is_wanted = self.means.stopping or attempt.has_waited or self.turns.is_wanted()
            is_over = is_wanted or time.monotonic() > until
            if not is_begun and is_over:
                break
        if is_idle:
            time.sleep(FULL_SECONDS)
        return True

    def in_turn(self, attempts: deque[Attempt], names: set[str]) -> Iterator[Attempt]:
        """These attempts, and more, whose jobs are read while there is work for the last but one."""
        more: Future[list[Job]] | None = None
        while attempts:
            attempt = attempts.popleft()
            if not attempts and more is not None:
                chosen = self.choose(job.name for job in more.result())
                names |= chosen
                attempts.extend(self.attempts([job for job in more.result() if job.name in chosen]))
                attempt.following, more = next(iter(attempts), None), None
            elif len(attempts) == 1 and self.means.work is not None:
                more = self.means.aside.submit(self.more_jobs, {attempt.job.name, attempts[0].job.name})
            yield attempt

    def more_jobs(self, known: set[str]) -> list[Job]:
        """Some jobs that nobody has begun, without those that are known."""
        fresh, signs = (self.keys.whole(kind) for kind in "qs")
        found = self.members.read([reading_below(fresh, MOST_LOOKED_AT), reading_below(signs, keys_only=True)])
        workers = {self.means.name, *map(last_part, found.below(signs))}
        some = self.some_of(fresh_in(found.below(fresh)), workers)
        return self.jobs([name for name in some if name not in known])

    def attempts(self, jobs: list[Job]) -> list[Attempt]:
        """Attempts at these jobs, each of which knows the one that follows."""
        attempts = [self.attempt(self.means, job) for job in jobs]
        for attempt, following in zip(attempts, attempts[1:]):
            attempt.following = following
        return attempts

    def step_back(self, clashed: bool) -> None:
        """From the second time in a row on that others came to a job's nodes, this worker pauses. So the others are
        done sooner, and fewer of its commits fail."""
        self.clashes = self.clashes + 1 if clashed else 0
        if self.clashes > 1:
            self.means.journal.log("stepped_back")
            longest = min(LONGEST_STEP_BACK_SECONDS, STEP_BACK_SECONDS * 3 ** (self.clashes - 2))
            time.sleep(longest * random.uniform(0.5, 1))

    def abandoned(self, begun: dict[str, UnderWay], found: Found) -> list[Abandoned]:
        """The jobs with which nobody goes on, and that can go on. This worker's signs speak for all jobs that name it.
        So it takes up those of them with which none of its threads goes on: what it has put for a job may have been
        made though it brought no answer, and what it would have put may not."""
        signs = found.below(self.keys.whole("s"))
        self.means.stills.forget_all_but({*map(self.keys.under_way, begun), *signs})
        left = []
        for name, under_way in begun.items():
            last = Abandoned(name, found.revision_of(self.keys.under_way(name)))
            is_own, key = under_way.by == self.means.name, self.keys.sign(under_way.by)
            if key in signs and not is_own:
                last = last._replace(sign=key, signed=signs[key].put_at)
            is_still = self.means.is_still(last, under_way)
            if (under_way.by == "" or is_own or is_still) and name not in self.chosen:
                left.append(last)
        return self.those_that_can_go_on(begun, left)

    def those_that_can_go_on(self, begun: dict[str, UnderWay], left: list[Abandoned]) -> list[Abandoned]:
        """These jobs without those that wait for a node that another job holds."""
        nodes = {each.name: begun[each.name].waits for each in left}
        owners = {path: self.keys.owner(path) for path in nodes.values() if path is not None}
        held = self.members.read_all(list(map(reading, owners.values())))
        free = {name for name, path in nodes.items() if path is None or held.value(owners[path]) in (None, "", name)}
        return [each for each in left if each.name in free]

    def go_on_with(self, abandoned: Abandoned) -> bool:
        """Takes the job up, unless there has been a sign of life since, as of another worker that has done so. Gives
        whether it still has its turn."""
        jobs = self.jobs([abandoned.name])
        attempt = self.attempt(self.means, jobs[0]) if jobs else None
        found = self.first_look(attempt) if attempt else None
        if attempt is None or found is None or found.under_way is None:
            return True
        if found.found.revision_of(self.keys.under_way(abandoned.name)) != abandoned.revision:
            return True
        self.means.journal.log("taken_up", job=abandoned.name, by=self.means.name)
        attempt.run(attempt.take_up(found, found.under_way, abandoned))
        return attempt.has_turn

    def first_look(self, attempt: Attempt) -> Optional[Seen]:
        """The job as it is. If what stands of it hasn't its form, it is set aside."""
        try:
            return attempt.look(0)
        except (Lost, Failed):
            raise
        except Exception as why:  # whatever stands there
            self.reader.set_aside(attempt.job.name, why_of(why))
            return None

    def await_share(self) -> None:
        """Waits while all jobs that nobody has begun are chosen by its other threads; or, without work, while there are
        so few that other workers do them all."""
        if not self.shares.by_nodes:
            time.sleep(CHOSEN_SECONDS)
            return
        until = time.monotonic() + LEFT_SECONDS
        while not self.means.stopping and self.error is None and time.monotonic() < until:
            time.sleep(SHARED_SECONDS)
            if self.shares.may_have_one(self.members.count(self.keys.whole("q"), is_at_hand=True)):
                break

    def idle(self, found: Found, ended: int) -> None:
        """Waits until jobs are submitted, a task ends beside those that had when it was read, or it is time to look for
        abandoned jobs."""
        fresh = self.keys.whole("q")
        seconds = min(LOOK_SECONDS, self.means.patience / 4)
        watched = Watched(fresh, after(fresh))
        if self.ended == ended:
            wait(self.members, watched, found.revision, seconds, lambda change: change.value is not None, self.idles)


def in_order(names: list[str], some: set[str]) -> list[str]:
    """Those of the names that are among these."""
    return [name for name in names if name in some]
