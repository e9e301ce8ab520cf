"""Lists become jobs. Each has a name of its own. So it is made once even if a call is repeated, and submitters share no
number."""
from __future__ import annotations

import time
import uuid
from concurrent.futures import ThreadPoolExecutor
from contextlib import suppress
from typing import Any, Iterator, NamedTuple, Optional

from .head import need_store
from .jobs import Access, Job, Progress
from .judging import MOST_BYTES, need_legal, read_job
from .keys import JOB_NAME, Keys
from .members import GIVE_UP_SECONDS, MOST_OPERATIONS, Lost, Members, pauses
from .planning import Planner, named
from .refusals import NoForm, Refused
from .sharing import Commits, Part
from .tree import way_down
from .waiting import Watched, changes
from .weighing import last_weighing
from .weights import Weight
from .wire import Found, absent, after, putting, reading, reading_below

# Of parts of a transaction, of jobs in each, which are two puts, and of transactions that are on their way at once.
MOST_PARTS, MOST_SENT = 16, 4
MOST_JOBS = (MOST_OPERATIONS - MOST_PARTS) // 2
# For how long weights are kept, and of how many nodes; and of how many they are read at once.
KNOWN_SECONDS, MOST_KNOWN, MOST_AT_ONCE = 1.0, 100_000, 512
# The length of a watch for replies.
WATCH_SECONDS = 5.0


class Written(NamedTuple):
    """A job with its text."""

    job: Job
    text: str


class Submitter:
    """Plans lists, and submits them as jobs."""

    def __init__(self, members: Members, keys: Keys, grove: Optional[str] = None) -> None:
        self.members, self.keys, self.commits = members, keys, Commits(members)
        self.planner = Planner(grove)
        # Weights that were read lately, and by which reweighing they count.
        self.known: dict[str, int] = {}
        self.known_at, self.reweighing = float("-inf"), 0
        need_store(members, keys)

    def submit(self, accesses: list[Any]) -> str:
        """Submits one list; gives the job's name."""
        return self.submit_all([accesses])[0]

    def submit_all(self, lists: list[Any], name: Optional[str] = None, by: Optional[int] = None) -> list[str]:
        """Gives the jobs' names: `name` with the number of the list. If a list is refused, nothing is submitted. A list
        that was submitted by its name before isn't submitted again. A job that nobody has begun by the time `by`, in
        microseconds, is dropped."""
        name = uuid.uuid4().hex if name is None else name
        if not JOB_NAME.fullmatch(f"{name}.0"):
            raise Refused("bad-id")
        now = time.time_ns() // 1000
        jobs = []
        weights = self.weights(lists)
        for number, accesses in enumerate(lists):
            plan = self.plan(number, accesses, weights)
            jobs.append(written_of(Job(f"{name}.{number}", now + number, accesses, plan, by)))
            if len(jobs[-1].text) > MOST_BYTES:
                raise Refused(f"job-too-large lists {number}")
        self.put_written(jobs)
        return [job.name for job, _ in jobs]

    def submit_planned(self, accesses: list[Access], plan: list[list[Any]]) -> str:
        """Submits a list by a plan that needn't be the settled one, but has to be legal."""
        name, weights = f"{uuid.uuid4().hex}.0", self.weights([accesses])
        job = read_job(name, Job(name, time.time_ns() // 1000, accesses, plan).text())
        need_legal(job, weights)
        self.put_all([job])
        return name

    def plan(self, number: int, accesses: list[Any], weights: dict[str, int]) -> list[list[Any]]:
        try:
            return self.planner.plan(accesses, weights)
        except Refused as why:
            raise Refused(place_in_lists(str(why), number)) from why

    def weights(self, lists: list[Any]) -> dict[str, int]:
        """The weights of the nodes on the ways down to all that are accessed, as they were at most a moment ago."""
        if time.monotonic() - self.known_at > KNOWN_SECONDS or len(self.known) > MOST_KNOWN:
            self.know_anew()
        paths = {above for accesses in lists for path in named(accesses) for above in way_down(path)}
        # One member's own are enough: nodes stay, and a plan by old weights is legal. What it hasn't all are asked for.
        self.learn(paths, since=1)
        self.learn(paths, since=0)
        return {path: self.known[path] for path in paths if path in self.known}

    def know_anew(self) -> None:
        """The weights of a small tree are read at once, and not with each call those that aren't known yet."""
        self.known, self.known_at = {}, time.monotonic()
        self.reweighing = last_weighing(self.members, self.keys).number
        found = self.members.read_since([reading_below(self.keys.whole("m"), MOST_AT_ONCE)], 1)
        for key, entry in found.entries.items():
            # What isn't a weight is refused to those that need it.
            with suppress(NoForm):
                self.known[self.keys.parts(key)[1]] = Weight.read(entry.value).at(self.reweighing)

    def learn(self, paths: set[str], since: int) -> None:
        """Reads the weights of these that aren't known."""
        new = {self.keys.weight(path): path for path in sorted(paths - self.known.keys())}
        found = self.members.read_side_by_side(list(map(reading, new)), since).entries
        self.known |= {new[key]: Weight.read(entry.value).at(self.reweighing) for key, entry in found.items()}

    def put_all(self, jobs: list[Job]) -> None:
        self.put_written(list(map(written_of, jobs)))

    def put_written(self, jobs: list[Written]) -> None:
        """Puts jobs, some transactions at once. Before others are made, one has to be without a refusal."""
        transactions = transactions_of(jobs)
        for some in transactions[:1]:
            self.put_until_answered(some)
        if len(transactions) > 1:
            with ThreadPoolExecutor(MOST_SENT) as pool:
                list(pool.map(self.put_until_answered, transactions[1:]))

    def put_until_answered(self, jobs: list[Written]) -> None:
        until = time.monotonic() + GIVE_UP_SECONDS
        for pause in pauses():
            try:
                jobs = self.put(jobs)
            except Lost:
                if time.monotonic() > until:
                    raise
                time.sleep(pause)
            if not jobs:
                break

    def put(self, jobs: list[Written]) -> list[Written]:
        """Puts jobs in one transaction, in which some at a time are put, or not: those among which some are there
        already. Gives the others of these."""
        batches = [jobs[start : start + MOST_JOBS] for start in range(0, len(jobs), MOST_JOBS)]
        dones = self.commits.make_all(list(map(self.part, batches)))
        failed = [(batch, done.found) for batch, done in zip(batches, dones) if not done.succeeded]
        return [each for batch, found in failed for each in batch if not self.is_there(each.job, found)]

    def part(self, jobs: list[Written]) -> Part:
        keys = [self.keys.job(job.name) for job, _ in jobs]
        puts = [putting(key, text) for key, (_, text) in zip(keys, jobs)]
        puts += [putting(self.keys.fresh(job.age, job.name), job.begins_at()) for job, _ in jobs]
        return Part(list(map(absent, keys)), puts, [], [], own=list(map(reading, keys)))

    def is_there(self, job: Job, found: Found) -> bool:
        """Has it been put before? Another one of its name is refused."""
        text = found.value(self.keys.job(job.name))
        if text is not None and not is_same(job, text):
            raise Refused(f"id-taken {job.name}")
        return text is not None

    def ends(self, names: list[str]) -> Iterator[tuple[str, Progress]]:
        """These jobs in the end, each once it has ended."""
        left = dict.fromkeys(names)
        while left:
            some = list(left)[:MOST_OPERATIONS]
            found = self.members.get(*map(self.keys.progress, some))
            texts = {name: found.value(self.keys.progress(name)) for name in some}
            ended = {name: text for name, text in texts.items() if text and Progress.read(text).has_ended()}
            for name, text in ended.items():
                del left[name]
                yield name, Progress.read(text)
            if not ended and left:
                first, last = min(left), max(left)
                self.await_change(self.keys.progress(first), after(self.keys.progress(last)), found.revision)

    def await_change(self, start: str, end: str, revision: int) -> None:
        """Waits until one of these jobs has ended. The watch may report other jobs whose names lie between theirs."""
        came = changes(self.members, Watched(start, end), revision, WATCH_SECONDS)
        try:
            for change in came:
                if change.value is not None and may_have_ended(change.value):
                    return
        finally:
            came.close()


def is_same(job: Job, text: str) -> bool:
    """Is that a job with the same list?"""
    try:
        return read_job(job.name, text).accesses == job.accesses
    except Refused:
        return False


def may_have_ended(progress: str) -> bool:
    try:
        return Progress.read(progress).has_ended()
    except NoForm:
        return True


def written_of(job: Job) -> Written:
    return Written(job, job.text())


def transactions_of(jobs: list[Written]) -> list[list[Written]]:
    """The jobs in lists that have no more of them, and no longer texts, than one transaction takes."""
    lists: list[list[Written]] = []
    size = 0
    for each in jobs:
        if not lists or len(lists[-1]) == MOST_JOBS * MOST_PARTS or size + len(each.text) > MOST_BYTES:
            lists.append([])
            size = 0
        lists[-1].append(each)
        size += len(each.text)
    return lists


def place_in_lists(fault: str, number: int) -> str:
    """A fault of a list, with its place among a document's lists (docs/FORMATS.md)."""
    parts = fault.split()
    if "list" not in parts:
        return f"{fault} lists {number}"
    at = parts.index("list")
    return " ".join([*parts[:at], "lists", str(number), *parts[at + 1 :]])
