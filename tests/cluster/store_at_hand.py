"""A store of a small tree on a cluster, and the programs of cluster/ called on one."""
import signal
import subprocess
import time
from pathlib import Path

from members_at_hand import TOP

from grove_etcd.attempt import Attempt, Means
from grove_etcd.auditing import audit, forget
from grove_etcd.groups import group_of
from grove_etcd.keys import Keys
from grove_etcd.loading import load
from grove_etcd.refusals import Refused
from grove_etcd.seeing import window
from grove_etcd.standing import Standing
from grove_etcd.submitting import Submitter
from grove_etcd.worker import Worker
from grove_etcd.works import slots

PROGRAMS = TOP / "cluster"
# How long whatever is awaited may take.
SECONDS = 120.0
# How often a trial is made that may be untimely.
TRIES = 5
# A slot, in seconds, so that a job's steps are taken in several groups.
SLOT = 0.001
SMALL = [
    {"parent": None, "name": "", "weight": 50},
    {"parent": 0, "name": "a", "weight": 4, "value": 10},
    {"parent": 0, "name": "b", "weight": 1},
    {"parent": 2, "name": "c", "weight": 9, "value": 5},
    {"parent": 0, "name": "a-d", "weight": 3},
]
# Its plan locks /, /a and /b and lets / go before the first access, since / is heavy: by slots, that is the first
# group.
BOTH = [["add", "/a", 1], ["add", "/b", 1]]
# How a worker ends that its leash has killed; and how whoever had no answer in time ends: such a worker, and a program
# that no member has answered for a minute.
LEASHED = -signal.SIGKILL
UNANSWERED = {LEASHED, 3}


class Untimely(Exception):
    """Nothing is wrong, but things didn't come about at the times at which they had to: so nothing was shown."""


def untimely_if_unanswered(statuses):
    """Whoever had no processor, or no answer from etcd, for as long as it, or others, may wait."""
    if UNANSWERED.intersection(statuses):
        raise Untimely(f"programs ended with {statuses}")


def in_time(trial):
    """What the trial gives, which gets the number of the try: it is made again if it was untimely."""
    for number in range(TRIES):
        try:
            return trial(number)
        except Untimely as untimely:
            told = f"{untimely}, or as much in each of {TRIES} tries"
    return told


class Store:
    """A store of the small tree, with a job for each of the lists."""

    def __init__(self, cluster, grove, name, lists=(), rows=SMALL):
        self.members, self.keys, self.grove = cluster.members(), Keys(name), grove
        load(self.members, self.keys, rows)
        self.submitter = Submitter(self.members, self.keys, grove)
        self.jobs = [self.submitter.submit(accesses) for accesses in lists]

    def submit(self, *lists):
        self.jobs += [self.submitter.submit(accesses) for accesses in lists]

    def submit_planned(self, accesses, plan):
        self.jobs.append(self.submitter.submit_planned(accesses, plan))

    def left(self, kinds="qu"):
        """The keys of these kinds that are there, and of owners those that have one."""
        found = (self.members.below(self.keys.whole(kind)).entries.items() for kind in kinds)
        return [key for each in found for key, entry in each if entry.value or not key.startswith(self.keys.whole("o"))]

    def await_true(self, wanted):
        """The same, of what the store's jobs bring about."""
        return await_true(wanted, moved=lambda: moved(self.members, self.keys))

    def worker(self, kind=Attempt, **how):
        """One in the trial's own process, which isn't to be killed."""
        worker = Worker(self.members, self.keys, leashed=False, **how)
        worker.attempt = kind
        if kind is not Attempt:
            # One with a planted bug does each job by itself.
            worker.do_together = lambda jobs, _names: jobs
        return worker

    def work(self, kind=Attempt, **how):
        """Does all jobs, by attempts of this kind."""
        self.worker(kind, **how).run(until_ended=True)

    def attempt(self, number, kind=Attempt, slot=SLOT, **how):
        """At a job of the store, by a worker of its own."""
        worker = self.worker(kind)
        means = Means(self.members, self.keys, worker.means.name, slots(slot) if slot else None, **how)
        return kind(means, worker.jobs([self.jobs[number]])[0])

    def do(self, *lists, kind=Attempt, **how):
        self.submit(*lists)
        self.work(kind, **how)

    def audit(self, epoch=None):
        return audit(self.members, self.keys, self.grove, epoch)

    def forget(self, epoch):
        forget(self.members, self.keys, epoch)

    def read(self, key):
        return self.members.get(key).value(key)

    def read_entry(self, key):
        return self.members.get(key).entries[key]

    def write(self, *changes):
        self.members.write(list(changes))

    def records(self, *paths):
        return [int(self.read(self.keys.record(path)) or "0") for path in paths]


def refusal(call, *words):
    """What the call gives, or the refusal."""
    try:
        return call(*words)
    except Refused as refused:
        return f"refused {refused}"


def one_group(attempt, found=None):
    """Takes the next group of an attempt, and gives the job as it is then."""
    found = found or attempt.look(0)
    steps = window(attempt.job, found.progress.step)
    return attempt.commit(
        found, group_of(attempt.keys, attempt.job, steps, found.progress, found.found, attempt.limits)
    )


class Programs:
    """The programs, called on a store of the cluster."""

    def __init__(self, cluster, store):
        self.cluster, self.store = cluster, store
        self.words = ["--members", cluster.addresses, "--store", store, *cluster.credentials]
        self.room = Path(cluster.room.name)

    def start(self, name, *words, **how):
        how = {"stdin": subprocess.DEVNULL, **how}
        return subprocess.Popen([PROGRAMS / name, *self.words, *words], text=True, **how)

    def ran(self, name, *words, **how):
        command = [PROGRAMS / name, *self.words, *words]
        return subprocess.run(command, capture_output=True, text=True, check=False, **how)

    def run(self, name, *words):
        """The status, and all that it prints."""
        ran = self.ran(name, *words)
        return ran.returncode, ran.stdout + ran.stderr

    def lines(self, name, *words):
        """What it prints that isn't said on standard error."""
        ran = self.ran(name, *words)
        if ran.returncode:
            how = Untimely if ran.returncode in UNANSWERED else RuntimeError
            raise how(f"{name} ended with status {ran.returncode}: {ran.stdout}{ran.stderr}")
        return ran.stdout.splitlines()

    def status(self):
        """How many jobs there are, how many have ended, and how many nodes are held."""
        words = self.lines("status")[0].split()
        return int(words[2]), int(words[4]), int(words[6])

    def standing(self):
        """The same, read at once, if a program would come too late."""
        return Standing.read(self.cluster.members(), Keys(self.store), None)

    def file(self, name, content):
        path = self.room / name
        path.write_text(content, encoding="utf-8")
        return str(path)


def moved(members, keys):
    """How many groups were taken, and how many jobs there are of each kind: whatever a job does changes one of them."""
    return [members.count(keys.whole(kind)) for kind in "equa"]


def await_true(wanted, seconds=SECONDS, moved=lambda: None):
    """Whether it comes true. It is given up once nothing has moved for so long."""
    last, since = moved(), time.monotonic()
    while not wanted():
        now = moved()
        if now != last:
            last, since = now, time.monotonic()
        if time.monotonic() - since > seconds:
            return False
        time.sleep(0.05)
    return True
