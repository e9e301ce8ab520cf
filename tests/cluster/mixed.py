"""The mixed trial: jobs for a while, with workers and members killed, stopped and started again at random, one by one
and all together, and with work that fails and jobs that are none among them.

All jobs have to end that aren't set aside, and those that are have to have a reason; they are tried again or dropped. A
follower audits each epoch as it goes. Each epoch's replies, and the records in the end, have to be those of the lists
done one after the other in the orders that the audits printed, and no node may be held then.

No time decides: what is done to workers and members is done once jobs have gone on since the last time, each kind of it
at least once, however long that takes. What fails is that nothing goes on for two minutes.
"""
import json
import os
import signal
import threading
import time
from collections import Counter
from functools import partial
from pathlib import Path
from random import Random
from unittest import mock

from fleet import Started
from members_at_hand import Cluster
from soaked_work import always_fails
from store import Store
from store_at_hand import SECONDS, Programs, await_true, moved

from grove_etcd.following import Follower
from grove_etcd.jobs import Progress
from grove_etcd.keys import Keys
from grove_etcd.letting_go import drop_all
from grove_etcd.loading import load
from grove_etcd.setting_aside import failed, retry
from grove_etcd.submitting import Submitter
from grove_etcd.wire import putting

MEMBERS, LASTING, OTHERS, MOST_OPEN, MOST_ASIDE, LISTS = 3, 2, 4, 150, 12, 20
TRIES = 5
# How workers are called: those that are let be, one that does many jobs in one transaction, and the others.
LASTING_WORDS, SHORT_WORDS = ("--slot", "1"), ("--patience", "1")
OTHER_WORDS = ("--work", "soaked_work:perform", "--patience", "1", "--threads", "3", "--tries", str(TRIES))
# How long something is stopped at most, how long a worker without work lives, how long lies between two disturbances,
# and how often an epoch is audited.
LONGEST_STOP, SHORT_LIFE, BETWEEN, EVERY = 4.0, (0.5, 2.0), (0.3, 3.0), 2.0
# How workers may end: told to, killed by us or by a leash, ended by their work, and without a member for a minute.
STATUSES = {0, -signal.SIGTERM, -signal.SIGKILL, 9, 3}
NO_MEMBER = "no member answered"
NONE = ["{", '{"age":1,"list":[],"plan":[["access",0]]}', "[]", '{"age":1,"list":[],"plan":[["lock","/"]]}']
HERE = Path(__file__).resolve().parent
# What has to have happened in the end, for anything to have been tried.
WANTED = ("jobs", "jobs audited", "jobs that are none", "work failed", "tried again", "dropped")


class Mixed:
    def __init__(self, cluster, grove, document, seed):
        self.cluster, self.random, self.counts = cluster, Random(seed), Counter()
        self.members, self.keys = cluster.members(), Keys("mixed")
        load(self.members, self.keys, document["nodes"])
        self.model, self.lists = Store(document), {}
        self.programs = Programs(cluster, "mixed")
        self.submitter = Submitter(self.members, self.keys, grove)
        self.started, self.errors, self.short = 0, [], []
        self.lasting = [self.worker(LASTING_WORDS) for _ in range(LASTING)]
        self.others = [self.worker(OTHER_WORDS) for _ in range(OTHERS)]
        self.down, self.timers, self.fault, self.missed = set(), [], None, []
        self.kinds = [
            self.kill_a_worker,
            self.stop_a_worker,
            self.kill_all_workers,
            self.end_all_workers,
            self.kill_a_member,
            self.stop_a_member,
            self.stop_all_members,
            self.kill_all_members,
            self.kill_all,
            self.do_short_jobs,
        ]
        say, missed = self.compare, lambda *both: self.missed.append(both)
        self.follower = Follower(cluster.members(), self.keys, grove, say, missed, EVERY, forgets=True)
        self.following = threading.Thread(target=self.follow)
        self.following.start()

    def worker(self, words):
        errors = self.programs.room / f"mixed-{self.started}.err"
        self.started += 1
        environment = {**os.environ, "PYTHONPATH": str(HERE), "PYTHONDONTWRITEBYTECODE": "1"}
        with open(errors, "w", encoding="utf-8") as file:
            self.errors.append(errors)
            return Started(self.programs.start("work", *words, stderr=file, env=environment), errors)

    def follow(self):
        try:
            self.follower.run()
        except Exception as why:  # told in the end
            self.fault = self.fault or f"the follower: {type(why).__name__} {why}"

    # What goes on

    def submit(self):
        """Keeps some jobs to do. Of all lists some are long, and some jobs are none. The first job always fails."""
        left = sum(self.members.count(self.keys.whole(kind)) for kind in "qu")
        if left >= MOST_OPEN:
            return
        lists = [self.accesses(self.random.choice((1, 2, 8))) for _ in range(LISTS)]
        name = f"{self.random.getrandbits(64):x}"
        while not self.lists and not always_fails(f"{name}.0"):
            name = f"{self.random.getrandbits(64):x}"
        # Before they are submitted, since the follower may come to them at once.
        self.lists |= {f"{name}.{number}": accesses for number, accesses in enumerate(lists)}
        self.submitter.submit_all(lists, name)
        self.counts["jobs"] += len(lists)
        if self.random.random() < 0.3 or not self.counts["jobs that are none"]:
            name = f"none{self.counts['jobs that are none']}.0"
            self.lists[name] = []
            text = self.random.choice(NONE)
            self.members.write([putting(self.keys.job(name), text), putting(self.keys.fresh(1, name), "")])
            self.counts["jobs that are none"] += 1

    def accesses(self, count):
        return [random_access(self.random, self.model.tree.paths) for _ in range(count)]

    def start_again(self):
        """Workers that were killed, by `disturb`, by their work, or by their own timers."""
        for workers, words in ((self.lasting, LASTING_WORDS), (self.others, OTHER_WORDS)):
            for number, worker in enumerate(workers):
                if worker.process.poll() is not None:
                    self.need_status(worker)
                    workers[number] = self.worker(words)
                    self.counts["workers started again"] += 1

    def start_members(self):
        for member in sorted(self.down):
            self.cluster.start(member)
        self.down.clear()

    def need_status(self, worker):
        status, said = worker.process.poll(), worker.errors.read_text(encoding="utf-8")
        if status not in STATUSES or (status == 3 and NO_MEMBER not in said):
            self.fault = self.fault or f"a worker ended with status {status}: {said[-2000:]}"

    def look_at_those_set_aside(self):
        """Has them tried again, or drops them, now and then, and if they are many."""
        aside = self.set_aside()
        if len(aside) > MOST_ASIDE or (aside and self.random.random() < 0.03):
            is_first = not self.counts["tried again"]
            how = self.try_again if is_first or self.random.random() < 0.3 else self.drop
            how(aside)

    def set_aside(self):
        """Those that are set aside. Each has to have a reason: it always fails, it is none, or its work has failed so
        many times in a row, by itself or with its worker."""
        aside = dict(failed(self.members, self.keys))
        wrong = [f"{name}: {each.why[:200]}" for name, each in aside.items() if not has_reason(name, each)]
        if wrong:
            self.fault = self.fault or f"set aside without a reason: {wrong}"
        return list(aside)

    def try_again(self, names):
        self.counts["tried again"] += len(retry(self.members, self.keys, names))

    def drop(self, names):
        self.counts["dropped"] += len(list(drop_all(self.members, self.keys, names)))

    # What disturbs

    def disturb(self, kind):
        self.start_members()
        kind()
        self.counts[named(kind)] += 1

    def kill_a_worker(self):
        self.end([self.random.choice(self.others)], signal.SIGKILL)

    def stop_a_worker(self):
        self.stop_for_a_while([self.random.choice(self.others).process])

    def kill_all_workers(self):
        self.end(self.others, signal.SIGKILL)

    def end_all_workers(self):
        self.end(self.others, signal.SIGTERM)

    def kill_a_member(self):
        self.kill_members([self.random.randrange(MEMBERS)])

    def stop_a_member(self):
        self.stop_for_a_while([self.random.choice(self.cluster.started)])

    def stop_all_members(self):
        self.stop_for_a_while(list(self.cluster.started))

    def kill_all_members(self):
        self.kill_members(range(MEMBERS))

    def kill_all(self):
        """Workers and members."""
        self.end(self.others, signal.SIGKILL)
        self.kill_members(range(MEMBERS))

    def do_short_jobs(self):
        """By a worker without work, which is killed after a while."""
        self.short.append(self.worker(SHORT_WORDS))
        self.later(SHORT_LIFE, self.short[-1].process.kill)

    def end(self, workers, number):
        for worker in workers:
            worker.process.send_signal(number)

    def kill_members(self, numbers):
        """One stays away until the next disturbance; if the others aren't enough, they come back after a while."""
        for number in numbers:
            self.cluster.kill(number)
            self.down.add(number)
        if len(self.down) > 1:
            time.sleep(self.random.uniform(0, LONGEST_STOP / 2))
            self.start_members()

    def stop_for_a_while(self, processes):
        send(processes, signal.SIGSTOP)
        self.later((0, LONGEST_STOP), partial(send, processes, signal.SIGCONT))

    def later(self, seconds, what):
        self.timers.append(threading.Timer(self.random.uniform(*seconds), what))
        self.timers[-1].start()

    # What has to come out

    def compare(self, audited):
        """What is wrong with an epoch. Of a job that was dropped only some of the list was done."""
        self.counts["epochs"] += 1
        for number in json.loads(audited.lines["order"]):
            name = audited.jobs[number]
            key = self.keys.progress(name)
            came = Progress.read(self.members.get(key).value(key))
            accesses = self.lists.pop(name)
            wanted = [self.model.reply(access) for access in accesses[: len(came.replies)]]
            if came.replies != wanted or (came.dropped is None and len(wanted) != len(accesses)):
                self.fault = self.fault or f"{name}: wanted {wanted}; came {came}"
            self.counts["jobs audited"] += 1

    def moved(self):
        return *moved(self.members, self.keys), self.counts["epochs"]

    def run(self, seconds):
        """Until so many seconds are over, and all has been tried."""
        begun = time.monotonic()
        kinds = self.random.sample(self.kinds, len(self.kinds))
        minutes = 1
        while self.fault is None and (time.monotonic() - begun < seconds or self.untried()):
            last = self.moved()
            until = time.monotonic() + self.random.uniform(*BETWEEN)
            if not await_true(lambda: self.goes_on(last, until), moved=self.moved):
                return f"for {SECONDS:.0f} s nothing has happened{self.told()}"
            self.disturb(kinds.pop() if kinds else self.random.choice(self.kinds))
            if time.monotonic() - begun > 60 * minutes:
                print(f"    minute {minutes}: {self.summary()}", flush=True)
                minutes += 1
        return self.fault or self.end_all()

    def goes_on(self, last, until):
        """Has anything moved since, and is it time?"""
        self.start_again()
        self.submit()
        self.look_at_those_set_aside()
        return self.fault or (self.moved() != last and time.monotonic() > until)

    def end_all(self):
        for timer in self.timers:
            timer.join()
        self.start_members()
        if not await_true(lambda: self.fault or self.have_all_ended(), moved=self.moved):
            return f"jobs haven't ended{self.told()}"
        if not await_true(lambda: self.fault or not self.lists, moved=self.moved):
            return f"{len(self.lists)} jobs aren't in an epoch{self.told()}"
        self.follower.stop()
        self.following.join()
        held = [key for key, entry in self.members.below(self.keys.whole("o")).entries.items() if entry.value]
        found = self.members.below(self.keys.whole("r"))
        came = [int(found.value(self.keys.record(path)) or "0") for path in self.model.tree.paths]
        fault = self.fault or (f"{held} are held" if held else None)
        return fault or (None if came == self.model.records else "the records are others")

    def have_all_ended(self):
        """Those that are set aside are dropped, so that others get their nodes."""
        self.start_again()
        self.drop(self.set_aside())
        return not any(self.members.count(self.keys.whole(kind)) for kind in "qua")

    def untried(self):
        """What is to be tried, and hasn't been yet."""
        self.counts["work failed"] = self.said("work_failed")
        return [name for name in (*WANTED, *map(named, self.kinds)) if not self.counts[name]]

    def said(self, event):
        """In how many lines workers have said that."""
        return sum(errors.read_text(encoding="utf-8").count(f" {event} ") for errors in self.errors)

    def summary(self):
        return f"{dict(self.counts)}, missed {self.missed}, memory {self.memory()} KiB"

    def memory(self):
        """Of the workers that are let be, in KiB."""
        texts = [Path(f"/proc/{worker.process.pid}/status") for worker in self.lasting]
        told = (text.read_text(encoding="utf-8").partition("VmRSS:")[2].split() for text in texts if text.exists())
        return [int(words[0]) for words in told if words]

    def told(self):
        """Of jobs and workers, if it doesn't go on."""
        said = [f"{worker.errors.name}: {worker.errors.read_text()[-500:]}" for worker in self.lasting + self.others]
        return "\n    ".join(["", self.summary(), self.programs.run("status", "--failed")[1], *said])

    def stop(self):
        """Ends all that goes on."""
        for timer in self.timers:
            timer.join()
        for worker in self.lasting + self.others + self.short:
            worker.process.kill()
            worker.process.wait()
        self.follower.stop()
        self.following.join()


def named(kind):
    return kind.__name__.replace("_", " ")


def has_reason(name, aside):
    return always_fails(name) or name.startswith("none") or aside.fails >= TRIES


def send(processes, number):
    for process in processes:
        process.send_signal(number)


def random_access(random, paths):
    operation, path = random.choice(["get", "set", "add", "take"]), random.choice(paths)
    return [operation, path] if operation == "get" else [operation, path, random.randint(0, 5)]


def fault_of_mixed(grove, document, seconds, seed):
    """What is wrong; what was tried is printed."""
    patience = [mock.patch(f"grove_etcd.{module}.GIVE_UP_SECONDS", SECONDS) for module in ("members", "submitting")]
    with patience[0], patience[1], Cluster(MEMBERS) as cluster:
        trial = Mixed(cluster, grove, document, seed)
        try:
            fault = trial.run(seconds)
            print(f"    seed {seed}, {seconds:.0f} s: {trial.summary()}", flush=True)
        finally:
            trial.stop()
    return f"seed {seed}: {fault}" if fault else None
