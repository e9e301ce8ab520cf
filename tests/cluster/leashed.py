"""Trials of the leash: whatever happens to a worker, no work goes on with its node unheld. The first ones are tried
without a leash too, so that they are seen to find such work. In the last one what happens is random."""
import signal
import subprocess
import threading
import time
from collections import Counter
from functools import partial
from random import Random

from store_at_hand import LEASHED, SECONDS, Untimely, await_true, in_time
from ways import Ways
from working import Counted

AT_A = [["add", "/a", 1]]
# How long others wait for a sign of life; and how long work takes, also without a leash, when they have to come to it.
PATIENCE, WORK, LOOSE_WORK = 1.0, 2.0, 4.0
WORDS = ["--patience", str(PATIENCE), "--tries", "50"]
# Of the trial at random: workers, lists, how long work takes, and the longest time for which something is stopped.
WORKERS, LISTS, WORK_AT_RANDOM = 6, [AT_A, [["add", "/", 1], ["add", "/b/c", 1]], [["add", "/b", 1]]] * 6, 1.2
LONGEST = 4 * PATIENCE


def begin_work(counted, *words):
    """A worker in its work."""
    begun = len(counted.tries())
    worker = counted.start("watch", *WORDS, *words)
    if not await_true(lambda: len(counted.tries()) > begun):
        raise Untimely("no work was begun")
    return worker


def do_the_rest(counted):
    """Others do what is left; gives how they end."""
    started = [counted.start("watch", *WORDS, "--until-ended") for _ in range(2)]
    return [worker.wait(SECONDS) for worker in started]


def stopped(_cluster, counted):
    """A worker that is stopped in its work, until others have done that."""
    worker = begin_work(counted)
    worker.send_signal(signal.SIGSTOP)
    statuses = do_the_rest(counted)
    worker.send_signal(signal.SIGCONT)
    return worker, statuses


def cut_off(cluster, counted, *words):
    """A worker that reaches no member from its work on, until others have done that. Its work does."""
    with Ways(cluster) as ways:
        worker = begin_work(counted, "--members", ways.addresses, *words)
        ways.cut()
        statuses = do_the_rest(counted)
        ways.mend()
    return worker, statuses


def is_unheld(counted):
    return any(told == "False" for _, told in counted.tries())


def no_work_goes_on_unheld(way, cluster, grove):
    return in_time(partial(fault_of_both, way, cluster, grove))


def fault_of_both(way, cluster, grove, number):
    """With a leash the worker is killed; without it goes on, and its node isn't held, if others come to it meanwhile.
    Each try gives them twice as long."""
    seconds = LOOSE_WORK * 2**number
    leashed = Counted(cluster, grove, f"{way.__name__}-{number}".replace("_", "-"), [AT_A], WORK)
    fault = fault_of_killed(leashed, *way(cluster, leashed))
    if fault:
        return fault
    loose = Counted(cluster, grove, f"loose-{way.__name__}-{number}".replace("_", "-"), [AT_A], seconds)
    loose.environment["COUNTED_UNLEASHED"] = "yes"
    worker, statuses = way(cluster, loose)
    is_seen = await_true(partial(is_unheld, loose), seconds)
    worker.kill()
    worker.wait()
    if not is_seen:
        raise Untimely(f"without a leash it wasn't seen, {loose.tries()}")
    return None


def fault_of_killed(counted, worker, statuses):
    """The worker was killed before others did its work, once more."""
    came = worker.poll(), statuses, is_unheld(counted)
    worker.kill()
    worker.wait()
    if LEASHED in statuses and not came[2]:
        raise Untimely(f"others ended with {statuses}")
    if came != (LEASHED, [0, 0], False):
        return f"it ended with {came[0]}, others with {statuses}, {counted.tries()}"
    return counted.fault(1, killed=1)


def a_stopped_worker_is_killed_in_its_work(cluster, grove):
    return no_work_goes_on_unheld(stopped, cluster, grove)


def a_worker_that_is_cut_off_is_killed_in_its_work(cluster, grove):
    return no_work_goes_on_unheld(cut_off, cluster, grove)


def others_wait_for_as_long_as_the_sign_says(cluster, grove):
    """The worker is more patient than they are, and is killed later."""
    return in_time(partial(others_wait, cluster, grove))


def others_wait(cluster, grove, number):
    counted = Counted(cluster, grove, f"patient-{number}", [AT_A], LOOSE_WORK)
    return fault_of_killed(counted, *cut_off(cluster, counted, "--patience", str(3 * PATIENCE)))


class Disturbed:
    """Workers, each with ways of its own to the members. Those that are killed are started again."""

    def __init__(self, cluster, grove, name):
        self.cluster, self.random = cluster, Random(name)
        self.counted = Counted(cluster, grove, name, LISTS, WORK_AT_RANDOM)
        self.ways = [Ways(cluster) for _ in range(WORKERS)]
        self.workers = [self.worker(number) for number in range(WORKERS)]
        self.ends, self.counts = [], Counter()

    def worker(self, number):
        return self.counted.start("watch", *WORDS, "--members", self.ways[number].addresses, stderr=subprocess.DEVNULL)

    def disturb(self):
        """Stops a worker, cuts it off, or stops all members, for a random time."""
        number, seconds = self.random.randrange(WORKERS), self.random.uniform(0.1, LONGEST)
        what = self.random.choice(["worker stopped", "worker cut off"] * 3 + ["members stopped"])
        if what == "worker cut off":
            self.ways[number].cut()
            end = self.ways[number].mend
        else:
            processes = self.cluster.started if what == "members stopped" else [self.workers[number]]
            send(processes, signal.SIGSTOP)
            end = partial(send, processes, signal.SIGCONT)
        self.ends.append(threading.Timer(seconds, end))
        self.ends[-1].start()
        self.counts[what] += 1
        self.counts["for long"] += seconds > PATIENCE / 2

    def has_work(self):
        """Also starts those again that were killed."""
        for number, worker in enumerate(self.workers):
            if worker.poll() == LEASHED:
                self.counts["killed"] += 1
                self.workers[number] = self.worker(number)
        store = self.counted.store
        return any(store.members.count(store.keys.whole(kind)) for kind in "qu")

    def run(self):
        """Gives how the workers ended; None if not all jobs have."""
        until = time.monotonic() + SECONDS
        while self.has_work() and time.monotonic() < until:
            self.disturb()
            time.sleep(self.random.uniform(0.3, 1.5))
        for end in self.ends:
            end.join()
        store = self.counted.store
        if not store.await_true(lambda: not self.has_work()):
            return None
        send(self.workers, signal.SIGTERM)
        return [worker.wait(SECONDS) for worker in self.workers]

    def end(self):
        for worker in self.workers:
            worker.kill()
            worker.wait()
        for ways in self.ways:
            ways.__exit__()


def send(processes, number):
    for process in processes:
        process.send_signal(number)


def whatever_is_stopped_no_work_goes_on_unheld(cluster, grove):
    """Each is done; and more than once only if the worker was killed, or stopped between its work and the commit."""
    return in_time(partial(something_is_stopped, cluster, grove))


def something_is_stopped(cluster, grove, _number):
    disturbed = Disturbed(cluster, grove, f"random-{time.time_ns()}")
    try:
        statuses = disturbed.run()
    finally:
        disturbed.end()
    told = ", ".join(f"{count} {what}" for what, count in sorted(disturbed.counts.items()))
    print(f"{told}; {len(disturbed.counted.tries())} notes", flush=True)
    # One that has only begun may not have heard that it is to end.
    if statuses is None or not {0, -signal.SIGTERM}.issuperset(statuses):
        return f"workers ended with {statuses}; {told}"
    causes = disturbed.counts["killed"] + disturbed.counts["for long"]
    return disturbed.counted.fault(sum(map(len, LISTS)), causes)
