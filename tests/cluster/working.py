"""Trials of work: with its node held, once for each try, by workers that are slow, that are killed, and that fail."""
import http.client
import os
import signal
import subprocess
import threading
import time
from collections import Counter
from functools import partial
from pathlib import Path

from members_at_hand import TOP
from server import HOST, free_port
from store_at_hand import SECONDS, Programs, Store, Untimely, await_true, in_time, one_group, untimely_if_unanswered

from grove_etcd.worker import Worker

HERE = Path(__file__).parent
ROOT = [["add", "/", 1], ["add", "/a", 1]]
# How long a job may be without a sign of life, in seconds, until it is taken up.
PATIENCE = 0.3


class Counted:
    """Workers whose work is counted, on a store with jobs for these lists."""

    def __init__(self, cluster, grove, name, lists, seconds):
        self.store = Store(cluster, grove, name, lists)
        self.programs = Programs(cluster, name)
        self.room = Path(cluster.room.name, name)
        self.room.mkdir()
        self.environment = {
            **os.environ,
            "PYTHONPATH": f"{HERE}:{TOP}/cluster",
            "PYTHONDONTWRITEBYTECODE": "1",
            "COUNTED_ROOM": str(self.room),
            "COUNTED_MEMBERS": cluster.addresses,
            "COUNTED_STORE": name,
            "COUNTED_SECONDS": str(seconds),
        }

    def start(self, function, *words, **how):
        words = ["--work", f"counted_work:{function}", *words]
        return self.programs.start("work", *words, env=self.environment, **how)

    def tries(self):
        """Each line's token with what is told of it."""
        file = self.room / "tries"
        return [line.split() for line in file.read_text().splitlines()] if file.exists() else []

    def fault(self, accesses, killed=0):
        """Each access has been done, each try with the node held, and none more often than there was cause. A worker
        without a processor for as long as others are patient is one of those that were killed; then it is untimely."""
        self.store.audit()
        held = Counter(token for token, told in self.tries() if told == "True")
        unheld = [token for token, told in self.tries() if told == "False"]
        begun = Counter(token for token, told in self.tries() if told == "begun")
        more = sum(begun.values()) - len(begun)
        told = f"{unheld} weren't held, {len(held)} of {accesses} were done, {more} more than once; {held}"
        if len(held) != accesses:
            return told
        if more > killed:
            raise Untimely(told)
        return told if unheld or (not killed and set(held.values()) != {1}) else None


def slow_work_is_done_once(cluster, grove):
    """Work that takes far longer than a worker is patient, by more workers than have anything to do at once."""
    return in_time(partial(slow_work, cluster, grove))


def slow_work(cluster, grove, number):
    counted = Counted(cluster, grove, f"slow-{number}", [ROOT] * 4, 2.0)
    started = [counted.start("begin", "--patience", "1", "--until-ended") for _ in range(4)]
    statuses = [worker.wait(SECONDS) for worker in started]
    return counted.fault(8) or fault_of(statuses)


def work_of_a_killed_worker_is_done_again(cluster, grove):
    return in_time(partial(work_again, cluster, grove))


def work_again(cluster, grove, number):
    counted = Counted(cluster, grove, f"redone-{number}", [ROOT] * 6, 0.3)
    killed = 2
    for turn in range(killed):
        worker = counted.start("begin", "--patience", "1")
        begun = len(counted.tries())
        if not await_true(lambda: len(counted.tries()) > begun and counted.tries()[-1][1] == "begun"):
            return "no work was begun"
        worker.send_signal(signal.SIGKILL)
        worker.wait()
    started = [counted.start("begin", "--patience", "1", "--until-ended") for _ in range(3)]
    statuses = [worker.wait(SECONDS) for worker in started]
    return counted.fault(12, killed) or fault_of(statuses)


def fault_of(statuses):
    untimely_if_unanswered(statuses)
    return f"statuses {statuses}" if any(statuses) else None


class TakesUpLate(Worker):
    """Reads the job that it has decided to take up only once another worker has done so."""

    other = None

    def jobs(self, names):
        if self.other is not None:
            self.other()
        return super().jobs(names)


def an_abandoned_job_is_taken_up_once(cluster, grove):
    """Two workers find the job abandoned at the same time, and the second one leaves it to the first."""
    return in_time(partial(taken_up_once, cluster, grove))


def taken_up_once(cluster, grove, number):
    store, patience = Store(cluster, grove, f"late-{number}", [[["add", "/a", 1]]]), PATIENCE * 2**number
    one_group(store.attempt(0, patience=patience))
    works = []

    def work(_access, _record, token):
        works.append(token)
        time.sleep(5 * patience)

    first, late = (kind(store.members, store.keys, work, patience, leashed=False) for kind in (Worker, TakesUpLate))
    thread = threading.Thread(target=first.run, args=(True,))

    def take_up():
        late.other = None
        thread.start()
        await_true(lambda: works)

    late.other = take_up
    late.run(until_ended=True)
    thread.join()
    store.audit()
    if len(works) > 1:
        raise Untimely(f"{works}")
    return None if (works, store.records("/a")) == ([f"{store.jobs[0]}/0"], [11]) else f"{works}, {store.records('/a')}"


def work_that_fails_sets_its_job_aside(cluster, grove):
    """Others go on, the job is named, and ends once it is tried again."""
    counted = Counted(cluster, grove, "fails", [[["add", "/a", 1]], [["add", "/b", 1]]], 0)
    (counted.room / "broken").touch()
    aside, other = counted.store.jobs
    worker = counted.start("fail_at_a", "--tries", "3", "--until-ended", stderr=subprocess.PIPE)
    errors = worker.communicate(timeout=SECONDS)[1]
    untimely_if_unanswered([worker.returncode])
    told = counted.programs.lines("status", "--failed")
    tries = Counter(token for token, _ in counted.tries())
    early = counted.programs.run("retry", other)
    (counted.room / "broken").unlink()
    again = counted.programs.lines("retry")
    untimely_if_unanswered([counted.start("fail_at_a", "--until-ended").wait(SECONDS)])
    counted.store.audit()
    came = worker.returncode, told[-1], tries[f"{aside}/0"], early, again, counted.store.records("/a", "/b")
    failed = f"failed {aside}: RuntimeError: the machine is broken; it holds /a"
    wanted = 0, failed, 3, (1, f"refused not-set-aside {other}\n"), [f"to be tried {aside}"], [11, 1]
    if "set_aside" not in errors or "Traceback" in errors:
        return f"it said {errors}"
    return None if came == wanted else f"wanted {wanted}; came {came}"


def a_worker_that_is_told_to_end_ends_after_its_group(cluster, grove):
    """And another one goes on at once, however patient it is; meanwhile its counts can be read. Its first work takes
    long enough for all that is asked of it."""
    return in_time(partial(ends_after_its_group, cluster, grove))


def ends_after_its_group(cluster, grove, number):
    counted = Counted(cluster, grove, f"ending-{number}", [ROOT], 5 * 2**number)
    port = free_port()
    worker = counted.start("begin", "--verbose", "--metrics", str(port), stderr=subprocess.PIPE)
    if not await_true(lambda: counted.tries()):
        return "no work was begun"
    metrics = asked(port, "/metrics"), asked(port, "/")
    worker.send_signal(signal.SIGTERM)
    errors = worker.communicate(timeout=SECONDS)[1]
    another = counted.start("begin", "--patience", str(10 * SECONDS), "--until-ended")
    statuses = worker.returncode, another.wait(SECONDS)
    if 'grove_worker_events_total{event="work"} 1' not in metrics[0] or metrics[1] != "not found\n":
        raise Untimely(f"its counts were {metrics}")
    untimely_if_unanswered(statuses)
    if statuses != (0, 0) or f"left job={counted.store.jobs[0]}" not in errors or "stopped" not in errors:
        return f"statuses {statuses}, {errors}"
    return counted.fault(2)


def asked(port, path):
    """The body of what is answered."""
    connection = http.client.HTTPConnection(HOST, port, timeout=60)
    connection.request("GET", path)
    body = connection.getresponse().read().decode()
    connection.close()
    return body
