"""Trials of `audit --follow`: what happens is checked as it happens, and what no event tells of is refused by name."""
import json
import threading
from functools import partial

import between
from parked import put_all, started, workers_of
from planted import Strays, StraysWithAnEvent, TellsAnotherRecord, told_as
from spoiled import AT_A, put_job, text_of
from store_at_hand import BOTH, SECONDS, Programs, Store, await_true, one_group, refusal

from etcd3 import etcdrpc
from grove_etcd.auditing import Auditor
from grove_etcd.chain import Left
from grove_etcd.failures import cut
from grove_etcd.following import Followed as Kept
from grove_etcd.following import Follower
from grove_etcd.head import head_text
from grove_etcd.jobs import Event, Progress, Waiter
from grove_etcd.keys import Keys
from grove_etcd.letting_go import drop_all, let_go
from grove_etcd.past import Epoch
from grove_etcd.setting_aside import retry
from grove_etcd.weighing import reweigh
from grove_etcd.wire import choosing, deleting, putting

EVERY = 0.2


class Followed:
    """A follower in a thread, with the epochs that it has closed, and how it ended."""

    def __init__(self, cluster, store, **how):
        self.epochs, self.missed, self.end = [], [], None
        say, missed = self.epochs.append, lambda *both: self.missed.append(both)
        self.follower = Follower(cluster.members(), store.keys, store.grove, say, missed, EVERY, **how)
        self.thread = threading.Thread(target=self.run)
        self.thread.start()

    def run(self):
        try:
            self.end = refusal(self.follower.run)
        except Exception as why:  # told by the trial
            self.end = f"{type(why).__name__}: {why}"

    def jobs(self):
        return [name for epoch in self.epochs for name in epoch.jobs]

    def stop(self):
        self.follower.stop()
        self.thread.join(SECONDS)
        return self.end

    def __enter__(self):
        return self

    def __exit__(self, *_):
        self.stop()


def what_happens_is_followed(cluster, grove):
    """Jobs that wait, that are begun with the end of others, set aside, retried, dropped and late, done by several
    workers; the follower is stopped and goes on, and another audit closes an epoch beside it."""
    store = Store(cluster, grove, "followed", [BOTH] * 3)
    fails = {store.jobs[0]}

    def work(_access, _record, token):
        if token.partition("/")[0] in fails:
            raise RuntimeError("no")

    with Followed(cluster, store) as first:
        threads = started(workers_of(cluster, store, 3, work, tries=1, patience=SECONDS), False)
        put_all(store, "/b/c", 20, "many")
        await_true(lambda: store.left("a"))
        store.submitter.submit_all([BOTH] * 4, "late", by=0)
        retry(store.members, store.keys, store.jobs[:1])
        await_true(lambda: len(store.left("a")) == 1)
        await_true(lambda: len(first.jobs()) >= 20)
    list(drop_all(store.members, store.keys, store.jobs[:1]))
    await_true(lambda: not store.left("qua"))
    beside = store.audit().jobs
    reweigh(store.members, store.keys)
    with Followed(cluster, store, forgets=True) as second:
        put_all(store, "/a", 20, "more")
        await_true(lambda: len(second.jobs()) >= 20)
        await_true(lambda: not store.left("p"))
    jobs = sorted(first.jobs() + beside + second.jobs())
    stop_all(threads)
    wanted = sorted([*store.jobs, *(f"{name}.{n}" for name in ("many", "more") for n in range(20))])
    wanted = sorted([*wanted, *(f"late.{n}" for n in range(4))])
    came = first.end, second.end, jobs == wanted, first.missed + second.missed, store.left("pjqux")
    return None if came == (None, None, True, [], []) else f"came {came}, {set(wanted) ^ set(jobs)}"


def one_that_was_stopped_while_it_closed_an_epoch_goes_on(cluster, grove):
    """What it had put of that was seen by it up to the epoch's jobs, or up to what it left."""
    came = {seen: followed_from(cluster, grove, seen) for seen in (0, 1)}
    return None if came == dict.fromkeys((0, 1), (None, ["next.0"], [])) else f"came {came}"


def followed_from(cluster, grove, seen):
    store = Store(cluster, grove, f"halfway-{seen}", [BOTH] * 2)
    store.work()
    auditor = Auditor(store.members, store.keys, grove)
    jobs = [past.job.name for past in auditor.open_jobs()]
    began = store.members.get(store.keys.head()).revision
    store.write(putting(store.keys.closed(auditor.head.epoch), Epoch(jobs).text()))
    store.audit()
    store.write(putting(store.keys.followed(), Kept(began + 1 + seen).text()))
    with Followed(cluster, store) as follower:
        put_job(store, "next.0", text_of([["add", "/a", 1]], AT_A, 99), 99)
        store.work()
        await_true(lambda: follower.jobs() or follower.end)
    return follower.end, follower.jobs(), follower.missed


def a_name_that_no_job_has_stops_nobody(cluster, grove):
    """It is so long that etcd takes no transaction with several of such names, or even with one twice. A submitter may
    put it; workers, a follower and audits pass it by."""
    store, programs = Store(cluster, grove, "long-names"), Programs(cluster, "long-names")
    with Followed(cluster, store) as first:
        for age, length in enumerate([300_000] * 6 + [700_000] * 4 + [1_400_000]):
            name = f"{'n' * length}.{age}"
            store.write(putting(store.keys.job(name), "{"))
            store.write(putting(store.keys.fresh(age, name), ""))
        put_job(store, "good.0", text_of([["add", "/a", 1]], AT_A, 99), 99)
        threads = started([store.worker()], False)
        has_ended = store.await_true(lambda: not store.left() and not first.end)
        await_true(lambda: first.jobs() or first.end)
        stop_all(threads)
    came = has_ended, store.left("qua"), first.end, first.jobs(), store.records("/a")
    wanted = True, [], None, ["good.0"], [11]
    lines = [line for line in programs.lines("status", "--jobs") if line.startswith(("job ", "left-out "))]
    told, wanted_told = (lines, refusal(store.audit)), ([], "refused no-jobs")
    return None if (came, told) == (wanted, wanted_told) else f"came {cut(str((came, told)))}"


def stop_all(threads):
    for thread in threads:
        thread.worker.stop()
        thread.join()


# What is done to a store in which a job at /a and /b is in a closed epoch, another has ended since, and a third is
# under way; and what the follower says. By keys that workers may write, through nested transactions or not.
def nested(*operations):
    return choosing([], list(operations), [])


def write_again(kind, job=None):
    """What stands at a key is put there once more: that of a node, or of a job by its number."""

    def write(store):
        key = kind(store.keys, "/a" if job is None else store.jobs[job])
        store.write(putting(key, store.read(key)))

    return write


def forged_record_of_an_epoch(store):
    """With the record of the node to match."""
    key = store.keys.left("/a", 1)
    left = Left.read(store.read(key))
    store.write(nested(putting(key, Left(99, left.revision, left.hands, left.freed).text())))


def a_place_in_line_with_an_end(store):
    """Whoever hands the node on puts what stands there, which is the progress of a job that has ended."""
    ended = Progress(3, 3, 1, replies=[1000])
    age = json.loads(store.read(store.keys.job(store.jobs[3])))["age"]
    store.write(putting(store.keys.waiter("/b", age, store.jobs[3]), Waiter(0, ended.members()).text()))
    let_go(store.members, store.keys, store.jobs[2])


def an_event_of_nobody(store):
    told = Event(1, False, {}).text(), Progress(1, 3, 1).text()
    store.write(nested(putting(store.keys.event("x.0", 0), told[0]), putting(store.keys.progress("x.0"), told[1])))


FORGED = {
    "a record": (lambda s: s.write(nested(putting(s.keys.record("/a"), "99"))), "stray-record /a"),
    "the same record": (write_again(Keys.record), "stray-record /a"),
    "a record that is gone": (lambda s: s.write(deleting(s.keys.record("/a"))), "stray-record /a"),
    "what an epoch left": (forged_record_of_an_epoch, "stray-epoch "),
    "what an epoch left is gone": (lambda s: s.write(deleting(s.keys.left("/a", 1))), "stray-epoch "),
    "an epoch's jobs": (lambda s: s.write(nested(putting(s.keys.closed(1), Epoch(["x.0"]).text()))), "stray-epoch "),
    "a made-up epoch": (lambda s: s.write(nested(putting(s.keys.closed(2), Epoch(["x.0"]).text()))), "stray-epoch "),
    "an epoch that is gone": (lambda s: s.write(deleting(s.keys.closed(1))), "stray-epoch "),
    "the head": (lambda s: s.write(nested(putting(s.keys.head(), head_text(3)))), "stray-epoch "),
    "a loaded record": (lambda s: s.write(nested(putting(s.keys.weight("/a"), "4 0 99"))), "stray-weight /a"),
    "a node": (lambda s: s.write(nested(putting(s.keys.weight("/q"), "4 0 0"))), "stray-weight /q"),
    "a node that is gone": (lambda s: s.write(nested(deleting(s.keys.weight("/a")))), "stray-weight /a"),
    "a job that is put again": (write_again(Keys.job, 1), "job-"),
    "a job that is gone": (lambda s: s.write(deleting(s.keys.job(s.jobs[2]))), "job-gone "),
    "an owner": (lambda s: s.write(putting(s.keys.owner("/b/c"), "x.0")), "left-out /b/c"),
    "an owner that is gone": (lambda s: s.write(deleting(s.keys.owner("/b"))), "left-out /b"),
    "a progress": (write_again(Keys.progress, 2), "left-out "),
    "a progress that is gone": (lambda s: s.write(deleting(s.keys.progress(s.jobs[1]))), "left-out "),
    "an event that is gone": (lambda s: s.write(deleting(s.keys.event(s.jobs[1], 0))), "left-out "),
    "an event too many": (
        lambda s: s.write(putting(s.keys.event(s.jobs[2], 1), '{"takes":0,"mark":false,"records":{}}')),
        "left-out ",
    ),
    "nobody goes on": (lambda s: s.write(deleting(s.keys.under_way(s.jobs[2]))), "left-out "),
    "nobody begins": (lambda s: s.write(deleting(s.left("q")[0])), "left-out "),
    "a stray write": (lambda s: s.do([["add", "/b/c", 1]], kind=Strays), "stray-record /a"),
    "a stray write that is told": (lambda s: s.do([["add", "/b/c", 1]], kind=StraysWithAnEvent), "stray-record /a"),
    "another record than is told": (lambda s: s.do([["add", "/b/c", 1]], kind=TellsAnotherRecord), "stray-record /b/c"),
    "the same owner": (lambda s: s.write(putting(s.keys.owner("/b"), s.jobs[2])), "left-out /b"),
    "what a later epoch left": (lambda s: s.write(nested(putting(s.keys.left("/a", 9), "{}"))), "stray-epoch "),
    "a closed job that is put again": (write_again(Keys.job, 0), "job-rewritten "),
    "a closed job's replies": (write_again(Keys.progress, 0), "left-out "),
    "an event of nobody": (an_event_of_nobody, "left-out x.0"),
    "a place in line with an end": (a_place_in_line_with_an_end, "not-at-its-end "),
    "a job that is done again": (lambda s: between.begin_again(s, s.jobs[1]), "left-out "),
}


def what_no_event_tells_of_is_refused(cluster, grove):
    """At once, whatever is made of it later."""
    faults = (fault_of_forged(cluster, grove, number, name) for number, name in enumerate(FORGED))
    return "; ".join(fault for fault in faults if fault) or None


def fault_of_forged(cluster, grove, number, name):
    plant, wanted = FORGED[name]
    store = Store(cluster, grove, f"forged-{number}")
    store.do(BOTH)
    store.audit()
    store.do([["add", "/a", 1]])
    store.submit([["add", "/b", 1]], [["add", "/b", 1]])
    one_group(store.attempt(2, patience=SECONDS))
    with Followed(cluster, store, anew=True) as followed:
        followed.follower.every = SECONDS
        run_beside(partial(plant, store), followed)
    fault = told_as(followed.end, wanted)
    return fault and f"{name}: {fault}"


def run_beside(plant, followed):
    thread = threading.Thread(target=plant, daemon=True)
    thread.start()
    followed.thread.join(SECONDS)


def what_was_compacted_is_said_to_be_missed(cluster, grove):
    """The follower goes on with the present; and while it follows, compaction behind it does no harm."""
    store = Store(cluster, grove, "compacted")
    with Followed(cluster, store) as first:
        store.do([["add", "/a", 1]])
        await_true(lambda: first.jobs())
        compact(store)
        store.do([["add", "/a", 1]])
        await_true(lambda: len(first.jobs()) == 2)
    store.do([["add", "/a", 1]])
    compact(store)
    with Followed(cluster, store) as second:
        await_true(lambda: second.jobs())
    came = first.end, second.end, first.missed, len(second.missed), len(first.jobs()), len(second.jobs())
    return None if came == (None, None, [], 1, 2, 1) else f"came {came}"


def compact(store):
    revision = store.members.get(store.keys.head()).revision
    etcdrpc.KVStub(store.members.asked.channel).Compact(etcdrpc.CompactionRequest(revision=revision, physical=True))


def it_is_followed_by_the_program(cluster, grove):
    """It prints each epoch, and ends by SIGTERM with what it has come to kept."""
    store, programs = Store(cluster, grove, "program"), Programs(cluster, "program")
    ran = programs.start("audit", "--grove", grove, "--follow", "--every", "0.2", "--forget", stdout=-1, stderr=-1)
    first = ran.stdout.readline()
    store.do(BOTH)
    lines = [ran.stdout.readline() for _ in range(2)]
    ran.terminate()
    rest = ran.communicate(timeout=SECONDS)
    kept = store.read(store.keys.followed())
    is_well = first.startswith("follows from revision ") and lines[0] == "epoch 1\n" and store.jobs[0] in lines[1]
    return None if is_well and ran.returncode == 0 and kept and not rest[1] else f"{first}, {lines}, {rest}, {kept}"
