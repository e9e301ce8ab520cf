"""Trials of hot nodes: each is held for as long as the trial likes, and many jobs wait for it. Those at another node
are done meanwhile, by few workers. No time decides: what is held is let go once they have been."""
import threading
from contextlib import contextmanager
from dataclasses import dataclass, field
from types import SimpleNamespace
from typing import Callable
from unittest import mock

from parked import put_all, started, workers_of
from store_at_hand import SECONDS, Store, one_group

from grove_etcd.jobs import Job
from grove_etcd.letting_go import drop_all

FREE, WAITING, MOST_THREADS = 20, 12, 8


@contextmanager
def held(store, paths):
    """By a job at each of these nodes, until this is left."""
    store.submit(*([["add", path, 1]] for path in paths))
    attempts = [store.attempt(number, patience=10 * SECONDS) for number in range(len(paths))]
    found = [one_group(attempt) for attempt in attempts]
    yield
    for attempt, seen in zip(attempts, found):
        attempt.run(seen)


@contextmanager
def set_aside(store, paths):
    """By a job that is set aside, and then dropped."""
    store.submit(*([["add", path, 1]] for path in paths))
    attempt = store.attempt(0)
    attempt.set_aside(one_group(attempt), "why not", 5)
    yield
    list(drop_all(store.members, store.keys, []))


def put_below_the_root(store, path):
    """Jobs that hold the root until they have the node."""
    plan = [["lock", "/"], ["lock", path], ["unlock", "/"], ["access", 0], ["unlock", path]]
    store.submitter.put_all([Job(f"below.{number}", number, [["add", path, 1]], plan) for number in range(WAITING)])


def put_at(store, path):
    put_all(store, path, WAITING, f"at-{len(path)}")


@dataclass
class Hot:
    """How nodes are held, and the jobs that wait for each; and the workers."""

    paths: list
    hold: Callable = held
    put: Callable = put_at
    count: int = 1
    works: bool = True
    how: dict = field(default_factory=dict)


HOT = {
    "one worker": Hot(["/a"]),
    "few may wait": Hot(["/a"], how={"most_waiting": 3}),
    "in several threads": Hot(["/a", "/a-d"], how={"threads": 3}),
    "several nodes": Hot(["/", "/a", "/a-d"], count=2),
    "jobs that hold the root": Hot(["/a"], put=put_below_the_root, count=2),
    "a job that is set aside": Hot(["/a"], hold=set_aside),
    "workers without work": Hot(["/a"], count=2, works=False),
}


def a_hot_node_holds_up_no_others(cluster, grove):
    faults = (fault_of_hot(cluster, grove, number, name) for number, name in enumerate(HOT))
    return "; ".join(fault for fault in faults if fault) or None


def fault_of_hot(cluster, grove, number, name):
    hot = HOT[name]
    store, works = Store(cluster, grove, f"hot-{number}"), (lambda *_: None) if hot.works else None
    before = sum(store.records(*hot.paths))
    workers = workers_of(cluster, store, hot.count, works, **hot.how)
    with hot.hold(store, hot.paths):
        threads = started(workers)
        for path in hot.paths:
            hot.put(store, path)
        put_all(store, "/b", FREE, "free")
        is_free = store.await_true(lambda: store.records("/b") == [FREE])
        waiting = sum(store.records(*hot.paths)) - before
    for thread in threads:
        thread.join(SECONDS)
    have_ended = not any(thread.is_alive() for thread in threads)
    store.audit()
    done = WAITING * len(hot.paths) + (len(hot.paths) if hot.hold is held else 0)
    came = is_free, waiting, have_ended, sum(store.records(*hot.paths)) - before, store.left("quvoa")
    return None if came == (True, 0, True, done, []) else f"{name}: came {came}"


class Few(threading.Thread):
    """The system gives no more than some of these at once."""

    there = []

    def start(self):
        Few.there = [thread for thread in Few.there if thread.is_alive()]
        if len(Few.there) >= MOST_THREADS:
            raise RuntimeError("can't start new thread")
        super().start()
        Few.there.append(self)


def a_worker_without_more_threads_goes_on(cluster, grove):
    """Each job that waits has one, and more would wait than the system gives threads."""
    store = Store(cluster, grove, "few-threads")
    few = SimpleNamespace(**{**vars(threading), "Thread": Few})
    with mock.patch("grove_etcd.worker.threading", few), mock.patch("grove_etcd.turns.ALONE_SECONDS", 0.0):
        worker = workers_of(cluster, store, 1, lambda *_: None, threads=2)[0]
        with held(store, ["/a"]):
            thread = started([worker])[0]
            put_at(store, "/a")
            has_said = store.await_true(lambda: worker.means.journal.counts["no_thread"] > 1)
            goes_on = thread.is_alive()
        thread.join(SECONDS)
    store.audit()
    came = has_said, goes_on, thread.is_alive(), store.records("/a"), store.left("quvo")
    return None if came == (True, True, False, [11 + WAITING], []) else f"came {came}"
