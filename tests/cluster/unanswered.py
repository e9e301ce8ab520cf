"""Trials of what brings no answer. A transaction was made or not: a job that names a worker ends, although the worker
gives signs of life for others. And members that were all away are found again."""
import json
import threading
import time
from unittest import mock

import grpc
from members_at_hand import Cluster
from parked import put_all, started
from store_at_hand import SECONDS, SMALL, Programs, Store, Untimely, await_true, in_time, one_group

from grove_etcd.jobs import UnderWay
from grove_etcd.members import Members
from grove_etcd.wire import putting
from grove_etcd.worker import Worker

# How patient a worker is whose own jobs have to end before: so no job is taken up since it gave no sign.
PATIENCE = 5 * SECONDS
# The same for one that looks for other jobs after each that takes longer.
SHORT = 1.0
LEFT = b'"by":""'
# For how long all members are away, and how soon they are found once they are back.
AWAY_SECONDS, FOUND_SECONDS = 2.0, 20.0


class NoAnswer(grpc.RpcError):
    def code(self):
        return grpc.StatusCode.UNAVAILABLE

    def details(self):
        return "planted"


class Mute(Members):
    """Each transaction of the worker for which `is_mute` holds brings no answer; it is sent, or it isn't."""

    def __init__(self, addresses, is_mute, is_sent):
        super().__init__(addresses)
        self.is_mute, self.is_sent, self.unanswered = is_mute, is_sent, 0
        for member in self.members:
            member.ask = self.asks(member.ask, member)

    def asks(self, ask, member):
        def asked(call, request, seconds):
            is_mute = call is member.transact and self.is_mute(request)
            self.unanswered += is_mute
            if is_mute and not self.is_sent:
                raise NoAnswer
            answer = ask(call, request, seconds)
            if is_mute:
                raise NoAnswer
            return answer

        return asked


def end_of(store, worker, thread, records):
    """What is wrong at the end of a worker that has to do all jobs by itself."""
    is_done = await_true(lambda: not thread.is_alive())
    left = store.left("quv")
    worker.stop()
    thread.join()
    if not is_done:
        return f"these are left: {left}"
    store.audit()
    came = store.records("/a", "/b")
    return None if came == records else f"records {came}"


def either_way(trial, cluster, grove, name):
    """Whether the transaction is sent or not."""
    faults = []
    for is_sent in (False, True):
        fault = trial(cluster, Store(cluster, grove, f"{name}-{int(is_sent)}"), is_sent)
        faults += [f"sent {is_sent}: {fault}"] if fault else []
    return "; ".join(faults) or None


def what_is_left_without_an_answer_is_taken_up(cluster, grove):
    """Two jobs of a worker wait for a node. The first is handed it while all turns are taken, so it is left to others,
    which is sent in vain once. The second one waits for it."""
    return either_way(left_unanswered, cluster, grove, "left")


def left_unanswered(cluster, store, is_sent):
    put_all(store, "/a", 1, "holds")
    store.jobs = ["holds.0"]
    holds = store.attempt(0, patience=PATIENCE)
    held = one_group(holds)
    put_all(store, "/a", 2, "waits")
    members = Mute(cluster.clients, lambda request: LEFT in request and not members.unanswered, is_sent)
    frees = threading.Event()

    def work(_access, _record, token):
        if token.startswith("long"):
            frees.wait()

    worker = Worker(members, store.keys, work, PATIENCE, leashed=False)
    thread = started([worker])[0]
    await_true(lambda: len(store.left("v")) == 2)
    put_all(store, "/b", 1, "long")
    await_true(lambda: worker.means.journal.counts["work"])
    holds.run(held)
    is_left = await_true(lambda: members.unanswered)
    frees.set()
    return end_of(store, worker, thread, [13, 1]) if is_left else "nothing was left"


def what_is_begun_without_an_answer_is_gone_on_with(cluster, grove):
    """By the transaction that ends the job before, when the worker then looks for other jobs. One that waits for its
    node goes on after it."""
    with mock.patch("grove_etcd.shares.random.randrange", lambda _: 0):
        return in_time(lambda number: either_way(begun_unanswered, cluster, grove, f"begun-{number}"))


def begun_unanswered(cluster, store, is_sent):
    put_all(store, "/b", 1, "ends")
    put_all(store, "/a", 1, "is-begun")
    both = [store.keys.event(*group).encode() for group in (("ends.0", 1), ("is-begun.0", 0))]
    members = Mute(cluster.clients, lambda request: not members.unanswered and all(map(request.count, both)), is_sent)

    def work(_access, _record, token):
        if token.startswith("ends"):
            put_all(store, "/a", 1, "waits")
            time.sleep(1.5 * SHORT)

    worker = Worker(members, store.keys, work, SHORT, leashed=False)
    thread = started([worker])[0]
    await_true(lambda: members.unanswered or not store.left("qu"))
    if not members.unanswered:
        worker.stop()
        thread.join()
        raise Untimely("nothing was begun")
    return end_of(store, worker, thread, [12, 1])


def what_names_a_worker_is_gone_on_with_by_it(cluster, grove):
    """As where a transaction by which it takes a job up is made after it has looked whether it was."""
    store = Store(cluster, grove, "named", [[["add", "/a", 1]]])
    one_group(store.attempt(0, patience=PATIENCE))
    put_all(store, "/a", 2, "waits")
    worker = Worker(cluster.members(), store.keys, lambda *_: None, PATIENCE, leashed=False)
    thread = started([worker])[0]
    await_true(lambda: len(store.left("v")) == 2)
    named = UnderWay(worker.means.name, patience=PATIENCE)
    store.write(putting(store.keys.under_way(store.jobs[0]), named.text()))
    return end_of(store, worker, thread, [13, 0])


def members_that_were_all_away_are_found_again(_cluster, _grove):
    """By a program that calls them meanwhile, and soon after they are back."""
    return in_time(found_again)


def found_again(_number):
    with Cluster(3) as cluster:
        programs = Programs(cluster, "away")
        file = programs.file("small.json", json.dumps({"nodes": SMALL}))
        for member in range(3):
            cluster.kill(member)
        loads = programs.start("load", file)
        time.sleep(AWAY_SECONDS)
        for member in range(3):
            cluster.start(member)
        begun = time.monotonic()
        status = loads.wait(SECONDS)
        seconds = time.monotonic() - begun
    if seconds > FOUND_SECONDS:
        raise Untimely(f"it ended {seconds:.0f} s after they were back, with status {status}")
    return None if status == 0 else f"it ended with status {status}"
