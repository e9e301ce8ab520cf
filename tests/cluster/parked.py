"""Trials of jobs that wait: each gives its turn to another, and its worker gives signs of life; and of what goes on
side by side."""
import threading
import time
from collections import Counter
from functools import partial
from unittest import mock

from spoiled import LEAVES, WIDE
from store_at_hand import SECONDS, Store, Untimely, await_true, in_time, one_group

from grove_etcd.jobs import Job
from grove_etcd.signs import Sign
from grove_etcd.wire import putting
from grove_etcd.worker import Worker

AT_A, AT_B, AT_ROOT = ([["add", path, 1]] for path in ("/a", "/b", "/"))
PATIENCE = 0.4
# Of the job that holds up others, how long its work takes; others have to begin beside it in half of that.
LONG = 8.0
# How long a worker may take to end that two hundred jobs wait for.
ENDS_SECONDS = 20.0


def started(workers, until_ended=True):
    threads = [threading.Thread(target=worker.run, args=(until_ended,)) for worker in workers]
    for thread, worker in zip(threads, workers):
        thread.worker = worker
        thread.start()
    return threads


def workers_of(cluster, store, count, work=None, **how):
    return [Worker(cluster.members(), store.keys, work, leashed=False, **how) for _ in range(count)]


def plan_at(path):
    return [["lock", path], ["access", 0], ["unlock", path]]


def put_all(store, path, count, name):
    jobs = [Job(f"{name}.{number}", 10 + number, [["add", path, 1]], plan_at(path)) for number in range(count)]
    store.submitter.put_all(jobs)


def one_that_waits_gives_signs(cluster, grove):
    """By its worker, for as long as it waits; so nobody takes it up, however impatient."""
    return in_time(partial(signs_are_given, cluster, grove))


def signs_are_given(cluster, grove, number):
    store, patience = Store(cluster, grove, f"signs-{number}", [AT_ROOT] * 2), PATIENCE * 2**number
    holds, waits = store.attempt(0, patience=SECONDS), store.attempt(1, patience=patience)
    held, found = one_group(holds), one_group(waits)
    thread = threading.Thread(target=waits.run, args=(found,))
    thread.start()
    other, key = store.worker(patience=patience), store.keys.sign(waits.means.name)
    taken, until = [], time.monotonic() + 5 * patience
    while time.monotonic() < until:
        seen = other.look()
        taken += other.abandoned(other.under_way_of(seen), seen)
        time.sleep(patience / 10)
    signs = store.members.get(key).version_of(key)
    holds.run(held)
    thread.join()
    store.audit()
    if signs <= 8 or taken:
        raise Untimely(f"{signs} signs, {taken} taken up")
    return None if store.records("/") == [2] else f"{store.records('/')}"


def the_last_sign_of_one_that_is_gone_is_deleted(cluster, grove):
    """Once it is old, and no job of that worker is under way; before that it has no share of the nodes any more."""
    store = Store(cluster, grove, "gone")
    key = store.keys.sign("gone")
    store.write(putting(key, Sign(PATIENCE).text()))
    worker = store.worker(patience=PATIENCE)
    with mock.patch("grove_etcd.worker.GONE_SECONDS", PATIENCE):
        thread = started([worker], False)[0]
        put_all(store, "/a", 5, "some")
        is_gone = await_true(lambda: key not in store.left("s") and store.records("/a") == [15])
        worker.stop()
        thread.join()
    return None if is_gone and store.records("/a") == [15] and not store.left("s") else f"{is_gone}, {store.left('s')}"


def a_job_that_waits_holds_up_no_others(cluster, grove):
    """One job takes long, two wait for it; thirty at another node begin at once, by three workers."""
    return in_time(partial(free_jobs_begin, cluster, grove))


def free_jobs_begin(cluster, grove, number):
    store, begun, long = Store(cluster, grove, f"free-{number}"), {}, LONG * 2**number

    def work(_access, _record, token):
        begun[token.partition("/")[0]] = time.monotonic()
        time.sleep(long if token.startswith("long") else 0.01)

    put_all(store, "/a", 1, "long")
    workers = workers_of(cluster, store, 3, work)
    threads = started(workers[:1])
    await_true(lambda: "long.0" in begun)
    put_all(store, "/a", 2, "wants")
    threads += started(workers[1:])
    await_true(lambda: len(store.left("v")) == 2)
    submitted = time.monotonic()
    put_all(store, "/b", 30, "free")
    for thread in threads:
        thread.join()
    store.audit()
    free = max(at - submitted for name, at in begun.items() if name.startswith("free"))
    if free > long / 2:
        raise Untimely(f"the last began after {free:.1f} s, and one took {long} s")
    return None if store.records("/a", "/b") == [13, 30] else f"{store.records('/a', '/b')}"


def one_worker_has_hundreds_of_jobs_under_way(cluster, grove):
    """All in line for one node. Told to end, it leaves them at once, and another one does them."""
    return in_time(partial(hundreds_are_under_way, cluster, grove))


def hundreds_are_under_way(cluster, grove, number):
    store = Store(cluster, grove, f"hundreds-{number}", [AT_A])
    holds = store.attempt(0, patience=10 * SECONDS)
    held = one_group(holds)
    put_all(store, "/a", 200, "waits")
    first, second = workers_of(cluster, store, 2, lambda *_: None)
    thread = started([first], False)[0]
    all_wait = store.await_true(lambda: len(store.left("v")) == 200)
    put_all(store, "/b", 5, "free")
    is_free = store.await_true(lambda: store.records("/b") == [5])
    begun = time.monotonic()
    first.stop()
    thread.join()
    seconds = time.monotonic() - begun
    holds.run(held)
    second.run(until_ended=True)
    store.audit()
    if seconds > ENDS_SECONDS:
        raise Untimely(f"it ended in {seconds:.1f} s")
    came = all_wait, is_free, store.records("/a"), store.left("quvs")
    return None if came == (True, True, [211], []) else f"{came}"


def jobs_beyond_those_that_wait_begin(cluster, grove):
    """More jobs would wait for a node than a worker looks at, and as many wait as may. Those at another node are done
    beside them, though they were submitted last."""
    store = Store(cluster, grove, "beyond", [AT_A])
    holds = store.attempt(0, patience=10 * SECONDS)
    held = one_group(holds)
    put_all(store, "/a", 40, "waits")
    with mock.patch("grove_etcd.worker.MOST_LOOKED_AT", 8):
        worker = workers_of(cluster, store, 1, lambda *_: None, most_waiting=3)[0]
    thread = started([worker])[0]
    store.await_true(lambda: len(store.left("v")) == 3)
    store.submitter.put_all([Job(f"free.{number}", 99, [["add", "/b", 1]], plan_at("/b")) for number in range(5)])
    is_free = store.await_true(lambda: store.records("/b") == [5])
    waiting = len(store.left("v"))
    holds.run(held)
    thread.join()
    store.audit()
    came = is_free, waiting, store.records("/a"), store.left("quvs")
    return None if came == (True, 3, [51], []) else f"came {came}"


def no_more_wait_than_are_to(cluster, grove):
    """Of ten that would wait three are begun, and the others can go elsewhere."""
    store = Store(cluster, grove, "most", [AT_A])
    holds = store.attempt(0, patience=60)
    held = one_group(holds)
    put_all(store, "/a", 10, "waits")
    put_all(store, "/b", 5, "free")
    worker = workers_of(cluster, store, 1, lambda *_: None, most_waiting=3)[0]
    thread = started([worker])[0]
    is_free = store.await_true(lambda: store.records("/b") == [5] and len(store.left("v")) == 3)
    time.sleep(1)
    waiting = len(store.left("v")), len(store.left("q"))
    holds.run(held)
    thread.join()
    store.audit()
    came = is_free, waiting, store.records("/a")
    return None if came == (True, (3, 7), [21]) else f"came {came}"


def work_goes_on_in_threads(cluster, grove):
    """So many at once as the worker has threads, and groups of several jobs share transactions."""
    return in_time(partial(threads_work, cluster, grove))


def threads_work(cluster, grove, number):
    store, lock, at_once, most = Store(cluster, grove, f"threads-{number}", rows=WIDE), threading.Lock(), Counter(), []

    def work(_access, _record, _token):
        with lock:
            at_once["now"] += 1
            most.append(at_once["now"])
        time.sleep(0.05 * 3**number)
        with lock:
            at_once["now"] -= 1

    for leaf in LEAVES:
        put_all(store, leaf, 2, f"at-{leaf[1:]}")
    worker = workers_of(cluster, store, 1, work, threads=8)[0]
    worker.run(until_ended=True)
    events = store.members.below(store.keys.whole("e")).entries.values()
    revisions = {entry.put_at for entry in events}
    store.audit()
    if max(most) < 8 or len(revisions) == len(events):
        raise Untimely(f"{max(most)} at once, {len(revisions)} transactions for {len(events)} groups")
    is_well = max(most) == 8 and store.records(*LEAVES) == [2] * 32
    return None if is_well else f"{max(most)} at once, {store.records(*LEAVES)}"


def short_jobs_share_transactions(cluster, grove):
    """A hundred at leaves of their own, and some that meet there: most of them in one transaction."""
    return in_time(partial(transactions_are_shared, cluster, grove))


def transactions_are_shared(cluster, grove, number):
    store = Store(cluster, grove, f"shared-{number}", rows=WIDE)
    for leaf in LEAVES:
        put_all(store, leaf, 3, f"at-{leaf[1:]}")
    workers = workers_of(cluster, store, 3)
    for thread in started(workers):
        thread.join()
    events = store.members.below(store.keys.whole("e")).entries.values()
    revisions = {entry.put_at for entry in events}
    store.audit()
    if len(revisions) > 24:
        raise Untimely(f"{len(revisions)} transactions")
    is_well = store.records(*LEAVES) == [3] * 32 and len(events) == 96
    return None if is_well else f"{len(events)} groups, {store.records(*LEAVES)}"
