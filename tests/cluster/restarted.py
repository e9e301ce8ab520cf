"""Trials of a fleet that is gone all at once, in the midst of jobs that wait for each other: a few fresh workers do all
that is left. What is gone is what workers leave that were killed: their jobs' keys, and their last signs."""
import signal
import time

from fleet import Fleet
from parked import plan_at, put_all, started, workers_of
from spoiled import LEAVES, PATIENCE, WIDE
from store_at_hand import SMALL, Programs, Store, await_true, one_group

from grove_etcd.jobs import Job
from grove_etcd.signs import Sign
from grove_etcd.wire import deleting, putting

# Of fresh workers; of nodes in a chain; and of jobs that wait for one node.
FRESH, DEPTH, WAITING = 3, 12, 40
# A chain: the root, and below each node one.
ROOT = {"parent": None, "name": "", "weight": 1}
CHAIN = [ROOT, *({"parent": number, "name": "c", "weight": 1} for number in range(DEPTH - 1))]
WAYS = ["/", *("/c" * number for number in range(1, DEPTH))]
# How many generations of workers are killed one after the other, and how long each lives.
GENERATIONS, LIFE_SECONDS = 4, 0.6


def hand_over_hand():
    """A plan down the chain, with an access at each node, that holds two nodes at most."""
    steps = [["lock", WAYS[0]], ["access", 0]]
    for number in range(1, DEPTH):
        steps += [["lock", WAYS[number]], ["unlock", WAYS[number - 1]], ["access", number]]
    return [*steps, ["unlock", WAYS[-1]]]


def one_behind_the_other(store):
    """Down a chain: the first job holds the last node but one, and each other one waits for the node of that before."""
    for age in range(DEPTH):
        job = Job(f"j{DEPTH - age:02}.0", age, [["add", path, 1] for path in WAYS], hand_over_hand())
        store.submitter.put_all([job])
        store.jobs.append(job.name)
        attempt = store.attempt(age, patience=PATIENCE)
        found = attempt.look(0)
        while found.progress.step < found.progress.steps - 4 and not attempt.group(found).does_nothing():
            attempt.worked_at = found.progress.step
            found = attempt.commit(found, attempt.group(found))


def more_than_may_wait(store):
    """All wait for one node, whose job has the last name and the last age."""
    put_all(store, "/a", WAITING, "waits")
    store.submitter.put_all([Job("z.0", 10**9, [["add", "/a", 1]], plan_at("/a"))])
    store.jobs = ["z.0", *(f"waits.{number}" for number in range(WAITING))]
    for number in range(WAITING + 1):
        one_group(store.attempt(number, patience=PATIENCE))


def all_were_told_to_end(store):
    """Workers with jobs in line for one node, and one that holds it."""
    store.submit([["add", "/a", 1]])
    one_group(store.attempt(0, patience=PATIENCE))
    put_all(store, "/a", WAITING, "waits")
    workers = [store.worker(work=lambda *_: None) for _ in range(FRESH)]
    threads = started(workers, False)
    await_true(lambda: len(store.left("v")) == WAITING)
    for worker in workers:
        worker.stop()
    for thread in threads:
        thread.join()


def their_signs_are_gone(store):
    """As if each had been taken up by somebody that is gone, too; and some were more patient than others."""
    store.submit(*([["add", "/a", 1], ["add", "/b", 1]] for _ in range(8)))
    for number in range(8):
        one_group(store.attempt(number, patience=PATIENCE * (1 + number % 3)))
    store.write(*(deleting(key) for key in store.left("s")))


def their_shares_are_left(store):
    """Workers without work have shares of nodes, as long as they give signs; these give no more."""
    for number in range(40):
        store.write(putting(store.keys.sign(f"gone{number}"), Sign(PATIENCE).text()))
    for leaf in LEAVES:
        put_all(store, leaf, 3, f"at-{leaf[1:]}")


# What is left, the tree, whether the fresh workers have work, and how much is added in all.
RESTARTS = {
    one_behind_the_other: (CHAIN, True, DEPTH * DEPTH),
    more_than_may_wait: (SMALL, True, WAITING + 1),
    all_were_told_to_end: (SMALL, True, WAITING + 1),
    their_signs_are_gone: (SMALL, True, 16),
    their_shares_are_left: (WIDE, False, 96),
}


def what_a_fleet_leaves_is_done(cluster, grove):
    """With nothing held in the end. A worker of these lets few jobs wait, so that those that wait could fill it."""
    faults = (fault_of_restart(cluster, grove, leave) for leave in RESTARTS)
    return "; ".join(fault for fault in faults if fault) or None


def fault_of_restart(cluster, grove, leave):
    rows, works, wanted = RESTARTS[leave]
    store = Store(cluster, grove, leave.__name__.replace("_", "-"), rows=rows)
    before = added(store, rows)
    leave(store)
    work = (lambda *_: None) if works else None
    threads = started(workers_of(cluster, store, FRESH, work, patience=PATIENCE, most_waiting=3))
    have_ended = store.await_true(lambda: not any(thread.is_alive() for thread in threads))
    for thread in threads:
        thread.worker.stop()
        thread.join()
    came = have_ended, added(store, rows) - before, store.left("quvoa")
    store.audit()
    return None if came == (True, wanted, []) else f"{leave.__name__}: came {came}"


def added(store, rows):
    return sum(store.records(*(WAYS if rows is CHAIN else LEAVES if rows is WIDE else ["/a", "/b"])))


def generations_of_workers_are_killed(cluster, grove):
    """Each shortly after it has begun, as a fleet of which every worker is killed again and again. The last one does
    all."""
    store, programs = Store(cluster, grove, "generations", rows=WIDE), Programs(cluster, "generations")
    both = [["lock", "/"], ["access", 0], ["lock", "/x0"], ["unlock", "/"], ["access", 1], ["unlock", "/x0"]]
    accesses = [["add", "/", 1], ["add", "/x0", 1]]
    store.submitter.put_all([Job(f"j.{number}", number, accesses, both) for number in range(40)])
    for _ in range(GENERATIONS):
        fleet = [programs.start("work", "--slot", "30", "--patience", "1") for _ in range(FRESH)]
        store.await_true(lambda: store.left("u"))
        time.sleep(LIFE_SECONDS)
        for worker in fleet:
            worker.send_signal(signal.SIGKILL)
        for worker in fleet:
            worker.wait()
    last = Fleet(cluster, programs, ["--slot", "1", "--patience", "1", "--until-ended"])
    try:
        last.start(FRESH)
        fault = last.await_end()
    finally:
        last.end()
    if fault:
        return fault
    store.audit()
    came = store.records("/", "/x0"), store.left("quvoa")
    return None if came == ([40, 40], []) else f"came {came}"
