"""Trials of jobs that are begun in the transaction that ends the one before, by the same worker."""
import time

from store_at_hand import SECONDS, Store, one_group, refusal

from grove_etcd.attempt import Attempt
from grove_etcd.jobs import Event

AT_A, AT_B, AT_ROOT = ([["add", path, 1]] for path in ("/a", "/b", "/"))


class BeginsWithoutLooking(Attempt):
    """Takes what was free when it looked."""

    def begin_after(self, found, ending, handed):
        begins = super().begin_after(found, ending, handed)
        begins.guards.clear()
        return begins


def two_in_turn(store, kind=Attempt):
    """Attempts of one worker at the first two jobs; of the first one only the last group is left."""
    worker = store.worker(kind, work=lambda *_: None)
    first, second = worker.attempts(worker.jobs(store.jobs[:2]))
    return first, second, first.do_work(one_group(first))


def places(store, *groups):
    """The places of these groups of jobs, by the revisions of their transactions: one list a revision."""
    keys = [store.keys.event(store.jobs[job], group) for job, group in groups]
    found = store.members.get(*keys)
    by_revision = {}
    for key in keys:
        by_revision.setdefault(found.revision_of(key), []).append(Event.read(found.value(key)).place)
    return [by_revision[revision] for revision in sorted(by_revision)]


def a_job_is_begun_with_the_end_of_the_one_before(cluster, grove):
    """So three jobs of two groups each are four transactions."""
    store = Store(cluster, grove, "in-turn", [AT_A, AT_B, AT_A])
    worker = store.worker(work=lambda *_: None)
    worker.do_one_by_one(worker.jobs(store.jobs), set())
    store.audit()
    came = places(store, (0, 0), (1, 0), (0, 1), (2, 0), (1, 1), (2, 1)), worker.means.journal.counts["commit"]
    wanted = [[0], [0, 1], [0, 1], [0]], 4
    is_well = came == wanted and store.records("/a", "/b") == [12, 1]
    return None if is_well else f"wanted {wanted}; came {came}, {store.records('/a', '/b')}"


def one_that_another_worker_has_begun_is_let_be(cluster, grove):
    """And the one before ends all the same."""
    store = Store(cluster, grove, "let-be", [AT_A, AT_B, AT_B])
    first, second, found = two_in_turn(store)
    other = store.attempt(1)
    begun = one_group(other)
    ended = one_group(first, found)
    second.run(first.ahead)
    other.run(begun)
    store.work()
    store.audit()
    came = ended, second.means.journal.counts["dropped"], store.records("/a", "/b")
    return None if came == (None, 1, [11, 2]) else f"came {came}"


def where_its_node_is_taken_it_is_begun_later(cluster, grove):
    """The node was free when the worker looked; one that begins without looking again is caught by the audit."""
    told = []
    for kind in (Attempt, BeginsWithoutLooking):
        store = Store(cluster, grove, f"taken-{len(told)}", [AT_A, AT_B, AT_B])
        first, second, found = two_in_turn(store, kind)
        holds = store.attempt(2)
        held = one_group(holds)
        one_group(first, found)
        is_begun = first.ahead.under_way is not None
        if is_begun:
            second.run(first.ahead)
        holds.run(held)
        store.work()
        came = refusal(store.audit)
        told.append((is_begun, came if isinstance(came, str) else None))
    wanted = [(False, None), (True, "refused left-out /b")]
    return None if told == wanted else f"wanted {wanted}; came {told}"


def where_its_node_is_held_it_stands_in_line(cluster, grove):
    """With a mark, in the same transaction; then it is handed the node."""
    store = Store(cluster, grove, "in-line", [AT_A, AT_B, AT_B])
    holds = store.attempt(2)
    one_group(holds)
    first, second, found = two_in_turn(store)
    one_group(first, found)
    waits = first.ahead.progress
    one_group(holds, holds.look(1))
    second.run(second.look(0))
    lines = store.audit().lines
    came = (waits.step, waits.marked, waits.waits), places(store, (1, 0), (0, 1)), places(store, (2, 1), (1, 1))
    wanted = (0, True, True), [[0, 1]], [[0, 1]]
    is_well = came == wanted and lines["waits"] == "[0,0,1]" and second.means.journal.counts["waits"] == 1
    return None if is_well else f"wanted {wanted}; came {came}, {lines}"


def the_node_of_both_goes_to_whom_stands_in_line(cluster, grove):
    """Three jobs at one node in one transaction: one ends, the third has the node, and the second stands in line. The
    one that ends may be in an earlier epoch."""
    faults = (fault_of_three(Store(cluster, grove, f"three-{epochs}", [AT_ROOT] * 3), epochs) for epochs in (1, 2))
    return "; ".join(fault for fault in faults if fault) or None


def fault_of_three(store, epochs):
    worker = store.worker(work=lambda *_: None)
    first, second = worker.attempts(worker.jobs(store.jobs[:2]))
    one_group(first)
    third = store.attempt(2)
    waits = one_group(third)
    one_group(first, first.do_work(first.look(1)))
    came = places(store, (1, 0), (0, 1), (2, 1)), first.ahead.progress.waits
    early = store.audit().jobs if epochs == 2 else store.jobs[:1]
    third.run(third.look(waits.progress.step))
    second.run(second.look(0))
    audited = refusal(store.audit)
    if isinstance(audited, str):
        return audited
    count = store.read(store.keys.waits(epochs, "/"))
    is_well = came == ([[0, 1, 2]], True) and early == store.jobs[:1] and count == "2" and store.records("/") == [3]
    return None if is_well else f"came {came}, {early}, {count} waits, {store.records('/')}"


def where_the_worker_is_told_to_end_no_other_is_begun(cluster, grove):
    """In the work of the first job's last access, when the group that ends it has been made ready."""
    store = Store(cluster, grove, "told", [AT_A, AT_B])
    worker = store.worker(work=lambda *_: time.sleep(0.1) or worker.stop())
    first, second = worker.attempts(worker.jobs(store.jobs))
    first.run(one_group(first))
    left = store.members.get(*(store.keys.fresh(each.job.age, each.job.name) for each in (first, second)))
    came = len(left.entries), first.look(0), second.look(0).under_way
    store.work()
    store.audit()
    is_well = came == (1, None, None) and store.records("/a", "/b") == [11, 1]
    return None if is_well else f"came {came}, {store.records('/a', '/b')}"


def what_was_made_ready_is_made_after_a_sign(cluster, grove):
    """Since a sign of life puts nothing that guards the group."""
    store = Store(cluster, grove, "anew", [AT_A])
    worker = store.worker(work=lambda *_: worker.means.signs.give_one())
    attempt = worker.attempts(worker.jobs(store.jobs))[0]
    attempt.run(one_group(attempt))
    store.audit()
    came = store.left("s"), dict(worker.means.journal.counts), store.records("/a")
    wanted = [store.keys.sign(worker.means.name)], {"commit": 2, "work": 1, "ended": 1}, [11]
    return None if came == wanted else f"wanted {wanted}; came {came}"


def more_jobs_are_read_while_there_is_work(cluster, grove):
    """So a worker that was given two goes on with all of them."""
    store = Store(cluster, grove, "more", [AT_A, AT_B] * 14)
    worker = store.worker(work=lambda *_: None, patience=SECONDS)
    worker.do_one_by_one(worker.jobs(store.jobs[:2]), set())
    left = store.members.count(store.keys.whole("q")), store.members.count(store.keys.whole("u"))
    store.audit()
    is_well = left == (0, 0) and store.records("/a", "/b") == [24, 14]
    return None if is_well else f"left {left}, records {store.records('/a', '/b')}"
