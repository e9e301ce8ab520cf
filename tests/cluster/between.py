"""What is planted between the first epoch, which added 1 to /a, and the one after it, whose jobs get /a, /b and /b/c:
writes by nobody, and workers with a bug. The audit of the later epoch has to refuse each by name."""
from dataclasses import replace

from planted import Rewrites, Strays, StraysWithAnEvent, told_as
from store_at_hand import Store, one_group, refusal

from grove_etcd.attempt import Attempt
from grove_etcd.chain import Left
from grove_etcd.head import head_text
from grove_etcd.jobs import Event, Job, Progress, Waiter
from grove_etcd.past import Epoch
from grove_etcd.wire import deleting, deleting_below, present, putting



def a_stray_write(store):
    store.do([["add", "/b", 1]], kind=Strays)


def a_stray_write_that_is_told(store):
    store.do([["add", "/b", 1]], kind=StraysWithAnEvent)


def a_write_by_nobody(store):
    store.write(putting(store.keys.record("/a"), "99"))


def the_same_record_again(store):
    store.write(putting(store.keys.record("/a"), "11"))


def a_record_that_is_gone(store):
    store.write(deleting(store.keys.record("/a")))


def a_loaded_record_that_is_gone(store):
    store.write(deleting(store.keys.record("/b/c")))


def an_owner_that_came_and_went(store):
    store.write(putting(store.keys.owner("/a"), "nobody.0"))
    store.write(putting(store.keys.owner("/a"), ""))


def an_owner_that_is_gone(store):
    store.do([["add", "/a", 1], ["add", "/b", 1]], work=lambda *_: None)
    store.write(deleting(store.keys.owner("/a")))


def a_job_that_is_rewritten(store):
    store.do([["add", "/b", 1]], kind=Rewrites)


def a_job_that_is_gone(store):
    store.do([["add", "/a", 1]])
    keys, name = store.keys, store.jobs[-1]
    store.write(deleting(keys.job(name)), deleting(keys.progress(name)), deleting_below(keys.events(name)))


def an_event_that_is_gone(store):
    store.do([["add", "/b", 1]])
    store.write(deleting(store.keys.event(store.jobs[-1], 0)))


def an_event_that_is_rewritten(store):
    store.do([["add", "/b", 1]])
    store.write(putting(store.keys.event(store.jobs[-1], 0), Event(3, False, {"/b": 1}).text()))


def replies_that_are_rewritten(store):
    store.do([["add", "/b", 1]])
    key = store.keys.progress(store.jobs[-1])
    store.write(putting(key, replace(Progress.read(store.read(key)), replies=[7]).text()))


def a_head_that_is_rewritten(store):
    store.write(putting(store.keys.head(), head_text(2)))


class RepliesByOldRecords(Attempt):
    """Replies by the record that it read before the first epoch."""

    def changes(self, found, group):
        group.replies = [10] * len(group.replies)
        return super().changes(found, group)


class RepliesInAnotherOrder(Attempt):
    """Gives each access the reply of another one."""

    def changes(self, found, group):
        group.replies = group.replies[::-1]
        return super().changes(found, group)


class PutsNoRecord(Attempt):
    """Leaves the record out of its transaction, but not out of its event."""

    def changes(self, found, group):
        records = [putting(self.keys.record(path), str(group.records[path])) for path in group.changed]
        return [each for each in super().changes(found, group) if each not in records]


def a_record_that_was_put_back(store):
    store.write(putting(store.keys.record("/a"), "99"))
    store.write(putting(store.keys.record("/a"), "11"))


def a_stray_record_that_is_added_to(store):
    store.write(putting(store.keys.record("/a"), "99"))
    store.do([["add", "/a", 1]])


def a_stray_record_that_is_too_small_to_take(store):
    store.write(putting(store.keys.record("/a"), "3"))
    store.do([["take", "/a", 5]])


def a_reply_by_an_old_record(store):
    store.do([["get", "/a"]], kind=RepliesByOldRecords)


def replies_in_another_order(store):
    store.do([["get", "/a"], ["get", "/b/c"]], kind=RepliesInAnotherOrder)


def a_record_that_is_only_in_the_event(store):
    store.do([["add", "/a", 1]], kind=PutsNoRecord)


class DoesAgain(Attempt):
    """Doesn't look when its job was put."""

    def is_same_job(self):
        return present(self.keys.job(self.job.name))

    def need_same_job(self, found):
        """It goes on in any case."""


def begin_again(store, name):
    """Puts the key again that makes workers begin the job, for one that doesn't look when it was put."""
    job = Job.read(name, store.read(store.keys.job(name)))
    store.write(putting(store.keys.fresh(job.age, name), ""))
    again = store.read_entry(store.keys.fresh(job.age, name)).put_at
    attempt = DoesAgain(store.worker().means, replace(job, put_at=again))
    attempt.run(attempt.look(0))


def a_job_of_the_closed_epoch_that_is_done_again(store):
    begin_again(store, store.jobs[0])


def a_job_of_the_open_epoch_that_is_done_again(store):
    store.do([["add", "/b", 1]])
    begin_again(store, store.jobs[-1])


def do_unjudged(store, accesses, plan):
    """By a worker that doesn't judge its jobs."""
    store.submitter.put_all([Job("unjudged.0", 1, accesses, plan)])
    worker = store.worker()
    worker.reader.is_legal = lambda _: True
    worker.run(until_ended=True)


def a_plan_without_a_lock(store):
    do_unjudged(store, [["add", "/a", 1]], [["access", 0]])


def a_plan_that_accesses_after_its_unlock(store):
    do_unjudged(store, [["add", "/b", 1]], [["lock", "/b"], ["unlock", "/b"], ["access", 0]])


def an_owner_that_is_put_again(store):
    store.submit([["add", "/a", 1], ["add", "/b", 1]])
    attempt = store.attempt(-1)
    found = one_group(attempt)
    store.write(putting(store.keys.owner("/a"), store.jobs[-1]))
    attempt.run(found)


def an_owner_that_is_no_job(store):
    store.do([["add", "/b", 1]])
    store.write(putting(store.keys.owner("/b"), "nobody.0"))


def one_in_line_that_is_no_job(store):
    """The node is handed to it by the job that unlocks the node, and nobody goes on from there."""
    waits = Waiter(0, Progress(1, 3, 1).members())
    store.write(putting(store.keys.waiter("/a", 1, "nobody.0"), waits.text()))
    store.submit([["add", "/a", 1]])
    attempt = store.attempt(-1, patience=0.2)
    attempt.run(attempt.look(0))


def a_progress_that_is_gone(store):
    store.do([["add", "/b", 1]])
    store.write(deleting(store.keys.progress(store.jobs[-1])))


def an_event_too_many(store):
    store.do([["add", "/b", 1]])
    store.write(putting(store.keys.event(store.jobs[-1], 1), Event(0, False, {}).text()))


def a_closed_job_that_is_rewritten(store):
    key = store.keys.job(store.jobs[0])
    store.write(putting(key, replace(Job.read(store.jobs[0], store.read(key)), age=1).text()))


def what_the_closed_epoch_left_is_gone(store):
    store.write(deleting(store.keys.left("/a", 1)))


def a_closed_epoch_that_is_gone(store):
    store.write(deleting(store.keys.closed(1)))


BETWEEN = {
    a_stray_write: "stray-record /a",
    a_stray_write_that_is_told: "stray-record /a",
    a_write_by_nobody: "stray-record /a",
    the_same_record_again: "stray-record /a",
    a_record_that_was_put_back: "stray-record /a",
    a_record_that_is_gone: "stray-record /a",
    a_loaded_record_that_is_gone: "stray-record /b/c",
    a_stray_record_that_is_added_to: "standing records",
    a_stray_record_that_is_too_small_to_take: "stray-record /a",
    a_record_that_is_only_in_the_event: "stray-record /a",
    a_reply_by_an_old_record: "standing replies",
    replies_in_another_order: "standing replies",
    replies_that_are_rewritten: "left-out ",
    an_owner_that_came_and_went: "left-out /a",
    an_owner_that_is_gone: "left-out /a",
    an_owner_that_is_put_again: "left-out /a",
    an_owner_that_is_no_job: "left-owner /b",
    one_in_line_that_is_no_job: "left-out nobody.0",
    a_job_that_is_rewritten: "job-rewritten ",
    a_job_that_is_gone: "stray-record /a",
    a_job_of_the_closed_epoch_that_is_done_again: "stray-record /a",
    a_job_of_the_open_epoch_that_is_done_again: "left-out ",
    a_plan_without_a_lock: "job 0 step 0 access-not-held",
    a_plan_that_accesses_after_its_unlock: "job 0 step 2 access-not-held",
    a_progress_that_is_gone: "left-out ",
    an_event_that_is_gone: "left-out ",
    an_event_that_is_rewritten: "left-out ",
    an_event_too_many: "left-out ",
    what_the_closed_epoch_left_is_gone: "stray-record /a",
    a_closed_epoch_that_is_gone: "standing records",
    a_head_that_is_rewritten: "stray-head",
}
# After these no job can be submitted, or none can come to the node.
NOBODY_GOES_ON = {a_head_that_is_rewritten, an_owner_that_is_no_job, one_in_line_that_is_no_job}


def between(cluster, grove, plant, wanted):
    """Whether the epoch in which the nodes come again is refused, and stays so: it isn't closed."""
    store = Store(cluster, grove, plant.__name__.replace("_", "-")[:32])
    store.do([["add", "/a", 1]])
    store.audit()
    plant(store)
    if plant not in NOBODY_GOES_ON:
        store.do([["get", "/a"], ["get", "/b"], ["get", "/b/c"]])
    first = told_as(refusal(store.audit), wanted)
    return told_as(refusal(store.audit), wanted) or first


def what_is_planted_between_epochs_is_told(cluster, grove):
    faults = (between(cluster, grove, plant, wanted) for plant, wanted in BETWEEN.items())
    told = [f"{plant.__name__}: {fault}" for plant, fault in zip(BETWEEN, faults) if fault]
    return "; ".join(told) or None


# Of keys that no worker writes: a change that no audit of the open epoch sees, as docs/CLUSTER.md says.


def another_record_that_an_epoch_left(store):
    record, key = store.keys.record("/a"), store.keys.left("/a", 1)
    store.write(putting(record, "99"))
    revision = store.members.get(record).revision_of(record)
    store.write(putting(key, replace(Left.read(store.read(key)), record=99, revision=revision).text()))


def another_record_that_was_loaded(store):
    store.write(putting(store.keys.record("/b"), "7"), putting(store.keys.weight("/b"), "1 0 7"))
    store.do([["add", "/b", 1]])


def a_job_in_a_closed_epoch(store):
    store.do([["get", "/a"]], kind=RepliesByOldRecords)
    store.write(putting(store.keys.closed(1), Epoch(store.jobs).text()))


def what_no_worker_writes_is_not_seen(cluster, grove):
    """So workers need to be without a right to it. The job is seen once its epoch is audited again."""
    for plant in (another_record_that_an_epoch_left, another_record_that_was_loaded, a_job_in_a_closed_epoch):
        store = Store(cluster, grove, plant.__name__.replace("_", "-")[:32])
        store.do([["add", "/a", 1]])
        store.audit()
        plant(store)
        store.do([["get", "/a"], ["get", "/b"]])
        audited = refusal(store.audit)
        if isinstance(audited, str):
            return f"{plant.__name__}: {audited}"
    return told_as(refusal(store.audit, 1), "standing replies") or a_closed_job_is_looked_at_again(cluster, grove)


def a_closed_job_is_looked_at_again(cluster, grove):
    """What is done to a job after its epoch is closed is seen once that is audited again."""
    store = Store(cluster, grove, "rewritten-later")
    store.do([["add", "/a", 1]])
    store.audit()
    a_closed_job_that_is_rewritten(store)
    store.do([["get", "/a"]])
    audited = refusal(store.audit)
    return audited if isinstance(audited, str) else told_as(refusal(store.audit, 1), "job-rewritten ")
