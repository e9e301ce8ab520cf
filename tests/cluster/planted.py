"""Workers with a planted bug: each has to be refused by name, or shown to be right. What is planted between epochs
stands in between.py."""
from dataclasses import replace

from store_at_hand import BOTH, Store, one_group, refusal

from grove_etcd.attempt import Attempt
from grove_etcd.jobs import Event, UnderWay
from grove_etcd.setting_aside import failed
from grove_etcd.wire import putting


class SkipsALock(Attempt):
    """Takes its locks, and leaves no owner."""

    def changes(self, found, group):
        group.hands = {path: held for path, held in group.hands.items() if not held}
        return super().changes(found, group)


class WritesWithoutOwning(Attempt):
    """Writes a record before its node is locked."""

    def changes(self, found, group):
        path = self.job.accesses[-1][1]
        early = [] if path in group.records else [putting(self.keys.record(path), "7")]
        return super().changes(found, group) + early


class DoesAStepTwice(Attempt):
    """Does each access once more."""

    def changes(self, found, group):
        for path in group.changed:
            group.records[path] += 1
        group.replies = [reply + 1 for reply in group.replies]
        return super().changes(found, group)


class TellsAnotherEvent(Attempt):
    """Leaves this event in place of the group's."""

    def event(self, event):
        return event

    def changes(self, found, group):
        plain = group.event
        group.event = lambda is_held=False: self.event(plain(is_held))
        return super().changes(found, group)


class ForgetsAStep(TellsAnotherEvent):
    """Tells of one step less than it takes."""

    def event(self, event):
        return replace(event, takes=event.takes - 1)


class HidesItsMarks(TellsAnotherEvent):
    """Waits, and doesn't tell."""

    def event(self, event):
        return replace(event, mark=False)


class TellsAnotherRecord(TellsAnotherEvent):
    """Tells of another record than it leaves."""

    def event(self, event):
        return replace(event, records={path: record + 1 for path, record in event.records.items()})


class HidesItsRecords(TellsAnotherEvent):
    """Doesn't tell which records it leaves."""

    def event(self, event):
        return replace(event, records={})


class MarksWithoutCause(Attempt):
    """Begins with a mark, of a node that is free."""

    def run(self, found):
        if found is not None and found.under_way is None:
            mark = Event(0, True, {}).text()
            progress = replace(found.progress, groups=1, marked=True)
            changes = [putting(self.keys.event(self.job.name, 0), mark)]
            changes.append(putting(self.keys.progress(self.job.name), progress.text()))
            self.members.write(changes)
            found = self.put_under_way(found, UnderWay(self.means.name))
        super().run(found)


class Strays(Attempt):
    """Writes 99 to /a, which its job doesn't name."""

    def changes(self, found, group):
        return super().changes(found, group) + [putting(self.keys.record("/a"), "99")]


class StraysWithAnEvent(TellsAnotherEvent):
    """Writes 99 to /a, which its job doesn't name, and tells of it."""

    def event(self, event):
        return replace(event, records={**event.records, "/a": 99})

    def changes(self, found, group):
        return super().changes(found, group) + [putting(self.keys.record("/a"), "99")]


class LeavesItsOwner(Attempt):
    """Doesn't let go of its last node."""

    def changes(self, found, group):
        if group.after().has_ended() and group.hands:
            group.hands.popitem()
        return super().changes(found, group)


class Rewrites(Attempt):
    """Does another list than was submitted."""

    def run(self, found):
        key, fresh = self.keys.job(self.job.name), self.keys.fresh(self.job.age, self.job.name)
        other = replace(self.job, accesses=[["add", "/b", 1000]])
        self.members.write([putting(key, other.text()), putting(fresh, "")])
        self.job = replace(other, put_at=self.members.get(key).revision_of(key))
        super().run(self.look(0))


class StaysBehind(Attempt):
    """Says of its last step that it is left."""

    def progress_and_event(self, group):
        after, name = group.after(), self.job.name
        behind = replace(after, step=after.step - 1) if after.has_ended() else after
        return [putting(self.keys.progress(name), behind.text()), *super().progress_and_event(group)[1:]]


def inside(cluster, grove, kind, wanted):
    """Begins one job by a worker with a bug, does another one by a right one, and goes on with the first."""
    store = Store(cluster, grove, kind.__name__.lower(), [BOTH] if kind in ALONE else [BOTH, BOTH])
    wrong = store.attempt(0, kind)
    found = one_group(wrong)
    if kind is SkipsALock:
        store.work()
    wrong.run(found)
    store.work()
    return told_as(refusal(store.audit), wanted)


# Nobody could go on at the owner that is left; and what a later job writes over is right.
ALONE = {LeavesItsOwner, HidesItsRecords}


def told_as(came, wanted):
    said = came if isinstance(came, str) else "that all is well"
    return None if said.startswith(f"refused {wanted}") else f"wanted {wanted}; the audit said {said}"


INSIDE = {
    SkipsALock: "event 5 blocked 0",
    WritesWithoutOwning: "standing re",
    DoesAStepTwice: "standing re",
    ForgetsAStep: "not-at-its-end ",
    HidesItsRecords: "stray-record ",
    LeavesItsOwner: "left-owner ",
    StaysBehind: "not-at-its-end ",
}


def workers_with_a_bug_are_caught(cluster, grove):
    faults = (inside(cluster, grove, kind, wanted) for kind, wanted in INSIDE.items())
    told = [f"{kind.__name__}: {fault}" for kind, fault in zip(INSIDE, faults) if fault]
    return "; ".join(told) or None


def marks_that_are_left_out_are_told(cluster, grove):
    """A job stops before a node that another one holds, and doesn't say so."""
    store = Store(cluster, grove, "marks", [BOTH, [["add", "/b/c", 1], ["add", "/a", 1]]])
    holds, hides = store.attempt(0), store.attempt(1, HidesItsMarks)
    first = one_group(holds)
    later = one_group(hides)
    holds.run(first)
    hides.run(later)
    store.work()
    return told_as(refusal(store.audit), "left-out ")


def a_stray_write_is_told_after_forgetting(cluster, grove):
    """Each epoch is forgotten once its audit has passed; and an epoch that is kept tells by itself, too."""
    store = Store(cluster, grove, "forgetting")
    came = []
    for accesses, kind in (([["add", "/a", 1]], Attempt), ([["add", "/b", 1]], Strays), ([["get", "/a"]], Attempt)):
        store.do(accesses, kind=kind)
        audited = refusal(store.audit)
        came.append(audited if isinstance(audited, str) else audited.epoch)
        if not isinstance(audited, str) and audited.epoch == 1:
            store.forget(1)
    kept = refusal(store.audit, 2)
    wanted = [1, 2, "refused stray-record /a"]
    return None if came == wanted and not isinstance(kept, str) else f"came {came}, {kept}"


def a_stray_write_before_any_epoch_is_told(cluster, grove):
    """Of a node that a later job of the same epoch names."""
    store = Store(cluster, grove, "before")
    store.do([["add", "/b", 1]], kind=Strays)
    store.do([["get", "/a"]])
    return told_as(refusal(store.audit), "stray-record /a")


def a_record_that_is_none_sets_its_job_aside(cluster, grove):
    """Workers go on with the others, and the job is named."""
    store = Store(cluster, grove, "none")
    store.write(putting(store.keys.record("/a"), "x"))
    store.do([["get", "/a"]], [["add", "/b", 1]])
    aside = [(name, aside.why, aside.holds) for name, aside in failed(store.members, store.keys)]
    came = aside, store.records("/b"), store.audit().jobs
    wanted = [(store.jobs[0], "stray-record /a", [])], [1], store.jobs[1:]
    return None if came == wanted else f"wanted {wanted}; came {came}"


def a_wait_for_a_job_of_an_earlier_epoch_is_counted(cluster, grove):
    """The one that waits is in the next epoch; and a mark that was made without cause is refused there."""
    store = Store(cluster, grove, "earlier", [[["add", "/a", 1]], [["add", "/a", 1]]])
    holds, waits = store.attempt(0), store.attempt(1)
    held = one_group(holds)
    later = one_group(waits)
    holds.run(held)
    first = store.audit().jobs
    waits.run(waits.look(0))
    second = store.audit()
    kept = store.read(store.keys.waits(2, "/a"))
    store.do([["add", "/a", 1]], kind=MarksWithoutCause, work=lambda *_: None)
    false = told_as(refusal(store.audit), "event 0 not-blocked")
    came = first, second.jobs, second.lines["waits"], kept, later is not None
    wanted = store.jobs[:1], store.jobs[1:2], "[0,0]", "1", True
    return false or (None if came == wanted else f"wanted {wanted}; came {came}")


def what_is_written_over_is_right(cluster, grove):
    """A stray write that a job writes over is in no reply and in no record, so the epoch is that of a serial run."""
    store = Store(cluster, grove, "over")
    store.do([["add", "/a", 1]])
    store.audit()
    store.do([["set", "/b", 4]], kind=Strays)
    store.do([["set", "/a", 5], ["add", "/a", 1]])
    lines = store.audit().lines
    return None if store.records("/a", "/b") == [6, 4] else f"{store.records('/a', '/b')}, {lines}"


def an_owner_that_is_put_beside_its_job_is_told(cluster, grove):
    """Between two groups of the job that holds the node: by no group, or as if another job had the node."""
    faults = []
    for number, owner in enumerate(("", "x.0")):
        store = Store(cluster, grove, f"beside-{number}", [BOTH])
        holds = store.attempt(0)
        found = one_group(holds)
        store.write(putting(store.keys.owner("/a"), owner))
        holds.run(found)
        faults += [told_as(refusal(store.audit), "left-out /a")]
    return "; ".join(fault for fault in faults if fault) or None


def another_record_that_is_told_is_caught(cluster, grove):
    """What an event tells of a record counts only where a later job has written over it, and is caught with that
    one."""
    store = Store(cluster, grove, "another")
    store.do([["add", "/a", 1]], kind=TellsAnotherRecord)
    holds = store.attempt(store.jobs.index(store.jobs[-1]))
    store.submit([["add", "/a", 1], ["add", "/b", 1]])
    holds = store.attempt(1)
    found = holds.do_work(one_group(holds))
    found = one_group(holds, found)
    early = refusal(store.audit)
    holds.run(found)
    late = refusal(store.audit)
    wanted = "standing re"
    is_told = any(isinstance(came, str) and came.startswith(f"refused {wanted}") for came in (early, late))
    return None if is_told else f"came {early}, {late}"
