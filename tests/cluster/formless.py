"""Trials of keys and values as no program writes them: bytes that are no text, and values that haven't their form. They
end no worker and stop no job, and audits refuse those on which they rest by name."""

from followed import Followed
from parked import plan_at
from planted import TellsAnotherEvent, told_as
from spoiled import PATIENCE, put_job
from store_at_hand import BOTH, SECONDS, Programs, Store, refusal

from grove_etcd.jobs import Job
from grove_etcd.setting_aside import failed
from grove_etcd.wire import putting

# In these a byte is a character that no text has (grove_etcd/wire.py).
NO_TEXT = "\udcff"


def put(store, key, value=""):
    store.write(putting(key, value))


def put_fresh(store, name, node=""):
    put(store, store.keys.fresh(1, name), node)


# What somebody has put beside two jobs whose rights are a submitter's, or a worker's; and which job is set aside by it.
NO_TEXTS = {
    "a name": (lambda s: put_fresh(s, f"{NO_TEXT}.0"), f"{NO_TEXT}.0"),
    "a job": (lambda s: (put(s, s.keys.job("x.0"), NO_TEXT), put_fresh(s, "x.0")), "x.0"),
    "the node of a job": (lambda s: (put_job(s, "x.0", "{"), put_fresh(s, "y.0", f"/{NO_TEXT}")), "x.0"),
    "one under way": (lambda s: put(s, s.keys.under_way(NO_TEXT), '{"by":""}'), NO_TEXT),
    "who goes on": (lambda s: put(s, s.keys.under_way("x.0"), NO_TEXT), "x.0"),
    "what is waited for": (lambda s: put(s, s.keys.under_way("x.0"), '{"by":"","waits":"/\\ud800"}'), "x.0"),
    "a worker": (lambda s: put(s, s.keys.sign(NO_TEXT), NO_TEXT), None),
    "a record": (lambda s: put(s, s.keys.record("/b"), NO_TEXT), "at-b.0"),
    "one in line": (lambda s: put(s, s.keys.waiters("/b") + NO_TEXT, NO_TEXT), None),
    "why one is set aside": (lambda s: put(s, s.keys.aside("x.0"), '{"why":"\\ud800"}'), "x.0"),
}


def what_is_no_text_stops_nobody(cluster, grove):
    """Neither workers, with work and without it, nor those who look on."""
    faults = (fault_of_no_text(cluster, grove, number, name) for number, name in enumerate(NO_TEXTS))
    return "; ".join(fault for fault in faults if fault) or None


def fault_of_no_text(cluster, grove, number, name):
    plant, wanted = NO_TEXTS[name]
    came = []
    for work in (None, lambda *_: None):
        store = Store(cluster, grove, f"no-text-{number}-{'work' if work else 'short'}")
        jobs = (Job(f"at-{path[1:]}.0", 10**15, [["add", path, 1]], plan_at(path)) for path in ("/a", "/b"))
        store.submitter.put_all(list(jobs))
        plant(store)
        store.work(work=work, patience=PATIENCE)
        aside = dict(failed(store.members, store.keys))
        told = Programs(cluster, store.keys.store).run("status", "--jobs", "--failed")
        is_well = wanted is None or wanted in aside
        came.append((is_well, store.records("/a"), "at-b.0" in aside, told[0]))
    is_aside = wanted == "at-b.0"
    return None if came == [(True, [11], is_aside, 0)] * 2 else f"{name}: came {came}"


class TellsNoEvent(TellsAnotherEvent):
    """Puts a value of another form for what its group did, in its own transaction."""

    def event(self, event):
        return Formless(event)


class Formless:
    """Text as of an event, but for one field."""

    def __init__(self, event):
        self.told = event

    def text(self):
        return self.told.text().replace('"takes":', '"takes":0.')


# What is put for a store in which a job at /a and /b is in a closed epoch, and another has ended since; and how the
# audit and the follower refuse it. The follower sees each as it comes.
FORMLESS = {
    "an event": (lambda s: put(s, s.keys.event(s.jobs[1], 0), NO_TEXT), "left-out ", "left-out "),
    "an event's steps": (lambda s: put_event(s, '"x"'), "left-out ", "left-out "),
    "an event's number": (lambda s: put(s, s.keys.events(s.jobs[1]) + "x", "{}"), "left-out ", "left-out "),
    "a worker's own event": (lambda s: s.do(BOTH, kind=TellsNoEvent), "left-out ", "left-out "),
    "a progress": (lambda s: put(s, s.keys.progress(s.jobs[1]), "[]"), "left-out ", "left-out "),
    "a weight": (lambda s: put(s, s.keys.weight("/a"), "x"), "stray-weight /a", "stray-weight /a"),
    "what an epoch left": (lambda s: put(s, s.keys.left("/a", 1), "{}"), "stray-epoch ", "stray-epoch "),
    "an epoch": (lambda s: put(s, s.keys.closed(1), '{"jobs":7}'), "stray-epoch ", "stray-epoch "),
    "an epoch's number": (lambda s: put(s, s.keys.whole("x") + NO_TEXT, "{}"), "stray-epoch ", "stray-epoch "),
    "the head": (lambda s: put(s, s.keys.head(), "[]"), "stray-head", "stray-epoch "),
}


def put_event(store, takes):
    put(store, store.keys.event(store.jobs[1], 0), f'{{"takes":{takes},"mark":false,"records":{{}}}}')


def what_has_no_form_is_refused_by_name(cluster, grove):
    faults = (fault_of_formless(cluster, grove, number, name) for number, name in enumerate(FORMLESS))
    return "; ".join(fault for fault in faults if fault) or None


def fault_of_formless(cluster, grove, number, name):
    plant, audited, followed = FORMLESS[name]
    store = Store(cluster, grove, f"formless-{number}")
    store.do(BOTH)
    store.audit()
    store.do([["add", "/a", 1]])
    with Followed(cluster, store, anew=True) as follower:
        follower.follower.every = SECONDS
        plant(store)
        follower.thread.join(SECONDS)
    faults = told_as(follower.end, followed), told_as(refusal(store.audit), audited)
    return "; ".join(f"{name}: {fault}" for fault in faults if fault) or None
