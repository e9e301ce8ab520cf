"""Trials of what ends no worker and stops no others: jobs that are none, work that ends badly, values in etcd that
haven't their form, and many jobs that were abandoned at once."""
import json
import subprocess
import threading
from functools import partial
from random import Random

from store_at_hand import (
    BOTH,
    SECONDS,
    SMALL,
    Programs,
    Store,
    await_true,
    in_time,
    one_group,
    refusal,
    untimely_if_unanswered,
)
from working import Counted

from grove_etcd.jobs import Job
from grove_etcd.judging import need_legal, read_job
from grove_etcd.letting_go import drop_all
from grove_etcd.members import Members
from grove_etcd.setting_aside import failed, retry
from grove_etcd.wire import deleting, putting

LEAVES = [f"/x{number}" for number in range(32)]
WIDE = [{"parent": None, "name": "", "weight": 50}, *({"parent": 0, "name": each[1:], "weight": 1} for each in LEAVES)]
PATIENCE = 0.3
AT_A = [["lock", "/a"], ["access", 0], ["unlock", "/a"]]


def put_job(store, name, text, fresh_age=None):
    """As a submitter could put it who doesn't use `submit`."""
    age = 1 if fresh_age is None else fresh_age
    store.write(putting(store.keys.job(name), text), putting(store.keys.fresh(age, name), ""))


def text_of(accesses, plan, age=1):
    return json.dumps({"age": age, "list": accesses, "plan": plan})


def all_that_were_abandoned_are_taken_up(cluster, grove):
    """One job holds a node and forty wait for it, each by a worker that is gone; its name is the last."""
    store = Store(cluster, grove, "restart")
    names = [f"m{number:02}.0" for number in range(40)]
    for age, name in enumerate(["z.0", *names]):
        store.submitter.put_all([Job(name, age, [["add", "/a", 1]], AT_A)])
    store.jobs = ["z.0", *names]
    for number in range(41):
        one_group(store.attempt(number, patience=PATIENCE))
    store.work(patience=PATIENCE)
    store.audit()
    return None if store.records("/a") == [51] else f"{store.records('/a')}, {store.left()}"


def a_group_ends_before_it_is_too_large(cluster, grove):
    """A job lets go of 32 nodes at which others wait, which would be 128 changes beside its own."""
    for waiting in (30, 32):
        store = Store(cluster, grove, f"large-{waiting}", rows=WIDE)
        plan = [["lock", "/"], *(["lock", leaf] for leaf in LEAVES), ["unlock", "/"]]
        plan += [["access", number] for number in range(32)]
        for number, leaf in enumerate(LEAVES):
            plan += [["access", 32 + number], ["unlock", leaf]]
        store.submit_planned([["add", leaf, 1] for leaf in LEAVES] * 2, plan)
        for leaf in LEAVES[:waiting]:
            store.submit([["add", leaf, 1]])
        large = store.attempt(0, patience=PATIENCE)
        found = one_group(large)
        for number in range(waiting):
            one_group(store.attempt(1 + number, slot=0, patience=PATIENCE))
        large.run(large.look(found.progress.step))
        store.work(patience=PATIENCE)
        store.audit()
        if store.records(*LEAVES) != [3] * waiting + [2] * (32 - waiting):
            return f"{waiting} wait: {store.records(*LEAVES)}, {store.left()}"
    return None


# Functions of counted_work, and what is said of a job whose work one of them is; the last two end their worker.
ENDINGS = {
    "raise_much": "RuntimeError: upstream said: xxxx",
    "leave": "SystemExit: no such shop",
    "raise_odd": "Odd: its text raises TypeError",
    "raise_interrupt": "KeyboardInterrupt:",
    "close_standard_error": "RuntimeError: unheard",
    "have_no_standard_error": "RuntimeError: unheard",
    "fork_a_worker": "RuntimeError: the child ended with 1",
    "raise_nameless": "Nameless:",
    "end_as_if_well": "its worker ended, or gave no sign of life",
    "end_the_process": "its worker ended, or gave no sign of life",
}
# The status of a worker whose work has ended it.
STATUSES = {"end_as_if_well": 0, "end_the_process": 7}


def no_work_ends_all_workers(cluster, grove):
    """The job is set aside with what it holds, after as many tries as are told; another job ends."""
    for function, wanted in ENDINGS.items():
        fault = in_time(partial(fault_of_work, cluster, grove, function, wanted))
        if fault:
            return f"{function}: {fault}"
    return None


def deeper(number):
    return deeper(number + 1)


def raising(why):
    raise why


# Work that a worker's own process survives, by the node at which it is done; and what is said of its job, if anything.
STRANGE = {
    "/x0": (lambda _: deeper(0), "RecursionError: "),
    "/x1": (lambda _: raising(ExceptionGroup("many", [ValueError("x" * 99)] * 9999)), "ExceptionGroup: many"),
    "/x2": (lambda _: raising(type("E" * 99_999, (Exception,), {})()), "EEEE"),
    "/x3": (lambda _: raising(GeneratorExit()), "GeneratorExit:"),
    "/x4": (lambda _: raising(RuntimeError("\ud800\0\x1b[2J" * 9999)), "RuntimeError: ???[2J"),
    "/x5": (lambda access: access.clear(), None),
    "/x6": (lambda access: access.__setitem__(2, 1000), None),
    "/x7": (lambda _: threading.Thread(target=raising, args=(SystemExit("no"),)).start(), None),
}


def no_work_ends_the_worker_it_is_done_by(cluster, grove):
    """One worker does all of it. What changes the list that it gets changes no job."""
    store = Store(cluster, grove, "strange", [[["add", path, 1], ["add", path, 1]] for path in STRANGE], WIDE)
    worker = store.worker(work=lambda access, *_: STRANGE[access[1]][0](access), tries=1)
    worker.run(until_ended=True)
    told = {aside.holds[0]: aside.why for _, aside in failed(store.members, store.keys)}
    fails = {path: why for path, (_, why) in STRANGE.items() if why is not None}
    wrong = [path for path, why in fails.items() if not told.get(path, "").startswith(why) or len(told[path]) > 4096]
    list(drop_all(store.members, store.keys, []))
    store.audit()
    came = wrong, set(told) - set(fails), store.records(*STRANGE), store.left("oqua")
    wanted = [], set(), [0 if path in fails else 2 for path in STRANGE], []
    return None if came == wanted else f"wanted {wanted}; came {came}"


# What somebody has put for the line of /a, while a job holds it and others wait: the keys' ends, and their values.
STRANGE_LINES = {
    "a job that isn't there": ("00000000000000001/gone.0", ""),
    "a job that has ended": ("00000000000000001/{ended}", "{}"),
    "no job": ("x", ""),
    "a value without a form": ("00000000000000001/gone.0", '{"group":[],"progress":7}'),
    "a job that is set aside": ("00000000000000001/{aside}", "{"),
}


def no_line_is_stopped_by_what_stands_in_it(cluster, grove):
    """Those that wait get the node all the same, by the same workers and by others after a restart."""
    faults = (fault_of_line(cluster, grove, number, name) for number, name in enumerate(STRANGE_LINES))
    return "; ".join(fault for fault in faults if fault) or None


def fault_of_line(cluster, grove, number, name):
    store = Store(cluster, grove, f"lines-{number}", [[["add", "/a-d", 1]]])
    store.work()
    put_job(store, "aside.0", "{")
    store.submit(*([[["add", "/a", 1]]] * 4))
    holds, first = store.attempt(1, patience=PATIENCE), store.attempt(2, patience=PATIENCE)
    held = one_group(holds)
    one_group(first)
    end, value = STRANGE_LINES[name]
    end = end.format(ended=store.jobs[0], aside="aside.0")
    store.write(putting(store.keys.waiters("/a") + end, value))
    holds.run(held)
    store.work(work=lambda *_: None, patience=PATIENCE)
    came = store.records("/a"), store.left("qu")
    return None if came == ([14], []) else f"{name}: came {came}"


def fault_of_work(cluster, grove, function, wanted, number):
    lists = [[["add", "/a", 1]], [["add", "/b", 1]]]
    counted = Counted(cluster, grove, f"{function}-{number}".replace("_", "-"), lists, 0)
    store, ends = counted.store, []
    while len(ends) < 4 and store.left():
        worker = counted.start(function, "--tries", "2", "--patience", "1", "--until-ended", stderr=subprocess.PIPE)
        errors = worker.communicate(timeout=SECONDS)[1]
        ends.append(worker.returncode)
    untimely_if_unanswered(ends)
    told = dict(failed(store.members, store.keys)).get(store.jobs[0])
    is_short = max(map(len, errors.splitlines()), default=0) < 5000
    if not (told and told.why.startswith(wanted) and len(told.why) <= 4096 and told.holds == ["/a"] and is_short):
        return f"{ends}, {told and told.why[:200]}, {told and told.holds}, {errors[:500]}"
    gone = [STATUSES[function]] * 2 if function in STATUSES else []
    if ends != [*gone, 0] or store.records("/b") != [1]:
        return f"ended with {ends}, {store.records('/b')}"
    list(drop_all(store.members, store.keys, store.jobs[:1]))
    store.audit()
    return None if store.records("/a") == [10] and not store.left("oua") else f"left {store.left('oua')}"


# What stands at a job's key, and what is said of it.
NO_JOBS = {
    "": "malformed bad-json",
    "{": "malformed bad-json",
    "[" * 100_000: "malformed bad-json",
    "7": "malformed whole",
    '{"list":[],"plan":[]}': "malformed age",
    text_of([], [], age=-1): "malformed age",
    text_of([], [], age=True): "malformed age",
    text_of([], [], age=10**17): "malformed age",
    '{"age":1,"by":"x","list":[],"plan":[]}': "malformed by",
    text_of({}, []): "malformed list",
    text_of([["add", "/a", 1]] * 65, []): "malformed list",
    text_of([["add", "/a"]], AT_A): "malformed list 0",
    text_of([["add", "a", 1]], AT_A): "malformed list 0",
    text_of([["add", "/a/", 1]], AT_A): "malformed list 0",
    text_of([["add", "/a", 2**63]], AT_A): "malformed list 0",
    text_of([["add", "/a", 1, 1001]], AT_A): "malformed list 0",
    text_of([], 7): "malformed plan",
    text_of([], [["access", 0]]): "malformed plan 0",
    text_of([], [["lock", 0]]): "malformed plan 0",
    text_of([], [["hold", "/a"]]): "malformed plan 0",
    text_of([], [[[], "/a"]]): "malformed plan 0",
    text_of([["add", "/a", 1]], AT_A[:2] + [["unlock", "/a", 1]]): "malformed plan 2",
    text_of([["add", "/q", 1]], [["lock", "/q"], ["access", 0], ["unlock", "/q"]]): "step 0 strange",
    text_of([["add", "/a", 1]], [["access", 0]]): "step 0 access-not-held",
    text_of([["add", "/a", 1]], AT_A[:2]): "node /a still-held",
    text_of([["add", "/a", 1]] * 2, AT_A): "access 1 missing",
    text_of([["add", "/a", 1]], [["lock", "/a"], ["lock", "/b"]]): "step 1 parent-not-held",
    text_of([], []) + " " * 1_000_000: "malformed too-large",
}


def what_is_no_job_is_set_aside_by_name(cluster, grove):
    """With nothing locked; others go on, and audits pass. Dropped, nothing of it is left but its name."""
    store = Store(cluster, grove, "no-jobs")
    wanted = {f"bad.{number}": why for number, why in enumerate(NO_JOBS.values())}
    for name, text in zip(wanted, NO_JOBS):
        put_job(store, name, text)
    put_job(store, "age.0", text_of([["add", "/a", 1]], AT_A), fresh_age=2)
    put_job(store, "again.0", text_of([["add", "/a", 1]], AT_A))
    store.write(putting(store.keys.job("again.0"), text_of([["add", "/a", 1000]], AT_A)))
    store.write(putting(store.keys.fresh(1, "gone.0"), ""))
    wanted |= {"age.0": "malformed age", "again.0": "job-rewritten", "gone.0": "job-gone"}
    store.do([["add", "/b", 1]])
    came = {name: aside.why for name, aside in failed(store.members, store.keys)}
    if came != wanted or store.records("/a", "/b") != [10, 1] or store.left("ov"):
        wrong = {name: why for name, why in came.items() if wanted.get(name) != why}
        return f"{wrong}, {set(wanted) - set(came)}, {store.records('/a', '/b')}"
    first = store.audit().jobs
    let_go = list(drop_all(store.members, store.keys, list(wanted)))
    del wanted["gone.0"]
    second = sorted(store.audit().jobs)
    is_well = first == store.jobs and second == sorted(wanted) and not any(held for _, held in let_go)
    return None if is_well and not store.left("qua") else f"{first}, {second}, {store.left('qua')}"


def what_is_said_to_be_fresh_again_is_not_done_again(cluster, grove):
    """By who may put the keys of jobs that nobody has begun: of one that has ended, and of one under way."""
    store = Store(cluster, grove, "again", [[["add", "/a", 1]], BOTH])
    store.worker().run_batch(store.worker().jobs(store.jobs[:1]), set())
    found = one_group(store.attempt(1, patience=PATIENCE))
    for name in store.jobs:
        age = json.loads(store.read(store.keys.job(name)))["age"]
        store.write(putting(store.keys.fresh(age, name), ""), putting(store.keys.fresh(age + 1, name), ""))
    store.work(patience=PATIENCE)
    audited = sorted(store.audit().jobs)
    came = found.progress.groups, store.records("/a", "/b"), audited, store.left("qua")
    return None if came == (1, [12, 1], sorted(store.jobs), []) else f"came {came}"


# What stands for the time at which a job was submitted.
NO_AGES = ["00" + "9" * 398, "0" * 400, "", "x", "-1", "0\u0663", "00"]


def an_age_that_is_none_stops_nobody(cluster, grove):
    """One by one, so that each is the first that a worker sees."""
    for number, age in enumerate(NO_AGES):
        store = Store(cluster, grove, f"ages-{number}")
        store.write(putting(store.keys.job("bad.0"), text_of([["add", "/a", 1]], AT_A)))
        store.write(putting(f"{store.keys.whole('q')}{age}/bad.0", ""))
        put_job(store, "good.0", text_of([["add", "/a", 1]], AT_A, 10**15), 10**15)
        store.work()
        aside = {name: each.why for name, each in failed(store.members, store.keys)}
        store.audit()
        if (aside, store.records("/a")) != ({"bad.0": "malformed age"}, [11]):
            return f"{age[:20]}: came {aside}, {store.records('/a')}"
    return None


def a_job_that_is_left_out_is_named(cluster, grove):
    """Somebody has deleted what says that it waits for a worker, or that it is under way."""
    came = []
    for kind in "qu":
        store, programs = Store(cluster, grove, f"left-out-{kind}", [BOTH, BOTH]), Programs(cluster, f"left-out-{kind}")
        if kind == "u":
            one_group(store.attempt(0))
        key = next(each for each in store.left(kind) if each.endswith(store.jobs[0]))
        store.write(deleting(key))
        told = programs.lines("status", "--jobs")
        named = [line.partition(":")[0] for line in told if line.startswith("left-out ")]
        audited = refusal(store.audit)
        left_out = f"left-out {store.jobs[0]}"
        came.append((told[0].rpartition("; ")[2], named == [left_out], audited == f"refused {left_out}"))
    wanted = [("1 left out", True, True), ("0 nodes held", True, True)]
    return None if came == wanted else f"wanted {wanted}; came {came}"


def what_submitted_jobs_say_is_judged(cluster, grove):
    """A plan that is submitted by itself."""
    store = Store(cluster, grove, "judged")
    came = [
        refusal(store.submitter.submit_planned, [["add", "/a", 1]], [["access", 0]]),
        refusal(store.submitter.submit_planned, [["add", "/q", 1]], [["lock", "/q"], ["access", 0], ["unlock", "/q"]]),
        refusal(store.submitter.submit_planned, [["add", "/a"]], AT_A),
    ]
    wanted = ["refused step 0 access-not-held", "refused step 0 strange", "refused malformed list 0"]
    return None if came == wanted and not store.left("pq") else f"came {came}, {store.left('pq')}"


def a_plan_is_judged_as_the_program_judges_it(_cluster, grove):
    """Plans that were changed a little: the same first fault, or none."""
    nodes, random, paths = {"/", "/a", "/b", "/b/c", "/a-d"}, Random("judged"), ["/", "/a", "/b", "/b/c", "/a-d", "/q"]
    came_to, good = set(), [["lock", "/"], ["lock", "/b"], ["access", 0], ["unlock", "/"], ["lock", "/b/c"]]
    good += [["access", 1], ["unlock", "/b"], ["unlock", "/b/c"]]
    for number in range(300):
        plan = [list(step) for step in good]
        for _ in range(number % 4):
            at = random.randrange(len(plan) or 1)
            step = random.choice([["lock", random.choice(paths)], ["unlock", random.choice(paths)], ["access", at % 2]])
            change(random, plan, at, step)
        accesses = [["add", "/b", 1], ["get", "/b/c"]]
        document = json.dumps({"nodes": SMALL, "list": accesses, "plan": plan})
        ran = subprocess.run([grove, "judge"], input=document, capture_output=True, text=True, check=False)
        wanted = ran.stdout.strip() if ran.returncode else "legal"
        came = refusal(judged, accesses, plan, nodes)
        came_to.add(wanted.split()[-1])
        if came != wanted and not wanted.startswith("refused no-path"):
            return f"{plan}: wanted {wanted}; came {came}"
    return None if len(came_to) > 6 else f"only {came_to}"


def change(random, plan, at, step):
    kind = random.randrange(3)
    plan[at : at + (kind < 2)] = [step] if kind else []


def judged(accesses, plan, nodes):
    need_legal(read_job("it.0", text_of(accesses, plan)), nodes)
    return "legal"


def what_is_dropped_ends_where_it_is(cluster, grove):
    """What it has done stays, its nodes go to those that wait for them, and the audit passes."""
    store = Store(cluster, grove, "dropped", [BOTH, [["add", "/b", 1]], [["add", "/a", 1]]])
    tries = []

    def work(access, _record, token):
        if token.startswith(store.jobs[0]) and access[1] == "/b":
            tries.append(token)
            raise RuntimeError("no")

    one_group(store.attempt(0, patience=PATIENCE))
    one_group(store.attempt(1, patience=PATIENCE))
    worker = store.worker(work=work, tries=2, patience=PATIENCE)
    worker_stops_once(worker, lambda: not store.left("q") and dict(failed(store.members, store.keys)))
    aside = dict(failed(store.members, store.keys))
    early = refusal(lambda: list(drop_all(store.members, store.keys, [store.jobs[1]])))
    programs = Programs(cluster, "dropped")
    told = programs.lines("status", "--failed")[-1], programs.lines("drop", store.jobs[0])
    store.work(patience=PATIENCE)
    waits = store.audit()
    name = store.jobs[0]
    wanted = (
        ["/b"],
        f"refused not-set-aside {store.jobs[1]}",
        (f"failed {name}: RuntimeError: no; it holds /b", [f"dropped {name} let go /b"]),
        ([12, 1], sorted(store.jobs)),
    )
    came = aside[name].holds, early, told, (store.records("/a", "/b"), sorted(waits.jobs))
    is_well = came == wanted and len(tries) == 2 and not store.left("qua")
    return None if is_well else f"wanted {wanted}; came {came}, {store.left('qua')}, {tries}"


class MadeTwice(Members):
    """Repeats each transaction, as if the first call had brought no answer."""

    def transact(self, request):
        super().transact(request)
        return super().transact(request)


def what_is_dropped_without_an_answer_is_dropped(cluster, grove):
    """One that holds a node, and one that is none; and those that are tried again."""
    store, members = Store(cluster, grove, "dropped-twice", [BOTH]), MadeTwice(cluster.clients)

    def work(_access, _record, _token):
        raise RuntimeError("no")

    put_job(store, "none.0", "{")
    for number in range(2):
        store.work(work=work, tries=1)
        if number == 0:
            retry(members, store.keys, [])
    came = refusal(lambda: sorted(drop_all(members, store.keys, [])))
    store.work()
    store.audit()
    wanted = sorted([(store.jobs[0], ["/a", "/b"]), ("none.0", [])])
    left = store.left("oqua")
    return None if (came, left, store.records("/a", "/b")) == (wanted, [], [10, 0]) else f"came {came}, {left}"


def worker_stops_once(worker, is_so):
    """Runs the worker until that is so."""
    thread = threading.Thread(target=worker.run)
    thread.start()
    await_true(is_so, SECONDS)
    worker.stop()
    thread.join()


def what_stood_in_line_is_dropped(cluster, grove):
    """It waited for a node of an earlier epoch's job or of its own; its wait is counted, and it never comes there."""
    store = Store(cluster, grove, "dropped-line", [BOTH, [["add", "/b/c", 1], ["add", "/a", 1]]])
    holds, waits = store.attempt(0), store.attempt(1)
    held = one_group(holds)
    found = one_group(waits)
    waits.set_aside(found, "why not", 0)
    list(drop_all(store.members, store.keys, [store.jobs[1]]))
    lines = store.left("v")
    holds.run(held)
    audited = store.audit()
    is_well = not lines and store.records("/a", "/b", "/b/c") == [11, 1, 5] and not store.left("qua")
    return None if is_well else f"{lines}, {audited}, {store.left('qua')}"


def a_late_job_is_dropped(cluster, grove):
    """One that nobody has begun by its deadline; its submitter hears of it. One that was begun goes on."""
    store, programs = Store(cluster, grove, "deadline"), Programs(cluster, "deadline")
    file = programs.file("late.json", json.dumps({"lists": [[["add", "/a", 1]], BOTH]}))
    wrong = [programs.run("submit", "--by", each, file)[0] for each in ("x", "2027-01-31T18:00:00", "+x")]
    waits = programs.start("submit", "--grove", grove, "--by", "+0", "--id", "late", "--wait", file, stdout=-1)
    programs.lines("submit", "--grove", grove, "--by", "2999-01-31T18:00:00Z", "--id", "early", file)
    await_true(lambda: len(store.left("q")) == 4)
    store.work()
    told = sorted(waits.communicate(timeout=SECONDS)[0].splitlines())
    audited = sorted(store.audit().jobs)
    came = wrong, told[:2], audited, store.records("/a", "/b"), store.left("qua")
    names = ["early.0", "early.1", "late.0", "late.1"]
    wanted = [2, 2, 2], ["dropped late.0 []", "dropped late.1 []"], names, [12, 1], []
    return None if came == wanted else f"wanted {wanted}; came {came}"


def what_hasnt_its_form_sets_its_job_aside(cluster, grove):
    """The values that workers write, as somebody else has put them; others go on."""
    store = Store(cluster, grove, "forms", [BOTH, BOTH, BOTH, [["add", "/b/c", 1]]])
    for number in range(2):
        one_group(store.attempt(number, patience=PATIENCE))
    keys, jobs = store.keys, store.jobs
    store.write(putting(keys.progress(jobs[0]), "x"))
    store.write(putting(keys.under_way(jobs[1]), '{"by":7}'))
    store.write(putting(keys.waiter("/b/c", 1, "x.0"), "{"))
    store.write(putting(keys.progress("half.0"), "7"), putting(keys.under_way("half.0"), "[]"))
    worker = store.worker(patience=PATIENCE)
    worker_stops_once(worker, lambda: store.records("/b/c") == [6] and len(store.left("a")) == 3)
    came = sorted(name for name, _ in failed(store.members, keys)), store.records("/b/c")
    return None if came == (sorted([*jobs[:2], "half.0"]), [6]) else f"came {came}"
