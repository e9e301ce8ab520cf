"""Trials of loading, submitting and asking: what is done once, what is refused, and with which place."""
import json
import os
import subprocess
import threading
from concurrent.futures import ThreadPoolExecutor
from dataclasses import replace
from random import Random

from members_at_hand import TOP
from store_at_hand import BOTH, SECONDS, SMALL, Programs, Store, one_group, refusal

from grove_etcd.choosing import MOST_JOBS
from grove_etcd.documents import array_of, parsed, paths_of
from grove_etcd.head import head_text
from grove_etcd.keys import Keys
from grove_etcd.loading import Loader, batches, changes, load
from grove_etcd.past import Epoch
from grove_etcd.planners import by_library, by_program
from grove_etcd.program import GROVE
from grove_etcd.submitting import MOST_AT_ONCE, Submitter
from grove_etcd.wire import deleting, deleting_below, putting


def flat(count, record, letters):
    rows = [{"parent": None, "name": "", "weight": 1, "value": record}]
    for number in range(count):
        rows.append(
            {"parent": 0, "name": f"{letters[number % len(letters)]}{number}", "weight": record, "value": record}
        )
    return rows


def loads_that_mix_leave_one_document(cluster, grove):
    """Two at once, by the programs; and one that was delayed, until another had loaded, and until jobs had run."""
    programs = Programs(cluster, "mix")
    files = [programs.file(f"mix-{n}.json", json.dumps({"nodes": flat(3000, n, "ab"[:n])})) for n in (1, 2)]
    started = [programs.start("load", file, stdout=subprocess.PIPE) for file in files]
    printed = [each.communicate(timeout=SECONDS)[0].strip() for each in started]
    found = cluster.members().below("mix/r/").entries.values()
    records = {entry.value for entry in found}
    names = {key.rpartition("/")[2][:1] for key in cluster.members().below("mix/m/").entries}
    one = records == {"1"} and names == {"", "a"} or records == {"2"} and names == {"", "a", "b"}
    if not one or printed.count("loaded 3001 nodes") != 1:
        return f"printed {printed}, records {records}, names {names}"
    return delayed_loaders(cluster, grove)


def delayed_loaders(cluster, grove):
    members, keys = cluster.members(), Keys("delayed")
    late, later = Loader(members, keys), Loader(members, keys)
    late.begin()
    load(members, keys, SMALL)
    wanted = list(batches(changes(keys, paths_of(flat(200, 3, "q")), flat(200, 3, "q"))))
    came = [refusal(late.make_all, wanted), refusal(late.make, [putting(keys.head(), head_text(1))])]
    came.append(refusal(later.begin))
    nodes = len(members.below(keys.whole("m")).entries)
    is_well = came == ["refused other-loader"] * 2 + ["refused loaded"] and nodes == len(SMALL)
    return None if is_well else f"came {came}, {nodes} nodes"


def what_is_submitted_by_an_id_is_made_once(cluster, grove):
    """Repeated, also by several at once and where only a part was submitted; and its replies are printed."""
    store, programs = Store(cluster, grove, "ids"), Programs(cluster, "ids")
    lists = [[["add", "/a", 1]], [["get", "/b/c"], ["take", "/a", 100]]]
    file = programs.file("ids.json", json.dumps({"lists": lists}))
    words = ["submit", "--grove", grove, "--id", "once"]
    store.submitter.submit_all(lists[:1], "once")
    with ThreadPoolExecutor(4) as pool:
        printed = list(pool.map(lambda _: programs.lines(*words, file), range(4)))
    thread = threading.Thread(target=store.work)
    waits = programs.start(*words, "--wait", file, stdout=subprocess.PIPE)
    thread.start()
    replies = waits.communicate(timeout=SECONDS)[0].splitlines()
    thread.join()
    other = programs.run(*words, programs.file("other.json", json.dumps({"lists": [BOTH]})))
    came = store.records("/a"), sorted(replies[2:]), {tuple(each) for each in printed}, other
    told = ["replies once.0 [11]", 'replies once.1 [5,"short"]']
    wanted = [11], told, {("submitted once.0", "submitted once.1")}, (1, "refused id-taken once.0\n")
    return None if came == wanted else f"wanted {wanted}; came {came}"


def the_library_plans_what_the_program_does(cluster, grove):
    """Of many lists the same text or the same refusal; and `submit` says who planned, with the same jobs by either."""
    made = subprocess.run([TOP / "tools/library"], capture_output=True, text=True, check=False)
    library, program = by_library(), by_program(grove)
    if library is None:
        return f"there is no library: {made.stderr}"
    for document in map(small_document, range(200)):
        came, wanted = (refusal(by.plan, document) for by in (library, program))
        if came != wanted:
            return f"{document}: wanted {wanted}; came {came}"
    return who_planned(Programs(cluster, "planners"), Store(cluster, grove, "planners"), grove)


def small_document(seed):
    """Of the small tree with other weights, and a list of which some are refused."""
    random = Random(seed)
    nodes = [{**row, "weight": random.randint(1, 20)} for row in SMALL]
    paths = ["/", "/a", "/b", "/b/c", "/a-d"] * 4 + ["/q"]
    accesses = [["add", random.choice(paths), 1, random.choice([1, 2, 1000])] for _ in range(random.randint(0, 8))]
    if seed % 10 == 0:
        accesses.append(random.choice([["get"], ["get", "/a", 1001], 7, ["take", "/a", "x"]]))
    return json.dumps({"version": 2, "nodes": nodes, "list": accesses})


def who_planned(programs, store, grove):
    file = programs.file("planners.json", json.dumps({"lists": [BOTH, [["get", "/b/c"]], [["take", "/a", 2]] * 3]}))
    nowhere = {**os.environ, "GROVE_LIBRARY": "/no/such/folder"}
    ways = [((), os.environ, "the library"), (("--grove", grove), os.environ, grove)]
    if GROVE.exists():
        ways.append(((), nowhere, str(GROVE)))
    texts = []
    for number, (words, surroundings, name) in enumerate(ways):
        ran = programs.ran("submit", *words, "--id", f"by{number}", file, env=surroundings)
        if (ran.returncode, ran.stderr) != (0, f"planned by {name}\n"):
            return f"status {ran.returncode}, {ran.stdout}{ran.stderr}"
        jobs = [json.loads(store.read(store.keys.job(f"by{number}.{at}"))) for at in range(3)]
        texts.append([{name: job[name] for name in ("list", "plan")} for job in jobs])
    return None if all(each == texts[0] for each in texts) else f"the jobs are {texts}"


def weights_are_read_however_large_the_tree_is(cluster, grove):
    """Those of the first nodes at once, and of any others once they are needed. What isn't a weight is refused to those
    that need it alone."""
    rows = flat(MOST_AT_ONCE + 100, 3, "z")
    store = Store(cluster, grove, "weights", rows=rows)
    paths = sorted(paths_of(rows))
    last, first, far = paths[MOST_AT_ONCE - 1], paths[MOST_AT_ONCE], paths[-1]
    known = []
    for path in (paths[1], last, first, far):
        if store.submitter.weights([[["get", path]]]) != {"/": 1, path: 3}:
            return f"{path} has other weights"
        known.append(len(store.submitter.known))
    store.do([["add", last, 1]], [["add", far, 1], ["add", paths[1], 1]])
    done = store.records(last, far, paths[1]), len(store.audit().jobs)
    store.members.write([putting(store.keys.weight(path), "no weight") for path in (paths[2], far)])
    submitter = Submitter(store.members, store.keys, grove)
    stray = [refusal(submitter.weights, [[["get", path]]]) for path in (paths[1], paths[2], far)]
    counts = [MOST_AT_ONCE, MOST_AT_ONCE, MOST_AT_ONCE + 1, MOST_AT_ONCE + 2]
    refused = [{"/": 1, paths[1]: 3}] + ["refused no-form Weight no weight"] * 2
    wanted, came = (counts, ([4] * 3, 2), refused), (known, done, stray)
    return None if came == wanted else f"wanted {wanted}; came {came}"


def a_full_epoch_is_followed_by_the_next(cluster, grove):
    """Without anybody being refused, and while a job goes on that has begun before all of them."""
    store = Store(cluster, grove, "epochs", [[["add", "/b/c", 1]]])
    goes_on = store.attempt(0)
    found = goes_on.look(0)
    found = goes_on.go_on(found)
    store.submitter.submit_all([[["add", "/a", 1]]] * (MOST_JOBS + 10))
    store.worker().run_batch([], set())
    left = store.worker()
    while fresh := left.fresh_of(left.look()):
        left.run_batch(left.jobs(list(fresh)[:24]), set())
    audits = [store.audit() for _ in range(2)]
    none = refusal(store.audit)
    goes_on.run(found)
    last = store.audit()
    early = refusal(store.forget, 2)
    for epoch in (1, 2, 3):
        store.audit(epoch)
    store.forget(1)
    came = (
        [len(each.jobs) for each in (*audits, last)],
        none,
        early,
        refusal(store.audit, 1),
        store.records("/a", "/b/c"),
    )
    wanted = [MOST_JOBS, 10, 1], "refused no-jobs", "refused epoch-not-oldest", "refused no-jobs", [276, 6]
    return None if came == wanted else f"wanted {wanted}; came {came}"


def closed_epochs_are_forgotten_without_new_jobs(cluster, grove):
    """By `audit --all --forget`; a third call finds nothing to do."""
    store, programs = Store(cluster, grove, "forgotten"), Programs(cluster, "forgotten")
    words = "audit", "--grove", grove, "--all", "--forget"
    for _ in range(2):
        store.do([["add", "/a", 1]])
        store.audit()
    store.do([["add", "/a", 1]])
    lines = programs.lines(*words)
    store.do([["add", "/a", 1]])
    store.audit()
    came = [line for line in lines if line[:5] in ("epoch", "forgo")], programs.run(*words), programs.run(*words)
    wanted = ["epoch 3", "forgotten 1", "forgotten 2", "forgotten 3"], (0, "forgotten 4\n"), (1, "refused no-jobs\n")
    return None if came == wanted else f"wanted {wanted}; came {came}"


def a_job_of_a_forgotten_name_is_kept(cluster, grove):
    """The forgetting of an epoch breaks off, and the job's ID is submitted again before that goes on."""
    store = Store(cluster, grove, "name-again")
    lists = [[["add", "/a", 1]], [["add", "/b", 1]]]
    names = store.submitter.submit_all(lists, "again")
    store.work()
    store.audit()
    keys, epoch = store.keys, Epoch.read(store.read(store.keys.closed(1)))
    store.write(putting(keys.closed(1), replace(epoch, going=True).text()))
    store.write(deleting(keys.job(names[0])), deleting(keys.progress(names[0])), deleting_below(keys.events(names[0])))
    store.submitter.submit_all(lists[:1], "again")
    store.work()
    store.forget(1)
    audited = store.audit().jobs
    came = audited, store.records("/a", "/b"), store.left("px")
    wanted = names[:1], [12, 1], [keys.job(names[0]), keys.closed(2)]
    return None if came == wanted else f"wanted {wanted}; came {came}"


def what_is_wrong_is_refused_by_name(cluster, grove):
    store, empty, old = Store(cluster, grove, "refused"), Keys("empty"), Keys("old")
    store.write(putting(old.old_head(), "{}"), putting(Keys("new").head(), '{"format":9,"epoch":1}'))
    came = [
        refusal(load, store.members, store.keys, SMALL),
        refusal(load, store.members, old, SMALL),
        refusal(load, store.members, empty, [*SMALL, {"parent": 0, "name": "a-d", "weight": 1}]),
        refusal(load, store.members, empty, [*SMALL, {"parent": 0, "name": "x", "weight": True}]),
        refusal(load, store.members, empty, [{**SMALL[0], "value": "x"}]),
        *(refusal(Submitter, store.members, keys, grove) for keys in (empty, old, Keys("new"))),
        refusal(store.submitter.submit, [["get", "/q"]]),
        refusal(store.submitter.submit_all, [BOTH, [["get", "/b/c"], ["get"]]]),
        refusal(store.submitter.submit_all, [BOTH, 7]),
        refusal(store.submitter.submit_all, [BOTH, [["get", "/b", 1001]]]),
        refusal(store.submitter.submit_all, [BOTH], "Id"),
        refusal(store.audit),
    ]
    wanted = ["loaded", "loaded", "row 5 twice-named", "shape nodes 5", "shape nodes 0"]
    wanted += ["not-loaded", "other-format 1", "other-format 9"]
    wanted += ["no-path lists 0 0", "shape lists 1 1", "shape lists 1", "bad-length lists 1 0", "bad-id", "no-jobs"]
    written = store.members.below(empty.whole("m")).entries, store.members.below(store.keys.whole("p")).entries
    if any(written):
        return f"there was written {written}"
    return None if came == [f"refused {name}" for name in wanted] else f"came {came}"


def errors_are_a_line_and_a_status(cluster, grove):
    """Of each program's wrong words and missing things."""
    programs = Programs(cluster, "errors")
    bad, nodes = programs.file("bad.json", "{"), programs.file("nodes.json", json.dumps({"nodes": SMALL}))
    lists = programs.file("lists.json", json.dumps({"lists": [BOTH]}))
    came = [
        programs.run("load", "/no/such.json"),
        programs.run("load", bad),
        programs.run("load", lists),
        programs.run("load", nodes),
        programs.run("submit", "--grove", "/no/such", lists),
        programs.run("submit", "--grove", "/usr/bin/false", lists),
        programs.run("status", "--record", "/q"),
        programs.run("work", "--work", "no_module:it", "--until-ended"),
        programs.run("audit", "--grove", grove, "--epoch", "0"),
        programs.run("status", "--cacert", "/no/such", "--members", cluster.addresses),
    ]
    wanted = [
        (3, "/no/such.json: No such file or directory\n"),
        (1, "refused bad-json\n"),
        (1, "refused shape nodes\n"),
    ]
    wanted += [(0, "loaded 5 nodes\n"), (3, "/no/such: No such file or directory\n")]
    wanted += [
        (3, "/usr/bin/false plan ended with status 1:\n"),
        (1, "epoch 1: 0 jobs, 0 ended; 0 nodes held\nrefused no-path /q\n"),
    ]
    wanted += [(3, "no_module:it: ModuleNotFoundError: No module named 'no_module'\n")]
    wanted += [(1, "refused no-jobs\n"), (3, "/no/such: No such file or directory\n")]
    wrong = ["status --members 127.0.0.1", "status --store A", "status --cert x"]
    wrong += ["work --metrics x", "work --patience 0", "work --tries 0", "work --slot -1"]
    statuses = [programs.run(*each.split())[0] for each in wrong]
    faults = [f"wanted {want}; came {each}" for each, want in zip(came, wanted) if each != want]
    if statuses != [2] * len(wrong):
        faults.append(f"statuses {statuses}")
    return "; ".join(faults) or fault_of_garbage(programs) or fault_of_unread(programs)


def status_needs_no_grpc(cluster, grove):
    """It says the same where that can't be loaded; and for what needs it all the same, what is lacking."""
    store, programs = Store(cluster, grove, "brief", [BOTH, BOTH]), Programs(cluster, "brief")
    one_group(store.attempt(0))
    folder = programs.room / "lacking"
    folder.mkdir()
    (folder / "grpc.py").write_text("raise ImportError('none')")
    lacking = {**os.environ, "PYTHONPATH": str(folder)}
    words = "status", "--failed", "--record", "/a"
    with_it, without, jobs = (
        programs.run(*words),
        programs.ran(*words, env=lacking),
        programs.ran("status", "--jobs", env=lacking),
    )
    told = "needs the Python packages grpcio and protobuf (none)\n"
    came = with_it, (without.returncode, without.stdout), (jobs.returncode, jobs.stdout, jobs.stderr)
    wanted = (0, without.stdout), (0, "epoch 1: 2 jobs, 0 ended; 2 nodes held\nrecord 10\n"), (3, "", told)
    return None if came == wanted else f"wanted {wanted}; came {came}"


def fault_of_garbage(programs):
    """A value in etcd that hasn't its form is refused by name, in a line."""
    programs.cluster.members().write([putting(Keys("garbage").head(), "x")])
    ran = programs.ran("status", "--store", "garbage")
    is_well = (ran.returncode, ran.stdout, ran.stderr) == (1, "refused stray-head\n", "")
    return None if is_well else f"status {ran.returncode}, {ran.stdout}{ran.stderr}"


def fault_of_unread(programs):
    """Lines and refusals that nobody reads leave no traceback."""
    for words in ([], ["--record", "/q"], ["--store", "nowhere"]):
        reads, writes = os.pipe()
        os.close(reads)
        started = programs.start("status", *words, stdout=writes, stderr=subprocess.PIPE)
        os.close(writes)
        said = started.communicate(timeout=SECONDS)[1]
        if (started.returncode, said) != (3, ""):
            return f"status {words}: status {started.returncode}, {said}"
    return None


def a_document_is_read_as_the_program_reads_it(_cluster, grove):
    """Rows that were changed a little: the same refusal, or none."""
    faults = []
    for text in documents():
        ran = subprocess.run([*grove.split(), "plan"], input=text.encode(), capture_output=True, check=False)
        wanted = ran.stdout.decode().strip() if ran.returncode else "read"
        came = refusal(lambda: paths_of(array_of(parsed(text.encode()), "nodes")) and "read")
        if came != wanted:
            faults.append(f"{text}: wanted {wanted}; came {came}")
    return "; ".join(faults) or None


def documents():
    rows = ['{"parent":null,"name":"","weight":5}', '{"parent":0,"name":"a","weight":1,"value":%s}']
    whole = '{"list":[],"nodes":[%s]}'
    for value in (
        "1",
        "-0",
        "1.0",
        "1e2",
        "9223372036854775807",
        "9223372036854775808",
        "true",
        "null",
        '"x"',
        "1e400",
        "NaN",
    ):
        yield whole % ",".join(rows) % value
    for row in (
        '{"parent":1,"name":"a","weight":1}',
        '{"parent":null,"name":"b","weight":1}',
        '{"parent":0,"name":"A","weight":1}',
    ):
        yield whole % ",".join([rows[0], row])
    for weight in ("0", "1001", "4294967296", "-1", "true"):
        yield whole % ('{"parent":null,"name":"","weight":%s}' % weight)
    yield whole % ""
    yield whole % ('{"parent":null,"name":"\\ud800","weight":1}')
    yield whole % ('{"parent":null,"name":"","weight":1,"more":%s%s}' % ("[" * 126, "]" * 126))
    yield '{"list":[],"nodes":7}'
    yield '{"list":[],"version":3,"nodes":[]}'
    yield "[]"
