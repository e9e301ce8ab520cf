#!/usr/bin/python3
"""Times plans on etcd clusters that it starts on loopback. Needs what tests/cluster/run needs.

    usage: bench/cluster.py [--grove PROGRAM] [--runs N] [throughput] [contention] [chain] [root] [submitting] [large]
                            [status] [follow]                                           (default: all)

throughput: 200 jobs of one `add`, each at a leaf of its own, by 1, 4 and 16 workers on one and on three members.
contention: 64 jobs of 4 accesses of 5 ms each by 1, 4 and 16 workers on three members; by settled plans, by plans
that lock everything first, and by transactions that compare what they read and try again (etcd's STM). `hot`: each
job adds to the root's record and then to three of 64 leaves; `mild`: to four of 64 leaves. chain: 64 jobs that take
one from the root, from one of four nodes below it and from one of four below that, 5 ms each; the same ways, and
`records`: a lock for each record, taken in sorted order and held to the end. root: 250 jobs of one `add` at the root
by 1, 4 and 16 workers. submitting: 2,000 jobs of one `add` at random leaves, submitted by 4 processes, 20 or 500 in a
call, while 4 workers do them. All these are done RUNS times, all cases in turn; the median is printed, with the least
and the most in brackets. large: trees of 1,111,111 and of some 1,000 nodes are loaded, and the same jobs of 8 accesses
planned, submitted and run in each. status: what `status` takes by the clock, 15 times, at 1,111,111 nodes and 100,000
jobs that nobody has begun. follow: how far `audit --follow --forget` falls behind 10,000 jobs of one `add`, which 4
processes submit as fast as they can and 4 workers do, and its memory.
"""
import argparse
import itertools
import json
import statistics
import subprocess
import sys
import threading
import time
import urllib.request
from collections import Counter
from pathlib import Path
from random import Random

TOP = Path(__file__).resolve().parents[1]
sys.path.insert(0, str(TOP / "tests/cluster"))
from members_at_hand import Cluster  # noqa: E402
from server import HOST, free_port  # noqa: E402

from grove_etcd.auditing import audit  # noqa: E402
from grove_etcd.groups import answer  # noqa: E402
from grove_etcd.jobs import Job  # noqa: E402
from grove_etcd.journal import Journal  # noqa: E402
from grove_etcd.keys import Keys  # noqa: E402
from grove_etcd.loading import load  # noqa: E402
from grove_etcd.members import Members  # noqa: E402
from grove_etcd.program import GROVE  # noqa: E402
from grove_etcd.refusals import Refused  # noqa: E402
from grove_etcd.submitting import Submitter  # noqa: E402
from grove_etcd.tree import names_of, ways_down  # noqa: E402
from grove_etcd.waiting import Watched, wait  # noqa: E402
from grove_etcd.wire import absent, deleting, putting, unchanged  # noqa: E402
from grove_etcd.worker import Worker  # noqa: E402
from grove_etcd.works import slots  # noqa: E402

WORKERS = (1, 4, 16)
# Of lists in a call of a submitter.
SIZES = (20, 500)
SLOT = 0.005
LEAVES = [f"/l{number}" for number in range(64)]
MANY_LEAVES = [f"/l{number:03}" for number in range(250)]


class Timed(Journal):
    """Notes when the last commit was made."""

    last = 0.0

    def log(self, event, **facts):
        super().log(event, **facts)
        if event == "commit":
            self.last = time.time()


def settled(members, keys, _lists, slot):
    journal = Timed()
    Worker(members, keys, slots(slot) if slot else None, journal=journal).run(until_ended=True)
    counts = journal.counts
    return {
        "last": journal.last,
        "works": counts["work"],
        "commits": counts["commit"],
        "failed": counts["commit_failed"],
    }


def compare_and_retry(members, keys, lists, slot):
    """Does lists by transactions that are made only if nothing that they read has changed."""
    told = Counter()
    for accesses in lists:
        is_done = False
        while not is_done:
            found, records = read_records(members, keys, accesses)
            do(keys, accesses, records, slot, told)
            guards = [unchanged(key, found.revision_of(key)) for key in records]
            is_done = members.commit(guards, [putting(key, str(record)) for key, record in records.items()]).succeeded
            told["commits" if is_done else "failed"] += 1
    return {"works": 0, "commits": 0, "failed": 0, **told, "last": time.time()}


def record_locks(members, keys, lists, slot):
    """Locks each record's own key, in sorted order, and unlocks all with the records' new values."""
    told, name = Counter(), str(time.time_ns())
    for accesses in lists:
        owners = sorted(keys.owner(access[1]) for access in accesses)
        for owner in owners:
            while not members.commit([absent(owner)], [putting(owner, name)]).succeeded:
                told["failed"] += 1
                found = members.get(owner)
                if found.value(owner) is not None:
                    wait(members, Watched(owner, there=(owner,)), found.revision, 5)
        _, records = read_records(members, keys, accesses)
        do(keys, accesses, records, slot, told)
        puts = [putting(key, str(record)) for key, record in records.items()]
        members.commit([], [*puts, *map(deleting, owners)])
        told["commits"] += len(owners) + 1
    return {"works": 0, "commits": 0, "failed": 0, **told, "last": time.time()}


def read_records(members, keys, accesses):
    found = members.get(*{keys.record(access[1]) for access in accesses})
    return found, {keys.record(access[1]): int(found.value(keys.record(access[1])) or "0") for access in accesses}


def do(keys, accesses, records, slot, told):
    for access in accesses:
        time.sleep(slot)
        told["works"] += 1
        records[keys.record(access[1])], _ = answer(records[keys.record(access[1])], access)


WAYS = {"settled": settled, "all-first": settled, "stm": compare_and_retry, "records": record_locks}


def be_worker(way, addresses, store, slot):
    """A process of its own: says that it is ready, waits for a line with its lists, and prints what it counted."""
    members, keys = Members(addresses.split(",")), Keys(store)
    members.get(keys.head())
    print("ready", flush=True)
    lists = json.loads(sys.stdin.readline())
    print(json.dumps(WAYS[way](members, keys, lists, float(slot))), flush=True)


def be_submitter(addresses, store, grove, size):
    members, keys = Members(addresses.split(",")), Keys(store)
    submitter = Submitter(members, keys, grove)
    print("ready", flush=True)
    lists = json.loads(sys.stdin.readline())
    for start in range(0, len(lists), int(size)):
        submitter.submit_all(lists[start : start + int(size)])
    print(json.dumps({"last": time.time()}), flush=True)


def start(*words):
    streams = {"stdin": subprocess.PIPE, "stdout": subprocess.PIPE, "text": True}
    return subprocess.Popen([sys.executable, __file__, *map(str, words)], **streams)


def begin(started, lines):
    """Once all are ready each gets its line; gives the time."""
    for each in started:
        each.stdout.readline()
    begun = time.time()
    for each, line in zip(started, lines):
        each.stdin.write(json.dumps(line) + "\n")
        each.stdin.flush()
    return begun


def run_workers(cluster, store, count, slot, way="settled", lists=()):
    """How many seconds passed until the last commit, and what all workers counted together."""
    started = [start("worker", way, cluster.addresses, store, slot) for _ in range(count)]
    begun = begin(started, [lists[number::count] for number in range(count)])
    told = [json.loads(worker.communicate()[0]) for worker in started]
    total = {name: sum(each[name] for each in told) for name in told[0]}
    return max(each["last"] for each in told) - begun, total


def submit_planned(members, keys, lists, plans):
    submitter = Submitter(members, keys, str(GROVE))
    now = time.time_ns() // 1000
    jobs = zip(itertools.count(), lists, plans)
    submitter.put_all([Job(f"job.{number}", now + number, accesses, plan) for number, accesses, plan in jobs])


def audit_all(members, keys, grove):
    """Whether each epoch's audit passes, and how many there are."""
    for epochs in itertools.count():
        try:
            audit(members, keys, grove)
        except Refused as refused:
            if str(refused) == "no-jobs":
                return epochs
            raise


def leaf_plan(path):
    return [["lock", path], ["access", 0], ["unlock", path]]


def rows_below_root(paths, weight):
    root = {"parent": None, "name": "", "weight": weight}
    return [root, *({"parent": 0, "name": path[1:], "weight": 1} for path in paths)]


def spread(values, form="{:,.0f}"):
    """The median, with the least and the most."""
    told = map(form.format, (statistics.median(values), min(values), max(values)))
    return "{} ({} to {})".format(*told)


def throughput(given):
    for count in (1, 3):
        rates = {workers: [] for workers in WORKERS}
        with Cluster(count) as cluster:
            for turn in range(given.runs):
                for workers, found in rates.items():
                    found.append(one_add(cluster, given, f"t{turn}-{workers}", workers, MANY_LEAVES[:200])[0])
        for workers, found in rates.items():
            print(f"{count} members, {workers} workers: {spread(found)} jobs a second", flush=True)


def root(given):
    found = {workers: [] for workers in WORKERS}
    with Cluster(3) as cluster:
        for turn in range(given.runs):
            for workers, told in found.items():
                told.append(one_add(cluster, given, f"r{turn}-{workers}", workers, ["/"] * 250))
    for workers, told in found.items():
        rates, failed = zip(*told)
        print(
            f"root, {workers} workers: {spread(rates)} jobs a second, {spread(failed, '{:.2f}')} commits failed a job",
            flush=True,
        )


def one_add(cluster, given, name, workers, paths):
    """How many jobs a second, and how many commits failed a job."""
    members, keys = cluster.members(), Keys(name)
    load(members, keys, rows_below_root(MANY_LEAVES, 50))
    submit_planned(members, keys, [[["add", path, 1]] for path in paths], map(leaf_plan, paths))
    spent, total = run_workers(cluster, name, workers, 0)
    audit_all(members, keys, given.grove)
    return len(paths) / spent, total["failed"] / len(paths)


def locking_all_first(accesses):
    """A legal plan: all nodes on the ways are locked, then come the accesses, and then all is unlocked."""
    nodes = ways_down([access[1] for access in accesses])
    locks, unlocks = ([[kind, path] for path in nodes] for kind in ("lock", "unlock"))
    return locks + [["access", number] for number in range(len(accesses))] + unlocks


def contended(kind, random):
    nodes = (["/"] if kind == "hot" else []) + random.sample(LEAVES, 3 if kind == "hot" else 4)
    return [["add", path, 1] for path in nodes]


def contention(given):
    cases = list(itertools.product(("hot", "mild"), ("settled", "all-first", "stm"), WORKERS))
    compare(
        given, cases, lambda kind, number: contended(kind, Random(f"{kind} {number}")), rows_below_root(LEAVES, 50)
    )


def chain(given):
    rows = [{"parent": None, "name": "", "weight": 50, "value": 1000}]
    for region in range(4):
        rows.append({"parent": 0, "name": f"r{region}", "weight": 10, "value": 300})
        above = len(rows) - 1
        rows += [{"parent": above, "name": f"t{team}", "weight": 1, "value": 100} for team in range(4)]
    cases = list(itertools.product(("chain",), ("settled", "all-first", "stm", "records"), WORKERS))
    compare(given, cases, lambda _, number: charge(Random(f"chain {number}")), rows)


def charge(random):
    region, team = random.randrange(4), random.randrange(4)
    return [["take", path, 1] for path in ("/", f"/r{region}", f"/r{region}/t{team}")]


def compare(given, cases, list_of, rows):
    found = {case: [] for case in cases}
    with Cluster(3) as cluster:
        for turn in range(given.runs):
            for case in cases:
                lists = [list_of(case[0], number) for number in range(64)]
                found[case].append(contend(cluster, given, turn, *case, lists, rows))
    for case, runs in found.items():
        rate, waits, wasted, commits, failed = zip(*runs)
        print(
            f"{case}: {spread(rate)} jobs a second; {spread(waits)} waits; {spread(commits, '{:.1f}')} commits a job,"
            f" {spread(failed, '{:.1f}')} failed; thrown away {spread(wasted, '{:.1f}')}",
            flush=True,
        )


def contend(cluster, given, turn, kind, way, workers, lists, rows):
    """Jobs a second, waits, work thrown away in parts of the useful, commits and failed ones a job."""
    members, keys = cluster.members(), Keys(f"{kind}-{way}-{workers}-{turn}")
    load(members, keys, rows)
    if WAYS[way] is settled:
        submitter = Submitter(members, keys, given.grove)
        weights = submitter.weights(lists)
        plans = [
            submitter.planner.plan(each, weights) if way == "settled" else locking_all_first(each) for each in lists
        ]
        submit_planned(members, keys, lists, plans)
    spent, total = run_workers(cluster, keys.store, workers, SLOT, way, lists)
    waits = sum('"mark":true' in entry.value for entry in members.below(keys.whole("e")).entries.values())
    if WAYS[way] is settled:
        audit_all(members, keys, given.grove)
    wasted = total["works"] / sum(map(len, lists)) - 1
    return len(lists) / spent, waits, wasted, total["commits"] / len(lists), total["failed"] / len(lists)


def submitting(given):
    found = {size: [] for size in SIZES}
    with Cluster(3) as cluster:
        for turn in range(given.runs):
            for size, rates in found.items():
                rates.append(submit_and_work(cluster, given, f"s{turn}-{size}", size))
    for size, rates in found.items():
        submitted, done, epochs = zip(*rates)
        told = f"{spread(submitted)} submitted, {spread(done)} done a second, {epochs} epochs"
        print(f"submitting, {size} in a call: {told}", flush=True)


def submit_and_work(cluster, given, name, size):
    """How many jobs a second were submitted, and done from the first submission to the last commit; and how many
    epochs they were."""
    members, keys, random = cluster.members(), Keys(name), Random(name)
    load(members, keys, rows_below_root(MANY_LEAVES, 50))
    lists = [[["add", random.choice(MANY_LEAVES), 1]] for _ in range(2000)]
    submitters = [start("submitter", cluster.addresses, name, given.grove, size) for _ in range(4)]
    workers = [start("lasting", cluster.addresses, name, len(lists)) for _ in range(4)]
    begin(workers, [None] * 4)
    begun = begin(submitters, [lists[number::4] for number in range(4)])
    submitted = max(json.loads(each.communicate()[0])["last"] for each in submitters)
    done = max(json.loads(each.communicate()[0])["last"] for each in workers)
    ended = len(members.below(keys.whole("j"), keys_only=True).entries)
    if ended != len(lists):
        raise RuntimeError(f"{ended} jobs have ended")
    return len(lists) / (submitted - begun), len(lists) / (done - begun), audit_all(members, keys, given.grove)


def be_lasting(addresses, store, wanted):
    """A worker that is told to end once so many jobs have ended."""
    members, keys, journal = Members(addresses.split(",")), Keys(store), Timed()
    worker = Worker(members, keys, journal=journal)
    thread = threading.Thread(target=worker.run)
    thread.start()
    while not journal.counts["started"]:
        time.sleep(0.01)
    print("ready", flush=True)
    sys.stdin.readline()
    while members.count(keys.whole("j")) < int(wanted):
        time.sleep(0.05)
    worker.stop()
    thread.join()
    print(json.dumps({"last": journal.last}), flush=True)


def rows_of_tens(depth):
    """Rows of a tree with ten children a node, in preorder, with their paths."""
    rows, paths = [], []

    def grow(parent, name, path, below):
        rows.append({"parent": parent, "name": name, "weight": 1 + below})
        paths.append(path or "/")
        number = len(rows) - 1
        for child in range(10 if below else 0):
            grow(number, f"n{child}", f"{path}/n{child}", below - 1)

    grow(None, "", "", depth)
    return rows, paths


def rows_of_paths(paths):
    number_of = {path: number for number, path in enumerate(paths)}
    above = [path.rpartition("/")[0] or "/" for path in paths]
    rows = []
    for path, up in zip(paths, above):
        parent = number_of[up] if path != "/" else None
        rows.append({"parent": parent, "name": path.rpartition("/")[2], "weight": 7 - len(names_of(path))})
    return rows


def large(given):
    rows, paths = rows_of_tens(6)
    random = Random("large")
    leaves = [path for path in paths if len(names_of(path)) == 6]
    lists = [[["add", path, 1] for path in random.sample(leaves, 8)] for _ in range(16)]
    few = set(ways_down(access[1] for accesses in lists for access in accesses))
    few = sorted(few | set(paths[: max(0, 1000 - len(few))]), key=names_of)
    with Cluster(3) as cluster:
        for name, some in (("thousand", rows_of_paths(few)), ("million", rows)):
            members, keys = cluster.members(), Keys(name)
            begun = time.monotonic()
            load(members, keys, some)
            print(f"{len(some):,} nodes loaded in {time.monotonic() - begun:.1f} s", flush=True)
            time_jobs(members, keys, lists, given.grove)


def time_jobs(members, keys, lists, grove):
    submitter, times = Submitter(members, keys, grove), []
    for accesses in lists:
        begun = time.monotonic()
        plan = submitter.planner.plan(accesses, submitter.weights([accesses]))
        planned = time.monotonic()
        submitter.submit_planned(accesses, plan)
        submitted = time.monotonic()
        Worker(members, keys).run(until_ended=True)
        times.append((planned - begun, submitted - planned, time.monotonic() - submitted))
    planned, submitted, ran = (f"{statistics.median(part) * 1000:.1f}" for part in zip(*times))
    print(f"  a job, median of {len(lists)}: planned {planned}, submitted {submitted}, run {ran} ms", flush=True)


def status(given):
    rows, paths = rows_of_tens(6)
    random, times = Random("status"), []
    chosen = [random.choice(paths) for _ in range(100_000)]
    with Cluster(3) as cluster:
        members, keys = cluster.members(), Keys("grove")
        load(members, keys, rows)
        submit_planned(members, keys, [[["add", path, 1]] for path in chosen], map(leaf_plan, chosen))
        for _ in range(15):
            begun = time.monotonic()
            words = [TOP / "cluster/status", "--members", cluster.addresses]
            told = subprocess.run(words, check=True, capture_output=True, text=True).stdout
            times.append((time.monotonic() - begun) * 1000)
    print(f"{len(rows):,} nodes: status takes {spread(times)} ms; it says {told.strip()}", flush=True)


def follow(given):
    with Cluster(3) as cluster:
        members, keys, random = cluster.members(), Keys("follow"), Random("follow")
        load(members, keys, rows_below_root(MANY_LEAVES, 50))
        lists = [[["add", random.choice(MANY_LEAVES), 1]] for _ in range(10_000)]
        port = free_port()
        words = ["--members", cluster.addresses, "--store", keys.store, "--grove", given.grove, "--metrics", str(port)]
        command = [TOP / "cluster/audit", *words, "--follow", "--forget"]
        with subprocess.Popen(command, stdout=subprocess.PIPE, text=True) as follower:
            follower.stdout.readline()
            threading.Thread(target=follower.stdout.read, daemon=True).start()
            workers = [start("lasting", cluster.addresses, keys.store, len(lists)) for _ in range(4)]
            submitters = [start("submitter", cluster.addresses, keys.store, given.grove, 100) for _ in range(4)]
            begin(workers, [None] * 4)
            begun = begin(submitters, [lists[number::4] for number in range(4)])
            behind, memory = look_at(follower, port, lambda: not members.count(keys.whole("p"), is_at_hand=True))
            done = max(json.loads(each.communicate()[0])["last"] for each in workers) - begun
            follower.terminate()
    rate = f"{len(lists) / done:,.0f} jobs a second"
    print(f"{rate}: behind by {behind:.1f} s at most; {memory[0]} MB, then at most {max(memory)}", flush=True)


def look_at(follower, port, has_ended):
    """How many seconds the follower was behind at most, and its memory in MB, ten times a second."""
    behind, memory, has_begun = 0.0, [], False
    while not (has_begun and has_ended()):
        has_begun = has_begun or not has_ended()
        with urllib.request.urlopen(f"http://{HOST}:{port}/metrics") as page:
            lines = page.read().decode().splitlines()
        told = dict(line.split() for line in lines if not line.startswith("#"))
        behind = max(behind, float(told["grove_audit_behind_seconds"]))
        resident = Path(f"/proc/{follower.pid}/status").read_text(encoding="utf-8").partition("VmRSS:")[2].split()[0]
        memory.append(int(resident) // 1024)
        time.sleep(0.1)
    return behind, memory


KINDS = {kind.__name__: kind for kind in (throughput, contention, chain, root, submitting, large, status, follow)}
PARTS = {"worker": be_worker, "submitter": be_submitter, "lasting": be_lasting}


def main():
    if sys.argv[1:2] and sys.argv[1] in PARTS:
        PARTS[sys.argv[1]](*sys.argv[2:])
        return
    words = argparse.ArgumentParser(description="Times plans on etcd clusters.")
    words.add_argument("--grove", default=str(GROVE))
    words.add_argument("--runs", type=int, default=3)
    words.add_argument("kinds", nargs="*", metavar="KIND")
    given = words.parse_args()
    for name in given.kinds or KINDS:
        KINDS[name](given)


if __name__ == "__main__":
    main()
