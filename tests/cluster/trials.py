"""What is tried of cluster/: each trial gives what is wrong, `None` where nothing is. Each has a store of its own."""
import json
import shutil
import threading
import time
from collections import Counter
from concurrent.futures import ThreadPoolExecutor
from dataclasses import replace
from functools import partial
from random import Random

from beginning import (
    a_job_is_begun_with_the_end_of_the_one_before,
    more_jobs_are_read_while_there_is_work,
    one_that_another_worker_has_begun_is_let_be,
    the_node_of_both_goes_to_whom_stands_in_line,
    what_was_made_ready_is_made_after_a_sign,
    where_its_node_is_held_it_stands_in_line,
    where_its_node_is_taken_it_is_begun_later,
    where_the_worker_is_told_to_end_no_other_is_begun,
)
from between import what_is_planted_between_epochs_is_told, what_no_worker_writes_is_not_seen
from fleet import Fleet
from followed import (
    a_name_that_no_job_has_stops_nobody,
    it_is_followed_by_the_program,
    one_that_was_stopped_while_it_closed_an_epoch_goes_on,
    what_happens_is_followed,
    what_no_event_tells_of_is_refused,
    what_was_compacted_is_said_to_be_missed,
)
from formless import what_has_no_form_is_refused_by_name, what_is_no_text_stops_nobody
from hot import a_hot_node_holds_up_no_others, a_worker_without_more_threads_goes_on
from installed import (
    programs_of_two_versions_work_on_one_store,
    the_wheel_has_the_programs,
    what_audits_have_passed_is_exported,
)
from mixed import fault_of_mixed, random_access
from leashed import (
    a_stopped_worker_is_killed_in_its_work,
    a_worker_that_is_cut_off_is_killed_in_its_work,
    others_wait_for_as_long_as_the_sign_says,
    whatever_is_stopped_no_work_goes_on_unheld,
)
from members_at_hand import SecretCluster
from planted import (
    a_record_that_is_none_sets_its_job_aside,
    a_stray_write_before_any_epoch_is_told,
    a_stray_write_is_told_after_forgetting,
    a_wait_for_a_job_of_an_earlier_epoch_is_counted,
    an_owner_that_is_put_beside_its_job_is_told,
    another_record_that_is_told_is_caught,
    marks_that_are_left_out_are_told,
    what_is_written_over_is_right,
    workers_with_a_bug_are_caught,
)
from parked import (
    a_job_that_waits_holds_up_no_others,
    jobs_beyond_those_that_wait_begin,
    no_more_wait_than_are_to,
    one_that_waits_gives_signs,
    one_worker_has_hundreds_of_jobs_under_way,
    short_jobs_share_transactions,
    the_last_sign_of_one_that_is_gone_is_deleted,
    work_goes_on_in_threads,
)
from restarted import generations_of_workers_are_killed, what_a_fleet_leaves_is_done
from rights import a_worker_needs_few_rights
from serial import fault_of_order
from store_at_hand import (
    BOTH,
    SECONDS,
    SLOT,
    SMALL,
    Programs,
    Store,
    Untimely,
    await_true,
    in_time,
    moved,
    one_group,
)
from spoiled import (
    an_age_that_is_none_stops_nobody,
    a_job_that_is_left_out_is_named,
    a_group_ends_before_it_is_too_large,
    a_late_job_is_dropped,
    a_plan_is_judged_as_the_program_judges_it,
    all_that_were_abandoned_are_taken_up,
    no_line_is_stopped_by_what_stands_in_it,
    no_work_ends_all_workers,
    no_work_ends_the_worker_it_is_done_by,
    what_hasnt_its_form_sets_its_job_aside,
    what_is_dropped_ends_where_it_is,
    what_is_dropped_without_an_answer_is_dropped,
    what_is_no_job_is_set_aside_by_name,
    what_is_said_to_be_fresh_again_is_not_done_again,
    what_stood_in_line_is_dropped,
    what_submitted_jobs_say_is_judged,
)
from submitted import (
    a_job_of_a_forgotten_name_is_kept,
    a_document_is_read_as_the_program_reads_it,
    a_full_epoch_is_followed_by_the_next,
    closed_epochs_are_forgotten_without_new_jobs,
    errors_are_a_line_and_a_status,
    loads_that_mix_leave_one_document,
    status_needs_no_grpc,
    the_library_plans_what_the_program_does,
    weights_are_read_however_large_the_tree_is,
    what_is_submitted_by_an_id_is_made_once,
    what_is_wrong_is_refused_by_name,
)
from tree import Tree
from unanswered import (
    members_that_were_all_away_are_found_again,
    what_is_begun_without_an_answer_is_gone_on_with,
    what_is_left_without_an_answer_is_taken_up,
    what_names_a_worker_is_gone_on_with_by_it,
)
from working import (
    a_worker_that_is_told_to_end_ends_after_its_group,
    an_abandoned_job_is_taken_up_once,
    slow_work_is_done_once,
    work_of_a_killed_worker_is_done_again,
    work_that_fails_sets_its_job_aside,
)

from etcd3 import etcdrpc
from grove_etcd.keys import Keys
from grove_etcd.letting_go import drop_all
from grove_etcd.members import Lost, Members
from grove_etcd.submitting import Submitter
from grove_etcd.weighing import reweigh
from grove_etcd.worker import Worker
from grove_etcd.works import slots

# The nodes of the small tree.
PATHS = ("/", "/a", "/b", "/b/c", "/a-d")
JOBS, ACCESSES, WORKERS, KILLED = 64, 8, 8, 4
# How long the mixed trial goes on, if all has been tried by then.
MIXED_SECONDS = 20
# A slot of the first try at killing some, in milliseconds.
SLOT_OF_KILLED = 10
# Of forty jobs that wait for one node, how many may commit in vain. Where workers have no processor when it is let go
# there are more, so it is to be seen in one try.
MOST_IN_VAIN = 20


def random_document(seed):
    """A tree of depth 4, four children a node, and lists at random nodes."""
    random = Random(seed)
    rows = []

    def grow(parent, depth):
        name = f"n{len(rows)}" if rows else ""
        rows.append({"parent": parent, "name": name, "weight": random.randint(1, 20), "value": random.randint(0, 9)})
        number = len(rows) - 1
        for _ in range(4 if depth < 4 else 0):
            grow(number, depth + 1)

    grow(None, 0)
    paths = Tree(rows).paths
    return {"nodes": rows, "lists": [[random_access(random, paths) for _ in range(ACCESSES)] for _ in range(JOBS)]}


def workers_and_a_member_are_killed(cluster, grove):
    """Eight workers, of which half are killed while nodes are held, and a member that is killed and comes back."""
    return in_time(partial(some_are_killed, cluster, grove))


def some_are_killed(cluster, grove, number):
    """Each try's jobs take longer than those of the one before, which may all have ended too early."""
    programs, document = Programs(cluster, f"killed-{number}"), random_document("killed")
    slot = SLOT_OF_KILLED << number
    file = programs.file("document.json", json.dumps(document))
    programs.lines("load", file)
    submitted = programs.lines("submit", "--grove", grove, "--id", "killed", file)
    if submitted != [f"submitted killed.{number}" for number in range(JOBS)]:
        return f"submitted {submitted}"
    fleet = Fleet(cluster, programs, ["--slot", str(slot), "--patience", "1", "--until-ended"])
    try:
        fleet.start(WORKERS)
        fault = kill_some(cluster, programs, fleet) or fleet.await_end()
    finally:
        fleet.end()
    return fault or fault_of_killed(cluster.members(), programs, document, grove)


def kill_some(cluster, programs, fleet):
    """Once some jobs have ended, and less than half of them, while nodes are held."""
    seen = [programs.standing()]

    def have_some_ended():
        fleet.start_again()
        seen.append(programs.standing())
        return (seen[-1].ended and seen[-1].held) or seen[-1].ended == JOBS

    if not await_true(have_some_ended, moved=partial(moved, fleet.members, fleet.keys)):
        return f"no job ends{fleet.told()}"
    fleet.kill(KILLED)
    now, then = seen[-1], programs.standing()
    if now.ended >= JOBS // 2 or then.ended == JOBS or not then.held:
        raise Untimely(f"{now.ended} jobs had ended, {then.ended} once workers were killed; {then.held} nodes held")
    cluster.kill(0)
    fleet.start(KILLED)
    time.sleep(3)
    cluster.start(0)
    return None


def fault_of_killed(members, programs, document, grove):
    counted = programs.status()
    if counted != (JOBS, JOBS, 0):
        return f"it has {counted} jobs, ended and held nodes"
    lines = (line.split(" ", 1)[1].partition(": ") for line in programs.lines("status", "--jobs")[1:])
    replies = {name: json.loads(told.partition("replies ")[2]) for name, _, told in lines}
    told = dict(line.split(" ", 1) for line in programs.lines("audit", "--grove", grove))
    keys, names = Keys(programs.store), json.loads(told["jobs"])
    lists = [document["lists"][int(name.rpartition(".")[2])] for name in names]
    found = members.below(keys.whole("r"))
    records = {path: int(found.value(keys.record(path)) or "0") for path in Tree(document["nodes"]).paths}
    return fault_of_order(document, lists, told, records, [replies[name] for name in names])


class Silent(Members):
    """Makes every commit, and tells of every other one that no answer came."""

    told = True

    def make(self, request, seconds=None):
        done = super().make(request, seconds)
        self.told = not self.told
        if not self.told:
            raise Lost("no answer")
        return done


def a_commit_without_an_answer_is_done_once(cluster, grove):
    store = Store(cluster, grove, "silent", [BOTH] * 5)
    tokens = []
    silent = Silent(cluster.clients)

    def work(_access, _record, token):
        tokens.append(token)

    Worker(silent, store.keys, work, leashed=False).run(until_ended=True)
    store.audit()
    came = store.records("/a", "/b"), len(tokens), len(set(tokens))
    return None if came == ([15, 5], 10, 10) else f"records, works and tokens {came}"


def two_workers_at_one_job_do_it_once(cluster, grove):
    store = Store(cluster, grove, "two", [BOTH])
    first, second = store.attempt(0), store.attempt(0)
    seen = second.look(0)
    found = one_group(first)
    dropped = one_group(second, seen)
    second.run(dropped)
    before = store.records("/a")
    first.run(found)
    store.audit()
    came = before, store.records("/a"), second.means.journal.counts["dropped"]
    return None if came == ([10], [11], 1) else f"came {came}"


def a_job_is_taken_up_by_one_that_waits_for_it(cluster, grove):
    store = Store(cluster, grove, "taken", [BOTH, [["add", "/b", 1]], [["get", "/b/c"]]])
    one_group(store.attempt(0, patience=0.2))
    worker = store.worker(work=slots(SLOT), patience=0.2)
    worker.run(until_ended=True)
    audited = store.audit()
    changed = reweigh(store.members, store.keys)
    waits = dict(zip(["/", "/a", "/b", "/b/c"], json.loads(audited.lines["waits"])))
    weights = weights_of(store)
    again = reweigh(store.members, store.keys)
    later = weights_of(store)
    came = waits, changed, weights, again, later
    wanted = {"/": 0, "/a": 0, "/b": 1, "/b/c": 0}, 1, dict(zip(PATHS, (25, 2, 2, 5, 2))), 0
    return None if came == (*wanted, dict(zip(PATHS, (13, 1, 1, 3, 1)))) else f"came {came}"


def weights_of(store):
    """As a submitter finds them that has read none before."""
    return Submitter(store.members, store.keys, store.grove).weights([[["get", path] for path in PATHS]])


def one_is_woken_at_each_release(cluster, grove):
    """Of jobs that wait for one node the oldest goes first, and the commits of the others aren't in vain."""
    return in_time(partial(few_commit_in_vain, cluster, grove))


def few_commit_in_vain(cluster, grove, number):
    store = Store(cluster, grove, f"woken-{number}", [[["add", "/", 1]] for _ in range(40)])
    workers = [Worker(cluster.members(), store.keys, slots(0.005), leashed=False) for _ in range(8)]
    run_all(workers)
    store.audit()
    counts = sum((worker.means.journal.counts for worker in workers), start=Counter())
    if counts["commit_failed"] > MOST_IN_VAIN:
        raise Untimely(f"{counts}")
    return None if store.records("/") == [40] else f"{store.records('/')}, {counts}"


def a_job_is_woken_where_the_node_is_handed_past_an_older_one(cluster, grove):
    """Whoever lets the node go hasn't seen that an older job has come before the first in line."""
    store = Store(cluster, grove, "past", [[["add", "/", 1]]] * 3)
    holds, older, younger = (store.attempt(number, patience=2.5 * SECONDS) for number in range(3))
    one_group(holds)
    one_group(younger)
    found = holds.look(1)
    one_group(older)
    waits = younger.look(0)
    holds.run(found)
    woken = younger.go_on(waits)
    younger.run(woken)
    older.run(older.look(1))
    store.audit()
    came = waits.progress.step, woken.progress.step, store.records("/")
    return None if came == (0, 1, [3]) else f"came {came}"


def who_is_behind_one_that_leaves_the_line_is_woken(cluster, grove):
    """While another job holds the node; and where it is free, since whoever let it go hadn't seen the line."""
    came = {is_held: woken_behind(cluster, grove, is_held) for is_held in (True, False)}
    return None if came == dict.fromkeys((True, False), ([], [2])) else f"came {came}"


def woken_behind(cluster, grove, is_held):
    store = Store(cluster, grove, f"behind-{int(is_held)}", [[["add", "/", 1]]] * 3)
    holds, older, younger = (store.attempt(number, patience=2.5 * SECONDS) for number in range(3))
    held = one_group(holds)
    one_group(older)
    one_group(younger)
    if not is_held:
        holds.run(held)
    waits = younger.look(0)
    with ThreadPoolExecutor(1) as pool:
        woken = pool.submit(younger.go_on, waits)
        await_true(lambda: store.members.watches)
        older.set_aside(older.look(0), "why not", 0)
        list(drop_all(store.members, store.keys, [store.jobs[1]]))
        if is_held:
            holds.run(holds.look(1))
        younger.run(woken.result(SECONDS))
    store.audit()
    return store.left("qua"), store.records("/")


def run_all(workers):
    threads = [threading.Thread(target=worker.run, args=(True,)) for worker in workers]
    for thread in threads:
        thread.start()
    for thread in threads:
        thread.join()


def a_forgotten_job_is_not_done_again(cluster, grove):
    """A worker hangs after it has looked, and the job's epoch is audited and forgotten meanwhile."""
    store = Store(cluster, grove, "hangs", [[["add", "/b", 1]], BOTH])
    hangs, hangs_later = store.attempt(0, slot=0), store.attempt(1, patience=0.1)
    seen, later = hangs.look(0), one_group(hangs_later)
    store.worker(patience=0.1).run(until_ended=True)
    store.audit()
    store.forget(1)
    hangs.run(seen)
    hangs_later.run(later)
    left = [key for kind in "pjequ" for key in store.members.below(store.keys.whole(kind)).entries]
    return None if store.records("/a", "/b") == [11, 2] and not left else f"{store.records('/a', '/b')}, {left}"


def members_are_spoken_to_as_etcdctl_does(_cluster, grove):
    """With certificates, and as a user with a password; without either, in a line and by status 3."""
    if not shutil.which("openssl"):
        return "openssl isn't there"
    with SecretCluster() as cluster:
        programs = Programs(cluster, "secret")
        file = programs.file("small.json", json.dumps({"nodes": SMALL, "lists": [BOTH]}))
        programs.lines("load", file)
        members = Members(cluster.clients, replace(cluster.let_in, user="root", password="secret"))
        add_user(cluster.members())
        without = programs.run("status")
        programs.words += ["--user", "root:secret"]
        programs.lines("submit", "--grove", grove, file)
        programs.lines("work", "--until-ended", "--slot", "1")
        programs.lines("audit", "--grove", grove)
        programs.lines("submit", "--grove", grove, file)
        programs.lines("work", "--until-ended")
        programs.lines("audit", "--grove", grove, "--all", "--forget")
        left = [key for kind in "pjequx" for key in members.below(f"secret/{kind}/").entries]
        wrong = programs.run("status", "--user", "root:wrong")
    is_well = without[0] == wrong[0] == 3 and without[1].count("\n") == wrong[1].count("\n") == 1
    return None if is_well and not left else f"came {without}, {wrong}, {left}"


def all_ends_whatever_is_killed(_cluster, grove):
    """The mixed trial, for a short while; tests/cluster/soak runs it for longer."""
    seed = int(time.time())
    return fault_of_mixed(grove, random_document(f"mixed {seed}"), MIXED_SECONDS, seed)


def add_user(members):
    """A root with a password, whom etcd wants from then on."""
    calls = etcdrpc.AuthStub(members.asked.channel)
    calls.UserAdd(etcdrpc.AuthUserAddRequest(name="root", password="secret"))
    calls.RoleAdd(etcdrpc.AuthRoleAddRequest(name="root"))
    calls.UserGrantRole(etcdrpc.AuthUserGrantRoleRequest(user="root", role="root"))
    calls.AuthEnable(etcdrpc.AuthEnableRequest())


TRIALS = [
    workers_and_a_member_are_killed,
    all_ends_whatever_is_killed,
    workers_with_a_bug_are_caught,
    marks_that_are_left_out_are_told,
    what_is_planted_between_epochs_is_told,
    what_no_worker_writes_is_not_seen,
    a_stray_write_before_any_epoch_is_told,
    a_stray_write_is_told_after_forgetting,
    a_wait_for_a_job_of_an_earlier_epoch_is_counted,
    a_record_that_is_none_sets_its_job_aside,
    what_is_written_over_is_right,
    an_owner_that_is_put_beside_its_job_is_told,
    another_record_that_is_told_is_caught,
    loads_that_mix_leave_one_document,
    slow_work_is_done_once,
    work_of_a_killed_worker_is_done_again,
    a_stopped_worker_is_killed_in_its_work,
    a_worker_that_is_cut_off_is_killed_in_its_work,
    others_wait_for_as_long_as_the_sign_says,
    whatever_is_stopped_no_work_goes_on_unheld,
    an_abandoned_job_is_taken_up_once,
    work_that_fails_sets_its_job_aside,
    a_worker_that_is_told_to_end_ends_after_its_group,
    a_commit_without_an_answer_is_done_once,
    what_is_left_without_an_answer_is_taken_up,
    members_that_were_all_away_are_found_again,
    what_is_begun_without_an_answer_is_gone_on_with,
    what_names_a_worker_is_gone_on_with_by_it,
    two_workers_at_one_job_do_it_once,
    a_job_is_taken_up_by_one_that_waits_for_it,
    one_is_woken_at_each_release,
    a_job_is_woken_where_the_node_is_handed_past_an_older_one,
    who_is_behind_one_that_leaves_the_line_is_woken,
    one_that_waits_gives_signs,
    the_last_sign_of_one_that_is_gone_is_deleted,
    a_job_that_waits_holds_up_no_others,
    one_worker_has_hundreds_of_jobs_under_way,
    jobs_beyond_those_that_wait_begin,
    no_more_wait_than_are_to,
    work_goes_on_in_threads,
    short_jobs_share_transactions,
    a_job_is_begun_with_the_end_of_the_one_before,
    one_that_another_worker_has_begun_is_let_be,
    where_its_node_is_taken_it_is_begun_later,
    where_its_node_is_held_it_stands_in_line,
    the_node_of_both_goes_to_whom_stands_in_line,
    where_the_worker_is_told_to_end_no_other_is_begun,
    what_was_made_ready_is_made_after_a_sign,
    more_jobs_are_read_while_there_is_work,
    a_forgotten_job_is_not_done_again,
    one_that_was_stopped_while_it_closed_an_epoch_goes_on,
    what_happens_is_followed,
    what_no_event_tells_of_is_refused,
    a_name_that_no_job_has_stops_nobody,
    what_was_compacted_is_said_to_be_missed,
    it_is_followed_by_the_program,
    what_audits_have_passed_is_exported,
    programs_of_two_versions_work_on_one_store,
    the_wheel_has_the_programs,
    all_that_were_abandoned_are_taken_up,
    what_a_fleet_leaves_is_done,
    generations_of_workers_are_killed,
    a_hot_node_holds_up_no_others,
    a_worker_without_more_threads_goes_on,
    a_group_ends_before_it_is_too_large,
    no_work_ends_all_workers,
    no_work_ends_the_worker_it_is_done_by,
    no_line_is_stopped_by_what_stands_in_it,
    what_is_no_job_is_set_aside_by_name,
    what_is_no_text_stops_nobody,
    what_has_no_form_is_refused_by_name,
    what_is_said_to_be_fresh_again_is_not_done_again,
    an_age_that_is_none_stops_nobody,
    a_job_that_is_left_out_is_named,
    what_submitted_jobs_say_is_judged,
    a_plan_is_judged_as_the_program_judges_it,
    what_is_dropped_ends_where_it_is,
    what_is_dropped_without_an_answer_is_dropped,
    what_stood_in_line_is_dropped,
    a_late_job_is_dropped,
    what_hasnt_its_form_sets_its_job_aside,
    the_library_plans_what_the_program_does,
    what_is_submitted_by_an_id_is_made_once,
    weights_are_read_however_large_the_tree_is,
    a_full_epoch_is_followed_by_the_next,
    closed_epochs_are_forgotten_without_new_jobs,
    a_job_of_a_forgotten_name_is_kept,
    what_is_wrong_is_refused_by_name,
    errors_are_a_line_and_a_status,
    status_needs_no_grpc,
    a_document_is_read_as_the_program_reads_it,
    members_are_spoken_to_as_etcdctl_does,
    a_worker_needs_few_rights,
]
