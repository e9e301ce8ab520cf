"""Groups of steps, and what an audit makes of them."""
import unittest
from dataclasses import replace

import here  # noqa: F401
from grove_etcd.chain import Chain, Left, Node, Passing
from grove_etcd.groups import Limits, Turn, answer, group_of
from grove_etcd.jobs import Event, Job, Kind, Progress
from grove_etcd.keys import Keys
from grove_etcd.ledger import Ledger
from grove_etcd.past import Past, Taken, in_order
from grove_etcd.refusals import Refused
from grove_etcd.seeing import is_last, reads_for, window
from grove_etcd.weights import Weight
from grove_etcd.wire import Entry, Found

KEYS = Keys("store")
PLAN = [["lock", "/"], ["lock", "/a"], ["unlock", "/"], ["access", 0], ["unlock", "/a"]]
JOB = Job("one.0", 5, [["add", "/a", 2]], PLAN)


def found(**values):
    """Of keys, by their kind and node: `o_a` is the owner of /a."""
    texts = {f"store/{name[0]}/{name[2:]}": value for name, value in values.items()}
    return Found(9, {key: Entry(value, 3, 3, 1) for key, value in texts.items()})


def group(progress=Progress(0, 5), limits=Limits(), **values):
    return group_of(KEYS, JOB, window(JOB, progress.step), progress, found(**values), limits)


class Groups(unittest.TestCase):
    def test_free_nodes_are_one_group(self):
        taken = group(r_a="7")
        self.assertEqual((taken.taken, taken.hands, taken.records, taken.replies), (5, {}, {"/a": 9}, [9]))
        self.assertTrue(taken.after().has_ended())
        self.assertEqual(taken.event(), Event(5, False, {"/a": 9}))

    def test_work_ends_a_group_before_its_access(self):
        taken = group(limits=Limits(works=True))
        self.assertEqual((taken.taken, taken.hands, taken.blocked), (3, {"/a": True}, None))
        rest = group(taken.after(), Limits(works=True), r_a="1", o_a="one.0")
        self.assertEqual((rest.taken, rest.hands, rest.records), (2, {"/a": False}, {"/a": 3}))

    def test_it_ends_before_a_node_that_is_held(self):
        taken = group(o_a="two.0")
        self.assertEqual((taken.taken, taken.blocked, taken.turn), (1, "/a", Turn.HELD))
        self.assertTrue(taken.after(True).marked and taken.after(True).waits)
        self.assertFalse(taken.after(False).marked)
        again = group(taken.after(True), o_a="two.0")
        self.assertTrue(again.does_nothing())

    def test_it_ends_before_a_node_that_others_wait_for_longer(self):
        values = {"v_a//00000000000000004/x.0": ""}
        self.assertEqual(group(**values).turn, Turn.OTHERS)
        newer = {"v_a//00000000000000006/x.0": ""}
        self.assertEqual(group(**newer).turn, Turn.OTHERS)
        self.assertEqual(group(Progress(1, 5, 1, waits=True), **newer).turn, None)
        self.assertEqual(group(Progress(1, 5, 1, waits=True), **values).turn, Turn.OTHERS)
        self.assertEqual(group(limits=Limits(queues=False), **values).turn, None)

    def test_a_contested_node_is_stood_in_line_for_once(self):
        limits = Limits(contested="/")
        first = group(limits=limits)
        self.assertEqual((first.taken, first.blocked, first.turn), (0, "/", Turn.OTHERS))
        self.assertEqual(group(first.after(), limits).taken, 5)

    def test_what_is_read(self):
        """Of the job itself, of each lock, for whoever gets what is unlocked, and the record. The job's own place is
        read in the line of the first step alone."""
        self.assertEqual(len(reads_for(KEYS, JOB, 0, Limits())), 4 + (3 + 2) + 2 + 1)
        self.assertEqual(len(reads_for(KEYS, JOB, 0, Limits(works=True))), 4 + (3 + 2) + 1 + 1)
        self.assertEqual(len(reads_for(KEYS, JOB, 1, Limits())), 3 + 3 + 2 + 1)

    def test_which_group_is_the_last(self):
        self.assertEqual([is_last(JOB, step) for step in range(6)], [False, False, False, True, True, True])
        long = Job("long", 0, [["get", "/a"]] * 2, [["lock", "/a"], ["access", 0], ["access", 1], ["unlock", "/a"]])
        self.assertEqual([is_last(long, step) for step in range(4)], [False, False, True, True])

    def test_a_record_that_is_none(self):
        with self.assertRaises(Refused):
            group(r_a="x")

    def test_answers(self):
        most = 2**63 - 1
        for record, access, wanted in (
            (7, ["get", "/a"], (7, 7)),
            (7, ["set", "/a", 2], (2, "ok")),
            (7, ["add", "/a", 2], (9, 9)),
            (most, ["add", "/a", 1], (most, "range")),
            (7, ["take", "/a", 8], (7, "short")),
            (7, ["take", "/a", 7], (0, 0)),
            (most, ["take", "/a", -1], (most, "range")),
        ):
            self.assertEqual(answer(record, access), wanted)


def past(name, plan, *groups, ended=True):
    """A job with groups of this many steps, at these revisions."""
    job = Job(name, 0, [], plan)
    taken, first = [], 0
    for revision, takes, mark in groups:
        taken.append(Taken(revision, job, first, Event(takes, mark, {})))
        first += takes
    return Past(job, Progress(first, len(plan), len(groups)), taken, frozenset(job.nodes()))


HOLD = [["lock", "/a"], ["unlock", "/a"]]


class Audits(unittest.TestCase):
    def test_who_came_first_is_in_the_epoch_first(self):
        early, late = past("early", HOLD, (1, 2, False)), past("late", HOLD, (2, 2, False))
        self.assertEqual(Ledger([late, early]).chooser.choose(), ["early", "late"])

    def test_behind_one_that_goes_on_nothing_is_closed(self):
        goes_on = past("on", [*HOLD, ["lock", "/b"], ["unlock", "/b"]], (1, 3, False))
        behind, other = past("behind", HOLD, (2, 2, False)), past(
            "other", [["lock", "/c"], ["unlock", "/c"]], (3, 2, False)
        )
        ledger = Ledger([goes_on, behind, other])
        self.assertEqual((ledger.chooser.choose(), ledger.chooser.choose()), (["other"], []))

    def test_what_comes_later_is_chosen_after_what_was_before_it(self):
        jobs = [past(f"job{number}", HOLD, (number, 2, False)) for number in range(300)]
        chooser = Ledger(jobs).chooser
        names = [past.job.name for past in jobs]
        self.assertEqual([chooser.choose() for _ in range(3)], [names[:256], names[256:], []])

    def test_a_choice_that_was_made_is_taken(self):
        jobs = [past(f"job{number}", HOLD, (number, 2, False)) for number in range(4)]
        chooser = Ledger(jobs).chooser
        chooser.take(["job0", "job1"])
        self.assertEqual(chooser.choose(), ["job2", "job3"])

    def test_what_is_closed_counts_no_more(self):
        one, two = past("one", HOLD, (1, 1, False), (2, 1, False)), past("two", HOLD, (3, 1, False), ended=False)
        ledger, own = Ledger([one, two]), Passing()
        own.go_through(one.taken)
        ledger.chooser.choose()
        ledger.close(["one"], own)
        came = ledger.passing.hands, ledger.passing.holders, set(ledger.pasts)
        self.assertEqual(came, ({"/a": 1}, {"/a": "two"}, {"two"}))

    def test_how_often_owners_were_put(self):
        passing = Passing()
        passing.go_through(past("one", HOLD, (1, 2, False)).taken)
        self.assertEqual(passing.hands["/a"], 0)
        passing.go_through(past("two", HOLD, (2, 1, False), (3, 1, False)).taken)
        self.assertEqual((passing.hands["/a"], passing.holders), (2, {}))

    def test_a_node_that_is_handed_on(self):
        """Also if the two jobs are in two epochs."""
        one, two = past("one", HOLD, (1, 1, False), (2, 1, False)), past("two", HOLD, (2, 1, False), (3, 1, False))
        two.taken[0] = replace(two.taken[0], event=replace(two.taken[0].event, place=1))
        together, apart = Passing(), (Passing(), Passing())
        together.go_through(in_order([two, one]))
        apart[0].go_through(one.taken)
        apart[1].go_through(two.taken)
        self.assertEqual(together.hands["/a"], 3)
        self.assertEqual(sum(each.hands["/a"] for each in apart), 3)

    def test_a_job_that_is_begun_with_the_end_of_another(self):
        """It comes before the end, and its lock isn't one that was handed to it."""
        plan = [["lock", "/b"], ["unlock", "/b"]]
        one, two = past("one", HOLD, (1, 1, False), (2, 1, False)), past("two", plan, (2, 1, False), (3, 1, False))
        one.taken[1] = replace(one.taken[1], event=replace(one.taken[1].event, place=1))
        passing, order = Passing(), in_order([one, two])
        passing.go_through(order)
        self.assertEqual([taken.job.name for taken in order], ["one", "two", "one", "two"])
        self.assertEqual((passing.hands["/a"], passing.hands["/b"], passing.holders), (2, 2, {}))

    def test_a_mark_that_is_left_out(self):
        passing = Passing()
        passing.go_through(past("one", HOLD, (1, 1, False)).taken)
        self.assertEqual(JOB.steps[0].kind, Kind.LOCK)
        passing.go_through(past("two", HOLD, (2, 0, True)).taken)
        with self.assertRaises(Refused) as told:
            passing.go_through(past("three", HOLD, (3, 0, False)).taken)
        self.assertEqual(str(told.exception), "left-out three")

    def test_a_wait_for_one_of_an_earlier_epoch(self):
        """Which let the node go at revision 5, maybe in the transaction that began the one that waits."""
        chain = Chain.__new__(Chain)
        chain.nodes = {"/a": Node("/a", None, None, Weight(1, 0, 0), Left(0, 0, 0, 5), None, 1)}
        for revision, place, wanted in ((4, 2, True), (5, 0, True), (5, 1, False), (6, 0, False)):
            waits = Taken(revision, JOB, 0, Event(1, True, {}, place))
            self.assertEqual(chain.was_held("/a", waits), wanted)

    def test_a_record_of_a_node_that_isnt_accessed(self):
        job = Job("one", 0, [], HOLD)
        with self.assertRaises(Refused):
            Passing().go_through([Taken(1, job, 0, Event(2, False, {"/b": 1}))])


if __name__ == "__main__":
    unittest.main()
