"""What a member answered of a transaction, and how a job is seen by it."""
import unittest
from unittest import mock

import here  # noqa: F401
from grove_etcd import etcdrpc
from grove_etcd.groups import Limits, group_of
from grove_etcd.jobs import Job, Progress, UnderWay
from grove_etcd.keys import Keys
from grove_etcd.ready import MakesReady
from grove_etcd.seeing import Seen, left_by, window
from grove_etcd.wire import Entry, Found, done

KEYS = Keys("store")
PLAN = [["lock", "/a"], ["access", 0], ["unlock", "/a"]]
JOB = Job("one.0", 5, [["add", "/a", 2]], PLAN)


def told(*pairs):
    """A member's answer to a read: keys with their values, and the revision at which each was put."""
    kvs = [etcdrpc.KeyValue(key=key.encode(), value=text.encode(), mod_revision=at) for key, text, at in pairs]
    return etcdrpc.ResponseOp(response_range=etcdrpc.RangeResponse(kvs=kvs))


def put():
    return etcdrpc.ResponseOp(response_put=etcdrpc.PutResponse())


def answer(*responses, revision=9):
    return etcdrpc.TxnResponse(header=etcdrpc.ResponseHeader(revision=revision), succeeded=True, responses=responses)


def within(*responses):
    return etcdrpc.ResponseOp(response_txn=answer(*responses))


class Answers(unittest.TestCase):
    def test_what_was_read_last_counts(self):
        found = done(answer(put(), told(("a", "1", 2), ("b", "2", 3)), within(put(), told(("a", "4", 5))))).found
        self.assertEqual(found.value_from_last("a"), "4")
        self.assertEqual(found.entries, {"a": Entry("4", 5, 0, 0), "b": Entry("2", 3, 0, 0)})
        self.assertEqual([found.value_from_last(key) for key in "abc"], ["4", "2", None])

    def test_who_waits_for_a_node(self):
        """Of the root, whose path ends with a slash, as of any other."""
        for path in ("/", "/a", "/a/b"):
            key = KEYS.waiter(path, 5, "one.0")
            found = done(answer(told((key, "x", 2), ("store/va//b", "y", 2)))).found
            self.assertEqual(list(found.below(KEYS.waiters(path))), [key])
            self.assertEqual(found.below(KEYS.waiters("/a/c")), {})

    def test_what_is_known_goes_before_what_was_told(self):
        found = done(answer(told(("a", "1", 2), ("b", "2", 3)))).found.with_known({"a": Entry("7", 9, 0, 0)})
        self.assertEqual((found.value_from_last("a"), found.value("a"), found.value("b")), ("7", "7", "2"))

    def test_what_was_changed_since_counts(self):
        found = done(answer(told(("a", "1", 2)))).found
        found.entries["a"] = Entry("3", 2, 0, 0)
        self.assertEqual(found.value_from_last("a"), "3")

    def test_whether_the_transaction_within_was_made(self):
        self.assertTrue(done(answer(put(), within(put()))).ends_with_then())
        failed = etcdrpc.ResponseOp(response_txn=etcdrpc.TxnResponse(responses=[told()]))
        self.assertFalse(done(answer(put(), failed)).ends_with_then())


class Left(unittest.TestCase):
    def group(self, progress, **owners):
        found = Found(3, {KEYS.owner("/a"): Entry(owner, 3, 3, 1) for owner in owners.values()})
        return group_of(KEYS, JOB, window(JOB, progress.step), progress, found, Limits(works=True))

    def test_a_job_is_seen_as_its_group_leaves_it(self):
        left = left_by(KEYS, JOB, self.group(Progress(0, 3)), UnderWay("me"))
        found = done(answer(told((KEYS.record("/a"), "4", 2)))).found
        seen = left.read_with(found)
        self.assertEqual((seen.progress, seen.under_way), (Progress(1, 3, 1), UnderWay("me")))
        keys = KEYS.under_way("one.0"), KEYS.progress("one.0"), KEYS.record("/a")
        self.assertEqual([seen.found.revision_of(key) for key in keys], [9, 9, 2])
        self.assertEqual(seen.found.value(keys[0]), UnderWay("me").text())

    def test_it_isnt_known_where_a_node_may_be_held_or_the_job_ends(self):
        self.assertIsNone(left_by(KEYS, JOB, self.group(Progress(0, 3), a="two.0"), UnderWay("me")))
        self.assertIsNone(left_by(KEYS, JOB, self.group(Progress(1, 3, 1)), UnderWay("me")))


class MadeReady(unittest.TestCase):
    def test_what_fails_is_left_to_whoever_needs_it(self):
        aside = MakesReady()
        aside.begin(lambda: 1 / 0)
        self.assertIsNone(aside.end())
        aside.begin(lambda: Seen)
        self.assertIs(aside.end(), Seen)

    def test_without_a_thread_nothing_is(self):
        with mock.patch("threading.Thread.start", side_effect=RuntimeError("can't start new thread")):
            aside = MakesReady()
        aside.begin(lambda: Seen)
        self.assertIsNone(aside.end())


if __name__ == "__main__":
    unittest.main()
