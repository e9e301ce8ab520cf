"""Watches, by a member whose answers are given."""
import threading
import time
import unittest
from unittest import mock

from here import parsed
from grove_etcd import etcdrpc
from grove_etcd.members import Members
from grove_etcd.waiting import Ends, Watched, changes, wait
from grove_etcd.etcdrpc import DELETED
from grove_etcd.wire import Change, Found, reading


def event(key, value, revision):
    pair = etcdrpc.KeyValue(key=key.encode(), value=(value or "").encode(), mod_revision=revision)
    return etcdrpc.Event(type=DELETED if value is None else 0, kv=pair)


class Answers(list):
    __hash__ = object.__hash__

    def cancel(self):
        self.clear()


class Member:
    """Its watch is there at this revision, at which these keys stand; it then reports these events."""

    token, range = (), None

    def __init__(self, revision, stand=(), *events):
        header = etcdrpc.ResponseHeader(revision=revision)
        self.present = etcdrpc.RangeResponse(header=header, kvs=[event(*each).kv for each in stand])
        told = etcdrpc.WatchResponse(header=header, events=[event(*each) for each in events])
        self.answers = Answers([etcdrpc.WatchResponse(header=header, created=True), told])
        self.asked_for, self.watches = [], set()

    @property
    def asked(self):
        return self

    def watch(self, request, **_):
        self.asked_for.append(request.create_request)
        return self.answers

    def ask(self, _call, request, _seconds):
        self.asked_for.append(request)
        return self.present


class Watches(unittest.TestCase):
    def test_what_was_missed_is_told_first(self):
        member = Member(12, [("a", "1", 5), ("b", "2", 11)], ("b", "3", 13))
        told = list(changes(member, Watched("a", "c"), 9, 1))
        self.assertEqual(told, [Change("b", "2", 11), Change("b", "3", 13)])
        watch, present = member.asked_for[0], etcdrpc.RangeRequest.FromString(member.asked_for[1])
        self.assertEqual((watch.start_revision, present.serializable, present.min_mod_revision), (0, True, 10))

    def test_a_key_that_is_gone_is_told(self):
        member = Member(12, [("a", "1", 5)])
        self.assertEqual(wait(member, Watched("a", "c", ("a", "b")), 9, 1), Change("b", None, 12))

    def test_a_watch_that_has_told_is_ended(self):
        """By another thread, or at once if the system gives none."""
        for has_threads in (True, False):
            member = Member(9, [], ("a", None, 10), ("a", "1", 11))
            fails = mock.Mock(side_effect=RuntimeError("can't start new thread"))
            with mock.patch("grove_etcd.waiting.ENDS", Ends()) as ends:
                with mock.patch("threading.Thread.start", threading.Thread.start if has_threads else fails):
                    self.assertEqual(wait(member, Watched("a"), 9, 1), Change("a", None, 10))
                self.assertEqual(ends.thread is not None, has_threads)
                until = time.monotonic() + 10
                while member.answers and time.monotonic() < until:
                    time.sleep(0.001)
            self.assertEqual((member.answers, member.watches), ([], set()))

    def test_where_nothing_was_missed_nothing_is_read(self):
        member = Member(9, [], ("a", None, 10))
        self.assertEqual(wait(member, Watched("a"), 9, 1), Change("a", None, 10))
        self.assertEqual(len(member.asked_for), 1)

    def test_what_is_known_already_isnt_told(self):
        member = Member(7, [], ("a", "", 8), ("a", "1", 9))
        self.assertEqual(list(changes(member, Watched("a"), 9, 1)), [])

    def test_a_member_that_is_behind_asks_the_others(self):
        members, told = Members([]), []
        members.read = lambda reads: told.append(reads) or Found(7 + len(told))
        for revision, wanted in ((8, [True]), (11, [True, False])):
            told_before = len(told)
            found = members.read_since([reading("a")], revision)
            self.assertEqual([parsed(reads[0]).request_range.serializable for reads in told[told_before:]], wanted)
            self.assertEqual(found.revision, 7 + len(told))


if __name__ == "__main__":
    unittest.main()
