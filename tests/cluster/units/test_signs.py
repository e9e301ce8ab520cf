"""Signs of life: what puts the leash off, and who takes a job up when."""
import threading
import unittest
from unittest import mock

import here  # noqa: F401
from grove_etcd import signs
from grove_etcd.attempt import Means
from grove_etcd.jobs import UnderWay
from grove_etcd.journal import Journal
from grove_etcd.keys import Keys
from grove_etcd.leash import length_of, now
from grove_etcd.members import Lost
from grove_etcd.signs import Abandoned, Sign, Signs
from grove_etcd.wire import Done, Entry, Found

KEYS = Keys("store")
KEY, PATIENCE = KEYS.sign("me"), 100.0
LENGTH = length_of(PATIENCE)


class Held:
    """What was done to a leash, and when."""

    def __init__(self):
        self.done = []

    def arm(self, until):
        self.done.append(("arm", until))

    def put_off(self, until):
        self.done.append(("put off", until))

    def disarm(self):
        self.done.append(("disarm", None))

    def pull(self):
        self.done.append(("pull", None))


class Member:
    """Its answers to transactions, each whether it was made, and what `s/me` is then; `...` is no answer."""

    def __init__(self, *answers):
        self.answers, self.asked_at = list(answers), []

    def make(self, _request, _seconds):
        self.asked_at.append(now())
        succeeded, text = self.answers.pop(0)
        if text is ...:
            raise Lost("no answer")
        return Done(succeeded, Found(9, {KEY: Entry(text, 9, 1, 1)} if text is not None else {}))


def given(*answers):
    """Signs that got these answers; a work has begun after the first. Its thread gives none by itself."""
    members = Member((True, ""), *answers)
    it = Signs(members, KEYS, "me", PATIENCE, Journal())
    it.thread, it.leash = threading.current_thread(), Held()
    it.give_one()
    it.begin()
    for _ in answers:
        it.give_one()
    return it, members


class Given(unittest.TestCase):
    def test_it_is_armed_by_the_sign_before(self):
        it, members = given()
        self.assertEqual(it.leash.done, [("arm", it.signed_at + LENGTH)])
        self.assertLessEqual(it.signed_at, members.asked_at[0])

    def test_a_sign_that_is_confirmed_puts_it_off_from_when_it_was_sent(self):
        it, members = given((True, ""))
        what, until = it.leash.done[-1]
        self.assertEqual(what, "put off")
        self.assertTrue(members.asked_at[0] + LENGTH < until <= members.asked_at[1] + LENGTH)

    def test_one_without_an_answer_confirms_nothing(self):
        """Nor does it if it turns out to have been made, when the next one finds it."""
        it, members = given((True, ...), (False, Sign(PATIENCE, 2).text()))
        self.assertEqual([what for what, _ in it.leash.done], ["arm"])
        self.assertLessEqual(it.signed_at, members.asked_at[0])
        self.assertEqual((it.journal.counts["lost"], it.revision, it.number), (1, 9, 2))

    def test_if_another_has_taken_a_job_up_it_is_pulled(self):
        for text in (None, Sign(PATIENCE, 7).text()):
            it, _ = given((False, text))
            self.assertEqual((it.leash.done[-1], it.revision), (("pull", None), 0))

    def test_one_leash_is_for_all_works(self):
        it, _ = given()
        it.begin()
        it.end()
        self.assertEqual([what for what, _ in it.leash.done], ["arm"])
        it.end()
        self.assertEqual([what for what, _ in it.leash.done], ["arm", "disarm"])

    def test_work_begins_with_a_sign_that_isnt_old(self):
        it, members = given()
        self.assertTrue(it.is_sure(now()))
        it.signed_at -= LENGTH / 2
        members.answers.append((True, ""))
        self.assertTrue(it.is_sure(now()))
        self.assertEqual(len(members.asked_at), 2)
        it.signed_at -= LENGTH / 2
        members.answers.append((True, ...))
        self.assertFalse(it.is_sure(now()))

    def test_work_begins_if_no_gap_came_after_its_job_was_claimed(self):
        it, members = given()
        begun = it.unbroken_since
        self.assertEqual([it.is_sure(begun - seconds) for seconds in (0, LENGTH - 1, LENGTH + 1)], [True, True, False])
        it.signed_at -= LENGTH + 1
        members.answers.append((True, ""))
        self.assertEqual([it.is_sure(begun - LENGTH), it.is_sure(begun)], [False, True])
        self.assertGreater(it.unbroken_since, begun)
        it.leash = None
        self.assertTrue(it.is_sure(0.0))


class Patience(unittest.TestCase):
    def test_the_sign_says_for_how_long_it_counts(self):
        means, last = Means(None, KEYS, "me", patience=2.0), Abandoned("one.0", 5)
        with mock.patch.object(signs.time, "monotonic") as clock:
            clock.return_value = 10.0
            self.assertFalse(means.is_still(last, UnderWay("other", patience=7.0)))
            for seconds, said, wanted in ((1.9, 0, False), (2, 0, True), (6.9, 7, False), (7, 7, True), (2, 1, True)):
                clock.return_value = 10.0 + seconds
                self.assertIs(means.is_still(last, UnderWay("other", patience=said)), wanted)

    def test_it_counts_from_the_later_of_both_signs(self):
        means, last = Means(None, KEYS, "me", patience=2.0), Abandoned("one.0", 5, KEYS.sign("other"), 6)
        with mock.patch.object(signs.time, "monotonic") as clock:
            clock.return_value = 10.0
            self.assertFalse(means.is_still(last, UnderWay("other")))
            clock.return_value = 12.5
            self.assertTrue(means.is_still(last, UnderWay("other")))
            self.assertFalse(means.is_still(last._replace(signed=7), UnderWay("other")))
            clock.return_value = 14.6
            self.assertTrue(means.is_still(last._replace(signed=7), UnderWay("other")))

    def test_each_sign_says_so(self):
        self.assertEqual(UnderWay.read(Means(None, KEYS, "me", patience=3.5).sign("/a", 2, "why").text()).patience, 3.5)
        self.assertEqual(UnderWay.read('{"by":"me"}').patience, 0)


if __name__ == "__main__":
    unittest.main()
