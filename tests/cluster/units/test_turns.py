"""Turns: who gets them, and when."""
import threading
import unittest
from unittest import mock

import here  # noqa: F401
from grove_etcd import turns as turns_module
from grove_etcd.turns import ALONE_SECONDS, KEPT_SECONDS, Turns


class Taken(unittest.TestCase):
    def test_there_are_so_many(self):
        turns = Turns(2, 5)
        self.assertEqual([turns.take(0.01) for _ in range(3)], [True, True, False])
        turns.give()
        self.assertTrue(turns.take_again("a", 0.01))
        self.assertFalse(turns.take_again("a", 0.01))

    def test_who_waits_has_none_and_is_counted(self):
        turns = Turns(1, 1)
        turns.take()
        self.assertFalse(turns.is_full())
        turns.give_to_wait("a", "/n")
        self.assertTrue(turns.is_full())
        self.assertTrue(turns.is_free(0.01))
        self.assertTrue(turns.take())
        self.assertFalse(turns.take_again("a", 0.01))
        self.assertFalse(turns.is_full())
        self.assertFalse(turns.is_free(0.01))
        self.assertFalse(turns.take())

    def test_a_turn_is_kept_while_no_other_job_waits(self):
        turns = Turns(2, 5)
        turns.take()
        self.assertEqual(turns.kept_for(), KEPT_SECONDS)
        turns.give_to_wait("a", "/n")
        self.assertEqual(turns.kept_for(), 0.0)
        turns.take_again("a", 0.01)
        self.assertEqual(turns.kept_for(), KEPT_SECONDS)

    def test_where_one_waits_no_other_is_begun_for_a_while(self):
        turns = Turns(2, 5)
        with mock.patch.object(turns_module.time, "monotonic") as clock:
            clock.return_value = 10.0
            turns.give_to_wait("a", "/n")
            clock.return_value += ALONE_SECONDS / 2
            turns.give_to_wait("b", "/m")
            self.assertEqual(turns.avoided(), {"/n", "/m"})
            clock.return_value += ALONE_SECONDS / 2
            turns.give_to_wait("c", "/n")
            self.assertEqual(turns.avoided(), {"/m"})
            turns.take_again("b", 0.01)
            self.assertEqual(turns.avoided(), set())

    def test_who_is_woken_comes_first(self):
        turns, came = Turns(1, 5), []
        turns.take(0.01)
        others = [
            threading.Thread(target=lambda: came.append(("fresh", turns.take(0.5)))),
            threading.Thread(target=lambda: came.append(("woken", turns.take_again("woken", 10)))),
        ]
        for other in others:
            other.start()
        while not turns.is_wanted():
            """The second thread comes to it."""
        turns.give()
        for other in others:
            other.join()
        self.assertEqual(sorted(came), [("fresh", False), ("woken", True)])


if __name__ == "__main__":
    unittest.main()
