"""What is read of members: by one, unless that is behind."""
import unittest

from here import parsed
from grove_etcd.members import MOST_OPERATIONS, Members
from grove_etcd.wire import Found, reading


class SideBySide(unittest.TestCase):
    def setUp(self):
        self.members, self.asked = Members(["127.0.0.1:1"]), []
        self.revisions = iter([5, 7])

        def found_by_some(reads):
            self.asked.append([parsed(read).request_range.serializable for read in reads])
            return Found(next(self.revisions))

        self.members.found_by_some = found_by_some

    def test_one_member_is_enough_if_it_has_the_revision(self):
        self.assertEqual(self.members.read_side_by_side([reading("a")], 5).revision, 5)
        self.assertEqual(self.asked, [[True]])

    def test_all_are_asked_if_it_is_behind(self):
        self.assertEqual(self.members.read_side_by_side([reading("a")], 6).revision, 7)
        self.assertEqual(self.asked, [[True], [False]])

    def test_all_are_asked_without_a_revision(self):
        self.members.read_side_by_side([reading("a")])
        self.assertEqual(self.asked, [[False]])

    def test_nothing_is_asked_for_nothing(self):
        self.assertEqual(self.members.read_side_by_side([], 3).entries, {})
        self.assertEqual(self.asked, [])


class Transactions(unittest.TestCase):
    def test_reads_are_in_transactions_that_etcd_takes(self):
        """Their answers are put together, with the least revision."""
        members, sizes = Members(["127.0.0.1:1"]), []

        class Answer:
            def __init__(self, revision):
                self.header, self.responses = self, [revision]
                self.revision = revision

        def call(asked):
            class Asked:
                transact_all, token = None, ()

                @staticmethod
                def ask(_call, requests, _seconds):
                    sizes.extend(map(len, requests))
                    return [Answer(9 - number) for number in range(len(requests))]

            return asked(Asked)

        members.call_until_answered = call
        found = members.read_side_by_side([reading("a")] * (MOST_OPERATIONS + 1))
        self.assertEqual((found.revision, found.responses, len(sizes)), (8, [9, 8], 2))
        self.assertGreater(sizes[0], sizes[1])


if __name__ == "__main__":
    unittest.main()
