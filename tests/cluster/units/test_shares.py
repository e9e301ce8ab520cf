"""Which jobs a worker chooses."""
import unittest
from unittest import mock

import here  # noqa: F401
from grove_etcd import shares
from grove_etcd.shares import LEFT_SECONDS, LONGEST_LEFT_SECONDS, MOST_ALONE, Shares

FRESH = {f"job{number}.0": f"/l{number % 40}" for number in range(200)}
MANY = {f"job{number}.0": f"/l{number % 40}" for number in range(4 * MOST_ALONE)}
WORKERS = ["a", "b", "c"]


class Chosen(unittest.TestCase):
    def test_each_node_is_in_one_share(self):
        chosen = [set(Shares(worker, True).choose(FRESH, WORKERS, 200)) for worker in WORKERS]
        self.assertEqual((set.union(*chosen), sum(map(len, chosen))), (set(FRESH), len(FRESH)))
        nodes = [{FRESH[name] for name in names} for names in chosen]
        self.assertFalse(nodes[0] & nodes[1] | nodes[1] & nodes[2] | nodes[0] & nodes[2])
        self.assertTrue(all(nodes))

    def test_what_others_leave_is_taken_after_a_while(self):
        own = Shares("a", True)
        left = {name: node for name, node in MANY.items() if name not in own.choose(MANY, WORKERS, 200)}
        with mock.patch.object(shares.time, "monotonic") as clock:
            clock.return_value = 10.0
            self.assertEqual(Shares("a", True).choose({}, WORKERS, 5), [])
            late = Shares("a", True)
            self.assertEqual(late.choose(left, WORKERS, 5), [])
            clock.return_value += LEFT_SECONDS
            self.assertEqual(len(late.choose(left, WORKERS, 5)), 5)
            self.assertEqual(len(late.choose({**left, **MANY}, WORKERS, 500)), len(MANY) - len(left))

    def test_what_others_leave_is_left_for_longer_while_something_is_begun(self):
        worker, last = Shares("z", True), list(FRESH)[-1]
        some = {name: FRESH[name] for name in list(FRESH)[:10]}
        with mock.patch.object(shares.time, "monotonic") as clock:
            clock.return_value = 10.0
            self.assertEqual(worker.choose({**some, last: "/l1"}, WORKERS, 5), [])
            clock.return_value += LEFT_SECONDS
            self.assertEqual(worker.choose(some, WORKERS, 5), [])
            clock.return_value = 10.0 + LONGEST_LEFT_SECONDS
            self.assertEqual(len(worker.choose(some, WORKERS, 5)), 5)

    def test_of_few_jobs_the_first_workers_have_shares(self):
        few = {name: FRESH[name] for name in list(FRESH)[:MOST_ALONE]}
        every = {worker: Shares(worker, True) for worker in WORKERS}
        chosen = {worker: each.choose(few, WORKERS, 200) for worker, each in every.items()}
        self.assertEqual([len(chosen[worker]) for worker in WORKERS], [MOST_ALONE, 0, 0])
        self.assertEqual([every["b"].may_have_one(jobs) for jobs in (MOST_ALONE, MOST_ALONE + 1)], [False, True])

    def test_one_alone_and_one_with_work_choose_of_all(self):
        self.assertEqual(set(Shares("a", True).choose(FRESH, [], 200)), set(FRESH))
        self.assertEqual(set(Shares("a", False).choose(FRESH, WORKERS, 200)), set(FRESH))

    def test_if_others_choose_the_same_it_takes_fewer(self):
        own = Shares("a", False)
        sizes = []
        for are_taken in (True, True, False, False, False):
            own.note(are_taken)
            sizes.append(len(own.choose(FRESH, [], 200)))
        self.assertEqual(sizes, [100, 50, 100, 200, 200])
        for _ in range(20):
            own.note(True)
        self.assertEqual(len(own.choose(FRESH, [], 200)), 200 // 32)


if __name__ == "__main__":
    unittest.main()
