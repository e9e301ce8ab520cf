"""Which short jobs share a transaction, and in which parts; and which jobs are submitted by one."""
import unittest
from random import Random

import here  # noqa: F401
from grove_etcd.jobs import Job
from grove_etcd.judging import MOST_BYTES
from grove_etcd.sharing import MOST_SHARED

from grove_etcd.submitting import MOST_JOBS, MOST_PARTS, Written, transactions_of
from grove_etcd.together import MOST_CHUNKS, Batch, Short, by_nodes


def job(number, *paths):
    plan = [["lock", path] for path in paths] + [["access", at] for at in range(len(paths))]
    plan += [["unlock", path] for path in reversed(paths)]
    return Job(f"job.{number}", number, [["add", path, 1] for path in paths], plan)


def names(jobs):
    return [int(each.name.partition(".")[2]) for each in jobs]


class ByNodes(unittest.TestCase):
    def lists(self, *jobs):
        return [names(each.job for each in some) for some in by_nodes(map(Short.of, jobs))]

    def test_those_that_meet_are_in_one_list(self):
        self.assertEqual(self.lists(job(0, "/a"), job(1, "/b"), job(2, "/a"), job(3)), [[0, 2], [1], [3]])

    def test_one_job_may_join_others(self):
        self.assertEqual(self.lists(job(0, "/a"), job(1, "/b"), job(2, "/c"), job(3, "/c", "/a")), [[0, 2, 3], [1]])
        self.assertEqual(self.lists(job(0, "/a"), job(1, "/b"), job(2, "/b", "/a"), job(3, "/b")), [[0, 1, 2, 3]])


class Batches(unittest.TestCase):
    def test_nearly_two_hundred_at_some_sixty_nodes_are_one_transaction(self):
        random = Random(1)
        batch = Batch.of([job(number, f"/l{random.randrange(62)}") for number in range(192)])
        self.assertEqual((sum(len(chunk.jobs) for chunk in batch.chunks), batch.rest, batch.large), (192, [], []))

    def test_what_there_is_no_room_for_is_left_for_the_next(self):
        jobs = [job(number, "/") for number in range(50)]
        batch = Batch.of(jobs)
        done = MOST_SHARED // 3
        self.assertEqual([names(chunk.jobs) for chunk in batch.chunks], [list(range(done))])
        self.assertEqual((names(batch.rest), batch.large), (list(range(done, 50)), []))

    def test_one_that_no_transaction_takes_is_large(self):
        large = job(0, *(f"/l{number}" for number in range(50)))
        batch = Batch.of([large, job(1, "/l1"), job(2, "/a")])
        self.assertEqual((batch.large, batch.rest), ([large], []))
        self.assertEqual([names(chunk.jobs) for chunk in batch.chunks], [[1, 2]])

    def test_no_two_chunks_have_a_node_in_common_and_each_has_room(self):
        random = Random(2)
        for most in (1, 3, 20):
            paths = [f"/l{number}" for number in range(100)]
            jobs = [job(number, *random.sample(paths, random.randint(0, most))) for number in range(150)]
            batch = Batch.of(jobs)
            every = [each for chunk in batch.chunks for each in chunk.jobs] + batch.rest + batch.large
            self.assertEqual(sorted(names(every)), list(range(150)))
            nodes = [set().union(*(each.nodes() for each in chunk.jobs)) for chunk in batch.chunks]
            self.assertEqual(sum(map(len, nodes)), len(set().union(*nodes)))
            self.assertLessEqual(len(batch.chunks), MOST_CHUNKS)
            for chunk in batch.chunks:
                steps = [step for each in chunk.jobs for step in each.steps]
                locked = {step.path for step in steps if step.kind.value == "lock"}
                guards = 2 * len(chunk.jobs) + 2 * len(locked)
                self.assertLessEqual(max(guards, 3 * len(chunk.jobs) + len(locked), 3 * len(locked)), MOST_SHARED)


class Submitted(unittest.TestCase):
    def test_as_many_as_one_transaction_takes(self):
        most = MOST_JOBS * MOST_PARTS
        jobs = [Written(job(number), "x") for number in range(2 * most + 1)]
        self.assertEqual(list(map(len, transactions_of(jobs))), [most, most, 1])
        self.assertEqual(transactions_of([]), [])

    def test_as_long_as_one_transaction_takes(self):
        jobs = [Written(job(number), "x" * (MOST_BYTES // 2)) for number in range(3)]
        jobs.append(Written(job(3), "x" * MOST_BYTES))
        self.assertEqual([names(each.job for each in some) for some in transactions_of(jobs)], [[0, 1], [2], [3]])


if __name__ == "__main__":
    unittest.main()
