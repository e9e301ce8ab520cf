"""The jobs that the threads of a worker have chosen: no two of them have chosen one."""
import unittest
from collections import deque
from types import SimpleNamespace

import here  # noqa: F401

from grove_etcd.keys import Keys
from grove_etcd.members import Members
from grove_etcd.worker import Worker


class Chosen(unittest.TestCase):
    def setUp(self):
        self.worker = Worker(Members(["127.0.0.1:1"]), Keys("chosen"))

    def test_what_a_thread_has_chosen_no_other_one_chooses(self):
        self.assertEqual(self.worker.choose(["a", "b"]), {"a", "b"})
        self.assertEqual(self.worker.choose(["b", "c"]), {"c"})

    def test_who_waits_leaves_what_was_read_with_its_job_to_another_thread(self):
        """And later lets go of its own job alone: by then other threads may have chosen the others."""
        names = self.worker.choose(["a", "b", "c"])
        read = deque([SimpleNamespace(job=SimpleNamespace(name="b", begins_at=lambda: "/n"))])
        self.worker.leave_rest("a", read, names)
        self.assertEqual((names, self.worker.chosen, len(read)), ({"a"}, {"a", "b"}, 0))
        self.worker.turns.give_to_wait("a", "/n")
        self.assertIsNone(self.worker.rest())
        self.worker.turns.take_again("a", 0.01)
        self.assertIsNotNone(self.worker.rest())
        self.assertIsNone(self.worker.rest())
        self.worker.let_go(names)
        self.assertEqual(self.worker.chosen, {"b"})

    def test_a_task_lets_go_of_what_it_has_added(self):
        task = self.worker.chosen_for(["a"], lambda names: bool(names.update(self.worker.choose(["b"]))))
        self.assertEqual(self.worker.chosen, {"a"})
        self.worker.turns.take()
        self.worker.start_thread(task)
        for thread in list(self.worker.threads):
            thread.join()
        self.assertEqual(self.worker.chosen, set())


if __name__ == "__main__":
    unittest.main()
