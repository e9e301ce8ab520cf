"""Plans over trees of any size."""

import random
import threading
import unittest
from typing import Any, List
from unittest import mock

from pickbracken import Access, NoNode, Plan, Plans, Refused, Step, Tree, lists

from serial_order import LEAVES, WEIGHTS

A, B = LEAVES[0], LEAVES[1]


class Planning(unittest.TestCase):
    def test_plans_are_those_of_the_whole_tree(self) -> None:
        for seed in range(200):
            drawn = random.Random(seed)
            paths = ["/"]
            for number in range(drawn.randrange(1, 14)):
                above = drawn.choice(paths)
                paths.append(f"{'' if above == '/' else above}/{drawn.choice('abc')}{number}")
            weights = {path: drawn.randrange(1, 30) for path in paths}
            wanted = [(drawn.choice(paths), drawn.choice((1, 1, 2, 5))) for _ in range(drawn.randrange(7))]
            plans, accesses = Plans(weights), [Access.get(path).lasting(length) for path, length in wanted]
            tree = Tree.from_paths(plans.weights())
            planned = plans.plan(wanted)
            self.assertEqual(planned, tree.plan(accesses))
            self.assertEqual(tree.check(accesses, planned), planned.cost)

    def test_a_known_list_has_the_same_plan(self) -> None:
        plans = Plans(WEIGHTS)
        planned = plans.plan([A, (B, 3)])
        with mock.patch("pickbracken.shapes.plan_part", side_effect=AssertionError):
            self.assertIs(plans.plan((A, (B, 3))), planned)
            # Of the same shape, at other nodes.
            other = plans.plan([LEAVES[2], (LEAVES[3], 3)])
        self.assertEqual((other.cost, len(other.steps)), (planned.cost, len(planned.steps)))
        self.assertEqual(other.steps[0], Step.lock("/"))
        self.assertIn(Step.lock(LEAVES[3]), other.steps)

    def test_names_and_sizes_are_free(self) -> None:
        weights = {f"/user-{user}/Überschrift {line}\n": 1 for user in range(200) for line in range(100)}
        plans = Plans(weights)
        self.assertEqual(len(plans.weights()), 20_201)
        wanted = ["/user-7/Überschrift 3\n", "/user-199/Überschrift 99\n"]
        planned = plans.plan(wanted)
        self.assertEqual([row.node for row in planned.flow], ["/", "/user-199", wanted[1], "/user-7", wanted[0]])
        deep = "/a" * 5_000
        self.assertEqual(len(Plans({deep: 1}).plan(["/a", deep[: 2 * 32]]).flow), 32)
        with self.assertRaises(Refused) as caught:
            Plans({deep: 1}).plan([deep[: 2 * 32], deep[: 2 * 33]])
        self.assertEqual((caught.exception.name, caught.exception.place), ("too-deep", "row 33"))

    def test_what_is_no_list_is_refused_by_name(self) -> None:
        plans = Plans(WEIGHTS)
        strange: Any = (0, 1001, 1.5)
        for length in strange:
            with self.assertRaises(Refused) as caught:
                plans.plan([A, (B, length)])
            self.assertEqual(caught.exception.text, "bad-length list 1")
        with self.assertRaises(NoNode):
            plans.plan(["/g9"])
        with self.assertRaises(Refused) as caught:
            plans.plan([A] * 65)
        self.assertEqual(caught.exception.text, "limit list")
        self.assertEqual(plans.plan([]), Plan(0, (), ()))
        with self.assertRaises(ValueError):
            Plans({"/": 1001})

    def test_weights_are_made_anew(self) -> None:
        plans = Plans({"/": 2, "/a": 1, "/b": 1})
        before = plans.plan([("/a", 9), "/b"])
        self.assertEqual(plans.reweigh({"/b": 1000}), 2)
        self.assertEqual(plans.weights(), {"/": 1, "/a": 1, "/b": 1000})
        after = plans.plan([("/a", 9), "/b"])
        self.assertNotEqual(before.steps, after.steps)
        self.assertEqual(after, Tree.from_paths(plans.weights()).plan([Access.get("/a").lasting(9), Access.get("/b")]))
        with self.assertRaises(NoNode):
            plans.reweigh({"/c": 1})
        with self.assertRaises(ValueError):
            plans.reweigh({"/a": -1})

    def test_what_is_kept_is_bounded(self) -> None:
        plans = Plans({f"/{number}": 1 for number in range(lists.MOST_LISTS + 1)})
        for number in range(lists.MOST_LISTS + 1):
            plans.plan([f"/{number}"])
            self.assertLessEqual(len(plans.kept.made), lists.MOST_LISTS)
        self.assertLess(len(plans.kept.made), 10)

    def test_threads_plan_over_one_tree(self) -> None:
        plans, drawn = Plans(WEIGHTS), random.Random(1)
        todo = [tuple(drawn.sample(LEAVES, 2)) for _ in range(300)]
        wanted, came = [Plans(WEIGHTS).plan(pair) for pair in todo], []

        def plan_all() -> None:
            came.append([plans.plan(pair) for pair in todo] == wanted)

        threads: List[threading.Thread] = [threading.Thread(target=plan_all) for _ in range(4)]
        for thread in threads:
            thread.start()
        for thread in threads:
            thread.join()
        self.assertEqual(came, [True] * 4)


if __name__ == "__main__":
    unittest.main()
