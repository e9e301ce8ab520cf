"""Trees, lists and plans as values."""

import copy
import pickle
import unittest
from dataclasses import replace
from pathlib import Path
from typing import Any, Callable, Sequence
from unittest import mock

import pickbracken
from pickbracken import Access, BadPath, FlowRow, Kind, NoNode, Plan, Refused, Reply, Step, StepKind, Store, Tree
from pickbracken.weights import new_weight

STOCK = Tree.from_paths({"/": 5, "/a": 1, "/b": 1}, {"/a": 10, "/b": 20})


class Planning(unittest.TestCase):
    def test_plans_are_least_and_legal(self) -> None:
        accesses = [Access.get("/a"), Access.take("/b", 3)]
        planned = STOCK.plan(accesses)
        self.assertEqual((planned.cost, planned.steps[0], len(planned.flow)), (3, Step.lock("/"), 3))
        self.assertEqual(STOCK.check(accesses, planned), 3)
        judged = STOCK.judge(accesses, planned.steps)
        self.assertEqual((judged.cost, judged.replies, judged.records), (3, (10, 17), (0, 10, 17)))

    def test_replies_are_told_apart(self) -> None:
        accesses = [
            Access.set("/a", 2**63 - 1),
            Access.add("/a", 1),
            Access.take("/b", 21),
            Access.add("/b", -(2**63)).lasting(1000),
        ]
        judged = STOCK.judge(accesses, STOCK.plan(accesses).steps)
        self.assertEqual(judged.replies, (Reply.STORED, Reply.RANGE, Reply.SHORT, 20 - 2**63))

    def test_a_changed_flow_proves_nothing(self) -> None:
        accesses = [Access.get("/a"), Access.get("/b")]
        planned = STOCK.plan(accesses)
        top, first, *others = planned.flow
        altered = replace(planned, flow=(top, replace(first, last=first.last + 1), *others))
        self.assertTrue(self.name_of(lambda: STOCK.check(accesses, altered)).endswith("-balance"))

    def test_the_first_fault_is_told_with_its_place(self) -> None:
        accesses = [Access.get("/a"), Access.get("/b")]
        lock, unlock, access = Step.lock, Step.unlock, Step.access
        for steps, text in (
            ([lock("/a"), lock("/a")], "step 1 relock"),
            ([lock("/a"), lock("/b")], "step 1 parent-not-held"),
            ([unlock("/a")], "step 0 not-held"),
            ([lock("/a"), access(1)], "step 1 wrong-access"),
            ([lock("/b"), access(0)], "step 1 access-not-held"),
            ([lock("/a"), access(2)], "step 1 strange"),
            ([lock("/a"), access(0), unlock("/a")], "access 1 missing"),
            ([lock("/"), lock("/a"), lock("/b"), access(0), access(1)], "node / still-held"),
            ([lock("/c")], "no-path plan 0"),
            ([lock("/a"), access(2**32)], "shape plan 1"),
        ):
            with self.assertRaises(Refused) as caught:
                STOCK.judge(accesses, steps)
            self.assertEqual(caught.exception.text, text)
            with self.assertRaises(Refused) as caught:
                STOCK.check(accesses, Plan(0, steps, ()))
            self.assertEqual(caught.exception.text, text)

    def test_the_first_fault_of_a_flow_is_told_with_its_place(self) -> None:
        accesses = [Access.get("/a"), Access.get("/b")]
        planned = STOCK.plan(accesses)
        top, *others = planned.flow
        for flow, text in (
            ((), "rows 0"),
            ((*others, top), "rows 0"),
            ((replace(top, above=1), *others), "sign 0"),
            ((replace(top, own=2**41), *others), "too-big 0"),
            ((top, replace(others[0], last=others[0].last + 1), *others[1:]), "release-balance 1"),
            ((replace(top, own=2**64), *others), "shape flow 0"),
            ((top, replace(others[0], node="/c")), "no-path flow 1"),
        ):
            with self.assertRaises(Refused) as caught:
                STOCK.check(accesses, replace(planned, flow=flow))
            self.assertEqual(caught.exception.text, text)

    def test_a_plan_that_costs_more_is_not_proved(self) -> None:
        accesses = [Access.get("/a"), Access.get("/b")]
        planned = STOCK.plan(accesses)
        nodes = ("/", "/a", "/b")
        longest = (*map(Step.lock, nodes), Step.access(0), Step.access(1), *map(Step.unlock, nodes))
        with self.assertRaises(Refused) as caught:
            STOCK.check(accesses, replace(planned, steps=longest))
        self.assertEqual((caught.exception.name, caught.exception.place), ("value", "14"))
        self.assertEqual(STOCK.judge(accesses, longest).cost, 14)

    def test_weights_are_made_anew(self) -> None:
        tree = Tree.from_paths({"/": 64, "/a": 9, "/b": 1000, "/c": 1}, {"/a": 7})
        waits = {"/": 3, "/b": 10**9}
        made = tree.reweigh(waits)
        self.assertEqual([node.weight for node in made.nodes], [35, 5, 1000, 1])
        wanted = [new_weight(node.weight, waits.get(path, 0)) for node, path in zip(tree.nodes, tree.paths())]
        self.assertEqual([node.weight for node in made.nodes], wanted)
        self.assertEqual([node.record for node in made.nodes], [0, 7, 0, 0])
        accesses = [Access.get("/a"), Access.get("/b").lasting(3)]
        self.assertEqual(made.plan(accesses), Tree(made.nodes).plan(accesses))
        self.assertEqual(tree.plan(accesses), Tree(tree.nodes).plan(accesses))
        with self.assertRaises(NoNode):
            tree.reweigh({"/d": 1})
        strange: Any = (-1, 1.5, "1")
        for count in strange:
            with self.assertRaises(ValueError):
                tree.reweigh({"/a": count})

    def test_bad_values_are_refused_by_name(self) -> None:
        self.assertEqual(self.name_of(lambda: STOCK.plan([Access.get("/c")])), "no-path")
        self.assertEqual(self.name_of(lambda: STOCK.plan([Access.get("/a").lasting(0)])), "bad-length")
        self.assertEqual(self.name_of(lambda: STOCK.plan([Access.get("/a")] * 65)), "limit")
        self.assertEqual(self.name_of(lambda: STOCK.plan([Access.set("/a", 2**64)])), "shape")
        steps = [Step.lock("/a"), Step.access(0)]
        self.assertEqual(self.name_of(lambda: STOCK.judge([Access.get("/a")], steps)), "still-held")
        self.assertEqual(self.name_of(lambda: Tree.from_paths({"/": 1001}).plan([])), "bad-weight")
        self.assertEqual(self.name_of(lambda: Tree.from_paths({'/a"b\n': 1}).plan([])), "bad-name")

    def test_only_a_get_is_without_a_number(self) -> None:
        nothing: Any = None
        for call in (Access.set, Access.add, Access.take):
            with self.assertRaises(TypeError):
                call("/a", nothing)
        with self.assertRaises(TypeError) as caught:
            Access(Kind.SET, "/a", length=9)
        self.assertEqual(str(caught.exception), "an access that is to set needs a number")
        with self.assertRaises(TypeError) as caught:
            Access(Kind.GET, "/a", 9)
        self.assertEqual(str(caught.exception), "an access that is to get takes no number")

    def test_a_number_has_64_bits(self) -> None:
        for number in (2**63 - 1, -(2**63)):
            self.assertEqual(Access.add("/a", number).number, number)
        strange: Any = (2**63, -(2**63) - 1, 1.5, "1", True)
        for number in strange:
            with self.assertRaises(Refused) as caught:
                Access.set("/a", number)
            self.assertEqual(caught.exception.text, "shape")

    def test_a_record_has_64_bits(self) -> None:
        accesses = [Access.get("/a"), Access.add("/a", 1)]
        ends = ((2**63 - 2, 2**63 - 1), (2**63 - 1, Reply.RANGE), (-(2**63), 1 - 2**63), (1 - 2**63, 2 - 2**63))
        for record, more in ends:
            tree = Tree.from_paths({"/a": 1}, {"/a": record})
            judged = tree.judge(accesses, tree.plan(accesses).steps)
            self.assertEqual(judged.replies, (record, more))
            with Store(tree) as store:
                self.assertEqual(store.batch(accesses).replies, (judged.replies,))
        for record in (2**63, -(2**63) - 1):
            tree = Tree.from_paths({"/a": 1}, {"/a": record})
            self.assertEqual(self.name_of(lambda: tree.plan([])), "shape")
            self.assertEqual(self.name_of(lambda: Store(tree)), "shape")

    def test_an_access_takes_1_to_1000_slots(self) -> None:
        access = Access.get("/a")
        for length in (1, 1000):
            self.assertEqual(access.lasting(length).form(), ["get", "/a", length])
        strange: Any = ("1", 1.0, None)
        for length in (0, 1001, -1, *strange):
            with self.assertRaises(Refused) as caught:
                access.lasting(length)
            self.assertEqual((caught.exception.name, caught.exception.place), ("bad-length", ""))

    def test_kinds_of_steps_are_texts_too(self) -> None:
        step = Step.lock("/a")
        self.assertIs(step.kind, StepKind.LOCK)
        text: Any = "lock"
        texts = (step.kind, f"{step.kind}", str(step.kind), f"{step.kind:>6}")
        self.assertEqual(texts, ("lock", "lock", "lock", "  lock"))
        self.assertEqual((Step(text, "/a"), Step(text, "/a").kind), (step, StepKind.LOCK))
        text = "hold"
        with self.assertRaises(ValueError):
            Step(text, "/a")

    def test_paths_are_from_the_root_down(self) -> None:
        for path in ["", "a", "/a/", "//a"]:
            with self.assertRaises(BadPath):
                Tree.from_paths({path: 1})
        said = (("/c", NoNode, "no node has the path '/c'"), ("a", BadPath, "'a' is no path from the root down"))
        for path, kind, why in said:
            with self.assertRaises(BadPath) as caught:
                Tree.from_paths({"/a": 1}, {path: 1})
            self.assertEqual((type(caught.exception), str(caught.exception)), (kind, why))

    def test_a_path_may_be_of_any_length(self) -> None:
        long = "/a" * 100_000
        self.assertEqual(len(Tree.from_paths({long: 1}, {long: 1}).nodes), 100_001)
        self.assertEqual(self.name_of(lambda: Tree.from_paths({long[:4000]: 1}).plan([])), "too-deep")

    def test_trees_stand_in_preorder(self) -> None:
        tree = Tree.from_paths({"/a/b/c": 3, "/d": 7, "/a/e": 4})
        self.assertEqual(tree.paths(), ["/", "/a", "/a/b", "/a/b/c", "/a/e", "/d"])
        self.assertEqual(tree.plan([Access.get("/d")]).cost, 7)

    def test_drawings_have_both_forms(self) -> None:
        accesses = [Access.get("/a")]
        drawing = STOCK.draw(accesses, STOCK.plan(accesses).steps)
        self.assertTrue(drawing._repr_svg_().startswith("<svg "))
        self.assertIn("the settled plan: cost 1", str(drawing))

    def name_of(self, call: Callable[[], object]) -> str:
        with self.assertRaises(Refused) as caught:
            call()
        return caught.exception.name


class Lazily(unittest.TestCase):
    """Steps and rows of a plan that was made are values only once they are read."""

    ACCESSES = [Access.get("/a"), Access.get("/b").lasting(2)]

    def test_nothing_is_made_that_is_not_read(self) -> None:
        last = Step.unlock("/b")
        with mock.patch("pickbracken.steps.Step", side_effect=Step) as steps:
            planned = STOCK.plan(self.ACCESSES)
            self.assertEqual((len(planned.steps), STOCK.check(self.ACCESSES, planned)), (8, planned.cost))
            self.assertEqual(planned, STOCK.plan(self.ACCESSES))
            self.assertEqual(steps.call_count, 0)
            self.assertEqual(planned.steps[-1], last)
            self.assertEqual(steps.call_count, 1)

    def test_they_are_as_tuples_are(self) -> None:
        planned = STOCK.plan(self.ACCESSES)
        parts: Sequence[Sequence[Any]] = (planned.steps, planned.flow)
        for part in parts:
            whole = tuple(part)
            self.assertTrue(part == whole and whole == part and not part != whole)
            self.assertEqual((hash(part), repr(part), len(part)), (hash(whole), repr(whole), len(whole)))
            self.assertEqual((part[0], part[-1], part[1:], part[::-1]), (whole[0], whole[-1], whole[1:], whole[::-1]))
            self.assertEqual((part.index(whole[2]), whole[2] in part, None in part), (2, True, False))
            self.assertNotEqual(part, whole[1:])
            self.assertNotEqual(part, list(whole))
            for other in (pickle.loads(pickle.dumps(part)), copy.deepcopy(part)):
                self.assertEqual(other, whole)
            with self.assertRaises(IndexError):
                part[len(whole)]
        self.assertNotEqual(planned.steps, planned.flow)

    def test_plans_of_different_trees_are_compared_by_their_paths(self) -> None:
        planned = STOCK.plan([Access.get("/a")])
        same, other = Tree.from_paths({"/": 5, "/a": 1}), Tree.from_paths({"/": 5, "/z": 1})
        again = same.plan([Access.get("/a")])
        self.assertEqual((planned, hash(planned)), (again, hash(again)))
        self.assertNotEqual(planned, other.plan([Access.get("/z")]))

    def test_a_plan_is_a_value(self) -> None:
        planned = STOCK.plan([Access.get("/a")])
        row = FlowRow("/a", above=0, held=0, first=1, last=1, own=0)
        written = Plan(1, (Step.lock("/a"), Step.access(0), Step.unlock("/a")), (row,))
        self.assertEqual((planned, repr(planned), hash(planned)), (written, repr(written), hash(written)))
        for other in (pickle.loads(pickle.dumps(planned)), copy.copy(planned), replace(planned, cost=1)):
            self.assertEqual(other, planned)
        nothing: Any = planned
        with self.assertRaises(AttributeError):
            nothing.costs


class Version(unittest.TestCase):
    def test_it_is_the_project_s(self) -> None:
        project = (Path(__file__).resolve().parents[1] / "pyproject.toml").read_text()
        self.assertIn(f'version = "{pickbracken.__version__}"\n', project)


class Faults(unittest.TestCase):
    def test_names_and_places(self) -> None:
        for text, name, place in [
            ("bad-json", "bad-json", ""),
            ("shape plan 3", "shape", "plan 3"),
            ("tree too-many", "too-many", "tree"),
            ("row 2 bad-name", "bad-name", "row 2"),
            ("access 0 missing", "access-missing", "access 0"),
            ("node /a still-held", "still-held", "node /a"),
            ("release-balance 2", "release-balance", "2"),
            ("value 4 -1", "value", "4 -1"),
            ("job 2 step 7 relock", "relock", "job 2 step 7"),
            ("event 5 blocked 1", "blocked", "event 5 1"),
            ("standing records 3", "standing", "records 3"),
        ]:
            fault = Refused(text)
            self.assertEqual((fault.name, fault.place, fault.text), (name, place, text))


if __name__ == "__main__":
    unittest.main()
