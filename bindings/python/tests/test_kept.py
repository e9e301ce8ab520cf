"""Trees that the library keeps."""

import copy
import gc
import json
import os
import pickle
import shutil
import subprocess
import sys
import tempfile
import threading
import unittest
from pathlib import Path
from typing import Dict, List, Tuple
from unittest import mock

import pickbracken
from pickbracken import Access, OtherVersion, Refused, Tree, document
from pickbracken.library import Room, loaded
from pickbracken.tree import Node

STOCK = Tree.from_paths({"/": 5, "/a": 1, "/b": 1}, {"/a": 10, "/b": 20})


class KeptTrees(unittest.TestCase):
    def test_plans_are_those_of_the_document(self) -> None:
        accesses = [Access.get("/a"), Access.add("/b", 1).lasting(3)]
        parts = {**json.loads(STOCK.document()), "list": [access.form() for access in accesses]}
        lines = document.plan(json.dumps(parts).encode()).splitlines()
        planned = STOCK.plan(accesses)
        self.assertEqual(f"cost {planned.cost}", lines[0])
        self.assertEqual([[step.kind, step.of] for step in planned.steps], json.loads(lines[1].split(" ", 1)[1]))
        self.assertEqual(STOCK.check(accesses, planned), planned.cost)

    def test_copies_are_trees_of_their_own(self) -> None:
        accesses = [Access.get("/a")]
        wanted = STOCK.plan(accesses)
        for other in (pickle.loads(pickle.dumps(STOCK)), copy.deepcopy(STOCK), copy.copy(STOCK)):
            self.assertEqual((other, hash(other)), (STOCK, hash(STOCK)))
            self.assertIsNot(other.kept, STOCK.kept)
            self.assertEqual(other.plan(accesses), wanted)

    def test_threads_plan_over_one_tree(self) -> None:
        lists = [[Access.get(path).lasting(1 + turn) for path in ("/a", "/b")] for turn in range(4)]
        wanted, came = [Tree(STOCK.nodes).plan(accesses) for accesses in lists], []

        def plan_often(turn: int) -> None:
            plans = [STOCK.plan(lists[turn]) for _ in range(1_000)]
            costs = [STOCK.check(lists[turn], plan) for plan in plans]
            came.append(plans == [wanted[turn]] * 1_000 and costs == [wanted[turn].cost] * 1_000)

        threads = [threading.Thread(target=plan_often, args=(turn,)) for turn in range(4)]
        self.addCleanup(sys.setswitchinterval, sys.getswitchinterval())
        sys.setswitchinterval(1e-6)
        for thread in threads:
            thread.start()
        for thread in threads:
            thread.join()
        self.assertEqual(came, [True] * 4)
        self.assertLessEqual(len(STOCK.kept.free), 1 + len(threads))

    def test_a_call_has_a_handle_alone(self) -> None:
        """And another one is made of the same tree, also of one with new weights."""
        accesses = [Access.get("/a"), Access.get("/b").lasting(3)]
        for tree in (Tree(STOCK.nodes), STOCK.reweigh({"/b": 700})):
            wanted, kept = Tree(tree.nodes).plan(accesses), tree.kept
            calls = kept.taken()
            self.assertEqual(tree.plan(accesses), wanted)
            self.assertEqual(tree.judge(accesses, wanted.steps).cost, wanted.cost)
            self.assertEqual(len(kept.free), 1)
            self.assertIsNot(kept.free[0], calls)

    def test_a_handle_is_put_back_after_a_refusal(self) -> None:
        tree = Tree(STOCK.nodes)
        wanted, free = tree.plan([Access.get("/a")]), list(tree.kept.free)
        for accesses in ([Access.get("/c")], [Access.get("/a")] * 65):
            with self.assertRaises(Refused):
                tree.plan(accesses)
            with self.assertRaises(Refused):
                tree.check(accesses, wanted)
        self.assertEqual(tree.kept.free, free)

    def test_trees_that_are_refused_are_refused_again(self) -> None:
        heavy = Tree.from_paths({"/": 1001})
        for _ in range(2):
            with self.assertRaises(Refused) as caught:
                heavy.plan([])
            self.assertEqual((caught.exception.name, caught.exception.place), ("bad-weight", "row 0"))


# Plans over a tree, and opens a store of it.
TRIES = """
from pickbracken import Store, Tree
for call in (lambda tree: tree.plan([]), Store):
    try:
        call(Tree.from_paths({"/": 5}))
    except OSError as why:
        print(why)
"""


# Plans over a tree, and says what it costs.
PLANS = "from pickbracken import Access, Tree; print(Tree.from_paths({'/a': 5}).plan([Access.get('/a')]).cost)"
PACKAGE = Path(pickbracken.__file__).parent


def said_by(program: str, **more: str) -> Tuple[int, str, str]:
    """How a program ends, and what it says, whose surroundings name no library but by these variables."""
    unset = ("GROVE_LIBRARY", "LD_LIBRARY_PATH")
    surroundings = {name: value for name, value in os.environ.items() if name not in unset}
    words = [sys.executable, "-B", "-c", program]
    surroundings = {**surroundings, "PYTHONPATH": str(PACKAGE.parent), **more}
    ran = subprocess.run(words, cwd="/", env=surroundings, capture_output=True, text=True, check=False)
    return ran.returncode, ran.stdout, ran.stderr


class Libraries(unittest.TestCase):
    def setUp(self) -> None:
        self.room = Path(self.enter(tempfile.TemporaryDirectory()))
        self.real = os.path.realpath(loaded()._name)

    def enter(self, folder: "tempfile.TemporaryDirectory[str]") -> str:
        self.addCleanup(folder.cleanup)
        return folder.name

    def test_without_one_the_first_call_says_so_and_nothing_else_does(self) -> None:
        wanted = f"there is no {self.room}/libgrove.so: tools/library makes it\n"
        self.assertEqual(said_by(TRIES, GROVE_LIBRARY=str(self.room)), (0, wanted * 2, ""))

    def test_it_may_have_either_name(self) -> None:
        for name in ("libgrove.so", "libgrove.so.0"):
            folder = self.room / name[-1]
            folder.mkdir()
            (folder / name).symlink_to(self.real)
            self.assertEqual(said_by(PLANS, GROVE_LIBRARY=str(folder)), (0, "5\n", ""))

    def test_it_may_be_the_system_s(self) -> None:
        """If none is named, and there is none beside the package."""
        shutil.copytree(PACKAGE, self.room / "pickbracken", ignore=shutil.ignore_patterns("*.so*"))
        (self.room / "libgrove.so.0").symlink_to(self.real)
        paths = {"PYTHONPATH": str(self.room), "LD_LIBRARY_PATH": str(self.room)}
        self.assertEqual(said_by(PLANS, **paths), (0, "5\n", ""))
        nowhere = said_by(TRIES, **{**paths, "LD_LIBRARY_PATH": ""})
        self.assertIn(f"there is no {self.room}/pickbracken/libgrove.so", nowhere[1])

    def test_another_version_is_told_at_the_first_call(self) -> None:
        version = pickbracken.__version__
        with mock.patch("pickbracken.library.__version__", "9.8.7"):
            with self.assertRaises(OtherVersion) as caught:
                loaded.__wrapped__()
        text = f"the version of libgrove is {version}, and that of the package pickbracken 9.8.7"
        self.assertEqual((str(caught.exception), caught.exception.library), (text, version))
        with mock.patch("pickbracken.library.found", return_value=object()):
            with self.assertRaises(OtherVersion) as caught:
                loaded.__wrapped__()
        text = f"the version of libgrove is earlier than 0.2.0, and that of the package pickbracken {version}"
        self.assertEqual(str(caught.exception), text)
        self.assertIsInstance(caught.exception, OSError)

    def test_answers_are_made_once(self) -> None:
        """Also the longest: there is room for them at first."""
        rows: List[Dict[str, object]] = [{"parent": None, "name": "", "weight": 1}]
        for number in range(1, 4096):
            above = number - 1 if (number - 1) % 32 else 0
            rows.append({"parent": above, "name": f"name{number}", "weight": 1})
        paths = Tree(tuple(Node(**row) for row in rows)).paths()  # type: ignore[arg-type]
        gets = [["get", path] for path in paths[32::32][:64]]
        whole = json.dumps({"version": 2, "nodes": rows, "list": gets}).encode()
        for call in (document.plan, document.plan_document, document.draw_svg, document.draw_text):
            with mock.patch("pickbracken.library.Room", side_effect=Room) as rooms:
                self.assertGreater(len(call(whole)), 100_000)
            self.assertLessEqual(rooms.call_count, 1, call)


class Memory(unittest.TestCase):
    """Ten thousand calls of each kind leave the memory of the process as it was."""

    # More than this is no noise of Python's own, and less than a hundredth of what ten thousand documents take.
    MOST = 2 << 20

    def test_calls_keep_nothing(self) -> None:
        accesses = [Access.get("/a"), Access.add("/b", 1)]
        planned = document.plan_document(json.dumps({**json.loads(STOCK.document()), "list": []}).encode()).encode()

        def each() -> None:
            document.check(planned)
            STOCK.check(accesses, STOCK.plan(accesses))
            Tree(STOCK.nodes).plan(accesses)
            with self.assertRaises(Refused):
                document.judge(b"{")

        for _ in range(500):
            each()
        gc.collect()
        before = resident()
        for _ in range(10_000):
            each()
        gc.collect()
        self.assertLess(resident() - before, self.MOST)


def resident() -> int:
    """How many bytes of memory the process has."""
    with open("/proc/self/statm", encoding="ascii") as it:
        return int(it.read().split()[1]) * 4096


if __name__ == "__main__":
    unittest.main()
