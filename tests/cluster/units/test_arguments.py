"""Command lines, plans by numbers, pauses and lines of the journal."""
import itertools
import json
import sys
import types
import unittest
from unittest import mock

import here  # noqa: F401
from grove_etcd import planners
from grove_etcd.command_line import arguments, credentials_of
from grove_etcd.connecting import Credentials
from grove_etcd.journal import Journal, line_of
from grove_etcd.members import LONGEST_PAUSE_SECONDS, addresses_of, pauses
from grove_etcd.planners import By, planner_of
from grove_etcd.planning import Planner
from grove_etcd.refusals import Refused
from grove_etcd.submitting import place_in_lists
from grove_etcd.command_line import address as address_of


class Arguments(unittest.TestCase):
    def given(self, *some):
        return arguments("").parse_args(some)

    def test_members(self):
        self.assertEqual(addresses_of("a:1,b:65535"), ["a:1", "b:65535"])
        for wrong in ("127.0.0.1", "a:0", "a:65536", ":1", "a:1,", "a:x"):
            with self.assertRaises(ValueError):
                addresses_of(wrong)

    def test_credentials(self):
        given = self.given("--cacert", "a", "--cert", "b", "--key", "c", "--user", "root:s:x")
        self.assertEqual(credentials_of(given), Credentials("a", "b", "c", "root", "s:x"))
        with mock.patch.dict("os.environ", ETCDCTL_PASSWORD="p"):
            self.assertEqual(credentials_of(self.given("--user", "root")).password, "p")
        for wrong in (["--cert", "b"], ["--cert", "b", "--key", "c"]):
            with self.assertRaises(ValueError):
                credentials_of(self.given(*wrong))

    def test_addresses_of_metrics(self):
        self.assertEqual((address_of("9464"), address_of("0.0.0.0:1")), (("127.0.0.1", 9464), ("0.0.0.0", 1)))

    def test_places(self):
        for fault, wanted in (
            ("no-path list 0", "no-path lists 3 0"),
            ("limit list", "limit lists 3"),
            ("memory", "memory lists 3"),
        ):
            self.assertEqual(place_in_lists(fault, 3), wanted)


class Others(unittest.TestCase):
    def test_pauses_grow_up_to_a_limit(self):
        some = list(itertools.islice(pauses(), 20))
        self.assertTrue(some[0] <= 0.05 and LONGEST_PAUSE_SECONDS / 2 <= some[-1] <= LONGEST_PAUSE_SECONDS)

    def test_a_line_is_one(self):
        self.assertEqual(line_of("lost", {"why": 'a\n"b" c', "n": 1}), "lost why=\"a?'b' c\" n=1")

    def test_counts(self):
        journal = Journal()
        journal.log("commit")
        self.assertIn('grove_worker_events_total{event="commit"} 1\n', journal.metrics())

    def test_a_plan_is_asked_for_once_for_each_form(self):
        planner, weights = Planner("no program"), {"/": 5, "/a": 1, "/b": 1, "/c": 2}
        asked = []

        def plan(document):
            asked.append(document)
            path = json.loads(document)["list"][0][1]
            return {"plan": json.dumps([["lock", path], ["access", 0], ["unlock", path]])}

        planner.by = By("a test", plan)
        self.assertEqual(planner.plan([["add", "/a", 1]], weights)[0], ["lock", "/a"])
        self.assertEqual(planner.plan([["get", "/b"]], weights), [["lock", "/b"], ["access", 0], ["unlock", "/b"]])
        planner.plan([["get", "/c"]], weights)
        planner.plan([["get", "/b", 2]], weights)
        self.assertEqual(len(asked), 3)

    def test_a_plan_that_is_not_legal_is_refused_each_time(self):
        planner, weights = Planner("no program"), {"/": 5, "/a": 1}
        planner.by = By("a test", lambda _: {"plan": '[["lock","/a"],["access",0]]'})
        for _ in range(2):
            with self.assertRaisesRegex(Refused, "node /a still-held"):
                planner.plan([["add", "/a", 1]], weights)


class Planners(unittest.TestCase):
    """Who plans, by what is named and what is there."""

    def test_the_program_that_is_named(self):
        self.assertEqual(planner_of("some grove").name, "some grove")

    def test_the_library_where_it_is_there(self):
        class Library:
            """A package with a library that answers."""

        package, library = types.ModuleType("pickbracken"), types.ModuleType("pickbracken.library")
        library.loaded = Library
        package.library = library
        with mock.patch.dict("sys.modules", {"pickbracken": package, "pickbracken.library": library}):
            self.assertEqual(planner_of(None).name, "the library")

    def test_the_program_at_hand_without_a_library(self):
        with mock.patch.dict("os.environ", GROVE_LIBRARY="/no/such/folder"), mock.patch.dict("sys.modules"):
            for name in [name for name in sys.modules if name.startswith("pickbracken")]:
                del sys.modules[name]
            self.assertEqual(planner_of(None).name, str(planners.GROVE))
        with mock.patch.dict("sys.modules", {"pickbracken": None}):
            self.assertEqual(planner_of(None).name, str(planners.GROVE))

    def test_refusals_are_those_of_the_program(self):
        sys.path.append(str(planners.PACKAGES))
        from pickbracken import document, faults

        for text in ("no-path list 0", "bad-length list 3", "row 2 bad-name"):
            with mock.patch.object(document, "plan", side_effect=faults.Refused(text)):
                with self.assertRaises(Refused) as caught:
                    planners.plan_by_library("{}")
                self.assertEqual(str(caught.exception), text)
        with mock.patch.object(document, "plan", return_value="cost 1\nplan []\nflow []\n"):
            self.assertEqual(planners.plan_by_library("{}"), {"cost": "1", "plan": "[]", "flow": "[]"})


if __name__ == "__main__":
    unittest.main()
