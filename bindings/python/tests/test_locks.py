"""Transactions of threads over locks of their program."""

from __future__ import annotations

import multiprocessing
import random
import signal
import sys
import threading
import time
import unittest
from contextlib import contextmanager
from typing import Any, Callable, Dict, Iterator, List, Tuple

from pickbracken import Access, Locks, Nested, NoNode, Refused, StepKind, TimedOut, Tree, Unfinished
from pickbracken import lists, shapes
from pickbracken.locks import AnyLock
from pickbracken.weights import new_weight

from histories import JOBS, History
from serial_order import LEAVES, TRANSACTIONS, WEIGHTS, Records, Run, drawn_paths

THREADS = 16
A, B, C = "/g0/leaf0", "/g1/leaf1", "/g2/leaf2"


class Kept:
    """Locks that a test can look at."""

    def __init__(self) -> None:
        self.locks: Dict[str, threading.Lock] = {}

    def lock_of(self, path: str) -> AnyLock:
        assert path not in self.locks, f"a second lock of {path}"
        self.locks[path] = threading.Lock()
        return self.locks[path]

    def held(self) -> List[str]:
        return sorted(path for path, lock in self.locks.items() if lock.locked())


def made(**how: Any) -> Tuple[Locks, Kept]:
    kept = Kept()
    return Locks(WEIGHTS, kept.lock_of, **how), kept


def in_threads(job: Callable[[int], object], count: int = THREADS) -> None:
    """Has each thread do its job; what one of them raises is raised."""
    wrong: List[BaseException] = []

    def one(number: int) -> None:
        try:
            job(number)
        except BaseException as why:
            wrong.append(why)

    threads = [threading.Thread(target=one, args=(number,)) for number in range(count)]
    for thread in threads:
        thread.start()
    for thread in threads:
        thread.join()
    if wrong:
        raise wrong[0]


@contextmanager
def switching_often() -> Iterator[None]:
    before = sys.getswitchinterval()
    sys.setswitchinterval(5e-5)
    try:
        yield
    finally:
        sys.setswitchinterval(before)


class Broken(Exception):
    """What a block raises."""


def transact(locks: Locks, records: Records, drawn: random.Random) -> None:
    """A transaction, which sometimes is broken off, late, left early or undone."""
    run, paths, kind = Run(), drawn_paths(drawn), drawn.random()
    records.runs.append(run)
    stop = drawn.randrange(len(paths)) if kind < 0.06 else -1
    timeout = drawn.random() * 0.001 if 0.06 <= kind < 0.1 else None
    try:
        with locks.transaction(paths, timeout, whole=kind < 0.02) as accesses:
            try:
                for number, path in accesses:
                    before = records.numbers[path]
                    if drawn.random() < 0.05:
                        time.sleep(0)
                    records.add(run, path, 1 + number, before)
                    if number == stop and kind < 0.04:
                        raise Broken
                    if number == stop:
                        break
            except Broken:
                if kind < 0.02:
                    undo(records, run)
                raise
    except (Broken, TimedOut, Unfinished) as why:
        records.ended[type(why).__name__] += 1
        assert accesses.done == (stop + 1 if stop >= 0 else len(run.done)), why


def undo(records: Records, run: Run) -> None:
    for path, amount, _ in run.done[::-1]:
        records.add(run, path, -amount, records.numbers[path])


class Noted:
    """A lock that notes in a history that it is taken and released."""

    def __init__(self, history: History, path: str) -> None:
        self.history, self.path, self.lock = history, path, threading.Lock()

    def acquire(self, blocking: bool = True, timeout: float = -1, /) -> bool:
        taken = self.lock.acquire(blocking, timeout)
        if taken:
            self.history.note("lock", self.path)
        return taken

    def release(self) -> None:
        self.history.note("unlock", self.path)
        self.lock.release()


class Unlocked(Noted):
    """One that notes the same, and never locks."""

    def acquire(self, blocking: bool = True, timeout: float = -1, /) -> bool:
        self.history.note("lock", self.path)
        return True

    def release(self) -> None:
        self.history.note("unlock", self.path)


def do_job(locks: Locks, history: History, drawn: random.Random) -> None:
    """A transaction that is a job of a history, which sometimes is broken off, late or left early."""
    history.job()
    paths, kind = drawn_paths(drawn), drawn.random()
    stop = drawn.randrange(len(paths)) if kind < 0.06 else -1
    timeout = drawn.random() * 0.001 if 0.06 <= kind < 0.1 else None
    try:
        with locks.transaction(paths, timeout, whole=kind < 0.02) as accesses:
            for number, path in accesses:
                before = history.numbers[path]
                if drawn.random() < 0.05:
                    time.sleep(0)
                history.add(path, 1 + number, before)
                if number == stop and kind < 0.04:
                    raise Broken
                if number == stop:
                    break
    except (Broken, TimedOut, Unfinished):
        pass


class Histories(unittest.TestCase):
    """Of each job the steps that were taken are a legal plan for the accesses that were done, of a transaction that
    failed, too."""

    def test_runs_are_histories_that_an_audit_accepts(self) -> None:
        history = History()
        locks = Locks(WEIGHTS, lambda path: Noted(history, path))
        with switching_often():
            for part in range(max(TRANSACTIONS // JOBS, 1)):
                self.run_some(locks, history, part)
                self.assertEqual(len(history.jobs), JOBS)
                self.assertTrue(history.audited().startswith("order ["))
        self.assertTrue(any(node.waits for node in locks.nodes.values()))

    def run_some(self, locks: Locks, history: History, part: int) -> None:
        def some(number: int) -> None:
            drawn = random.Random(THREADS * part + number)
            for _ in range(JOBS // THREADS):
                do_job(locks, history, drawn)

        history.begin()
        in_threads(some)
        locks.reweigh()

    def test_a_list_that_is_done_whole_is_done_by_its_settled_plan(self) -> None:
        history, drawn = History(), random.Random(1)
        locks = Locks(WEIGHTS, lambda path: Noted(history, path))
        tree = Tree.from_paths(locks.weights())
        for _ in range(200):
            job, paths = history.job(), drawn_paths(drawn)
            locks.run(paths, lambda number, path: history.add(path, 1, history.numbers[path]))
            settled = tree.plan([Access.get(path) for path in paths]).steps
            self.assertEqual(job.steps, [(step.kind.value, step.of) for step in settled])

    def test_locks_that_do_not_lock_are_refused(self) -> None:
        history = History()
        locks = Locks(WEIGHTS, lambda path: Unlocked(history, path))
        with switching_often():
            self.run_some(locks, history, 0)
        with self.assertRaises(Refused):
            history.audited()


class Stress(unittest.TestCase):
    def test_runs_are_in_a_serial_order(self) -> None:
        (locks, kept), records = made(), Records()
        with switching_often():
            in_threads(lambda number: self.run_some(locks, records, number))
        self.assertEqual((records.fault(), kept.held(), locks.inside), ("", [], {}))
        self.assertEqual(len(records.runs), TRANSACTIONS // THREADS * THREADS)
        self.assertEqual(set(records.ended), {"Broken", "TimedOut", "Unfinished"})
        # A reweighing of one of the threads may have been the last that saw a wait.
        self.assertTrue(any(node.waits for node in locks.nodes.values()))
        locks.reweigh()
        self.assertEqual(locks.waits(), {})

    def run_some(self, locks: Locks, records: Records, number: int) -> None:
        drawn = random.Random(number)
        for _ in range(TRANSACTIONS // THREADS):
            transact(locks, records, drawn)
            if drawn.random() < 0.001:
                locks.reweigh()

    def test_locks_that_do_not_lock_are_seen(self) -> None:
        locks, records = Locks(WEIGHTS, lambda path: Open()), Records()
        with switching_often():
            in_threads(lambda number: self.run_some(locks, records, number))
        self.assertNotEqual(records.fault(), "")

    @unittest.skipIf(sys.version_info < (3, 11), "an interrupt may come between any two instructions")
    def test_interrupts_let_go_what_is_held_and_nothing_else(self) -> None:
        (locks, kept), records, stopping = made(), Records(), threading.Event()
        for path in WEIGHTS:
            locks.run([path], lambda number, path: None)

        def interrupt(*_: object) -> None:
            raise KeyboardInterrupt

        def others() -> None:
            in_threads(lambda number: self.run_until(stopping, locks, records, number), 2)

        thread, before = threading.Thread(target=others), signal.signal(signal.SIGALRM, interrupt)
        drawn, interrupted = random.Random(7), 0
        thread.start()
        try:
            while interrupted < TRANSACTIONS // 10:
                interrupted += self.run_interrupted(locks, records, drawn)
        finally:
            signal.setitimer(signal.ITIMER_REAL, 0)
            signal.signal(signal.SIGALRM, before)
            stopping.set()
            thread.join()
        self.assertEqual((records.fault(), kept.held(), locks.inside), ("", [], {}))

    def run_until(self, stopping: threading.Event, locks: Locks, records: Records, number: int) -> None:
        drawn = random.Random(-1 - number)
        while not stopping.is_set():
            transact(locks, records, drawn)

    def run_interrupted(self, locks: Locks, records: Records, drawn: random.Random) -> int:
        """Transactions until one is interrupted."""
        try:
            signal.setitimer(signal.ITIMER_REAL, 1e-5 + drawn.random() * 2e-4)
            while True:
                add_at_once(locks, records, drawn)
        except KeyboardInterrupt:
            return 1


def add_at_once(locks: Locks, records: Records, drawn: random.Random) -> None:
    """A transaction whose accesses are done or not, whenever it is interrupted: what it writes is written last."""
    run, paths = Run(), drawn_paths(drawn)
    records.runs.append(run)
    with locks.transaction(paths, 10 if drawn.random() < 0.5 else None) as accesses:
        for number, path in accesses:
            visits, done, reply = records.visits[path], run.done, records.numbers[path] + 1
            # (An assignment to slices has no calls between its parts.)
            visits[len(visits) :], done[len(done) :], records.numbers[path] = [id(run)], [(path, 1, reply)], reply


class Open:
    """No lock, though it looks like one."""

    def acquire(self, blocking: bool = True, timeout: float = -1) -> bool:
        return True

    def release(self) -> None:
        pass


class Bell:
    """A lock that tells when it is waited for."""

    def __init__(self) -> None:
        self.lock, self.rung = threading.Lock(), threading.Event()

    def acquire(self, blocking: bool = True, timeout: float = -1) -> bool:
        if blocking:
            self.rung.set()
        return self.lock.acquire(blocking, timeout)

    def release(self) -> None:
        self.lock.release()


class Transactions(unittest.TestCase):
    def test_accesses_come_in_order_while_their_nodes_are_held(self) -> None:
        locks, kept = made()
        came = []
        with locks.transaction([A, (B, 3), A]) as accesses:
            for number, path in accesses:
                came.append((number, path))
                self.assertIn(path, kept.held())
                self.assertEqual(accesses.done, number + 1)
            self.assertEqual(kept.held(), [])
        self.assertEqual(came, [(0, A), (1, B), (2, A)])
        self.assertEqual(locks.run([A, B], lambda number, path: f"{number} {path}"), [f"0 {A}", f"1 {B}"])
        self.assertEqual(locks.run([], lambda number, path: path), [])

    def test_locks_are_taken_as_the_settled_plan_says(self) -> None:
        wanted: List[Tuple[str, int]] = [(A, 1), ("/g1", 4), (B, 2), (A, 1)]
        taken: List[Tuple[str, str]] = []

        class Watched(Open):
            def __init__(self, path: str) -> None:
                self.path = path

            def acquire(self, blocking: bool = True, timeout: float = -1) -> bool:
                taken.append(("lock", self.path))
                return True

            def release(self) -> None:
                taken.append(("unlock", self.path))

        Locks(WEIGHTS, Watched).run(wanted, lambda number, path: taken.append(("access", path)))
        accesses = [Access.get(path).lasting(length) for path, length in wanted]
        settled = Tree.from_paths(WEIGHTS).plan(accesses).steps
        paths = [step.of if isinstance(step.of, str) else accesses[step.of].path for step in settled]
        self.assertEqual(taken, [(step.kind.value, path) for step, path in zip(settled, paths)])

    def test_an_error_lets_go_all_that_is_held(self) -> None:
        locks, kept = made()
        with self.assertRaises(Broken):
            with locks.transaction([A, B, C]) as accesses:
                for number, _ in accesses:
                    if number == 1:
                        self.assertNotIn(A, kept.held())
                        self.assertIn(B, kept.held())
                        raise Broken
        self.assertEqual((accesses.done, kept.held()), (2, []))

    def test_a_whole_transaction_holds_what_it_accessed(self) -> None:
        locks, kept = made()
        with locks.transaction([A, B, C], whole=True) as accesses:
            for number, path in accesses:
                self.assertTrue({A, B, C}.intersection(kept.held()) >= set([A, B, C][: number + 1]))
            self.assertEqual(kept.held(), [A, B, C])
        self.assertEqual(kept.held(), [])
        with self.assertRaises(Broken):
            with locks.transaction([A, B, C], whole=True) as accesses:
                try:
                    for number, path in accesses:
                        if number == 1:
                            raise Broken
                finally:
                    self.assertEqual([path for path in kept.held() if path in (A, B)], [A, B])
        self.assertEqual(kept.held(), [])

    def test_what_is_not_had_in_time_is_told(self) -> None:
        locks, kept = made()
        for whole in (False, True):
            locks.run([A, B], lambda number, path: None)
            kept.locks[B].acquire()
            begun = time.monotonic()
            with self.assertRaises(TimedOut) as caught:
                with locks.transaction([A, B], timeout=0.05, whole=whole) as accesses:
                    for _ in accesses:
                        pass
            self.assertGreaterEqual(time.monotonic() - begun, 0.05)
            self.assertEqual((caught.exception.path, caught.exception.done), (B, accesses.done))
            self.assertIsInstance(caught.exception, TimeoutError)
            self.assertEqual(kept.held(), [B])
            kept.locks[B].release()
        kept.locks[A].acquire()
        with self.assertRaises(TimedOut) as caught:
            locks.run([B, A], lambda number, path: None, timeout=0)
        kept.locks[A].release()
        self.assertEqual(kept.held(), [])

    def test_what_has_failed_is_not_gone_on_with(self) -> None:
        locks, kept = made()
        locks.run([A, B], lambda number, path: None)
        kept.locks[B].acquire()
        with self.assertRaises(Unfinished):
            with locks.transaction([A, B], timeout=0) as accesses:
                with self.assertRaises(TimedOut):
                    list(accesses)
                kept.locks[B].release()
                with self.assertRaises(Unfinished):
                    list(accesses)
        self.assertEqual(kept.held(), [])
        for again in (accesses, locks.transaction([A])):
            with self.assertRaises(Unfinished):
                list(again)
        self.assertEqual(kept.held(), [])

    def test_who_leaves_early_is_told(self) -> None:
        locks, kept = made()
        with self.assertRaises(Unfinished) as caught:
            with locks.transaction([A, B, C]) as accesses:
                for number, _ in accesses:
                    break
                for number, _ in accesses:
                    break
        self.assertEqual((number, caught.exception.done, caught.exception.wanted), (1, 2, 3))
        self.assertEqual(str(caught.exception), "2 of 3 accesses were begun")
        with locks.transaction([A]) as accesses:
            for _ in accesses:
                break
        self.assertEqual((kept.held(), locks.inside), ([], {}))

    def test_no_thread_has_two_at_once(self) -> None:
        locks, kept = made()
        other, _ = made()
        with locks.transaction([A]) as accesses:
            for _ in accesses:
                with self.assertRaises(Nested):
                    locks.run([B], lambda number, path: None)
                other.run([B], lambda number, path: None)
                in_threads(lambda number: locks.run([B], lambda number, path: None), 1)
        locks.run([B], lambda number, path: None)
        self.assertEqual((kept.held(), locks.inside), ([], {}))

    def test_a_lock_that_fails_to_unlock_keeps_no_other(self) -> None:
        kept = Kept()

        class Stiff:
            def __init__(self, path: str) -> None:
                lock = kept.lock_of(path)
                self.path, self.lock, self.acquire = path, lock, lock.acquire

            def release(self) -> None:
                self.lock.release()
                if self.path in (A, "/g1"):
                    raise OSError(self.path)

        locks = Locks(WEIGHTS, Stiff)
        for whole in (False, True):
            with self.assertRaises(OSError) as caught:
                locks.run([A, B], lambda number, path: None, whole=whole)
            self.assertIn(str(caught.exception), (A, "/g1"))
            self.assertEqual((kept.held(), locks.inside), ([], {}))
        with self.assertRaises(OSError):
            locks.run([A], lambda number, path: None)
        self.assertEqual((kept.held(), locks.inside), ([], {}))

    def test_locks_may_be_of_any_kind(self) -> None:
        kinds: List[Callable[[], AnyLock]] = [threading.RLock, threading.Semaphore, multiprocessing.Lock]
        for kind in kinds:
            locks, counts, rounds = Locks(WEIGHTS, lambda path: kind()), {A: 0, B: 0}, 0

            def count(_: int, path: str) -> None:
                before = counts[path]
                time.sleep(0.001)
                counts[path] = before + 1

            def run_five(number: int) -> None:
                for _ in range(5):
                    locks.run([A, B], count, timeout=None if number else 60)

            # On a busy machine each thread may have ended before the next one begins.
            while not locks.waits() and rounds < 1_000:
                rounds += 1
                in_threads(run_five, 4)
            self.assertEqual(counts, {A: 20 * rounds, B: 20 * rounds})
            self.assertTrue(locks.waits())

    def test_what_is_no_list_is_refused_by_name(self) -> None:
        locks, _ = made()
        for length in (0, 1001, -1, 1.5, "1"):
            with self.assertRaises(Refused) as caught:
                locks.transaction([A, (B, length)])  # type: ignore[list-item]
            self.assertEqual((caught.exception.name, caught.exception.place), ("bad-length", "list 1"))
        locks.run([(A, 1), (B, 1000)], lambda number, path: None)
        for path in ("/g9", "", "g0", A + "/"):
            with self.assertRaises(NoNode):
                locks.transaction([A, path])
        with self.assertRaises(Refused) as caught:
            locks.transaction([A] * 65)
        self.assertEqual(caught.exception.name, "limit")
        self.assertEqual(len(locks.run([A] * 64, lambda number, path: None)), 64)
        for weight in (0, 1001, 1.5, "1"):
            with self.assertRaises(ValueError):
                Locks({"/a": weight})  # type: ignore[dict-item]
        self.assertEqual(Locks({"/a/b": 1000, "/": 1}).weights(), {"/": 1, "/a": 1, "/a/b": 1000})


class Weights(unittest.TestCase):
    def test_waits_are_counted_and_make_weights(self) -> None:
        bells: Dict[str, Bell] = {}
        locks = Locks(WEIGHTS, lambda path: bells.setdefault(path, Bell()))
        locks.run([A, B], lambda number, path: None)
        for path in (A, A, "/"):
            self.wait_once(locks, bells[path])
        self.assertEqual(locks.waits(), {A: 2, "/": 1})
        self.assertEqual(locks.reweigh(), 10)
        weights = locks.weights()
        # 1 + 63 / 2 + 1, 1 + 7 / 2, 1 + 2 and 1.
        self.assertEqual([weights[path] for path in ("/", "/g0", A, B)], [33, 4, 3, 1])
        self.assertEqual(locks.waits(), {})
        self.wait_once(locks, bells[A])
        self.assertEqual(locks.waits(), {A: 1})

    def wait_once(self, locks: Locks, bell: Bell) -> None:
        bell.rung.clear()
        bell.lock.acquire()
        waiting = threading.Thread(target=lambda: locks.run([A, B], lambda number, path: None))
        waiting.start()
        self.assertTrue(bell.rung.wait(60))
        bell.lock.release()
        waiting.join()

    def test_new_weights_go_by_the_rule(self) -> None:
        learnt = ((1, 0, 1), (2, 0, 1), (3, 0, 2), (1000, 0, 500), (1000, 500, 1000), (999, 500, 1000))
        for weight, waits, new in learnt:
            self.assertEqual(new_weight(weight, waits), new)
        self.assertEqual(new_weight(998, 500), 999)
        locks, kept = made()
        locks.run([A], lambda number, path: None)
        for counted, told in ((999, 999), (1000, 1000), (1001, 1000)):
            locks.nodes[A].waits = counted
            self.assertEqual(locks.waits(), {A: told})

    def test_plans_are_by_the_weights_of_now(self) -> None:
        """The root is unlocked before the first access while it is heavy."""
        locks = Locks({"/": 2, "/a": 1, "/b": 1})
        before = locks.program((("/a", 9), "/b"), False)
        locks.nodes["/b"].waits = 1000
        locks.reweigh()
        self.assertEqual(locks.weights(), {"/": 1, "/a": 1, "/b": 1000})
        after = locks.program((("/a", 9), "/b"), False)
        self.assertNotEqual(before.steps, after.steps)
        self.assertIs(locks.transaction([("/a", 9), "/b"]).program, after)


class Plans(unittest.TestCase):
    def test_a_tree_may_have_any_size_and_names(self) -> None:
        weights = {f"/user-{user}/Überschrift {line}\n": 1 for user in range(200) for line in range(100)}
        locks = Locks(weights)
        self.assertEqual(len(locks.weights()), 20_201)
        wanted = ["/user-7/Überschrift 3\n", "/user-199/Überschrift 99\n"]
        self.assertEqual(locks.run(wanted, lambda number, path: path), wanted)
        deep = "/a" * 5_000
        locks = Locks({deep: 1})
        self.assertEqual(locks.run(["/a", deep[: 2 * 32]], lambda number, path: number), [0, 1])
        with self.assertRaises(Refused) as caught:
            locks.transaction([deep[: 2 * 32], deep[: 2 * 33]])
        self.assertEqual(caught.exception.name, "too-deep")

    def test_lists_are_cut_to_what_their_plans_lock(self) -> None:
        """Each plan is that of the whole tree."""
        for seed in range(100):
            drawn = random.Random(seed)
            paths = ["/"]
            for number in range(drawn.randrange(1, 14)):
                above = drawn.choice(paths)
                paths.append(f"{'' if above == '/' else above}/{drawn.choice('abc')}{number}")
            weights = {path: drawn.randrange(1, 30) for path in paths}
            wanted = [(drawn.choice(paths), drawn.choice((1, 1, 2, 5))) for _ in range(drawn.randrange(1, 7))]
            locks, accesses = Locks(weights), [Access.get(path).lasting(length) for path, length in wanted]
            settled = Tree.from_paths(locks.weights()).plan(accesses).steps
            self.assertEqual(self.steps_of(locks, wanted), [(step.kind, step.of) for step in settled])

    def steps_of(self, locks: Locks, wanted: List[Tuple[str, int]]) -> List[Tuple[StepKind, object]]:
        found: List[Tuple[StepKind, object]] = []
        for locking, unlocking, of in locks.program(tuple(wanted), False).steps:
            unlocks = StepKind.ACCESS if unlocking is None else StepKind.UNLOCK
            kind = unlocks if locking is None else StepKind.LOCK
            found.append((kind, of[0] if kind is StepKind.ACCESS else of.path))
        return found

    def test_a_plan_serves_all_lists_of_its_shape(self) -> None:
        asked: List[shapes.Shape] = []

        def planner(shape: shapes.Shape) -> shapes.Numbers:
            asked.append(shape)
            return shapes.settled(shape)

        locks, _ = made(planner=planner)
        for pair in ([A, B], [B, A], ["/g5/leaf13", "/g3/leaf3"]):
            locks.run(pair, lambda number, path: None)
        self.assertEqual(asked, [((0, 0, 1, 0, 3), (64, 8, 1, 8, 1), (2, 4), (1, 1)), asked[-1]][: len(asked)])
        self.assertEqual([shape.places for shape in asked], [(2, 4), (4, 2)])
        # The part of one node has its way down from the root.
        locks.run([(A, 7)], lambda number, path: None)
        self.assertEqual(asked[-1], ((0, 0, 1), (64, 8, 1), (2,), (7,)))

    def test_what_is_kept_is_bounded(self) -> None:
        locks = Locks({f"/{number}": 1 for number in range(lists.MOST_LISTS + 1)})
        for number in range(lists.MOST_LISTS + 1):
            locks.run([f"/{number}"], lambda number, path: None)
            self.assertLessEqual(len(locks.kept.made), lists.MOST_LISTS)
        self.assertLess(len(locks.kept.made), 10)
        few: shapes.Shapes[shapes.Numbers] = shapes.Shapes(lambda shape: shape.weights, lambda numbers: numbers)
        for number in range(shapes.MOST_SHAPES + 1):
            few.made(shapes.Shape((0,), (number,), (0,), (1,)))
        self.assertEqual(len(few.kept), 1)
        most = range(2 * shapes.MOST_STEPS)
        large: shapes.Shapes[shapes.Numbers] = shapes.Shapes(lambda shape: most, lambda numbers: numbers)
        for number in range(3):
            large.made(shapes.Shape((0,), (number,), (0,), (1,)))
            self.assertEqual(len(large.kept), 1)

    def test_a_long_plan_has_no_object_for_each_step(self) -> None:
        """The longest there is: the ends of 64 chains of the greatest depth, below one root."""
        names = ["/" + "/".join(["c%d" % chain] * depth) for chain in range(64) for depth in range(1, 33)]
        locks = Locks(dict.fromkeys(names, 1))
        ends = ["/" + "/".join(["c%d" % chain] * 32) for chain in range(64)]
        program = locks.program(tuple(ends), False)
        self.assertEqual(len(program.steps), 2 * 2049 + 64)
        own = {id(step) for node in locks.nodes.values() for step in (node.locking, node.unlocking)}
        self.assertEqual(sum(id(step) not in own for step in program.steps), 64)
        kept = next(iter(locks.plans.kept.values()))
        self.assertEqual((type(kept).__name__, len(kept)), ("array", 2 * len(program.steps)))
        self.assertEqual(locks.run(ends, lambda number, path: number), list(range(64)))


if __name__ == "__main__":
    unittest.main()
