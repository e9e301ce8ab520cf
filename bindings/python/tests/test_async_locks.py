"""Transactions of tasks over locks of their program."""

from __future__ import annotations

import asyncio
import random
import sys
import unittest
from typing import Any, Dict, List, Tuple

from pickbracken import AsyncLocks, Nested, NoNode, Refused, TimedOut, Unfinished

from histories import JOBS, History
from serial_order import LEAVES, TRANSACTIONS, WEIGHTS, Records, Run, drawn_paths
from test_locks import A, B, C, Broken, undo

TASKS = 1_000


class Lock:
    """A lock of the caller's own, as one of another server: each call takes a moment, and one of them may fail."""

    def __init__(self, path: str) -> None:
        self.path, self.lock = path, asyncio.Lock()

    async def acquire(self) -> bool:
        await asyncio.sleep(0)
        return await self.lock.acquire()

    async def release(self) -> None:
        await asyncio.sleep(0)
        self.lock.release()


class Closed(Lock):
    """One that is never had."""

    async def acquire(self) -> bool:
        await asyncio.sleep(0)
        return False


class Noted(Lock):
    """One that notes in a history that it is taken and released."""

    def __init__(self, history: History, path: str) -> None:
        super().__init__(path)
        self.history = history

    async def acquire(self) -> bool:
        taken = await super().acquire()
        self.history.note("lock", self.path)
        return taken

    async def release(self) -> None:
        self.history.note("unlock", self.path)
        await super().release()


def held(locks: AsyncLocks) -> List[str]:
    """What somebody has, or waits for."""
    return sorted(path for path, node in locks.nodes.items() if node.taken or node.turns)


async def pause(_number: int, _path: str) -> None:
    await asyncio.sleep(0)


async def go_on() -> None:
    """Lets the other tasks go on until all of them wait."""
    for _ in range(20):
        await asyncio.sleep(0)


async def transact(locks: AsyncLocks, records: Records, drawn: random.Random) -> None:
    """A transaction, which sometimes is broken off, late, left early, undone or cancelled."""
    run, paths, kind = Run(), drawn_paths(drawn), drawn.random()
    records.runs.append(run)
    stop = drawn.randrange(len(paths)) if kind < 0.06 else -1
    timeout = drawn.random() * 0.01 if 0.06 <= kind < 0.1 else None
    try:
        async with locks.transaction(paths, timeout, whole=kind < 0.02) as accesses:
            try:
                async for number, path in accesses:
                    before = records.numbers[path]
                    if drawn.random() < 0.2:
                        await asyncio.sleep(0)
                    records.add(run, path, 1 + number, before)
                    if number == stop and kind < 0.04:
                        raise Broken
                    if number == stop:
                        break
            except (Broken, asyncio.CancelledError):
                if kind < 0.02:
                    undo(records, run)
                raise
    except (Broken, TimedOut, Unfinished, asyncio.CancelledError) as why:
        records.ended[type(why).__name__] += 1
        uncancel()


def uncancel() -> None:
    """The present task goes on, though it was cancelled."""
    task: Any = asyncio.current_task()
    while sys.version_info >= (3, 11) and task.cancelling():
        task.uncancel()


async def stress(locks: AsyncLocks, records: Records, count: int) -> None:
    async def work(number: int) -> None:
        drawn = random.Random(number)
        for _ in range(max(count // TASKS, 1)):
            await transact(locks, records, drawn)

    async def cancel_some() -> None:
        drawn = random.Random(0)
        while True:
            await asyncio.sleep(0.001)
            for task in drawn.sample(tasks, 5):
                task.cancel()

    async def end_quietly(number: int) -> None:
        try:
            await work(number)
        except asyncio.CancelledError:
            records.ended["outside"] += 1

    tasks = [asyncio.ensure_future(end_quietly(number)) for number in range(TASKS)]
    cancelling = asyncio.ensure_future(cancel_some())
    await asyncio.gather(*tasks, return_exceptions=True)
    cancelling.cancel()


class Stress(unittest.TestCase):
    def test_runs_are_in_a_serial_order(self) -> None:
        records = self.tried(AsyncLocks(WEIGHTS), TRANSACTIONS)
        self.assertLessEqual({"Broken", "TimedOut", "Unfinished", "CancelledError"}, set(records.ended))
        self.assertGreater(len(records.runs), TRANSACTIONS * 9 // 10)

    def test_runs_over_locks_of_their_own_are_too(self) -> None:
        locks: Dict[str, Lock] = {}

        def lock_of(path: str) -> Lock:
            return locks.setdefault(path, Lock(path))

        self.tried(AsyncLocks(WEIGHTS, lock_of), TRANSACTIONS // 10)
        self.assertEqual(len(locks), len(WEIGHTS))
        self.assertFalse([path for path, lock in locks.items() if lock.lock.locked()])

    def tried(self, locks: AsyncLocks, count: int) -> Records:
        records = Records()
        asyncio.run(stress(locks, records, count))
        self.assertEqual((records.fault(), held(locks), locks.inside), ("", [], set()))
        self.assertTrue(locks.waits())
        return records

    def test_nodes_that_are_not_held_are_seen(self) -> None:
        locks, records = AsyncLocks(WEIGHTS), Records()
        for path in WEIGHTS:
            node = locks.node(path)
            node.locking = None, True, node
        with self.assertRaises((AssertionError, KeyError)):
            asyncio.run(stress(locks, records, TASKS))
            self.assertEqual(records.fault(), "")


async def do_job(locks: AsyncLocks, history: History, drawn: random.Random) -> None:
    """A transaction that is a job of a history, which sometimes is broken off, late, left early or cancelled."""
    history.job()
    paths, kind = drawn_paths(drawn), drawn.random()
    stop = drawn.randrange(len(paths)) if kind < 0.06 else -1
    timeout = drawn.random() * 0.01 if 0.06 <= kind < 0.1 else None
    try:
        async with locks.transaction(paths, timeout, whole=kind < 0.02) as accesses:
            async for number, path in accesses:
                before = history.numbers[path]
                if drawn.random() < 0.2:
                    await asyncio.sleep(0)
                history.add(path, 1 + number, before)
                if number == stop and kind < 0.04:
                    raise Broken
                if number == stop:
                    break
    except (Broken, TimedOut, Unfinished):
        pass


async def do_jobs(locks: AsyncLocks, history: History, drawn: random.Random) -> int:
    """Jobs of tasks, of which some are cancelled; gives how many were."""
    history.begin()
    seeds = [drawn.randrange(2**32) for _ in range(JOBS)]
    tasks = [asyncio.ensure_future(do_job(locks, history, random.Random(seed))) for seed in seeds]
    for _ in range(5):
        await asyncio.sleep(drawn.random() * 0.002)
        drawn.choice(tasks).cancel()
    ends = await asyncio.gather(*tasks, return_exceptions=True)
    assert not [end for end in ends if isinstance(end, Exception)], ends
    return sum(isinstance(end, asyncio.CancelledError) for end in ends)


class Histories(unittest.TestCase):
    def test_runs_are_histories_that_an_audit_accepts(self) -> None:
        history, cancelled = History(), 0
        locks = AsyncLocks(WEIGHTS, lambda path: Noted(history, path))
        for part in range(max(TRANSACTIONS // JOBS, 1)):
            cancelled += asyncio.run(do_jobs(locks, history, random.Random(part)))
            self.assertTrue(history.audited().startswith("order ["))
            locks.reweigh()
        self.assertTrue(cancelled)


class Transactions(unittest.IsolatedAsyncioTestCase):
    async def test_accesses_come_in_order_while_their_nodes_are_held(self) -> None:
        locks, came = AsyncLocks(WEIGHTS), []
        async with locks.transaction([A, (B, 3), A]) as accesses:
            async for number, path in accesses:
                came.append((number, path))
                self.assertIn(path, held(locks))
                self.assertEqual(accesses.done, number + 1)
            self.assertEqual(held(locks), [])
        self.assertEqual(came, [(0, A), (1, B), (2, A)])

        async def said(number: int, path: str) -> str:
            await asyncio.sleep(0)
            return f"{number} {path}"

        self.assertEqual(await locks.run([A, B], said), [f"0 {A}", f"1 {B}"])
        self.assertEqual(await locks.run([], said), [])

    async def test_an_error_lets_go_all_that_is_held(self) -> None:
        locks = AsyncLocks(WEIGHTS)
        for whole in (False, True):
            with self.assertRaises(Broken):
                async with locks.transaction([A, B, C], whole=whole) as accesses:
                    async for number, _ in accesses:
                        if number == 1:
                            self.assertEqual([path in held(locks) for path in (A, B)], [whole, True])
                            raise Broken
            self.assertEqual((accesses.done, held(locks), locks.inside), (2, [], set()))
        async with locks.transaction([A, B], whole=True) as accesses:
            async for _ in accesses:
                pass
            self.assertEqual(held(locks), [A, B])
        self.assertEqual(held(locks), [])

    async def test_what_is_not_had_in_time_is_told(self) -> None:
        for lock_of in (None, Lock):
            locks = AsyncLocks(WEIGHTS, lock_of)
            async with locks.transaction([B]) as first:
                async for _ in first:
                    late = asyncio.ensure_future(locks.run([A, B], pause))
                    for timeout in (0.02, 0):
                        with self.assertRaises(TimedOut) as caught:
                            await asyncio.wait_for(self.in_time(locks, timeout), 10)
                        self.assertEqual(caught.exception.path, B)
            await late
            self.assertEqual((held(locks), locks.inside), ([], set()))

    async def in_time(self, locks: AsyncLocks, timeout: float) -> None:
        async def work() -> None:
            async with locks.transaction([B], timeout) as accesses:
                async for _ in accesses:
                    self.fail("it has the node")

        await asyncio.ensure_future(work())

    async def test_a_lock_that_others_have_is_waited_for_in_time(self) -> None:
        lock = Lock(A)
        locks = AsyncLocks(WEIGHTS, lambda path: lock)
        await lock.acquire()
        task: Any = asyncio.current_task()
        with self.assertRaises(TimedOut):
            await locks.run([A], pause, timeout=0.02)
        if sys.version_info >= (3, 11):
            self.assertEqual(task.cancelling(), 0)
        await lock.release()
        await locks.run([A], pause, timeout=60)
        self.assertFalse(lock.lock.locked())
        with self.assertRaises(TimedOut):
            await AsyncLocks(WEIGHTS, Closed).run([A], pause)

    async def test_a_cancelled_task_leaves_its_queue(self) -> None:
        locks = AsyncLocks(WEIGHTS)
        order: List[int] = []
        may_end = asyncio.Event()

        async def hold(number: int) -> None:
            async with locks.transaction([A]) as accesses:
                async for _ in accesses:
                    order.append(number)
                    await may_end.wait()

        tasks = [asyncio.ensure_future(hold(number)) for number in range(4)]
        await go_on()
        self.assertEqual(len(locks.nodes[A].turns), 3)
        tasks[1].cancel()
        await go_on()
        self.assertEqual(len(locks.nodes[A].turns), 2)
        may_end.set()
        await asyncio.wait(tasks)
        self.assertEqual((order, tasks[1].cancelled()), ([0, 2, 3], True))
        self.assertEqual((held(locks), locks.inside), ([], set()))

    async def test_a_node_that_was_just_handed_over_goes_on(self) -> None:
        for lock_of in (None, lambda path: asyncio.Lock()):
            locks = AsyncLocks(WEIGHTS, lock_of)
            first = locks.transaction([A])
            await first.__aenter__()
            await first.__anext__()
            tasks = [asyncio.ensure_future(locks.run([A], pause)) for _ in range(2)]
            await go_on()
            await first.__aexit__(None, None, None)
            # It was handed to this task, which hasn't gone on.
            self.assertTrue(locks.nodes[A].taken)
            tasks[0].cancel()
            await asyncio.wait(tasks)
            self.assertEqual([task.cancelled() for task in tasks], [True, False])
            self.assertEqual((held(locks), locks.inside), ([], set()))

    async def test_a_cancelled_task_sees_releases_through(self) -> None:
        released: List[str] = []

        class Slow(Lock):
            async def release(self) -> None:
                await asyncio.sleep(0.01)
                released.append(self.path)
                await super().release()

        locks = AsyncLocks(WEIGHTS, Slow)

        async def work() -> None:
            async with locks.transaction([A, B], whole=True) as accesses:
                async for _ in accesses:
                    pass
                raise Broken

        task = asyncio.ensure_future(work())
        while "/" not in released:
            await asyncio.sleep(0)
        for _ in range(5):
            task.cancel()
            await asyncio.sleep(0.003)
        await asyncio.wait([task])
        self.assertTrue(task.cancelled())
        self.assertEqual((sorted(released), held(locks), locks.inside), (sorted(locks.nodes), [], set()))

    async def test_who_leaves_early_is_told(self) -> None:
        locks = AsyncLocks(WEIGHTS)
        with self.assertRaises(Unfinished) as caught:
            async with locks.transaction([A, B]) as accesses:
                async for _ in accesses:
                    break
        self.assertEqual((caught.exception.done, held(locks)), (1, []))
        for again in (accesses, locks.transaction([A])):
            with self.assertRaises(Unfinished):
                async for _ in again:
                    self.fail("it goes on")
        with self.assertRaises(NoNode):
            locks.transaction(["/g9"])
        with self.assertRaises(Refused) as refused:
            locks.transaction([(A, 0)])
        self.assertEqual(refused.exception.text, "bad-length list 0")

    async def test_no_task_has_two_at_once(self) -> None:
        locks = AsyncLocks(WEIGHTS)
        async with locks.transaction([A]) as accesses:
            async for _ in accesses:
                with self.assertRaises(Nested):
                    await locks.run([B], pause)
                await asyncio.ensure_future(locks.run([B], pause))
        await locks.run([B], pause)
        self.assertEqual((held(locks), locks.inside), ([], set()))

    async def test_waits_are_counted_and_make_weights(self) -> None:
        locks = AsyncLocks(WEIGHTS)
        await asyncio.gather(*(locks.run([LEAVES[0]], pause) for _ in range(5)))
        self.assertEqual(locks.waits(), {LEAVES[0]: 4})
        self.assertEqual(locks.reweigh(), 10)
        self.assertEqual((locks.weights()[LEAVES[0]], locks.waits()), (5, {}))


if __name__ == "__main__":
    unittest.main()
