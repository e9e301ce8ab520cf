"""Transactions of the tasks of an event loop, as `locks` has them for threads.

    locks = AsyncLocks({"/": 20, "/north": 5, "/north/a": 1, "/north/b": 1})
    async with locks.transaction(["/north/a", ("/north/b", 3)]) as accesses:
        async for number, path in accesses:
            ...     # this task holds the node of this path
"""

from __future__ import annotations

import asyncio
from collections import deque
from inspect import isawaitable
from operator import length_hint
from types import TracebackType
from typing import (
    Any,
    AsyncIterator,
    Awaitable,
    Callable,
    Deque,
    Iterable,
    List,
    Mapping,
    Optional,
    Protocol,
    Set,
    Tuple,
    Type,
    TypeVar,
)

from .faults import Nested, TimedOut, Unfinished
from .lists import Wanted
from .programs import WHOLE, Action, Program, Programs
from .shapes import Planner, settled

__all__ = ["AnyAsyncLock", "AsyncLocks", "AsyncTransaction"]

Result = TypeVar("Result")


class AnyAsyncLock(Protocol):
    """What `asyncio.Lock` has. `acquire` may give `False` if it wasn't taken, and `release` may give what is awaited.
    A task that is cancelled as it waits in `acquire` hasn't the lock."""

    def acquire(self) -> Awaitable[object]: ...

    def release(self) -> object: ...


class Node:
    """A node, which one task has, and others wait for in turn; and the lock that who has the node takes, if there is
    one. (An `asyncio.Lock` does the same, but a coroutine for each takes too long where nobody waits.)"""

    __slots__ = ("lock", "locking", "path", "taken", "turns", "unlocking", "waits")

    def __init__(self, path: str, lock: Optional[AnyAsyncLock]) -> None:
        self.path, self.lock, self.waits = path, lock, 0
        self.taken = False
        self.turns: Deque[asyncio.Future[None]] = deque()
        self.locking: Action = True, None, self
        self.unlocking: Action = None, True, self

    async def wait(self, until: Optional[float]) -> None:
        """Waits until the node is handed over, to `until` at most."""
        loop = asyncio.get_running_loop()
        turn: asyncio.Future[None] = loop.create_future()
        self.turns.append(turn)
        self.waits += 1
        alarm = None if until is None else loop.call_at(until, end_late, turn)
        try:
            await turn
        except BaseException:
            if turn in self.turns:
                self.turns.remove(turn)
            elif not turn.cancelled() and turn.exception() is None:
                # It was handed over, and then the task was cancelled.
                self.pass_on()
            raise
        finally:
            if alarm is not None:
                alarm.cancel()

    def pass_on(self) -> None:
        """Hands the node to who has waited longest, so that nobody gets in between."""
        while self.turns:
            turn = self.turns.popleft()
            if not turn.done():
                turn.set_result(None)
                return
        self.taken = False


def end_late(turn: asyncio.Future[None]) -> None:
    if not turn.done():
        turn.set_exception(TimeoutError())


class AsyncLocks(Programs[Node]):
    """A lock for each node of a tree, which tasks of one event loop take as their plans say.

    The tree, its weights and `planner` are those of `Locks`. Nodes have no locks but turns of their own, unless
    `lock_of` gives a lock for a path, when it is first needed: of the tasks here one at a time asks for it."""

    def __init__(
        self,
        weights: Mapping[str, int],
        lock_of: Optional[Callable[[str], AnyAsyncLock]] = None,
        planner: Planner = settled,
    ) -> None:
        super().__init__(weights, lambda path: Node(path, None if lock_of is None else lock_of(path)), planner)
        # The tasks that are in a transaction.
        self.inside: Set[object] = set()

    def transaction(
        self, wanted: Iterable[Wanted], timeout: Optional[float] = None, whole: bool = False
    ) -> AsyncTransaction:
        """As `Locks.transaction`. A task that is cancelled leaves the queue of the node that it waits for, and lets go
        what it holds; a node that was just handed to it is handed on."""
        key = tuple(wanted)
        program = self.kept.made.get((WHOLE, *key) if whole else key)
        return AsyncTransaction(self, program or self.program(key, whole), timeout)

    async def run(
        self,
        wanted: Iterable[Wanted],
        do: Callable[[int, str], Awaitable[Result]],
        timeout: Optional[float] = None,
        whole: bool = False,
    ) -> List[Result]:
        """What is awaited for the number and the path of each access, while its node is held."""
        async with self.transaction(wanted, timeout, whole) as accesses:
            return [await do(number, path) async for number, path in accesses]


class AsyncTransaction:
    """The accesses of a list, each of which comes while its node is held. It is for one task, and for once."""

    __slots__ = ("by", "done", "got", "left", "locks", "program", "timeout", "until")

    def __init__(self, locks: AsyncLocks, program: Program[Node], timeout: Optional[float]) -> None:
        self.locks, self.program, self.timeout = locks, program, timeout
        # The task that is in this transaction.
        self.by: Optional[asyncio.Task[Any]] = None
        # The steps that aren't begun; and whether the last one that was is done, if it is a lock.
        self.left, self.got = iter(program.steps), True
        # How many accesses were begun. Of the last one part may be done, if the block was left in its midst.
        self.done = 0
        self.until: Optional[float] = None

    async def __aenter__(self) -> AsyncTransaction:
        inside, task = self.locks.inside, asyncio.current_task()
        if task in inside:
            raise Nested("this task is in a transaction of these locks")
        if self.timeout is not None:
            self.until = asyncio.get_running_loop().time() + self.timeout
        inside.add(task)
        self.by = task
        return self

    def __aiter__(self) -> AsyncIterator[Tuple[int, str]]:
        if self.by is None or not self.got:
            self.need_end()
        return self

    async def __anext__(self) -> Tuple[int, str]:
        for locks, unlocks, of in self.left:
            if locks is not None:
                if of.taken or of.lock is not None:
                    await self.take(of)
                else:
                    of.taken = True
            elif unlocks is not None:
                if of.lock is not None:
                    await give(of)
                elif of.turns:
                    of.pass_on()
                else:
                    of.taken = False
            else:
                self.done += 1
                access: Tuple[int, str] = of
                return access
        if self.by is not None and not self.program.stays:
            self.locks.inside.discard(self.by)
            self.by = None
        raise StopAsyncIteration

    def need_end(self) -> None:
        """Nothing goes on that wasn't entered, or has failed."""
        if self.done < self.program.accesses:
            raise Unfinished(self.done, self.program.accesses)

    async def take(self, node: Node) -> None:
        """Waits for a node, and then for its lock, if there is one."""
        self.got = False
        try:
            if node.taken:
                await node.wait(self.until)
            node.taken = True
            if node.lock is not None:
                await self.acquire(node, node.lock)
        except (TimeoutError, asyncio.TimeoutError) as why:
            raise TimedOut(node.path, self.done) from why
        self.got = True

    async def acquire(self, node: Node, lock: AnyAsyncLock) -> None:
        try:
            with Deadline(self.until):
                if await lock.acquire() is False:
                    raise TimeoutError
        except BaseException:
            node.pass_on()
            raise

    async def __aexit__(
        self, kind: Optional[Type[BaseException]], error: Optional[BaseException], trace: Optional[TracebackType]
    ) -> None:
        if self.by is None:
            return
        late: Optional[BaseException] = None
        begun = len(self.program.steps) - length_hint(self.left)
        self.left = iter(())
        for node in self.program.held_after(begun if self.got else begun - 1):
            try:
                await give(node)
            except BaseException as why:
                late = late or why
        self.locks.inside.discard(self.by)
        self.by = None
        if late is not None:
            raise late
        if kind is None and self.done < self.program.accesses:
            raise Unfinished(self.done, self.program.accesses)


async def give(node: Node) -> None:
    """Releases the lock of a node, if there is one, and then hands the node on. A task that is cancelled meanwhile
    sees it through before it ends."""
    try:
        later = None if node.lock is None else node.lock.release()
        if later is not None and isawaitable(later):
            await to_its_end(asyncio.ensure_future(later))
    finally:
        node.pass_on()


async def to_its_end(work: asyncio.Future[object]) -> None:
    late: Optional[asyncio.CancelledError] = None
    while not work.done():
        try:
            await asyncio.wait({work})
        except asyncio.CancelledError as why:
            late = why
    work.result()
    if late is not None:
        raise late


class Deadline:
    """Has what the present task awaits end at a time of its loop, if there is one: `asyncio.timeout_at`, which Python
    has from 3.11 on."""

    def __init__(self, until: Optional[float]) -> None:
        self.until, self.rang = until, False
        self.alarm: Optional[asyncio.TimerHandle] = None

    def __enter__(self) -> None:
        if self.until is not None:
            # (It is a task that awaits.)
            self.task: Any = asyncio.current_task()
            self.cancelled_by = self.task.cancelling() if hasattr(self.task, "cancelling") else 0
            self.alarm = asyncio.get_running_loop().call_at(self.until, self.ring)

    def ring(self) -> None:
        self.rang = True
        self.task.cancel()

    def __exit__(
        self, kind: Optional[Type[BaseException]], error: Optional[BaseException], trace: Optional[TracebackType]
    ) -> None:
        if self.alarm is None:
            return
        self.alarm.cancel()
        if not self.rang:
            return
        by_others = self.task.uncancel() if hasattr(self.task, "uncancel") else 0
        if by_others <= self.cancelled_by and isinstance(error, asyncio.CancelledError):
            raise TimeoutError from error
