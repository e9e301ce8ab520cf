"""Transactions of threads, by plans over locks of their own program.

    locks = Locks({"/": 20, "/north": 5, "/north/a": 1, "/north/b": 1})
    with locks.transaction(["/north/a", ("/north/b", 3)]) as accesses:
        for number, path in accesses:
            ...     # this thread holds the node of this path
"""

from __future__ import annotations

import threading
from itertools import repeat
from operator import length_hint
from time import monotonic
from types import TracebackType
from typing import Callable, Dict, Iterable, Iterator, List, Mapping, Optional, Protocol, Tuple, Type, TypeVar

from .faults import Nested, TimedOut, Unfinished
from .lists import Wanted
from .programs import WHOLE, Action, Program, Programs
from .shapes import Planner, settled

__all__ = ["AnyLock", "Locks", "Transaction"]

Result = TypeVar("Result")


class AnyLock(Protocol):
    """What `threading.Lock` has. With `False` it is taken if nobody holds it; with `True` it is waited for, for so many
    seconds if they are given. It gives whether it was taken."""

    def acquire(self, blocking: bool = True, timeout: float = -1, /) -> bool: ...

    def release(self) -> None: ...


class Node:
    """A node with its lock. Who holds it may change `waits`."""

    __slots__ = ("acquire", "locking", "path", "release", "unlocking", "waits")

    def __init__(self, path: str, lock: AnyLock) -> None:
        self.path, self.waits = path, 0
        self.acquire, self.release = lock.acquire, lock.release
        # Each value of the iterator is whether the lock was taken just then (`Transaction.__iter__` says why).
        self.locking: Action = map(lock.acquire, repeat(False)), None, self
        self.unlocking: Action = None, lock.release, self


class Locks(Programs[Node]):
    """A lock for each node of a tree, which transactions of any number of threads take as their plans say.

    The tree has the nodes of these paths and all above them, as many as you like, each with its weight (1 to 1,000, and
    1 if it isn't named): what it costs others to find it locked. `lock_of` gives the lock of a path, another one for
    each, when it is first needed. Whoever else takes these locks has to take one alone, or by the tree protocol
    (docs/PROTOCOL.md). `planner` makes the plan of a shape; without one the library makes the settled plan."""

    def __init__(
        self,
        weights: Mapping[str, int],
        lock_of: Callable[[str], AnyLock] = lambda path: threading.Lock(),
        planner: Planner = settled,
    ) -> None:
        super().__init__(weights, lambda path: Node(path, lock_of(path)), planner)
        # The threads that are in a transaction.
        self.inside: Dict[int, int] = {}

    def transaction(
        self, wanted: Iterable[Wanted], timeout: Optional[float] = None, whole: bool = False
    ) -> Transaction:
        """A transaction that accesses these nodes in this order: paths, or paths with the slots that they take.

        A wait that goes on `timeout` seconds after the block was entered is `TimedOut`. However the block is left, what
        is held is let go. Nothing is undone: others have seen what was done at a node that was let go before. With
        `whole` each accessed node is held until the block is left, so that who catches an error in the block can undo
        what was done."""
        key = tuple(wanted)
        program = self.kept.made.get((WHOLE, *key) if whole else key)
        return Transaction(self, program or self.program(key, whole), timeout)

    def run(
        self,
        wanted: Iterable[Wanted],
        do: Callable[[int, str], Result],
        timeout: Optional[float] = None,
        whole: bool = False,
    ) -> List[Result]:
        """What a call gives for the number and the path of each access, made while its node is held."""
        with self.transaction(wanted, timeout, whole) as accesses:
            return [do(number, path) for number, path in accesses]


class Transaction:
    """The accesses of a list, each of which comes while its node is held. It is for one thread, and for once.

    A `KeyboardInterrupt` has all let go that is held, and nothing else, if the locks are the interpreter's own and this
    is CPython 3.11 or later; so has what another signal's handler raises. Python leaves one gap, as with each `with`:
    if the block is left by an error, or with `whole`, and the interrupt comes before `__exit__` has begun, that isn't
    done, and what is held stays so. A lock that is written in Python has to see to interrupts of its own calls."""

    __slots__ = ("by", "done", "got", "holding", "left", "locks", "program", "timeout", "until")

    def __init__(self, locks: Locks, program: Program[Node], timeout: Optional[float]) -> None:
        # The thread that is in this transaction, or 0.
        self.by = 0
        self.locks, self.program, self.timeout = locks, program, timeout
        # The steps that aren't begun; and whether the last one that was is done, if it is a lock.
        self.left, self.got = iter(program.steps), True
        # How many accesses were begun. Of the last one part may be done, if the block was left in its midst.
        self.done = 0
        self.holding: Optional[Iterator[Node]] = None
        self.until: Optional[float] = None

    def __enter__(self) -> Transaction:
        inside, thread = self.locks.inside, threading.get_ident()
        if thread in inside:
            raise Nested("this thread is in a transaction of these locks")
        if self.timeout is not None:
            self.until = monotonic() + self.timeout
        inside[thread] = self.by = thread
        return self

    def __iter__(self) -> Iterator[Tuple[int, str]]:
        if not (self.by and self.got):
            self.need_end()
        # CPython looks for interrupts as a call ends, as a function begins, and as a loop goes back. So a `for` over
        # calls in C takes a lock and notes it without an interrupt in between, which `self.got = acquire()` doesn't.
        for locks, unlocks, of in self.left:
            if locks is not None:
                self.got = False
                for self.got in locks:
                    break
                if not self.got:
                    self.wait(of)
            elif unlocks is not None:
                unlocks()
            else:
                self.done += 1
                yield of
        if self.by and not self.program.stays:
            del self.locks.inside[self.by]
            self.by = 0

    def need_end(self) -> None:
        """Nothing goes on that wasn't entered, or has failed."""
        if self.done < self.program.accesses:
            raise Unfinished(self.done, self.program.accesses)

    def wait(self, node: Node) -> None:
        if self.until is None:
            taken = map(node.acquire, (True,))
        else:
            taken = map(node.acquire, (True,), (max(self.until - monotonic(), 0),))
        for self.got in taken:
            break
        if not self.got:
            raise TimedOut(node.path, self.done)
        node.waits += 1

    def __exit__(
        self, kind: Optional[Type[BaseException]], error: Optional[BaseException], trace: Optional[TracebackType]
    ) -> None:
        if not self.by:
            return
        late: Optional[BaseException] = None
        while self.by:
            try:
                self.let_go()
            except BaseException as why:
                late = late or why
        if late is not None:
            raise late
        if kind is None and self.done < self.program.accesses:
            raise Unfinished(self.done, self.program.accesses)

    def let_go(self) -> None:
        """Unlocks what is held. If that is broken off, the next call goes on."""
        if self.holding is None:
            begun = len(self.program.steps) - length_hint(self.left)
            self.holding = iter(self.program.held_after(begun if self.got else begun - 1))
        for node in self.holding:
            node.release()
        self.left = iter(())
        del self.locks.inside[self.by]
        self.by = 0
