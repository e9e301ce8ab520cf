"""What the library keeps from call to call: a tree that it has read."""

from __future__ import annotations

from array import array
from typing import List, Mapping, Sequence, Tuple

from .accesses import Access
from .library import Handle, Kept, Settled, TreeCalls, build, reweigh, say_kept
from .steps import FlowRow, Names, Step
from .weights import need_waits


class KeptTree:
    """A tree whose nodes have these parents, weights and paths, and which this handle holds. A call has a handle alone:
    if others have all that there are, one more is made. So no thread waits for another."""

    def __init__(self, handle: Handle, parents: array[int], weights: array[int], paths: Sequence[str]) -> None:
        self.parents, self.weights, self.names = parents, weights, Names(paths)
        # The calls by handles that nobody has. (`pop` and `append` are each done by one thread at a time. A handle that
        # isn't put back, since an interrupt came right before, is closed.)
        self.free: List[TreeCalls] = [self.calls_by(handle)]

    def calls_by(self, handle: Handle) -> TreeCalls:
        return TreeCalls(handle, self.names.number_of, self.names.paths)

    def taken(self) -> TreeCalls:
        """Calls that their caller has alone until they are put back."""
        try:
            return self.free.pop()
        except IndexError:
            handle = Handle()
            calls = self.calls_by(handle)
            build(handle, self.parents, self.weights)
            return calls

    def plan(self, accesses: Sequence[Access]) -> Settled:
        """The settled plan of a list, and its flow."""
        calls = self.taken()
        try:
            return calls.plan(accesses)
        finally:
            self.free.append(calls)

    def check(self, accesses: Sequence[Access], steps: Sequence[Step], flow: Sequence[FlowRow]) -> int:
        """What the steps cost, if the flow proves them least."""
        calls = self.taken()
        try:
            count = calls.put(accesses)
            return calls.check(count, self.names.step_numbers(steps), self.names.row_numbers(flow))
        finally:
            self.free.append(calls)

    def judge(self, accesses: Sequence[Access], steps: Sequence[Step]) -> int:
        """What the steps cost, if they are a legal plan."""
        calls = self.taken()
        try:
            return calls.judge(calls.put(accesses), self.names.step_numbers(steps))
        finally:
            self.free.append(calls)

    def reweighed(self, waits: Mapping[str, int]) -> Tuple[KeptTree, Sequence[int]]:
        """The tree of the same nodes with the new weights that it gets by these waits; and these weights."""
        counts = array("I", bytes(4 * len(self.weights)))
        for path, count in waits.items():
            counts[self.names.known(path)] = need_waits(path, count)
        handle = Handle()
        kept = KeptTree(handle, self.parents, self.weights, self.names.paths)
        build(handle, self.parents, self.weights)
        kept.weights = reweigh(handle, counts)
        return kept, kept.weights


def opened(document: bytes) -> Handle:
    """A handle of the tree of a document."""
    handle = Handle()
    say_kept(Kept.OPEN, handle, document)
    return handle
