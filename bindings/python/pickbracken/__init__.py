"""Where each lock of a transaction is taken and released, so that others wait as little as can be.

    from pickbracken import Locks

    locks = Locks({"/": 20, "/north": 5, "/north/a": 1, "/north/b": 1})
    with locks.transaction(["/north/a", "/north/b"]) as accesses:
        for number, path in accesses:
            ...     # this thread holds the node of this path

A tree has a weight for each node, which is what it costs others to find the node locked. `Locks` has a lock for each
node, and takes and releases them as the settled plan of the accesses says; `AsyncLocks` does so for asyncio.
`Tree.plan` gives the settled plan of a list of accesses: it obeys the tree protocol, and no legal plan costs less. Its
flow proves that, and `Tree.check` sees it, whoever made plan and flow. Planner and checker are grove's, which are
proved; this package hands numbers to its shared library, and reads the answers. `pickbracken.client` has the requests to `grove serve`.
`pickbracken.document` has the calls over the bytes of a document. A `Store` runs lists by such plans in this process.

A thread that makes a call has to have 1 MiB of stack left: `threading.stack_size` may not make it smaller. None may be
made in the forked child of a process with threads.
"""

from .accesses import Access, Kind, Reply
from .async_locks import AsyncLocks, AsyncTransaction
from .faults import BadPath, Closed, Error, Nested, NoMemory, NoNode, OtherVersion, Refused, TimedOut, Unfinished
from .locks import Locks, Transaction
from .planning import Drawing, Judgement, Plan
from .plans import Plans
from .requests import Round
from .steps import FlowRow, Step, StepKind
from .store import Store
from .tree import Tree
from .version import __version__

__all__ = [
    "Access",
    "AsyncLocks",
    "AsyncTransaction",
    "BadPath",
    "Closed",
    "Drawing",
    "Error",
    "FlowRow",
    "Judgement",
    "Kind",
    "Locks",
    "Nested",
    "NoMemory",
    "NoNode",
    "OtherVersion",
    "Plan",
    "Plans",
    "Refused",
    "Reply",
    "Round",
    "Step",
    "StepKind",
    "Store",
    "TimedOut",
    "Transaction",
    "Tree",
    "Unfinished",
    "__version__",
]
