"""The first look at a store: it reads what there are few keys of, and has etcd count those of which there are many."""
from __future__ import annotations

from dataclasses import dataclass
from typing import Callable

from .head import Head, head_of
from .keys import Keys
from .members import PAGE, Members
from .wire import Found, reading, reading_below

# The keys of which there are many: those of all jobs, of those that nobody has begun, and of those that have begun.
MANY = "pqj"
# Those of epochs that are kept, of jobs under way, and of those that are set aside.
FEW = "xua"


@dataclass(frozen=True)
class Counted:
    """All at the head's revision; the counts are waited for when they are asked for."""

    head: Head
    few: Found
    counts: Callable[[], list[int]]

    @staticmethod
    def begin(members: Members, keys: Keys) -> Counted:
        heads = [reading(keys.head()), reading(keys.old_head())]
        few = members.read(heads + [reading_below(keys.whole(kind), PAGE) for kind in FEW])
        head = head_of(keys, few)
        return Counted(head, few, members.counts([keys.whole(kind) for kind in MANY], head.revision))
