"""Which of the jobs that nobody has begun a worker chooses, so that workers meet as little as possible.

Without work, jobs at one node are done fastest by one worker, in one transaction. So each worker has a share of the
nodes, by the workers that give signs of life. What another one's share has is left to it for a moment.
"""
from __future__ import annotations

import random
import time
from dataclasses import dataclass, field
from typing import Collection
from zlib import crc32

from .wire import bytes_of

# How long a job of another worker's share is left to that, if nothing is begun meanwhile; and if something is.
LEFT_SECONDS, LONGEST_LEFT_SECONDS = 1.0, 5.0
# If workers choose the same jobs, each takes a smaller part of them, at least one in so many.
MOST_PARTS = 32
# So many jobs are left to one worker alone: in one transaction they cost less than in several.
MOST_ALONE = 64


@dataclass
class Shares:
    worker: str
    # Whether each worker has a share of the nodes.
    by_nodes: bool
    # It takes one in so many of the jobs that it looks at.
    parts: int = 1
    # Since when jobs of others' shares have been seen, by name.
    seen: dict[str, float] = field(default_factory=dict)
    # When it saw last that one of them had been begun.
    begun_at: float = float("-inf")
    # Its place among the workers that gave signs of life when it chose last.
    place: int = 0

    def note(self, are_taken: bool) -> None:
        """Has another worker begun one of the jobs that it chose?"""
        self.parts = min(MOST_PARTS, self.parts * 2) if are_taken else max(1, self.parts // 2)

    def choose(self, fresh: dict[str, str], workers: Collection[str], most: int) -> list[str]:
        """Some of these jobs, which have the nodes at which they begin: the first ones of its own share, or else, from
        a random one on, those that have been left for a while."""
        if self.by_nodes:
            left = self.left(fresh)
            names = self.own(fresh, workers) or from_a_random_one(left)
        else:
            names = from_a_random_one(list(fresh))
        return names[: max(1, min(most, len(names) // self.parts))]

    def left(self, fresh: dict[str, str]) -> list[str]:
        now = time.monotonic()
        if self.seen.keys() - fresh.keys():
            self.begun_at = now
        self.seen = {name: self.seen.get(name, now) for name in fresh}
        most = LEFT_SECONDS if now - self.begun_at >= LEFT_SECONDS else LONGEST_LEFT_SECONDS
        return [name for name, since in self.seen.items() if now - since >= most]

    def own(self, fresh: dict[str, str], workers: Collection[str]) -> list[str]:
        """Of few jobs, the first workers alone have shares."""
        every = sorted({*workers, self.worker})
        self.place = every.index(self.worker)
        count = min(len(every), shares_of(len(fresh)))
        if self.place >= count:
            return []
        return [name for name, node in fresh.items() if crc32(bytes_of(node or name)) % count == self.place]

    def may_have_one(self, jobs: int) -> bool:
        """Does this worker have a share of so many jobs?"""
        return self.place < shares_of(jobs)


def shares_of(jobs: int) -> int:
    return -(-jobs // MOST_ALONE)


def from_a_random_one(names: list[str]) -> list[str]:
    first = random.randrange(len(names)) if names else 0
    return names[first:] + names[:first]
