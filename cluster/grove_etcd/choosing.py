"""The choice of the next epoch's jobs: ended ones, with all jobs that were at one of their nodes before them.

So an epoch closes behind the jobs that go on, and nobody has to wait for it. Whatever is chosen, the audit decides
whether it is a finished run. What is kept grows and shrinks with the jobs, so a choice looks at no others.
"""
from __future__ import annotations

import heapq
from dataclasses import dataclass, field

from .jobs import Kind
from .past import Past, Taken
from .tree import ways_down

# The limits of one audit (docs/FORMATS.md), and of the bytes of lists and plans, so that its document isn't too long.
MOST_JOBS, MOST_NODES, MOST_EVENTS, MOST_BYTES = 256, 4096, 2**20, 2**24


@dataclass
class Chooser:
    """For each job, those that were the last to lock one of its nodes before it, and those that were the next after
    it; and the jobs that have ended, of which those can be chosen that have nobody before them."""

    before: dict[str, set[str]] = field(default_factory=dict)
    after: dict[str, set[str]] = field(default_factory=dict)
    last_at: dict[str, str] = field(default_factory=dict)
    ended: dict[str, Past] = field(default_factory=dict)
    ready: list[tuple[int, int, str]] = field(default_factory=list)

    def pass_by(self, group: Taken) -> None:
        """Groups pass in the order of their revisions."""
        name = group.job.name
        own = self.before.setdefault(name, set())
        self.after.setdefault(name, set())
        for step in group.steps:
            if step.kind is Kind.LOCK:
                earlier = self.last_at.get(step.path)
                self.last_at[step.path] = name
                if earlier != name and earlier in self.after:
                    own.add(earlier)
                    self.after[earlier].add(name)

    def end(self, past: Past) -> None:
        name = past.job.name
        self.ended[name] = past
        if not self.before[name]:
            self.push(past)

    def push(self, past: Past) -> None:
        last = past.taken[-1]
        heapq.heappush(self.ready, (last.revision, last.event.place, past.job.name))

    def choose(self) -> list[str]:
        """As many jobs as one audit takes; none without those that were at one of its nodes before it."""
        chosen = Chosen()
        while self.ready and chosen.take(self.ended[self.ready[0][2]]):
            self.leave(heapq.heappop(self.ready)[2])
        return chosen.names

    def leave(self, name: str) -> None:
        """The job is chosen, so those after it may be."""
        self.ended.pop(name, None)
        self.before.pop(name, None)
        for other in self.after.pop(name, ()):
            self.before[other].discard(name)
            if not self.before[other] and other in self.ended:
                self.push(self.ended[other])

    def take(self, names: list[str]) -> None:
        """These are chosen, by an audit that broke off."""
        for name in names:
            self.leave(name)
        self.ready = [each for each in self.ready if each[2] in self.ended]
        heapq.heapify(self.ready)
        self.forget_nodes()

    def forget_nodes(self) -> None:
        """Who was last at a node doesn't matter once that job is chosen."""
        self.last_at = {path: name for path, name in self.last_at.items() if name in self.after}


class Chosen:
    """The chosen jobs, and how much of an audit's limits they use."""

    def __init__(self) -> None:
        self.names: list[str] = []
        self.nodes: set[str] = {"/"}
        self.events, self.size = 0, 0

    def take(self, past: Past) -> bool:
        """Takes one more job if there is room."""
        nodes = self.nodes.union(ways_down(past.nodes))
        events, size = self.events + past.job.most_events(), self.size + len(past.job.text())
        if (
            len(self.names) == MOST_JOBS
            or len(nodes) > MOST_NODES
            or events > MOST_EVENTS
            or self.size
            and size > MOST_BYTES
        ):
            return False
        self.names.append(past.job.name)
        self.nodes, self.events, self.size = nodes, events, size
        return True
