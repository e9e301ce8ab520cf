"""What transactions that run side by side do, as `grove audit` reads it."""

from __future__ import annotations

import json
from contextvars import ContextVar
from dataclasses import dataclass, field
from typing import Dict, List, Tuple, Union

from pickbracken import Access, Tree, document

from serial_order import WEIGHTS

# No history has more jobs.
JOBS = 256


@dataclass
class Job:
    """The steps that a transaction has taken, what it added where, and the replies."""

    steps: List[Tuple[str, Union[str, int]]] = field(default_factory=list)
    adds: List[Access] = field(default_factory=list)
    replies: List[int] = field(default_factory=list)

    def form(self) -> Dict[str, object]:
        return {"list": [access.form() for access in self.adds], "plan": self.steps}


# The job that the thread or the task does. (A task that is made has its maker's.)
DOING: ContextVar[Job] = ContextVar("DOING")


class History:
    """Jobs on the nodes of WEIGHTS, whose numbers nothing here locks. Each step is noted while its node is held: a lock
    once it is taken, an unlock just before."""

    def __init__(self) -> None:
        self.numbers = dict.fromkeys(WEIGHTS, 0)
        self.begin()

    def begin(self) -> None:
        """Begins anew with the numbers of now. Nobody is in a transaction then."""
        self.first = dict(self.numbers)
        self.jobs: List[Job] = []
        self.events: List[Job] = []

    def job(self) -> Job:
        """What the thread or the task does from now on is a job by itself."""
        job = Job()
        DOING.set(job)
        self.jobs.append(job)
        return job

    def note(self, kind: str, of: Union[str, int]) -> None:
        job = DOING.get()
        job.steps.append((kind, of))
        self.events.append(job)

    def add(self, path: str, amount: int, before: int) -> None:
        """Writes what the job makes of the number that it has read."""
        job = DOING.get()
        self.note("access", len(job.adds))
        self.numbers[path] = before + amount
        job.adds.append(Access.add(path, amount))
        job.replies.append(before + amount)

    def audited(self) -> str:
        """What the audit says of it: it is refused if the steps of some job are no legal plan for what the job did, if
        a node was locked that was held, or if replies or numbers aren't those of a serial order."""
        number_of = {id(job): number for number, job in enumerate(self.jobs)}
        tree = Tree.from_paths(WEIGHTS, self.first)
        whole = {
            "version": 2,
            "nodes": tree.rows(),
            "jobs": [job.form() for job in self.jobs],
            "events": [["take", number_of[id(job)]] for job in self.events],
            "standing": {
                "records": [self.numbers[path] for path in tree.paths()],
                "replies": [job.replies for job in self.jobs],
            },
        }
        return document.audit(json.dumps(whole).encode())
