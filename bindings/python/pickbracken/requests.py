"""The requests of a session (docs/SESSIONS.md), for a class that has a store which answers lines."""

from __future__ import annotations

import json
from abc import ABC, abstractmethod
from dataclasses import dataclass
from typing import Any, Callable, Dict, Generic, List, Sequence, Tuple, TypeVar, Union

from .accesses import Access, Reply, reply_of
from .faults import Refused
from .planning import Plan, plan_of, plan_parts


@dataclass(frozen=True)
class Round:
    """What a batch is answered: of each list its place in the serial order of the round, and its replies; and the
    number of the round."""

    places: Tuple[int, ...]
    replies: Tuple[Tuple[Union[int, Reply], ...], ...]
    round: int


# Weights and waits, by node.
Weights = Tuple[Tuple[int, ...], Tuple[int, ...]]
Answer = TypeVar("Answer")


@dataclass(frozen=True)
class Request(Generic[Answer]):
    """A request, and how its reply is read."""

    name: str
    asked: object
    read: Callable[[Dict[str, Any]], Answer]

    def line(self) -> bytes:
        return json.dumps({self.name: self.asked}, separators=(",", ":")).encode()

    def answer(self, reply: bytes) -> Answer:
        """What a reply says. A refusal, by which nothing changes, is raised. It has a name, no place, and the hint of
        the reply if that has one."""
        told: Dict[str, Any] = json.loads(reply)
        if "error" in told:
            raise Refused(told["error"], told.get("hint"))
        return self.read(told)


def batch_of(lists: Sequence[Sequence[Access]]) -> Request[Round]:
    return Request("batch", [forms(accesses) for accesses in lists], round_of)


def round_of(told: Dict[str, Any]) -> Round:
    replies = (tuple(map(reply_of, each)) for each in told["replies"])
    return Round(tuple(told["places"]), tuple(replies), told["round"])


def planning_of(accesses: Sequence[Access]) -> Request[Plan]:
    return Request("plan", forms(accesses), plan_of)


def check_of(accesses: Sequence[Access], plan: Plan) -> Request[int]:
    parts = {"version": 2, "list": forms(accesses), **plan_parts(plan.steps, plan.flow)}
    return Request("check", parts, lambda told: int(told["cost"]))


WEIGHTS: Request[Weights] = Request("weights", None, lambda told: (tuple(told["weights"]), tuple(told["waits"])))
REWEIGH: Request[int] = Request("reweigh", None, lambda told: int(told["changed"]))


def forms(accesses: Sequence[Access]) -> List[List[Union[int, str]]]:
    return [access.form() for access in accesses]


class Requests(ABC):
    """A method for each request; a subclass answers the lines."""

    @abstractmethod
    def send(self, line: bytes) -> bytes:
        """The reply to a line, both without a line feed."""

    def batch(self, *lists: Sequence[Access]) -> Round:
        """Runs the lists as one batch, alone or in a round with others'."""
        return self.ask(batch_of(lists))

    def plan(self, accesses: Sequence[Access]) -> Plan:
        """The settled plan of a list, by the weights as they stand."""
        return self.ask(planning_of(accesses))

    def check(self, accesses: Sequence[Access], plan: Plan) -> int:
        """What a plan costs that its flow proves to be least."""
        return self.ask(check_of(accesses, plan))

    def weights(self) -> Weights:
        """The weights and the waits, by node."""
        return self.ask(WEIGHTS)

    def reweigh(self) -> int:
        """Makes new weights of the old ones and the waits, and gives how many have changed."""
        return self.ask(REWEIGH)

    def ask(self, request: Request[Answer]) -> Answer:
        """The answer to a request."""
        return request.answer(self.send(request.line()))


class AsyncRequests(ABC):
    """The same, awaited."""

    @abstractmethod
    async def send(self, line: bytes) -> bytes:
        """The reply to a line, both without a line feed."""

    async def batch(self, *lists: Sequence[Access]) -> Round:
        """Runs the lists as one batch, alone or in a round with others'."""
        return await self.ask(batch_of(lists))

    async def plan(self, accesses: Sequence[Access]) -> Plan:
        """The settled plan of a list, by the weights as they stand."""
        return await self.ask(planning_of(accesses))

    async def check(self, accesses: Sequence[Access], plan: Plan) -> int:
        """What a plan costs that its flow proves to be least."""
        return await self.ask(check_of(accesses, plan))

    async def weights(self) -> Weights:
        """The weights and the waits, by node."""
        return await self.ask(WEIGHTS)

    async def reweigh(self) -> int:
        """Makes new weights of the old ones and the waits, and gives how many have changed."""
        return await self.ask(REWEIGH)

    async def ask(self, request: Request[Answer]) -> Answer:
        """The answer to a request."""
        return request.answer(await self.send(request.line()))
