"""The accesses of a list, and what they reply."""

from __future__ import annotations

from dataclasses import dataclass, replace
from enum import Enum
from typing import List, Optional, Tuple, Union

from .faults import Refused

# The most slots that an access takes, and the most accesses that a list has.
MOST_LENGTH, MOST_ACCESSES = 1_000, 64
# Records and numbers of accesses have 64 bits.
LEAST, MOST = -(2**63), 2**63 - 1


class Kind(Enum):
    """What an access does to the record of its node."""

    GET = "get"
    SET = "set"
    ADD = "add"
    TAKE = "take"


class Reply(Enum):
    """A reply that is no number."""

    # The number is stored.
    STORED = "ok"
    # The sum or difference leaves 64 bits; the record is as it was.
    RANGE = "range"
    # There is less than was to be taken; the record is as it was.
    SHORT = "short"


def reply_of(value: Union[int, str]) -> Union[int, Reply]:
    return value if isinstance(value, int) else Reply(value)


@dataclass(frozen=True)
class Access:
    """An access of the node of a path, with a number unless it gets, which takes so many slots (1 to 1,000). A number
    that has no 64 bits is refused by `shape`, and other slots by `bad-length`."""

    kind: Kind
    path: str
    number: Optional[int] = None
    length: int = 1

    def __post_init__(self) -> None:
        # (Without its number the length would stand in its place, and be read as the number.)
        if (self.number is None) != (self.kind is Kind.GET):
            wanted = "takes no number" if self.kind is Kind.GET else "needs a number"
            raise TypeError(f"an access that is to {self.kind.value} {wanted}")
        if self.number is not None and not fits(self.number):
            raise Refused("shape")
        if not is_length(self.length):
            raise Refused("bad-length")

    @staticmethod
    def get(path: str) -> Access:
        """Gets the record of a node, in one slot."""
        return Access(Kind.GET, path)

    @staticmethod
    def set(path: str, number: int) -> Access:
        """Sets it."""
        return Access(Kind.SET, path, number)

    @staticmethod
    def add(path: str, number: int) -> Access:
        """Adds to it, and replies the sum."""
        return Access(Kind.ADD, path, number)

    @staticmethod
    def take(path: str, number: int) -> Access:
        """Takes from it, and replies what is left, unless that would be less than zero."""
        return Access(Kind.TAKE, path, number)

    def lasting(self, length: int) -> Access:
        """The same access, which takes so many slots; `bad-length` is refused."""
        return replace(self, length=length)

    def done_on(self, record: int) -> Tuple[Union[int, Reply], int]:
        """What the access replies, and what it leaves of its node's record (docs/PROTOCOL.md)."""
        number = self.number or 0
        if self.kind is Kind.SET:
            return Reply.STORED, number
        if self.kind is Kind.TAKE and record < number:
            return Reply.SHORT, record
        left = record - number if self.kind is Kind.TAKE else record + number
        if not fits(left):
            return Reply.RANGE, record
        return left, left

    def form(self) -> List[Union[int, str]]:
        """The access as a document of version 2 has it."""
        numbers = [] if self.number is None else [self.number]
        return [self.kind.value, self.path, *numbers, self.length]


def is_length(length: object) -> bool:
    """Whether an access may take so many slots."""
    return isinstance(length, int) and 1 <= length <= MOST_LENGTH


def fits(number: object) -> bool:
    """Whether this is a number of 64 bits."""
    return isinstance(number, int) and not isinstance(number, bool) and LEAST <= number <= MOST
