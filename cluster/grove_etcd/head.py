"""The store as a whole: whether it is there, its format, and the open epoch."""
from __future__ import annotations

from dataclasses import dataclass

from .keys import FORMAT, Keys
from .members import Members
from .refusals import NoForm, Refused
from .values import Value
from .wire import Found, Guard, unchanged


@dataclass(frozen=True)
class Head:
    """The open epoch; `loaded_at` is the revision at which `load` made the head, as its last change."""

    epoch: int
    revision: int
    put_at: int
    loaded_at: int

    def guard(self, keys: Keys) -> Guard:
        return unchanged(keys.head(), self.put_at)


@dataclass(frozen=True)
class Stands(Value):
    """What stands at the head's key."""

    format: int
    epoch: int


def head_text(epoch: int) -> str:
    return Stands(FORMAT, epoch).text()


def head_of(keys: Keys, found: Found, revision: int = 0) -> Head:
    entry = found.entries.get(keys.head())
    if entry is None:
        raise Refused("other-format 1" if keys.old_head() in found.entries else "not-loaded")
    try:
        stands = Stands.read(entry.value)
    except NoForm as why:
        raise Refused("stray-head") from why
    if stands.format not in (FORMAT, FORMAT - 1):
        raise Refused(f"other-format {stands.format}")
    if entry.version != stands.epoch:
        raise Refused("stray-head")
    return Head(stands.epoch, revision or found.revision, entry.put_at, entry.made_at)


def head_at(members: Members, keys: Keys, revision: int) -> Head:
    """The store as it stood at that revision."""
    return head_of(keys, members.get(keys.head(), keys.old_head(), revision=revision), revision)


def need_store(members: Members, keys: Keys) -> Head:
    return head_of(keys, members.get(keys.head(), keys.old_head()))
