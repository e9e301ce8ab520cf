"""All that changes in a store, revision by revision: a watch from a revision on, which goes on at the next member if
one is lost."""
from __future__ import annotations

import threading
import time
from dataclasses import dataclass
from itertools import groupby
from queue import Empty, Queue
from types import TracebackType
from typing import Any, NamedTuple, Optional, Union

from .connecting import errors
from .etcdrpc import DELETED
from .keys import Keys
from .members import Compacted, Member, Members, lost
from .refusals import Failed
from .waiting import NEEDS_LEADER
from .wire import after, following, text_of

# As many revisions are kept that weren't taken yet; then no more are read.
MOST_KEPT = 1000
PAUSE_SECONDS = 0.2


class Change(NamedTuple):
    """A key that was put, or that is gone, which leaves no value; how often it was put since it was made, and what it
    was before."""

    key: str
    value: Optional[str]
    version: int
    before: Optional[str]


@dataclass(frozen=True)
class Moment:
    """All changes of one revision."""

    revision: int
    changes: list[Change]


class Stream:
    def __init__(self, members: Members, keys: Keys, since: int) -> None:
        self.members, self.prefix, self.since = members, f"{keys.store}/", since
        self.moments: Queue[Union[Moment, BaseException]] = Queue(MOST_KEPT)
        self.has_ended = threading.Event()
        self.answers: Any = None
        self.thread = threading.Thread(target=self.read, daemon=True)

    def __enter__(self) -> Stream:
        self.thread.start()
        return self

    def __exit__(self, _kind: type[BaseException] | None, _why: BaseException | None, _: TracebackType | None) -> None:
        self.has_ended.set()
        if self.answers is not None:
            self.answers.cancel()

    def next(self, seconds: float) -> Optional[Moment]:
        """The next revision, if it comes in time."""
        try:
            came = self.moments.get(timeout=seconds)
        except Empty:
            return None
        if isinstance(came, Moment):
            return came
        raise came

    def has_more(self) -> bool:
        return not self.moments.empty()

    def read(self) -> None:
        while not self.has_ended.is_set():
            try:
                self.read_from(self.members.asked)
            except Failed as failed:
                self.moments.put(failed)
                return
            time.sleep(PAUSE_SECONDS)

    def read_from(self, member: Member) -> None:
        """Until the member is lost."""
        metadata = (*member.token, NEEDS_LEADER)
        self.answers = member.watch(following(self.prefix, after(self.prefix), self.since), metadata=metadata)
        try:
            for answer in self.answers:
                if answer.compact_revision:
                    raise Compacted(f"etcd has compacted what came before revision {answer.compact_revision}")
                for revision, events in groupby(answer.events, revision_of):
                    self.moments.put(Moment(revision, list(map(change_of, events))))
                    self.since = revision + 1
                if answer.canceled:
                    return
        except errors() as error:
            self.members.turn(member)
            if not self.has_ended.is_set():
                # Raises what isn't the loss of a member.
                lost(member, error)


def revision_of(event: Any) -> int:
    return int(event.kv.mod_revision)


def change_of(event: Any) -> Change:
    value = None if event.type == DELETED else text_of(event.kv.value)
    before = text_of(event.prev_kv.value) if event.HasField("prev_kv") else None
    return Change(text_of(event.kv.key), value, event.kv.version, before)
