"""Waiting for keys to change, by a watch.

etcd serves watches that begin in the past only ten times a second. So each watch begins with the present, and earlier
changes are read at the same member once the watch is there.
"""
from __future__ import annotations

import threading
from dataclasses import dataclass
from queue import SimpleQueue
from typing import Any, Callable, Generator, Optional

from .connecting import errors
from .members import Members
from .wire import Change, change, looking_back, missed, watching

# With it etcd ends a watch at a member that has lost the others, and that would never report anything.
NEEDS_LEADER = ("hasleader", "true")
# How a watch ends for which nobody waits any longer.
OURS = {"DEADLINE_EXCEEDED", "CANCELLED"}


@dataclass(frozen=True)
class Watched:
    """A key, or all from it up to `end`. Of the keys in `there`, which were there, it is reported if they are gone."""

    key: str
    end: str | None = None
    there: tuple[str, ...] = ()


def changes(
    members: Members, watched: Watched, revision: int, seconds: float, watches: Optional[set[Any]] = None
) -> Generator[Change, None, None]:
    """The changes after this revision, as they come, for so many seconds. If the member is lost, the next one is asked
    from then on. The changes end then, and the caller has to read again. While it goes on the watch is among `watches`,
    or else those of the members, so that it can be ended."""
    watches = members.watches if watches is None else watches
    member = members.asked
    metadata = (*member.token, NEEDS_LEADER)
    answers = member.watch(watching(watched.key, watched.end), timeout=seconds, metadata=metadata)
    watches.add(answers)
    try:
        for answer in answers:
            if answer.created and answer.header.revision > revision:
                request = looking_back(watched.key, watched.end, 0 if watched.there else revision + 1)
                present = member.ask(member.range, request, seconds)
                yield from missed(present, revision, watched.there)
            # A member may be behind the one that gave the revision.
            yield from (each for each in map(change, answer.events) if each.revision > revision)
            if answer.canceled:
                return
    except errors() as error:
        if error.code().name not in OURS:
            members.turn(member)
    finally:
        watches.discard(answers)
        answers.cancel()


class Ends:
    """Ends watches that have told what was waited for, in a thread, while whoever has waited goes on."""

    def __init__(self) -> None:
        self.told: SimpleQueue[Generator[Change, None, None]] = SimpleQueue()
        self.thread: threading.Thread | None = None
        self.lock = threading.Lock()

    def end(self, came: Generator[Change, None, None]) -> None:
        """If the system gives no thread, at once."""
        try:
            self.need_thread()
        except RuntimeError:
            came.close()
        else:
            self.told.put(came)

    def need_thread(self) -> None:
        with self.lock:
            if self.thread is None:
                thread = threading.Thread(target=self.run, daemon=True)
                thread.start()
                self.thread = thread

    def run(self) -> None:
        while True:
            self.told.get().close()


ENDS = Ends()


def wait(
    members: Members,
    watched: Watched,
    revision: int,
    seconds: float,
    is_it: Callable[[Change], bool] = lambda _: True,
    watches: Optional[set[Any]] = None,
) -> Change | None:
    """The first change after the revision for which `is_it` holds, if there is one within so many seconds."""
    came = changes(members, watched, revision, seconds, watches)
    try:
        found = next((each for each in came if is_it(each)), None)
    except BaseException:
        came.close()
        raise
    # (One that has told nothing has ended by itself.)
    if found is not None:
        ENDS.end(came)
    return found
