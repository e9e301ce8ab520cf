"""A store inside this process (docs/SESSIONS.md has its lines):

    with Store(Tree.from_paths({"/": 5, "/bulbs": 1}, {"/bulbs": 12})) as store:
        print(store.batch([Access.take("/bulbs", 1)]).replies)

It answers what `grove serve --workers 1` answers, without a server. Its records are in memory, and go with it.
"""

from __future__ import annotations

from threading import Lock
from types import TracebackType
from typing import Optional, Type, Union

from .library import Close, Handle, Kept, answer, checked, close, close_after, last_reply, say_kept
from .requests import Requests
from .tree import Tree

__all__ = ["Store"]


class Store(Requests):
    """A store of a tree with its records, or of a document. Of several threads that call it each waits for the one
    before. Once it is closed its calls raise `Closed`."""

    def __init__(self, opened_from: Union[Tree, bytes, str]) -> None:
        document = opened_from.document() if isinstance(opened_from, Tree) else encoded(opened_from)
        self.handle, self.lock = Handle(), Lock()
        close_after(self, Close.STORE, self.handle)
        say_kept(Kept.OPEN_STORE, self.handle, document)

    def __enter__(self) -> Store:
        return self

    def __exit__(
        self, kind: Optional[Type[BaseException]], error: Optional[BaseException], trace: Optional[TracebackType]
    ) -> None:
        self.close()

    def close(self) -> None:
        """Gives its memory back."""
        with self.lock:
            close(Close.STORE, self.handle)

    def answer(self, line: Union[bytes, str]) -> bytes:
        """The reply to a line, both without a line feed. After `NoMemory` the store is as it was."""
        with self.lock:
            return answer(self.handle, encoded(line))

    def last_reply(self) -> bytes:
        """The reply to the last line that had one, once more; it is empty before the first line."""
        with self.lock:
            return last_reply(self.handle)

    def send(self, line: bytes) -> bytes:
        """As `answer`."""
        return self.answer(line)


def encoded(text: Union[bytes, str]) -> bytes:
    return text.encode() if isinstance(text, str) else checked(text)
