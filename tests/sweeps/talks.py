"""Lines that a client sends, and whether the replies that come back are right by the store of tests/store.py."""

from __future__ import annotations

from store import Store

from sweeps.program import Tally


def lines_of(text: bytes) -> list[bytes]:
    """The lines of the text, what stands after its last line feed among them."""
    lines = text.split(b"\n")
    return lines if lines[-1] else lines[:-1]


def note_replies(store: Store, text: bytes, came: bytes, where: str, tally: Tally) -> None:
    """Counts the lines of the text, and returns which reply isn't right for its line. The store is then what they
    leave."""
    lines, replies = lines_of(text), lines_of(came)
    for number, line in enumerate(lines):
        reply = replies[number] if number < len(replies) else b"nothing"
        fault = store.fault_of(line, reply)
        tally.note(f"{where}, line {number}", fault and f"{fault}, to {line[:300]!r}")
    is_whole = len(lines) == len(replies) and (not came or came.endswith(b"\n"))
    fault = f"{len(lines)} lines have {len(replies)} replies, {came[-80:]!r} at their end"
    tally.blame(where, None if is_whole else fault)


def look(store: Store) -> bytes:
    """Lines that ask for all that the store has."""
    gets = b",".join(b'[["get","%s"]]' % path.encode() for path in store.tree.paths)
    return b'{"weights":null}\n{"batch":[%s]}\n' % gets
