"""Each growth of a server refused, alone: it ends with `memory` before it listens, or a session ends before some
line, with the replies of those before; the next session is whole, over the store that those lines left. With
`--verbose` the end of each session is logged, with its reason, and each line that is refused, though maybe without its
hint."""

from __future__ import annotations

import json
import re
import time
from contextlib import ExitStack

from server import NotListening, Serving, ask_in_turn, connected, talk_in_turn
from store import Store
from web import Client, Response

from sweeps.doors import DOORS, SLOTS, Asking
from sweeps.preloaded import library_of
from sweeps.program import MEMORY, Ran, Tally, Try
from sweeps.server_growths import parts_of
from sweeps.talks import lines_of, note_replies
from sweeps.ten_lines import REPLIES, TEXT, TREE, WEIGHTS
from sweeps.verbose import LINES, Telling, arrival, ended, fits, refusals, threadless_line

TRIED = "growths of a server refused, each alone, and the lines asked after it"
# How long a line on standard error is waited for.
LONGEST = 20.0


def tries(program: str, room: str) -> list[Try]:
    library = library_of("refuse_growth", room)
    return [
        *parts_of(program, library, ask_twice),
        *parts_of(program, library, tell_twice, ", verbose"),
        *parts_of(program, library, tell_of_requests, ", verbose, over HTTP"),
    ]


def ask_twice(program: str, how: dict, where: str, tally: Tally) -> None:
    """Has the ten lines answered, which may end before one of them; then once more, whole."""
    try:
        with Serving(program, TREE, **how) as server:
            came = talk_in_turn(server.port, TEXT.splitlines(keepends=True))
            is_begun = REPLIES.startswith(came) and came[-1:] in (b"", b"\n")
            tally.note(where, None if is_begun else f"wanted the first replies of {REPLIES!r}; came {came!r}")
            if came == REPLIES:
                return
            store = Store(json.loads(TREE))
            note_replies(store, b"".join(TEXT.splitlines(keepends=True)[: came.count(b"\n")]), came, where, tally)
            note_replies(store, TEXT, server.talk(TEXT), f"{where}, after it", tally)
            note_slots(server, where, tally)
    except NotListening as ended:
        tally.compare(where, Ran(*ended.ended), MEMORY)


def note_slots(server: Serving, where: str, tally: Tally) -> None:
    """As many clients as there are slots are answered at once: none was kept by a connection that has ended."""
    with ExitStack() as stack:
        clients = [stack.enter_context(Asking(DOORS[0], server.port, WEIGHTS)) for _ in range(SLOTS)]
        for client in clients:
            client.send()
        came = [client.door.reply_in(client.stream)[:10] for client in clients]
    tally.note(f"{where}, the slots", None if came == [b'{"waits":['] * SLOTS else f"came {came}")


def tell_twice(program: str, how: dict, where: str, tally: Tally) -> None:
    """Has lines answered, some of which are refused, and sees what is logged of them; if anything lacks, once more."""
    store = Store(json.loads(TREE))
    try:
        with Telling(program, **how) as server:
            wants = session_told(server, store, where, tally)
            if wants:
                wants = session_told(server, store, f"{where}, after it", tally)
                tally.note(f"{where}, after it", wants and f"once more there is no {wants}")
    except NotListening as not_listening:
        status, out, _ = not_listening.ended
        tally.note(where, None if (status, out) == (MEMORY.status, b"") else f"it ended with {status}, {out!r}")


def session_told(server: Telling, store: Store, where: str, tally: Tally) -> str | None:
    """Has the next session answer the lines, compares what is logged, and gives what lacks for lack of memory."""
    before = len(server.told())
    number = 1 if before == 0 else 2
    with connected(server.port) as client:
        came = ask_in_turn(client, list(LINES))
        comes = arrival(number, client)
    count = len(lines_of(came))
    note_replies(store, b"".join(LINES[:count]), came, where, tally)
    is_cut = count < len(LINES)
    wanted = [comes, *refusals(number, came), ended(number, count, "memory" if is_cut else "input-ended")]
    told = server.told_of(before + len(wanted), LONGEST)[before:]
    if count == 0 and told == [comes, threadless_line(number)]:
        return "thread"
    hintless = [is_hintless(want, line) for want, line in zip(wanted, told)]
    fitting = [fits(want, line) or less for want, line, less in zip(wanted, told, hintless)]
    is_told = len(told) == len(wanted) and all(fitting) and is_cut + sum(hintless) <= 1
    tally.note(f"{where}, what is told", None if is_told else f"wanted {wanted}; came {told}")
    return "reply" if is_cut else "hint" if any(hintless) else None


def is_hintless(want: str, came: str) -> bool:
    """Is this the line that is wanted, without its hint?"""
    return want.endswith("; hint") and came == want.removesuffix("; hint")


def tell_of_requests(program: str, how: dict, where: str, tally: Tally) -> None:
    """Over HTTP a connection that has its response ends as others do. One that has none has ended for want of memory,
    or for want of a thread, and is logged so."""
    try:
        with Telling(program, door=DOORS[1], **how) as server:
            with Client(server.port) as client:
                response = posted(client, b"".join(LINES))
            told = end_told(server)
            forms = [ended_by("error", "memory"), threadless_line(1)]
            forms = [ended_by("info", "requests-ended")] if response else forms
            is_told = any(re.fullmatch(form, told) for form in forms)
            tally.note(where, None if is_told else f"beside {response} came {told!r}")
    except NotListening as not_listening:
        status, out, _ = not_listening.ended
        tally.note(where, None if (status, out) == (MEMORY.status, b"") else f"it ended with {status}, {out!r}")


def ended_by(level: str, why: str) -> str:
    return f"level={level} event=ended connection=1 lines=[0-9]+ why={why}"


def posted(client: Client, lines: bytes) -> Response | None:
    try:
        return client.post(lines)
    except ConnectionError:
        return None


def end_told(server: Telling) -> str:
    """What is logged of the end of the only connection, or that it has no thread; nothing, if that takes too long."""
    ends = time.monotonic() + LONGEST
    while time.monotonic() < ends:
        for line in server.told():
            if re.match("level=[a-z]+ event=(ended|no-thread) ", line):
                return line
        time.sleep(0.01)
    return ""
