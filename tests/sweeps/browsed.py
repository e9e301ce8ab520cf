"""The page in Chromium, if that is installed: what it shows of a store, and what comes of clicks, keys and texts.

Without it only that the page has what is clicked here is looked at.
"""

from __future__ import annotations

import json
import re
import time
from collections.abc import Callable
from contextlib import ExitStack
from functools import partial
from pathlib import Path
from typing import Any, NamedTuple

from log_file import Standing, file_of
from pages import PAGE
from server import HOST, Serving, free_port
from web import Client

from sweeps.browser import Browser
from sweeps.program import Tally, Try

TRIED = "things to see on the page"
# A tree with a number that JavaScript would round, and with the least one.
ROWS = (("", None, 50, 0), ("a", 0, 3, 10), ("b", 1, 7, 2**53 + 1), ("c", 0, 1000, -(2**63)))
NODES = [dict(zip(("name", "parent", "weight", "value"), row)) for row in ROWS]
DOCUMENT = json.dumps({"nodes": NODES}).encode()
ALL = ["▾/|50|0|0", "▾a|3|0|10", "b|7|0|9007199254740993", "c|1000|0|-9223372036854775808"]
FOLDED = [ALL[0], "▸a+1|3|0|10", ALL[3]]
RANKED = ["/c|1000|0|-9223372036854775808", "/|50|0|0", "/a/b|7|0|9007199254740993", "/a|3|0|10"]
BY_WAITS = [RANKED[1], RANKED[3], RANKED[2], RANKED[0]]
LISTS = "get /a/b\n# a comment ends no list\nset /a 4 2 # nor one behind an access\n\n\nadd /c 1 20\n"
LATER = "\nget /c\nadd /a/b 1 3\n"
PLANNED = "3 lists of 3 planned. Nothing has changed."
# Of each picture: what it is called, its words, and the words in its bars.
PICTURES = [
    ["A plan of cost 16. /a: locked at slot 0, released at slot 3; /a/b: locked at slot 0, released at slot 1",
     "node|weight|slots|weight × slots = cost|0|1|3|/a|3|3 × 3 = 9|set ×2|b|7|7 × 1 = 7|get|total|16"],
    ["A plan of cost 20000. /c: locked at slot 0, released at slot 20",
     "node|weight|slots|weight × slots = cost|0|20|/c|1000|1000 × 20 = 20000|add ×20|total|20000"],
    ["A plan of cost 1024. /: locked at slot 0, released at slot 0; /a: locked at slot 0, released at slot 1; "
     "/a/b: locked at slot 1, released at slot 4; /c: locked at slot 0, released at slot 1",
     "node|weight|slots|weight × slots = cost|0|1|4|/|50|50 × 0 = 0|a|3|3 × 1 = 3|b|7|7 × 3 = 21|add ×3|"
     "c|1000|1000 × 1 = 1000|get|total|1024"],
]
COSTS = (16, 20000, 1024)
CERTIFICATES = [
    ["/a|3|0|0|0|3|0|3 × 3 − 0 × 1 = 9", "/a/b|7|3|0|10|7|0|7 × 1 − 10 × 0 = 7", "total|||||||16 = the cost 16"],
    ["/c|1000|0|0|1000|1000|0|1000 × 20 − 1000 × 0 = 20000", "total|||||||20000 = the cost 20000"],
]
REPLIES = ["1|0|get /a/b|9007199254740993", "1|0|set /a 4 2|ok", "2|1|add /c 1 20|-9223372036854775807"]
WRITTEN = ["▾/|50|0|0", "▾a|3|0|4", "b|7|0|9007199254740993", "c|1000|0|-9223372036854775807"]
# What is written into the lists, and why it isn't run.
REFUSED = {
    "get /a\nget /q": "Nothing has changed. The batch is refused as no-path: batch 0 1: no node has the path \"/q\"; "
    '"/" has no child "q"',
    "get /a 1001": "Nothing has changed. The batch is refused as bad-length: batch 0 0 is 1001 slots long, but an "
    "access has 1 to 1000",
    "\nget /a x": "Line 2: after the path only whole numbers may come",
    "get /a\ngot /a": "Line 2: got is no operation; there are get, set, add and take",
    "get": "Line 1: a path has to come after get, as in get /a",
    "take /a": "Line 1: a number has to come after the path, as in take /a 1",
    "set /a 1 2 3": "Line 1: there are too many numbers after the path",
    "get /a 1 2": "Line 1: there are too many numbers after the path",
    "# only this\n": "There is no access in the lists yet.",
}
# Keys one after the other, each with the node that they are about then, and how many rows there are.
KEYS = (
    *(("ArrowDown", 1, 4), ("ArrowDown", 2, 4), ("ArrowUp", 1, 4), ("ArrowLeft", 1, 3), ("ArrowDown", 3, 3)),
    *(("ArrowUp", 1, 3), ("ArrowRight", 1, 4), ("ArrowRight", 2, 4), ("ArrowLeft", 1, 4), ("End", 3, 4)),
    *(("Home", 0, 4), ("PageDown", 3, 4), ("ArrowLeft", 0, 4), ("ArrowLeft", 0, 1), ("ArrowRight", 0, 4)),
    *(("PageUp", 0, 4), ("End", 3, 4)),
)
# How long a page that pauses is watched, which else looks again after a second; and how long a page may take.
PAUSED, LONGEST = 2.5, 30.0
# For longer than the page takes to look again by itself.
LOOKED_AGAIN = 2.5
# What the script has to have for all this.
IDS = ("nodes", "count", "filter", "fold", "unfold", "lists", "plan", "batch", "outcome", "answers", "follow", "state")


class Shown(NamedTuple):
    """A page in the browser, by the words of its script."""

    page: Browser

    def text(self, name: str) -> str:
        return self.page.run(f"document.getElementById({name!r}).textContent")

    def rows(self, of: str = "#nodes tr[data-place]") -> list[str]:
        """The texts of the cells of each row, but for those that aren't shown."""
        cells = "[...row.cells].filter((cell) => cell.offsetParent !== null).map((cell) => cell.textContent)"
        return self.page.run(f"[...document.querySelectorAll({of!r})].map((row) => {cells}.join('|'))")

    def marks(self) -> list[str]:
        """The marks of what rose and of what fell, row by row."""
        return self.page.run("[...document.querySelectorAll('[data-change]')].map((cell) => cell.dataset.change)")

    def click(self, name: str) -> None:
        self.page.run(f"document.getElementById({name!r}).click()")

    def write(self, name: str, text: str) -> None:
        does = f"element.value = {json.dumps(text)}; element.dispatchEvent(new Event('input'));"
        self.page.run(f"((element) => {{ {does} }})(document.getElementById({name!r}))")

    def press(self, name: str, key: str) -> None:
        event = f"new KeyboardEvent('keydown', {{ key: {key!r}, bubbles: true, cancelable: true }})"
        self.page.run(f"document.getElementById({name!r}).dispatchEvent({event})")

    def asked(self, name: str) -> str:
        """What comes of a click on a button that asks for the lists."""
        self.page.run("document.getElementById('outcome').textContent = ''")
        self.page.run("document.getElementById('answers').replaceChildren()")
        self.click(name)
        self.page.until("document.getElementById('answers').textContent !== ''")
        return self.text("outcome")


def tries(program: str, room: str) -> list[Try]:
    parts = [Try("the script", script)]
    if Browser.is_there():
        parts += [
            Try("the nodes", partial(at_page, program, nodes)),
            Try("keys", partial(at_page, program, keys)),
            Try("plans", partial(at_page, program, plans)),
            Try("batches", partial(at_page, program, batches)),
            Try("lists that are refused", partial(at_page, program, refused)),
            Try("rounds of others", partial(at_page, program, followed)),
            Try("a server that is started anew", partial(anew, program)),
            Try("a store that is kept", partial(kept, program, room)),
        ]
    return parts


def script(tally: Tally) -> None:
    text = PAGE.read_text()
    for name in IDS:
        tally.note(name, None if len(re.findall(f'id="{name}"', text)) == 1 else "the page hasn't it once")


def at_page(program: str, look: Callable[[Shown, Serving, Tally], None], tally: Tally) -> None:
    with Serving(program, DOCUMENT, 1, 0, command="page") as server, Browser(f"http://{HOST}:{server.port}/") as page:
        page.until(f"document.querySelectorAll('#nodes td.weight').length === {len(ROWS)}")
        look(Shown(page), server, tally)


def note(what: str, wanted: Any, came: Any, tally: Tally) -> None:
    tally.note(what, None if came == wanted else f"wanted {wanted!r}; came {came!r}")


def note_soon(what: str, wanted: Any, look: Callable[[], Any], tally: Tally) -> None:
    """What comes by itself, and so may not be there yet."""
    ends = time.monotonic() + LONGEST
    while (came := look()) != wanted and time.monotonic() < ends:
        time.sleep(0.02)
    note(what, wanted, came, tally)


# ---- the nodes


def nodes(shown: Shown, server: Serving, tally: Tally) -> None:
    """The table as it is at first, filtered, folded and ordered, with what is said of it."""
    note("at first", (ALL, ""), (shown.rows(), shown.text("count")), tally)
    state = "4 nodes, 0 rounds done (each runs one batch or several), as of "
    tally.note("the state", None if shown.text("state").startswith(state) else f"it is {shown.text('state')!r}")
    for text, rows, count in (
        ("b", ALL[:3], "1 of 4 nodes"),
        ("  /A ", ALL[:3], "2 of 4 nodes"),
        ("/a/b", ALL[:3], "1 of 4 nodes"),
        ("x", [], "none of 4 nodes"),
        ("/", ALL, "4 of 4 nodes"),
    ):
        shown.write("filter", text)
        note(f"the filter {text!r}", (rows, count), (shown.rows(), shown.text("count")), tally)
    shown.press("filter", "Escape")
    note("without a filter", (ALL, ""), (shown.rows(), shown.text("count")), tally)
    shown.click("fold")
    note("folded", (FOLDED, "1 folded away"), (shown.rows(), shown.text("count")), tally)
    shown.write("filter", "b")
    note("folded, with a filter", (ALL[:3], "1 of 4 nodes"), (shown.rows(), shown.text("count")), tally)
    shown.click("fold")
    wanted = FOLDED[:2], "1 of 4 nodes, 1 folded away"
    note("folded behind a filter", wanted, (shown.rows(), shown.text("count")), tally)
    shown.press("filter", "Escape")
    for order, rows in (("weight", RANKED), ("waits", BY_WAITS), ("tree", FOLDED)):
        shown.page.run(f"document.querySelector('[data-order={order}]').click()")
        note(f"by {order}", rows, shown.rows(), tally)
    shown.click("unfold")
    note("unfolded", (ALL, ""), (shown.rows(), shown.text("count")), tally)


def keys(shown: Shown, server: Serving, tally: Tally) -> None:
    """Each key goes where the page says, and Enter writes what it is about into the lists."""
    for number, (key, place, count) in enumerate(KEYS):
        shown.press("table", key)
        came = shown.page.run("document.getElementById('table').getAttribute('aria-activedescendant')")
        note(f"key {number}, {key}", (f"node-{place}", count), (came, len(shown.rows())), tally)
    shown.write("lists", "get /a")
    shown.press("table", "Enter")
    lists = shown.page.run("document.getElementById('lists').value")
    note("Enter", ("get /a\nget /c\n", "get /c is the last line of the lists."), (lists, shown.text("written")), tally)


# ---- lists


def plans(shown: Shown, server: Serving, tally: Tally) -> None:
    """The picture and the certificate of each list, and what the checker says."""
    shown.write("lists", LISTS + LATER)
    note("the outcome", PLANNED, shown.asked("plan"), tally)
    words = "[...svg.querySelectorAll('text')].map((text) => text.textContent).join('|')"
    pictures = f"[...document.querySelectorAll('#answers section svg')].map((svg) => [svg.ariaLabel, {words}])"
    note("the pictures", PICTURES, shown.page.run(pictures), tally)
    for number, wanted in enumerate(CERTIFICATES):
        of = f"#answers section:nth-of-type({number + 1}) table :is(tbody, tfoot) tr"
        note(f"certificate {number}", wanted, shown.rows(of), tally)
    sums = shown.rows("#answers section table tfoot tr")
    note("the sums", [f"total|||||||{cost} = the cost {cost}" for cost in COSTS], sums, tally)
    for number, cost in enumerate(COSTS):
        section = f"document.querySelectorAll('#answers section')[{number}]"
        shown.page.run(f"{section}.querySelector('button').click()")
        shown.page.until(f"{section}.querySelector('[role=status]').textContent !== ''")
        said = shown.page.run(f"{section}.querySelector('[role=status]').textContent")
        note(f"the checker, {number}", f"The server's checker accepts it: cost {cost}.", said, tally)
    note("nothing is written", ALL, shown.rows(), tally)


def batches(shown: Shown, server: Serving, tally: Tally) -> None:
    """The replies of a batch, and the records that it leaves, which stay marked until others change."""
    shown.write("lists", LISTS)
    note("the outcome", "Done in round 1. The records are written.", shown.asked("batch"), tally)
    note("the replies", REPLIES, shown.rows("#answers tbody tr"), tally)
    note_soon("the nodes", WRITTEN, shown.rows, tally)
    # (By then the page waits for a round, so it looks twice at what the next batch does.)
    time.sleep(LOOKED_AGAIN)
    note("the marks", ["▼", "▲"], shown.marks(), tally)
    with Client(server.port) as client:
        records = [node["record"] for node in json.loads(client.get("/nodes").body)["nodes"]]
    note("the records", [0, 4, 2**53 + 1, 1 - 2**63], records, tally)
    shown.write("lists", "add /a 1")
    note("the next outcome", "Done in round 2. The records are written.", shown.asked("batch"), tally)
    time.sleep(LOOKED_AGAIN)
    note("the next marks", (["▲"], "▾a|3|0|5"), (shown.marks(), shown.rows()[1]), tally)
    add(server, -9)
    note_soon("the marks of others", ["▼"], shown.marks, tally)


def refused(shown: Shown, server: Serving, tally: Tally) -> None:
    """What can't be run is said once, by its line or by its hint."""
    for text, wanted in REFUSED.items():
        shown.write("lists", text)
        note(f"{text!r}", ("", wanted), (shown.asked("batch"), shown.text("answers")), tally)
    note("nothing is written", ALL, shown.rows(), tally)


# ---- what others do


def add(server: Serving, number: int) -> None:
    with Client(server.port) as client:
        client.post(b'{"batch":[[["add","/a",%d]]]}\n' % number)


def followed(shown: Shown, server: Serving, tally: Tally) -> None:
    """A round of another client is shown with a mark, unless the page is told to pause; then once it follows again."""
    for number, (change, mark, record) in enumerate(((5, "▲", 15), (-9, "▼", 6))):
        add(server, change)
        note_soon(f"round {number}", f"▾a|3|0|{record}", lambda: shown.rows()[1], tally)
        note(f"its mark {number}", [mark], shown.marks(), tally)
    shown.click("follow")
    note("the button", "Follow", shown.text("follow"), tally)
    add(server, 1)
    time.sleep(PAUSED)
    note("while it pauses", "▾a|3|0|6", shown.rows()[1], tally)
    shown.click("follow")
    note("the button again", "Pause", shown.text("follow"), tally)
    note_soon("once it follows", "▾a|3|0|7", lambda: shown.rows()[1], tally)


def anew(program: str, tally: Tally) -> None:
    """That the server was started anew is told, with what it had done before."""
    port = free_port()
    with ExitStack() as stack:
        server = stack.enter_context(Serving(program, DOCUMENT, 1, port, command="page"))
        add(server, 1)
        page = stack.enter_context(Browser(f"http://{HOST}:{port}/"))
        shown = Shown(page)
        page.until(f"document.querySelectorAll('#nodes td.weight').length === {len(ROWS)}")
        server.started.kill()
        page.until("document.getElementById('trouble').textContent !== ''")
        note("the trouble", "The server doesn't answer.", shown.text("trouble"), tally)
        server.started.wait()
        stack.enter_context(Serving(program, DOCUMENT, 1, port, command="page"))
        page.until("document.getElementById('anew').textContent !== ''")
        told = shown.text("anew")
        form = r"The server was started anew between .+ and .+; before, it had done 1 round\."
        tally.note("what is said", None if re.fullmatch(form, told) else f"it says {told!r}")
        note_soon("the nodes", ALL, shown.rows, tally)
        note("the trouble is over", "", shown.text("trouble"), tally)


def kept(program: str, room: str, tally: Tally) -> None:
    """Of a store that is kept that is said, and waits and the greatest count of rounds are shown to the last digit."""
    file = Path(room, "store.grove")
    names = [(parent, name.encode()) for name, parent, _, _ in ROWS]
    standing = Standing((50, 3, 7, 1000), (0, 10, 2**53 + 1, -(2**63)), (1000, 0, 999, 1), 2**64 - 1)
    file.write_bytes(file_of(bytes(range(32)), names, [standing]))
    words = ("--data", str(file))
    with Serving(program, DOCUMENT, 1, 0, further=words, command="page") as server:
        with Browser(f"http://{HOST}:{server.port}/") as page:
            page.until(f"document.querySelectorAll('#nodes td.weight').length === {len(ROWS)}")
            shown = Shown(page)
            wanted = [row.replace("|0|", f"|{waits}|", 1) for row, waits in zip(ALL, standing.waits)]
            note("the nodes", wanted, shown.rows(), tally)
            state = f"4 nodes, {2**64 - 1} rounds done (each runs one batch or several), kept in a file, as of "
            tally.note("the state", None if shown.text("state").startswith(state) else f"it is {shown.text('state')!r}")
