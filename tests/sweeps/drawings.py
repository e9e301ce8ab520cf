"""Drawings of seeded documents, of which half have a plan of their own: the bars and costs are those of the plans, as
tests/plans.py works them out, in the SVG and in the text alike. So is each other text in them: the names of the columns
and of the axis, the total below each picture, and what light and dark mean. The SVG is well-formed;
no bar lies over another, and each lies between the lines of its slots. Names and columns are as wide as they may be."""

from __future__ import annotations

import json
import re
from functools import partial
from itertools import accumulate, combinations
from typing import Iterator
from xml.etree import ElementTree

from plans import bars_of_plan, cost_of_plan, length_of
from tree import Tree

from sweeps.documents import put_back, seeded
from sweeps.program import Ran, Tally, Try, run

TRIED = "drawings"
SEEDED = 200
SVG = "{http://www.w3.org/2000/svg}"


# What light, dark and a stroke mean, in the SVG and in the text.
KEY_SHOWN = ["held", "accessed", "locked and released at one slot"]
KEY = "key: get=== accesses the node, ------ holds it, | locks and releases it at one slot"
# How large letters are, of other texts than those of a row.
SIZES = {"title": 14, "small": 11, "word": 12}
# How wide the names of a drawing in letters are at most, and of how many accesses each has room for its word.
WIDEST_NAME, FEW = 30, 12
NEAR = (-1, 0, 1, 2)


def tries(program: str, _room: str) -> list[Try]:
    return [Try(f"seeded document {seed}", partial(draw_each, program, seed)) for seed in range(SEEDED)] + [
        Try("names about as long as there is room for", partial(widest_names, program)),
        Try("about as many accesses as have room for their words", partial(few_accesses, program)),
        Try("names of a document's plan alone", partial(names_of_own, program)),
        Try("accesses of each kind and length", partial(lengths, program)),
    ]


def draw_each(program: str, seed: int, tally: Tally) -> None:
    """Draws a document without a plan, and with one that locks everything first and unlocks all last."""
    document = json.loads(seeded(seed))
    settled = json.loads(put_back(seeded(seed), run(program, "plan", text=seeded(seed)).out))["plan"]
    for plans in ([settled], [whole_plan(document), settled]):
        asked = document | ({"plan": plans[0]} if len(plans) == 2 else {})
        text = json.dumps(asked).encode()
        wanted = [told_of(document, steps) for steps in plans]
        as_svg, as_text = run(program, "draw", text=text), run(program, "draw", "--text", text=text)
        tally.note(f"{len(plans)} plans, as SVG", drawing_fault(as_svg, in_svg, wanted))
        tally.note(f"{len(plans)} plans, as text", drawing_fault(as_text, in_text, wanted))


def whole_plan(document: dict) -> list:
    """The plan that locks the forced nodes from the top down, does all accesses, and unlocks all."""
    tree = Tree(document["nodes"])
    paths = [tree.paths[node] for node in tree.forced(document["list"])]
    accesses = [["access", number] for number in range(len(document["list"]))]
    return [["lock", path] for path in paths] + accesses + [["unlock", path] for path in paths]


def told_of(document: dict, steps: list) -> dict:
    tree = Tree(document["nodes"])
    bars = bars_of_plan(tree, document["list"], steps)
    return {
        "cost": cost_of_plan(tree, document["list"], steps),
        "bars": bars,
        "rows": [row_of(tree, document["list"], bar, at == 0) for at, bar in enumerate(bars)],
        "times": times_of(document["list"]),
        "accesses": [access_line(at, access) for at, access in enumerate(document["list"])],
    }


def times_of(accesses: list) -> list[int]:
    """The slots at which the accesses begin, and the one at which the last ends."""
    return list(accumulate(map(length_of, accesses), initial=0))


def row_of(tree: Tree, accesses: list, bar: tuple, is_first: bool) -> dict:
    """The texts of a bar: its path, its name, its weight, the words of the accesses of its node, and its cost."""
    path, lock, release, cost = bar
    held = times_of(accesses)[release] - times_of(accesses)[lock]
    weight = tree.weights[tree.node_of[path]]
    words = [word for word, at, *_ in accesses if at == path]
    name = path if is_first else path.rpartition("/")[2]
    return {"path": path, "ends": (lock, release), "name": name, "words": words, "cost": (weight, held, cost)}


def access_line(at: int, access: list) -> str:
    """What is told of an access below the drawing."""
    word, path, *numbers = access
    number = f" {numbers[0]}" if word != "get" else ""
    length = length_of(access)
    return f"access {at}: {word} {path}{number}" + (f", {length} slots" if length != 1 else "")


def saved_of(wanted: list[dict]) -> int | None:
    """What the settled plan saves, if the document has one of its own."""
    return wanted[0]["cost"] - wanted[1]["cost"] if len(wanted) == 2 else None


def drawing_fault(ran: Ran, read, wanted: list[dict]) -> str | None:
    """What is wrong with a drawing, if anything is."""
    if ran.status != 0 or ran.err:
        return f"wanted a drawing; came {ran}"
    return next(read(ran.out.decode("utf-8"), wanted), None)


def in_svg(text: str, wanted: list[dict]) -> Iterator[str]:
    """What is wrong with the SVG."""
    try:
        top = ElementTree.fromstring(text)
    except ElementTree.ParseError as fault:
        yield f"it isn't well-formed: {fault}"
        return
    plans = [it for it in top.iter(f"{SVG}g") if it.get("class") == "plan"]
    came = [{"cost": int(it.get("data-cost")), "bars": [bar_in(row) for row in rows_in(it)]} for it in plans]
    if came != [{"cost": it["cost"], "bars": it["bars"]} for it in wanted]:
        yield f"wanted {wanted}; came {came}"
    shown = ["".join(it.itertext()) for it in top.iter() if it.tag in (f"{SVG}text", f"{SVG}title")]
    if shown != texts_of(wanted):
        yield f"wanted the texts {texts_of(wanted)}; came {shown}"
    if any(sum(bar[-1] for bar in it["bars"]) != it["cost"] for it in came):
        yield f"the bars don't add up to the cost: {came}"
    boxes = [box for it in top.iter() if (box := box_of(it)) and "bar" in it.get("class", "")]
    yield from (f"bars overlap: {one} and {other}" for one, other in combinations(boxes, 2) if overlap(one, other))
    width, height = float(top.get("width")), float(top.get("height"))
    yield from (f"a bar is outside: {box}" for box in boxes if box[0] < 0 or box[2] > width)
    texts = [text_box(it) for it in top.iter(f"{SVG}text")]
    inside = [it for it in texts if 0 <= it[0] and it[2] <= width and it[3] <= height]
    yield from (f"a text is outside: {box}" for box in texts if box not in inside)
    yield from (f"texts overlap: {one} and {other}" for one, other in combinations(texts, 2) if overlap(one, other))
    for plan in plans:
        yield from misplaced(plan)


def texts_of(wanted: list[dict]) -> list[str]:
    """All texts of an SVG, in their order."""
    texts = []
    titles = ("The settled plan",) if len(wanted) == 1 else ("The document's plan", "The settled plan")
    for title, it in zip(titles, wanted):
        texts += [f"{title}: cost {it['cost']}", "node", "weight", "weight × slots = cost", "slots"]
        texts += map(str, it["times"])
        for row in it["rows"]:
            lock, release = row["ends"]
            weight, held, cost = row["cost"]
            texts += [f"{row['path']}: locked before access {lock}, released before access {release}"]
            texts += [row["name"], str(weight), *row["words"], f"{weight} × {held} = {cost}"]
        texts += ["total", str(it["cost"])]
    saved = [f"The settled plan saves {saved_of(wanted)}"] if saved_of(wanted) is not None else []
    return [*texts, *KEY_SHOWN, *saved, *wanted[-1]["accesses"]]


def rows_in(plan) -> list:
    return [it for it in plan.iter(f"{SVG}g") if it.get("class") == "row"]


def bar_in(row) -> tuple:
    return (row.get("data-node"), *(int(row.get(f"data-{what}")) for what in ("lock", "release", "cost")))


def box_of(shape) -> tuple[float, float, float, float] | None:
    """The left, upper, right and lower end of a rectangle."""
    if shape.tag != f"{SVG}rect" or shape.get("x") is None:
        return None
    x, y, width, height = (float(shape.get(name)) for name in ("x", "y", "width", "height"))
    return (x, y, x + width, y + height)


def text_box(text) -> tuple[float, float, float, float]:
    """The left, upper, right and lower end of a text: each letter has the same width, which goes by the size."""
    kind = text.get("class", "").split()
    size = next((size for name, size in SIZES.items() if name in kind), 13)
    wide = 0.6 * size * len("".join(text.itertext()))
    x, y = float(text.get("x")), float(text.get("y"))
    left = x - wide if "end" in kind else x - wide / 2 if "middle" in kind else x
    return (left, y - 0.7 * size, left + wide, y)


def overlap(one: tuple, other: tuple) -> bool:
    return one[0] < other[2] and other[0] < one[2] and one[1] < other[3] and other[1] < one[3]


def misplaced(plan) -> Iterator[str]:
    """Each bar that doesn't begin at the line of its lock, or end at that of its release."""
    lines = [float(it.get("d")[1:].split(" ")[0]) for it in plan.iter(f"{SVG}path") if it.get("class") == "grid"]
    for row in rows_in(plan):
        _, lock, release, _ = bar_in(row)
        for box in (box_of(it) for it in row.iter() if it.get("class") == "bar"):
            if (box[0], box[2]) != (lines[lock], lines[release]):
                yield f"a bar from {box[0]} to {box[2]} for the slots {lock} to {release}, at {lines}"


def in_text(text: str, wanted: list[dict]) -> Iterator[str]:
    """What is wrong with the text: each plan has its cost, and each of its rows what a bar costs."""
    costs = [int(cost) for cost in re.findall(r"plan: cost (\d+)$", text, re.MULTILINE)]
    rows = [tuple(map(int, row)) for row in re.findall(r"(\d+) x (\d+) = (\d+)$", text, re.MULTILINE)]
    bars = [bar for it in wanted for bar in it["bars"]]
    if costs != [it["cost"] for it in wanted]:
        yield f"wanted the costs {[it['cost'] for it in wanted]}; came {costs}"
    if [row[2] for row in rows] != [bar[-1] for bar in bars] or any(one * other != cost for one, other, cost in rows):
        yield f"wanted the bars {bars}; came {rows}"
    totals = [int(cost) for cost in re.findall(r"^total +(\d+)$", text, re.MULTILINE)]
    if totals != costs:
        yield f"wanted the totals {costs}; came {totals}"
    if text.count(f"\n{KEY}\n") != 1 or len(re.findall(r"^node +weight 0 .*slots$", text, re.MULTILINE)) != len(costs):
        yield "what the bars mean isn't told once, or an axis has no name"
    if len(wanted) == 2 and f"\nsaved: {costs[0] - costs[1]}\n" not in text:
        yield "what is saved isn't told"
    lines = text.splitlines()
    strokes = ["|" in line for line in lines if re.search(r"\d+ x \d+ = \d+$", line)]
    if strokes != [row["cost"][1] == 0 for it in wanted for row in it["rows"]]:
        yield f"a stroke is missing, or one too many: {strokes}"
    if any(len(line) > 130 for line in lines):
        yield "a line is longer than a terminal is wide"
    accesses = [line for line in lines if line.startswith("access ")]
    if accesses != wanted[-1]["accesses"]:
        yield f"wanted the accesses {wanted[-1]['accesses']}; came {accesses}"
    if rows != [row["cost"] for it in wanted for row in it["rows"]]:
        yield f"the rows are {rows}"


# ---- as wide as there is room for


def widest_names(program: str, tally: Tally) -> None:
    """A path of so many letters is shown whole; of a longer one its last letters stand behind two dots."""
    for more in NEAR:
        first, name = "n" * 20, "m" * (WIDEST_NAME + more - 22)
        names = enumerate(("", first, name))
        rows = [{"parent": at - 1 if at else None, "name": each, "weight": 1} for at, each in names]
        path = f"/{first}/{name}"
        ran = run(program, "draw", "--text", text=json.dumps({"nodes": rows, "list": [["get", path]]}).encode())
        wanted = path if len(path) <= WIDEST_NAME else f"..{path[2 - WIDEST_NAME :]}"
        shown = ran.out.decode().splitlines()[2].split(" ")[0] if ran.status == 0 else ""
        tally.note(f"{len(path)} letters", None if shown == wanted else f"wanted {wanted!r}; came {ran}")


def names_of_own(program: str, tally: Tally) -> None:
    """A document's plan that locks a node with the longest name behind all accesses, which the settled plan doesn't."""
    rows = [{"parent": 0 if at else None, "name": name, "weight": 1} for at, name in enumerate(("", "a", "n" * 32))]
    long, document = f"/{'n' * 32}", {"nodes": rows, "list": [["get", "/a"]]}
    settled = [["lock", "/a"], ["access", 0], ["unlock", "/a"]]
    before = [["lock", "/"], ["lock", "/a"], ["access", 0]]
    own = [*before, ["lock", long], *(["unlock", path] for path in (long, "/a", "/"))]
    wanted = [told_of(document, steps) for steps in (own, settled)]
    text = json.dumps(document | {"plan": own}).encode()
    tally.note("as SVG", drawing_fault(run(program, "draw", text=text), in_svg, wanted))
    tally.note("as text", drawing_fault(run(program, "draw", "--text", text=text), in_text, wanted))


def lengths(program: str, tally: Tally) -> None:
    """Accesses of one slot, said or not, of two, of three and of as many as there may be, by each operation."""
    rows = [{"parent": 0 if at else None, "name": name, "weight": 3 - at} for at, name in enumerate(("", "a", "b"))]
    each = (("get",), ("set", 4), ("add", -(2**63)), ("take", 2**63 - 1))
    for length in ((), (1,), (2,), (3,), (1000,)):
        accesses = [[word, "/a" if at % 2 else "/b", *number, *length] for at, (word, *number) in enumerate(each)]
        document = {"version": 2, "nodes": rows, "list": accesses}
        text = json.dumps(document).encode()
        told = run(program, "plan", text=text).out.decode().splitlines()[1]
        wanted = [told_of(document, json.loads(told.removeprefix("plan ")))]
        tally.note(f"{length} as SVG", drawing_fault(run(program, "draw", text=text), in_svg, wanted))
        tally.note(f"{length} as text", drawing_fault(run(program, "draw", "--text", text=text), in_text, wanted))


def few_accesses(program: str, tally: Tally) -> None:
    """Of so many accesses each has room for its word, however short it is beside another; of more there need not be."""
    rows = [{"parent": 0 if at else None, "name": name, "weight": 1} for at, name in enumerate(("", "a", "b"))]
    for more in NEAR:
        accesses = [["take", "/a", 1, 1000]] + [["take", "/b", 1, 1]] * (FEW + more - 1)
        document = {"version": 2, "nodes": rows, "list": accesses}
        ran = run(program, "draw", "--text", text=json.dumps(document).encode())
        words, wanted = ran.out.count(b"take", 0, ran.out.find(b"access 0")), FEW + more if more <= 0 else 1
        tally.note(f"{FEW + more} accesses", None if words == wanted else f"{words} words, {ran.out.decode()}")
