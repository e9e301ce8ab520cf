"""Mutilated documents by a seeded generator: an answer, or a refusal in one line with a hint beside it, which tells of
the same place and quotes as JSON does."""

from __future__ import annotations

import json
import re
from functools import partial
from random import Random

from sweeps.answers import cost_of, form_fault
from sweeps.documents import certified_examples, examples, put_back, seeded
from sweeps.program import Ran, Tally, Try, run

TRIED = "runs on mutilated documents"
SEEDED = 8
# How many documents are made of each.
EACH = 100

NUMBERS = [-(2**63) - 1, -(2**63), -1, 0, 1, 2, 3, 1000, 1001, 2**31, 2**32 - 1, 2**32, 2**40, 2**40 + 1]
NUMBERS += [2**63 - 1, 2**63, 2**64 - 1, 2**64, 1.0, -0.0, 1e2, 1e300]
TEXTS = ["/", "", "/a", "/a/", "//a", "/b", "a", "A", "é", "\ud800", "a" * 33]
TEXTS += ["lock", "unlock", "access", "get", "set", "add"]
# What a hint calls the parts that refusals name in other words; and the parts that both name alike.
PARTS = {"row": "nodes", "step": "plan", "rows": "flow", "sign": "flow"}
PARTS |= {"lock-balance": "flow", "release-balance": "flow"}
SAME_PARTS = ("nodes", "list", "plan", "flow")
QUOTED = re.compile(r'"(?:[^"\\]|\\.)*"')
VALUES = [None, True, False, [], {}, [[]], "1"]


def tries(program: str, _room: str) -> list[Try]:
    return [
        Try(f"{name}, seed {seed}", partial(mutilate_each, program, text, seed))
        for seed, (name, text) in enumerate(whole())
    ]


def whole() -> list[tuple[str, bytes]]:
    """The documents that are mutilated: the examples, what was planned of them, and some with seeded trees."""
    names = {it.text: it.name for it in examples() + certified_examples()}
    names.update((seeded(seed), f"seeded document {seed}") for seed in range(SEEDED))
    return [(name, text) for text, name in names.items()]


def mutilate_each(program: str, text: bytes, seed: int, tally: Tally) -> None:
    random = Random(seed)
    text = planned(program, text)
    for number in range(EACH):
        document = mutilated(random, text)
        costs = {command: ask(program, command, document, f"number {number}", tally) for command in ("judge", "check")}
        costs["plan"] = plan(program, document, f"number {number}", tally)
        tally.blame(f"number {number}", told(disagreement(costs), document))


def planned(program: str, text: bytes) -> bytes:
    """The document with the program's plan and flow, if it has no plan of its own, and else as it stands."""
    ran = run(program, "plan", text=text)
    return text if b'"plan"' in text or ran.status else put_back(text, ran.out)


def ask(program: str, command: str, document: bytes, where: str, tally: Tally) -> int | None:
    ran = run(program, command, text=document)
    tally.note(f"{where}, {command}", told(form_fault(command, ran) or hint_fault(ran), document))
    return cost_of(command, ran)


def plan(program: str, document: bytes, where: str, tally: Tally) -> int | None:
    """Asks for a plan, and has it checked."""
    ran = run(program, "plan", text=document)
    tally.note(f"{where}, plan", told(form_fault("plan", ran) or hint_fault(ran), document))
    cost = cost_of("plan", ran)
    if cost is not None:
        checked = run(program, "check", text=put_back(document, ran.out))
        wanted = Ran(0, b"cost %d\n" % cost, b"")
        fault = None if checked == wanted else f"wanted {wanted} of what was planned; came {checked}"
        tally.note(f"{where}, plan checked", told(fault, document))
    return cost


def hint_fault(ran: Ran) -> str | None:
    """What is wrong with the hint of a refusal: it isn't there, tells of another place, or quotes what is no JSON."""
    if ran.status != 1:
        return None
    hint = ran.hint.decode()
    place = place_in(ran.out.decode().split()[1:])
    if not hint or place and not re.search(rf"(?<![\w\"]){place}(?!\w| \d)", hint):
        return f"a refusal with a hint of no or another place: {ran} {hint!r}"
    if "JSON" not in hint and not all(is_text(quoted) for quoted in QUOTED.findall(hint)):
        return f"a hint that quotes no JSON: {hint!r}"
    return None


def place_in(words: list[str]) -> str | None:
    """The place that a refusal names, in the words of a hint. `no member` has the member's name in quotes."""
    match words:
        case [_, part, *numbers] if part in SAME_PARTS:
            return " ".join((part, *numbers)) if numbers else f'"?{part}"?'
        case [name, number, *_] if name in PARTS and number.isdigit():
            return f"{PARTS[name]} {number}"
    return None


def is_text(quoted: str) -> bool:
    try:
        return isinstance(json.loads(quoted), str)
    except ValueError:
        return False


def told(fault: str | None, document: bytes) -> str | None:
    return fault and f"{fault}, on {document!r}"


def disagreement(costs: dict[str, int | None]) -> str | None:
    """What is wrong with the costs that the three commands print of one document; none if a command prints no cost."""
    judged, checked, least = costs["judge"], costs["check"], costs["plan"]
    if checked is not None and not judged == checked == least:
        return f"a certified plan has one cost: {costs}"
    if judged is not None and least is None:
        return f"a plan is judged, and none is made: {costs}"
    if judged is not None and judged < least:
        return f"a plan is cheaper than the cheapest: {costs}"
    return None


def mutilated(random: Random, text: bytes) -> bytes:
    """The document changed in one to three places, as bytes or, more often, as values."""
    change = random.choice([change_bytes, change_values, change_values, change_values])
    for _ in range(random.choice([1, 1, 1, 2, 3])):
        text = change(random, text)
    return text


def change_bytes(random: Random, text: bytes) -> bytes:
    at, to = sorted(random.randrange(len(text) + 1) for _ in range(2))
    near = min(to, at + 8)
    flipped = bytes([text[at] ^ 1 << random.randrange(8)]) if at < len(text) else b"\xff"
    return random.choice(
        [
            text[:at] + flipped + text[at + 1 :],
            text[:at],
            text[:at] + text[near:],
            text[:near] + text[at:],
            text[:to] + text[at:],
            text[:at] + random.choice(b"{}[],:\"\\0-e. \x00\xff\n").to_bytes(1, "big") + text[at:],
            text[:at] + random.randbytes(random.randint(1, 4)) + text[near:],
        ]
    )


def change_values(random: Random, text: bytes) -> bytes:
    try:
        document = json.loads(text)
    except ValueError:
        return change_bytes(random, text)
    places = places_of(document)
    if not places:
        return change_bytes(random, text)
    holder, key = random.choice(places)
    random.choice([drop, double, replace, step, step, borrow, borrow])(random, holder, key, places)
    return json.dumps(document).encode()


def places_of(value) -> list[tuple]:
    """Each member and item below the value, as what holds it and its name or number."""
    keys = list(value) if isinstance(value, dict) else range(len(value)) if isinstance(value, list) else []
    return [(value, key) for key in keys] + [place for key in keys for place in places_of(value[key])]


def drop(_random: Random, holder, key, _places) -> None:
    del holder[key]


def double(random: Random, holder, key, _places) -> None:
    if isinstance(holder, list):
        holder.insert(random.randint(0, len(holder)), holder[key])
    else:
        holder[f"{key}{key}"] = holder[key]


def replace(random: Random, holder, key, _places) -> None:
    like = {int: NUMBERS, float: NUMBERS, str: TEXTS}.get(type(holder[key]), VALUES)
    holder[key] = random.choice(random.choice([like, like, VALUES]))


def step(random: Random, holder, key, _places) -> None:
    """Changes a number by one, or a text by a letter."""
    if type(holder[key]) is int:
        holder[key] += random.choice([-1, 1])
    elif isinstance(holder[key], str):
        holder[key] = random.choice([holder[key][1:], holder[key][:-1], holder[key] + "a", holder[key] + "/a"])
    else:
        holder[key] = random.choice(NUMBERS)


def borrow(random: Random, holder, key, places) -> None:
    """Puts another value of the document there, most often one of the same kind."""
    others = [there[other] for there, other in places if type(there[other]) is type(holder[key])]
    holder[key] = json.loads(json.dumps(random.choice(others)))
