"""The promises of docs/PROOFS.md, with the clauses that carry each, as tools/promised.txt has them."""
import re

from contracts import clauses_of, values
from definitions import TOP, closure, crates

PAGE = TOP / "docs/PROOFS.md"
PROMISED = TOP / "tools/promised.txt"
# A line of a promise: a crate, a call, and the names of its clauses, none for the only one.
CALL = re.compile(r"  (grove\w*) ([\w:]+?)(?:: ([\w ]+))?")


class Promise:
    """A promise: its title, and the calls that carry it, each with the names of its clauses."""

    def __init__(self, title):
        self.title, self.calls = title, []


def promises():
    """The promises, in the page's order. What is neither one, nor a call, nor a comment is an error."""
    found = []
    for line in PROMISED.read_text().replace("\n    ", " ").splitlines():
        call = CALL.fullmatch(line)
        if call:
            found[-1].calls.append((call[1], call[2], (call[3] or "").split()))
        elif line.startswith(" "):
            raise ValueError(f"{PROMISED.name}: no call and its clauses: {line}")
        elif line and not line.startswith("#"):
            found.append(Promise(line))
    return found


def sections():
    """The sections of the page that are promises: of each the calls that the page names as those that carry it."""
    parts = re.split(r"(?m)^##+ ", PAGE.read_text())[1:]
    carried = {part.split("\n", 1)[0]: re.search(r"(?m)^\*\*Carried by\*\* (.*)$", part) for part in parts}
    return {title: re.findall(r"`([\w:]+)`", found[1]) for title, found in carried.items() if found}


def reach(files):
    """Of each promise the definitions that its clauses reach, lemmas aside, and the clauses that there aren't."""
    values_of = values()
    for promise in promises():
        begin, missing = set(), []
        for crate, call, names in promise.calls:
            there = clauses_of(crate, call, values_of) if crate in crates() else []
            begin |= roots_in(there, names)
            missing += missing_in(there, f"{crate} {call}", names)
        yield promise, closure(files, begin, with_lemmas=False), missing


def roots_in(there, names):
    """What the clauses of these names, or all if none is named, and those that are required name."""
    wanted = [clause for clause in there if clause.kind == "requires" or not names or clause.name in names]
    return {root for clause in wanted for root in clause.roots}


def missing_in(there, call, names):
    """The clauses of a call that are named and aren't there. A call whose clauses aren't named has one."""
    ensured = [clause.name for clause in there if clause.kind == "ensures"]
    if not names:
        return [] if len(ensured) == 1 else [f"that is the only one of {call}"]
    return [f"{call}: {name}" for name in names if name not in ensured]
