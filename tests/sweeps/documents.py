"""What the sweeps ask of the program: documents and arguments, with the answers that are right for them."""

from __future__ import annotations

import json
from dataclasses import dataclass
from pathlib import Path
from random import Random

from sweeps.program import Ran

EXAMPLES = Path(__file__).resolve().parents[2] / "examples"
# The options of commands whose outputs are stored, by the kind of file.
OPTIONS = {("run", ".txt"): ("--workers", "1"), ("draw", ".txt"): ("--text",)}


@dataclass(frozen=True)
class Asked:
    """Arguments and an input, with the status and the output that are right for them.

    Without an output any text is right: on standard error if the status is 2, else on standard output."""

    name: str
    words: tuple[str, ...]
    text: bytes
    status: int
    output: bytes | None = None

    def fault(self, ran: Ran) -> str | None:
        """What is wrong with the run as an answer, if anything is."""
        if self.output is not None:
            is_right = ran == Ran(self.status, self.output, b"") and (self.status == 1 or not ran.hint)
            return None if is_right else f"wanted {self.output!r}; came {ran}"
        said, unsaid = (ran.err, ran.out) if self.status == 2 else (ran.out, ran.err)
        is_well = ran.status == self.status and said and not unsaid
        return None if is_well else f"wanted status {self.status} and a text on one stream; came {ran}"


def examples() -> list[Asked]:
    """The documents of examples/, each with the outputs that stand beside it as DOC.COMMAND.txt, and DOC.draw.svg."""
    return [example(stored) for stored in sorted([*EXAMPLES.glob("*.*.txt"), *EXAMPLES.glob("*.*.svg")])]


def example(stored: Path) -> Asked:
    name, command = stored.stem.rsplit(".", 1)
    output = stored.read_bytes()
    status = 1 if output.startswith(b"refused ") else 0
    words = (command, *OPTIONS.get((command, stored.suffix), ()))
    return Asked(f"{' '.join(words)} {name}.json", words, (EXAMPLES / f"{name}.json").read_bytes(), status, output)


def put_back(document: bytes, planned: bytes) -> bytes:
    """The document with the plan and the flow that `plan` printed of it in place of its own."""
    found = json.loads(document.decode("utf-8"))
    for line in planned.decode("utf-8").splitlines():
        name, value = line.split(" ", 1)
        if name in ("plan", "flow"):
            found[name] = json.loads(value)
    return json.dumps(found).encode()


def certified_examples() -> list[Asked]:
    """The planned examples once more, each with its plan and its flow, to be checked."""
    return [certified(it) for it in examples() if it.words == ("plan",)]


def certified(planned: Asked) -> Asked:
    cost = planned.output.splitlines(keepends=True)[0]
    return Asked(f"check what {planned.name} prints", ("check",), put_back(planned.text, planned.output), 0, cost)


def two_leaves() -> dict:
    """A root of weight 5 with two leaves, a list that reads both, and a plan with the flow that certifies it."""
    return json.loads((EXAMPLES / "two-leaves-certified.json").read_text())


# What is changed in the document of two leaves, as a path of keys and a value, and how the document is then refused.
REFUSED = [
    ("judge", ("nodes",), None, "shape nodes"),
    ("judge", ("nodes", 1, "weight"), "1", "shape nodes 1"),
    ("judge", ("nodes",), [], "tree empty"),
    ("judge", ("nodes", 2, "parent"), 2, "row 2 bad-parent"),
    ("judge", ("nodes", 1, "name"), "A", "row 1 bad-name"),
    ("judge", ("nodes", 2, "name"), "a", "row 2 twice-named"),
    ("judge", ("nodes", 0, "weight"), 0, "row 0 bad-weight"),
    ("judge", ("version",), 3, "shape whole"),
    ("judge", ("list",), None, "shape list"),
    ("judge", ("list",), [["get", "/a"]] * 65, "limit list"),
    ("judge", ("list", 1), ["get"], "shape list 1"),
    ("plan", ("list", 1), ["get", "/c"], "no-path list 1"),
    ("judge", ("plan",), None, "shape plan"),
    ("judge", ("plan", 3), ["lock"], "shape plan 3"),
    ("judge", ("plan", 3), ["lock", "/c"], "no-path plan 3"),
    ("judge", ("plan", 4), ["access", 2], "step 4 strange"),
    ("judge", ("plan", 2), ["lock", "/a"], "step 2 relock"),
    ("judge", ("plan", 1), ["unlock", "/"], "step 2 parent-not-held"),
    ("judge", ("plan", 0), ["unlock", "/"], "step 0 not-held"),
    ("judge", ("plan", 4), ["access", 1], "step 4 wrong-access"),
    ("judge", ("plan", 4), ["unlock", "/a"], "step 5 not-held"),
    ("judge", ("plan",), [["lock", "/b"], ["access", 0]], "step 1 access-not-held"),
    ("judge", ("plan",), [["lock", "/a"], ["access", 0], ["unlock", "/a"]], "access 1 missing"),
    ("judge", ("plan", 7), ["lock", "/b"], "step 7 relock"),
    ("check", ("flow",), None, "shape flow"),
    ("check", ("flow", 1), {"node": "/a"}, "shape flow 1"),
    ("check", ("flow", 1, "node"), "/c", "no-path flow 1"),
    ("check", ("flow", 1, "node"), "/b", "rows 1"),
    ("check", ("flow", 0, "above"), 1, "sign 0"),
    ("check", ("flow", 2, "own"), 2**40 + 1, "too-big 2"),
    ("check", ("flow", 0, "own"), 2**40, "lock-balance 0"),
    ("check", ("flow", 1, "last"), 2, "release-balance 1"),
]


def too_long() -> dict:
    """Two leaves, of which the second is read for more slots than there may be."""
    return two_leaves() | {"version": 2, "list": [["get", "/a", 1000], ["get", "/b", 1001]]}


def too_many() -> Asked:
    """More nodes than a tree has, refused. (A run on it takes too many growths to refuse each.)"""
    leaves = [{"parent": 0, "name": f"n{number}", "weight": 1} for number in range(4096)]
    return refusal("judge", json.dumps({"nodes": chain(1) + leaves}).encode(), "tree too-many")


def refused() -> list[Asked]:
    """A document for each other kind of refusal."""
    kinds = [
        refusal("judge", b"{", "bad-json"),
        refusal("judge", b"[]", "shape whole"),
        refusal("judge", b" " * 4_194_305, "limit whole"),
        refusal("judge", json.dumps({"nodes": chain(34)}).encode(), "row 33 too-deep"),
        refusal("judge", json.dumps(still_held()).encode(), "node /b still-held"),
        refusal("check", json.dumps(dearer()).encode(), "value 8 3"),
        refusal("plan", json.dumps(too_long()).encode(), "bad-length list 1"),
    ]
    return kinds + [refusal(command, changed(path, value), text) for command, path, value, text in REFUSED]


def refusal(command: str, document: bytes, text: str) -> Asked:
    return Asked(f"{command} {text}", (command,), document, 1, f"refused {text}\n".encode())


def helped() -> list[Asked]:
    """Arguments that ask for help."""
    return [Asked("help", ("--help",), b"", 0), Asked("help of a command", ("plan", "--help"), b"", 0)]


def wrong_words() -> list[Asked]:
    return [
        Asked("an unknown command", ("bogus",), b"", 2),
        Asked("an unknown flag", ("judge", "--bogus"), b"", 2),
        Asked("a word too many", ("check", "a", "b"), b"", 2),
    ]


def changed(path: tuple, value) -> bytes:
    found = two_leaves()
    inner = found
    for key in path[:-1]:
        inner = inner[key]
    inner[path[-1]] = value
    return json.dumps(found).encode()


def chain(length: int) -> list[dict]:
    root = {"parent": None, "name": "", "weight": 1}
    return [root] + [{"parent": at, "name": "a", "weight": 1} for at in range(length - 1)]


def still_held() -> dict:
    found = two_leaves()
    del found["plan"][-1]
    return found


def dearer() -> dict:
    """Two leaves, the root held over the first access: a legal plan, not the cheapest, beside a flow in balance."""
    found = two_leaves()
    steps = found["plan"]
    steps[3], steps[4] = steps[4], steps[3]
    return found


def seeded(seed: int) -> bytes:
    """A document with a tree of up to 24 nodes and a list of up to 12 accesses, no plan and no flow."""
    random = Random(seed)
    nodes = tree(random, random.randint(1, 24))
    paths = paths_of(nodes)
    accesses = [access(random, random.choice(paths)) for _ in range(random.randint(1, 12))]
    return json.dumps({"nodes": nodes, "list": accesses}).encode()


def tree(random: Random, size: int) -> list[dict]:
    nodes = [{"parent": None, "name": "", "weight": random.randint(1, 20)}]
    way = [0]
    for number in range(1, size):
        del way[random.randint(1, len(way)) :]
        weight, value = random.randint(1, 20), random.randint(-99, 99)
        nodes.append({"parent": way[-1], "name": f"n{number}", "weight": weight, "value": value})
        way.append(number)
    return nodes


def paths_of(nodes: list[dict]) -> list[str]:
    paths = ["/"]
    for row in nodes[1:]:
        above = paths[row["parent"]]
        paths.append(f"{above.rstrip('/')}/{row['name']}")
    return paths


def access(random: Random, path: str) -> list:
    operation = random.choice(["get", "set", "add"])
    return [operation, path] if operation == "get" else [operation, path, random.randint(-99, 99)]
