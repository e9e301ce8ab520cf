"""Reads a case from its file. README.md says what the sections and their manners are."""
import re
from dataclasses import dataclass, field

from case_text import BadCase, bytes_of

COMPARISONS = {"has", "certified", "either"}
# How a client sends: in pieces of so many bytes, each line once the one before is answered, or with no look at replies.
HOWS = {"in-1", "in-7", "in-turn", "and-leaves"}
# The sections that may stand more than once.
MANY = {"talk", "sends", "replies"}
SERVE = b"serve --tree tree.json --port PORT --workers 1".split()


@dataclass
class Wanted:
    """What a stream has to be: just this text, or what the README says of the comparison."""

    text: bytes = b""
    comparison: str = "exact"


@dataclass
class Connection:
    """What a client sends, and what has to come back."""

    sends: bytes
    how: str = ""
    replies: bytes = b""


@dataclass
class Case:
    words: list[bytes] = field(default_factory=list)
    input: bytes = b""
    files: dict[str, bytes] = field(default_factory=dict)
    folders: list[str] = field(default_factory=list)
    connections: list[Connection] = field(default_factory=list)
    is_port_taken: bool = False
    status: int | None = None
    output: Wanted = field(default_factory=Wanted)
    errors: Wanted | None = None
    seconds: float = 60.0


def read_case(path):
    text = path.read_text(encoding="utf-8")
    about, *sections = re.split(r"^--- ", text, flags=re.MULTILINE)
    if not about.strip() or not text.endswith("\n"):
        raise BadCase("it doesn't say what it shows, or doesn't end with its last line")
    case, seen = Case(), set()
    for section in sections:
        heading, _, body = section.partition("\n")
        kind, *rest = heading.split(" ")
        key = (kind, rest[0]) if kind in ("file", "folder") and rest else kind
        if key in seen - MANY:
            raise BadCase(f"two sections {heading}")
        seen.add(key)
        add_section(case, kind, rest, body)
    if (case.status is None) == (not case.connections):
        raise BadCase("it has a status, unless it has connections")
    return case


def add_section(case, kind, rest, body):
    if kind == "words":
        case.words = [bytes_of(line, rest) for line in body.split("\n")[:-1]]
    elif kind == "input":
        case.input = bytes_of(body, rest)
    elif kind == "file" and rest:
        case.files[rest[0]] = bytes_of(body, rest[1:])
    elif kind == "folder" and len(rest) == 1:
        case.folders.append(rest[0])
    elif kind == "tree":
        case.words = case.words or SERVE
        case.files["tree.json"] = bytes_of(body, rest)
    elif kind in ("talk", "sends", "replies"):
        add_connection(case, kind, [manner for manner in rest if manner not in HOWS], body)
        case.connections[-1].how = "".join(manner for manner in rest if manner in HOWS) or case.connections[-1].how
    elif kind == "taken" and not body:
        case.is_port_taken = True
    elif kind == "status" and not rest:
        case.status = int(body)
    elif kind == "output":
        case.output = wanted_of(body, rest)
    elif kind == "errors":
        case.errors = wanted_of(body, rest)
    elif kind == "seconds" and not rest:
        case.seconds = float(body)
    else:
        raise BadCase(f"no section is {' '.join([kind, *rest])}")


def add_connection(case, kind, manners, body):
    """A further connection, or the replies that the last one has to get. In a talk lines and replies stand in turn."""
    if kind == "sends":
        case.connections.append(Connection(bytes_of(body, manners)))
    elif kind == "talk":
        lines = [bytes_of(line + "\n", manners) for line in body.split("\n")[:-1]]
        if not lines or len(lines) % 2:
            raise BadCase("a talk has lines, and a reply to each")
        lines = [line.removesuffix(b"\n") + b"\n" for line in lines]
        case.connections.append(Connection(b"".join(lines[::2]), "", b"".join(lines[1::2])))
    elif case.connections and not case.connections[-1].replies:
        case.connections[-1].replies = bytes_of(body, manners)
    else:
        raise BadCase("there are replies to nothing")


def wanted_of(body, manners):
    comparisons = [manner for manner in manners if manner in COMPARISONS]
    text = bytes_of(body, [manner for manner in manners if manner not in COMPARISONS])
    if len(comparisons) > 1 or not text:
        raise BadCase("a stream is compared in one manner, with some text")
    return Wanted(text, comparisons[0] if comparisons else "exact")
