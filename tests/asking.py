"""The rules of docs/FORMATS.md on session lines, by themselves: what does a line ask for, or how is it refused?"""
import json
import re

MOST_ACCESSES, MOST_LISTS, MOST_LENGTH, MOST_DEPTH = 64, 256, 1000, 127
TEXT = re.compile(r'"(?:[^"\\]|\\.)*"', re.DOTALL)
AMOUNTS = ("above", "held", "first", "last", "own")


class Refused(Exception):
    """The line has this fault."""


def need(is_well, name):
    if not is_well:
        raise Refused(name)


def asked_of(tree, line):
    """What the line asks for: the request's name, and what it is about. A line that is refused raises its fault."""
    value = json_of(line)
    need(isinstance(value, dict) and len(value) == 1, "shape")
    ((name, given),) = value.items()
    need(name in READERS, "shape")
    return name, READERS[name](tree, given)


# ---- JSON


def json_of(line):
    """The JSON value of the bytes, whose whole numbers beyond 64 bits are floats."""
    try:
        text = line.decode()
        need(depth_of(text) <= MOST_DEPTH, "bad-json")
        reading = {"parse_int": whole_of, "parse_float": float_of, "parse_constant": float_of}
        return members_of([("", json.loads(text, object_pairs_hook=members_of, **reading))])[""]
    except ValueError:
        raise Refused("bad-json") from None


def depth_of(text):
    """How deep brackets nest, outside of texts."""
    depth = most = 0
    for mark in re.findall(r"[][{}]", TEXT.sub("", text)):
        depth += 1 if mark in "[{" else -1
        most = max(most, depth)
    return most


def members_of(pairs):
    # (half a character, which no text has, can't be encoded)
    json.dumps(pairs, ensure_ascii=False).encode()
    return dict(pairs)


def whole_of(text):
    number = int(text)
    return number if -(2**63) <= number < 2**64 and text != "-0" else float_of(text)


def float_of(text):
    number = float(text)
    need(number - number == 0, "bad-json")
    return number


# ---- items


def is_unsigned(value, below=2**64):
    return type(value) is int and 0 <= value < below


def is_signed(value):
    return type(value) is int and -(2**63) <= value < 2**63


def list_of(tree, given, has_lengths=True):
    need(isinstance(given, list), "shape")
    need(len(given) <= MOST_ACCESSES, "limit")
    for access in given:
        need(is_access(access, has_lengths), "shape")
        need(access[1] in tree.node_of, "no-path")
        need(len(access) == items_of(access) or 1 <= access[-1] <= MOST_LENGTH, "bad-length")
    return given


def items_of(access):
    """How many items an access has before its length."""
    return 2 if access[0] == "get" else 3


def is_access(access, has_lengths):
    if not isinstance(access, list) or not access or access[0] not in ("get", "set", "add", "take"):
        return False
    length = access[items_of(access) :]
    is_well = len(access) >= items_of(access) and isinstance(access[1], str)
    is_well = is_well and (access[0] == "get" or is_signed(access[2]))
    return is_well and (not length or has_lengths and len(length) == 1 and is_unsigned(length[0]))


def steps_of(tree, given):
    need(isinstance(given, list), "shape")
    for step in given:
        need(isinstance(step, list) and len(step) == 2 and step[0] in ("lock", "unlock", "access"), "shape")
        need(is_unsigned(step[1], 2**32) if step[0] == "access" else isinstance(step[1], str), "shape")
        need(step[0] == "access" or step[1] in tree.node_of, "no-path")
    return given


def flow_of(tree, given):
    need(isinstance(given, list), "shape")
    for row in given:
        need(isinstance(row, dict) and isinstance(row.get("node"), str), "shape")
        need(all(is_unsigned(row.get(amount)) for amount in AMOUNTS), "shape")
        need(row["node"] in tree.node_of, "no-path")
    return given


# ---- requests


def check_of(tree, given):
    need(isinstance(given, dict), "shape")
    version = given.get("version", 1)
    need(type(version) is int and version in (1, 2), "shape")
    accesses = list_of(tree, given.get("list"), has_lengths=version == 2)
    return accesses, steps_of(tree, given.get("plan")), flow_of(tree, given.get("flow"))


def lists_of(tree, given):
    need(isinstance(given, list), "shape")
    need(len(given) <= MOST_LISTS, "limit")
    return [list_of(tree, accesses) for accesses in given]


READERS = {
    "plan": list_of,
    "check": check_of,
    "batch": lists_of,
    "weights": lambda _tree, _given: None,
    "reweigh": lambda _tree, _given: None,
}
