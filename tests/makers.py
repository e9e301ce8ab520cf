"""Makers of large texts. Each is named in a case by a line `= MAKER WORDS`, and gives its text from a rule, so that a
large input and the answer wanted to it come from the same rule and never from the program. combs.py has more of them.
"""
import json

MAKERS = {}


def maker(make):
    MAKERS[make.__name__] = make
    return make


def numbers(words):
    return [int(word) for word in words.split()]


def compact(value):
    return json.dumps(value, separators=(",", ":"))


@maker
def text(words):
    """The given words themselves, without a line feed."""
    return words


@maker
def line(words):
    """`line WORD MAKER WORDS`: a line of output, the word and what the maker gives."""
    word, name, rest = words.split(" ", 2)
    return f"{word} {MAKERS[name](rest)}\n"


@maker
def times(words):
    """`times 3 x` is `xxx`."""
    count, _, part = words.partition(" ")
    return part * int(count)


@maker
def zeros(words):
    """So many zero bytes."""
    return "\0" * int(words)


@maker
def blanks(words):
    """So many blanks."""
    return " " * int(words)


@maker
def repeat(words):
    """`repeat 3 x` is `x,x,x`."""
    count, _, item = words.partition(" ")
    return ",".join([item] * int(count))


@maker
def counting(words):
    """`counting 3 5` is `3,4,5`."""
    first, last = numbers(words)
    return ",".join(map(str, range(first, last + 1)))


@maker
def counting_alone(words):
    """`counting_alone 3 5` is `[3],[4],[5]`."""
    first, last = numbers(words)
    return ",".join(f"[{number}]" for number in range(first, last + 1))


@maker
def access_steps(words):
    """`access_steps 2` is the steps that do the accesses 0 and 1."""
    return compact([["access", number] for number in range(int(words))])[1:-1]


@maker
def all_but_the_last(words):
    """`all_but_the_last MAKER WORDS`: the array that this maker gives, without its last item."""
    name, _, rest = words.partition(" ")
    return compact(json.loads(MAKERS[name](rest))[:-1])


@maker
def star_rows(words):
    """So many rows: a root and its children `n1`, `n2`, .., each with its number as record."""
    (count,) = numbers(words)
    rows = [{"parent": None, "name": "", "weight": 1}]
    rows += [{"parent": 0, "name": f"n{node}", "weight": 1, "value": node} for node in range(1, count)]
    return compact(rows)[1:-1]


@maker
def chain_rows(words):
    """`chain_rows 0 5 x`: the rows 0 to 5 of a chain, each below the row before it and named `x` but for the root."""
    first, last, name = words.split()
    rows = [{"parent": None, "name": "", "weight": 1}]
    rows += [{"parent": node, "name": name, "weight": 1} for node in range(int(last))]
    return compact(rows[int(first):])[1:-1]


@maker
def chain_path(words):
    """`chain_path 5 x`: the path of the node five steps below the root of such a chain."""
    depth, name = words.split()
    return f"/{name}" * int(depth) or "/"


@maker
def chain_steps(words):
    """`chain_steps lock 1 3 x` is the locks of the nodes from one to three steps below the root of such a chain."""
    kind, first, last, name = words.split()
    paths = [chain_path(f"{depth} {name}") for depth in range(int(first), int(last) + 1)]
    return compact([[kind, path] for path in paths])[1:-1]


@maker
def chain_flow(words):
    """`chain_flow 1 3 x` is the rows of those nodes in a flow in which each pays for itself."""
    first, last, name = words.split()
    amounts = {"above": 0, "held": 0, "first": 0, "last": 0, "own": 1}
    rows = [{"node": chain_path(f"{depth} {name}")} | amounts for depth in range(int(first), int(last) + 1)]
    return compact(rows)[1:-1]


@maker
def star_list(words):
    """Gets of so many children of such a star, in their order."""
    (count,) = numbers(words)
    return compact([["get", f"/n{node}"] for node in range(1, count + 1)])


@maker
def star_plan(words):
    """The settled plan of that list, with all weights 1: the root is held until the last child is locked, since each
    access during which it is held spares at least one child a wait. The last child alone would wait as cheaply."""
    (count,) = numbers(words)
    steps = [["lock", "/"]]
    for node in range(1, count + 1):
        steps += [["lock", f"/n{node}"]] + [["unlock", "/"]] * (node == count)
        steps += [["access", node - 1], ["unlock", f"/n{node}"]]
    return compact(steps)
