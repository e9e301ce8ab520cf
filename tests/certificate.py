"""The rules of docs/CERTIFICATE.md, by themselves: what is the first one that a document's flow breaks?"""
from tree import Tree, ends_of

MOST = 2**40
AMOUNTS = {"above", "held", "first", "last", "own"}


def is_flow(flow):
    """Is it written as flows are, each row with its node and its amounts and no more?"""
    return isinstance(flow, list) and all(
        isinstance(row, dict) and row.keys() == AMOUNTS | {"node"} and all(type(row[name]) is int for name in AMOUNTS)
        for row in flow
    )


def fault_of_certificate(document, cost):
    """The first fault of the document's flow as a certificate of this cost, as `check` names it; `None` if it is
    one."""
    tree, accesses, flow = Tree(document["nodes"]), document["list"], document["flow"]
    forced = tree.forced(accesses)
    wanted, found = [tree.paths[node] for node in forced], [row["node"] for row in flow]
    if found != wanted:
        shorter = min(len(found), len(wanted))
        return f"rows {next((i for i in range(shorter) if found[i] != wanted[i]), shorter)}"
    rows = dict(zip(forced, flow))
    accessed = tree.accessed(accesses)
    for name, is_well in RULES:
        for number, node in enumerate(forced):
            below = [rows[child] for child in forced[1:] if tree.parents[child] == node]
            if not is_well(rows[node], below, tree.weights[node], number == 0, node in accessed):
                return f"{name} {number}"
    bound = sum(bound_of(rows[node], node, accessed, ends_of(accesses)) for node in rows)
    return None if bound == cost else f"value {cost} {bound}"


def has_its_signs(row, _below, _weight, is_top, is_accessed):
    return not (is_top and (row["above"] or row["held"]) or not is_accessed and (row["first"] or row["last"]))


def is_small(row, _below, _weight, _is_top, _is_accessed):
    return all(row[amount] <= MOST for amount in AMOUNTS)


def balances_its_lock(row, below, weight, _is_top, _is_accessed):
    return row["above"] + weight == sum(child["above"] for child in below) + row["held"] + row["first"] + row["own"]


def balances_its_release(row, below, weight, _is_top, _is_accessed):
    return sum(child["held"] for child in below) + row["last"] + row["own"] == weight


# Each is tried on all rows before the next one is.
RULES = [
    ("sign", has_its_signs),
    ("too-big", is_small),
    ("lock-balance", balances_its_lock),
    ("release-balance", balances_its_release),
]


def bound_of(row, node, accessed, ends):
    """What the row adds to the bound."""
    if node not in accessed:
        return 0
    first = accessed.index(node)
    last = len(accessed) - 1 - accessed[::-1].index(node)
    return row["last"] * ends[last + 1] - row["first"] * ends[first]
