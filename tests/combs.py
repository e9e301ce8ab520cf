"""Makers of combs, the trees on which most is forced.

A comb is a tree with chains of nodes side by side under its root, `chain` nodes in each but perhaps the last; each
node's record is its number. Its list adds 1 to the last node of each of the first chains, in their order. If nothing
else is said, the root weighs 1,000 and every other node 1.
"""
from makers import compact, maker, numbers


def comb_parent(node, chain):
    """The chain's first node hangs below the root, each other below the one before it."""
    return 0 if (node - 1) % chain == 0 else node - 1


def comb_path(node, chain):
    if node == 0:
        return "/"
    first = node - (node - 1) % chain
    return "".join(f"/n{number}" for number in range(first, node + 1))


def comb_chain(number, chain, nodes):
    """The nodes of a chain of the comb, from the top down."""
    return range(1 + number * chain, min(1 + (number + 1) * chain, nodes))


def locks(paths):
    return [["lock", path] for path in paths]


def unlocks(paths):
    return [["unlock", path] for path in paths]


@maker
def comb_rows(words):
    """`comb_rows NODES CHAIN WEIGHT`: the rows of such a tree of so many nodes, those below the root of this weight."""
    nodes, chain, weight = numbers(words)
    rows = [{"parent": None, "name": "", "weight": 1000, "value": 0}]
    for node in range(1, nodes):
        rows.append({"parent": comb_parent(node, chain), "name": f"n{node}", "weight": weight, "value": node})
    return compact(rows)[1:-1]


@maker
def comb_list(words):
    """`comb_list ACCESSES CHAIN`: adds 1 to the last node of each of so many chains."""
    accesses, chain = numbers(words)
    return compact([["add", comb_path(number * chain + chain, chain), 1] for number in range(accesses)])


@maker
def comb_timed_list(words):
    """`comb_timed_list ACCESSES CHAIN LENGTH`: the same, each access of so many slots."""
    accesses, chain, length = numbers(words)
    return compact([["add", comb_path(number * chain + chain, chain), 1, length] for number in range(accesses)])


@maker
def comb_replies(words):
    """What that list answers: each last node's number and 1."""
    accesses, chain = numbers(words)
    return compact([number * chain + chain + 1 for number in range(accesses)])


@maker
def comb_records(words):
    """`comb_records NODES ACCESSES CHAIN`: the records after that list."""
    nodes, accesses, chain = numbers(words)
    added = {number * chain + chain for number in range(accesses)}
    return compact([node + (node in added) for node in range(nodes)])


@maker
def comb_walk(words):
    """`comb_walk NODES ACCESSES CHAIN`: a legal plan that locks every node of the tree. The root is held throughout;
    each chain is locked from the top down, then its access is done if it has one, and then it is unlocked."""
    nodes, accesses, chain = numbers(words)
    steps = [["lock", "/"]]
    for number in range((nodes - 2) // chain + 1):
        paths = [comb_path(node, chain) for node in comb_chain(number, chain, nodes)]
        steps += locks(paths) + [["access", number]] * (number < accesses) + unlocks(paths)
    return compact(steps + [["unlock", "/"]])


@maker
def comb_throughout(words):
    """`comb_throughout NODES ACCESSES CHAIN`: the plan that locks every node before the first access and unlocks it
    after the last."""
    nodes, accesses, chain = numbers(words)
    paths = [comb_path(node, chain) for node in range(nodes)]
    return compact(locks(paths) + [["access", number] for number in range(accesses)] + unlocks(paths))


@maker
def comb_plan(words):
    """`comb_plan ACCESSES CHAIN`: the settled plan of the list, for chains of at least two nodes.

    The root is unlocked before the first access, since holding it costs more than all other nodes save by it. So the
    first node of each chain is locked before the first access, and waits: each other node of the chain is locked as
    late as it can be, just before the chain's access, and what is above the last one is unlocked then."""
    accesses, chain = numbers(words)
    chains = [[comb_path(node, chain) for node in comb_chain(number, chain, 1 + accesses * chain)]
              for number in range(accesses)]
    steps = locks(["/", *chains[0], *[others[0] for others in chains[1:]]]) + unlocks(["/"])
    for number, paths in enumerate(chains):
        if number > 0:
            steps += unlocks([chains[number - 1][-1]]) + locks(paths[1:])
        steps += unlocks(paths[:-1]) + [["access", number]]
    return compact(steps + unlocks([chains[-1][-1]]))


@maker
def comb_flow(words):
    """`comb_flow ACCESSES CHAIN`: a certificate of that plan's cost. In the first chain each node is locked no earlier
    than its parent, so the root's weight is paid there; in each other chain the parent waits for the child."""
    accesses, chain = numbers(words)
    paid = accesses - 1
    rows = [{"node": "/", "above": 0, "held": 0, "first": 0, "last": 0, "own": 1000 - paid}]
    for node in range(1, 1 + accesses * chain):
        is_first, is_last = node <= chain, node % chain == 0
        rows.append({
            "node": comb_path(node, chain),
            "above": paid if is_first else 0,
            "held": 0 if is_first else 1,
            "first": accesses if is_first and is_last else 0,
            "last": 1 if is_last else 0,
            "own": 1 if is_first and not is_last else 0,
        })
    return compact(rows)
