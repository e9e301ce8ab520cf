"""The rules of docs/PROTOCOL.md, by themselves: the first one that a plan breaks, and what a plan costs."""
from tree import length_of


class Locks:
    """The nodes that a plan has locked so far, and those that it holds."""

    def __init__(self, tree):
        self.tree, self.locked, self.held = tree, set(), set()

    def lock(self, node):
        if node in self.locked:
            return "relock"
        if self.locked and self.tree.parents[node] not in self.held:
            return "parent-not-held"
        self.locked.add(node)
        self.held.add(node)
        return None

    def unlock(self, node):
        if node not in self.held:
            return "not-held"
        self.held.remove(node)
        return None


def fault_of_plan(tree, accesses, steps):
    """The name of the plan's first fault; `None` if it is legal for the list."""
    return fault_of_steps(tree, accesses, steps, Locks(tree))


def fault_of_steps(tree, accesses, steps, locks):
    """The same by the rules of these locks."""
    done = 0
    for kind, what in steps:
        if kind == "access":
            fault = fault_of_access(tree, accesses, locks, done, what)
            done += 1
        else:
            fault = (locks.lock if kind == "lock" else locks.unlock)(tree.node_of[what])
        if fault:
            return fault
    if done < len(accesses):
        return "access-missing"
    return "still-held" if locks.held else None


def fault_of_access(tree, accesses, locks, done, number):
    if number >= len(accesses):
        return "strange"
    if number != done:
        return "wrong-access"
    return None if tree.node_of[accesses[number][1]] in locks.held else "access-not-held"


def cost_of_plan(tree, accesses, steps):
    """What a legal plan costs: for each slot the weights of the nodes that are held over it."""
    cost, held = 0, set()
    for kind, what in steps:
        if kind == "access":
            cost += length_of(accesses[what]) * sum(tree.weights[node] for node in held)
        else:
            held ^= {tree.node_of[what]}
    return cost


def bars_of_plan(tree, accesses, steps):
    """Of each node that a legal plan locks, in the tree's order: its path, how many accesses come before its lock and
    before its release, and what it costs."""
    done, ends, costs = 0, {}, {}
    for kind, what in steps:
        if kind == "access":
            held = [node for node, (_, release) in ends.items() if release is None]
            costs.update({node: costs[node] + length_of(accesses[what]) * tree.weights[node] for node in held})
            done += 1
        elif kind == "lock":
            ends[tree.node_of[what]], costs[tree.node_of[what]] = (done, None), 0
        else:
            ends[tree.node_of[what]] = (ends[tree.node_of[what]][0], done)
    return [(tree.paths[node], *ends[node], costs[node]) for node in sorted(ends)]
