"""A store as docs/SESSIONS.md describes it, by itself: which reply is right for a line, and what does it leave?

It is that of one worker, which does a batch's lists in their order, so that no node is ever waited for. Of the plans
that are right for a list it takes any least one that locks what it has to, with whatever flow certifies it.
"""
import json

from asking import Refused, asked_of
from certificate import fault_of_certificate, is_flow
from plans import cost_of_plan, fault_of_plan
from tree import Tree

MOST_LINE = 1_048_576
MOST_WEIGHT = 1000
LEAST, MOST = -(2**63), 2**63 - 1


def compact(value):
    return json.dumps(value, separators=(",", ":"), sort_keys=True).encode()


def error(name):
    return {"error": name}


class Store:
    def __init__(self, document):
        self.nodes = [dict(row) for row in document["nodes"]]
        self.tree = Tree(self.nodes)
        self.records = [row.get("value", 0) for row in self.nodes]
        self.rounds = 0

    def fault_of(self, line, reply):
        """What is wrong with the reply (without its line feed) to the line; `None` if it is right. The store is then
        what the line leaves."""
        try:
            need_short(line)
            name, given = asked_of(self.tree, line)
        except Refused as refused:
            return told(compact(error(str(refused))), reply)
        if name == "plan":
            return self.fault_of_planned(given, reply)
        return told(compact(getattr(self, name)(given)), reply)

    def fault_of_planned(self, accesses, reply):
        try:
            found = json.loads(reply)
            cost, flow, steps = found["cost"], found["flow"], found["plan"]
            is_formed = found.keys() == {"cost", "flow", "plan"} and compact(found) == reply and is_flow(flow)
        except (ValueError, TypeError, KeyError):
            is_formed = False
        if not is_formed:
            return f"wanted a plan; came {reply[:200]!r}"
        fault = fault_of_plan(self.tree, accesses, steps)
        fault = fault or fault_of_certificate({"nodes": self.nodes, "list": accesses, "flow": flow}, cost)
        locked = sorted(self.tree.node_of[what] for kind, what in steps if kind == "lock")
        if fault or cost != cost_of_plan(self.tree, accesses, steps) or locked != self.tree.forced(accesses):
            return f"wanted a least plan; came {reply[:200]!r} ({fault or 'it costs or locks something else'})"
        return None

    def check(self, given):
        accesses, steps, flow = given
        fault = fault_of_plan(self.tree, accesses, steps)
        if not fault:
            cost = cost_of_plan(self.tree, accesses, steps)
            fault = fault_of_certificate({"nodes": self.nodes, "list": accesses, "flow": flow}, cost)
        return error(fault.split(" ")[0]) if fault else {"cost": cost}

    def batch(self, lists):
        self.rounds += 1
        replies = [[self.reply(access) for access in accesses] for accesses in lists]
        order = self.order(lists)
        places = [order.index(number) for number in range(len(lists))]
        return {"places": places, "replies": replies, "round": self.rounds}

    def reply(self, access):
        operation, node = access[0], self.tree.node_of[access[1]]
        now = self.records[node]
        if operation == "get":
            return now
        then = {"set": access[2], "add": now + access[2], "take": now - access[2]}[operation]
        if operation == "take" and now < access[2]:
            return "short"
        if not LEAST <= then <= MOST:
            return "range"
        self.records[node] = then
        return "ok" if operation == "set" else then

    def order(self, lists):
        """The lists by ascending depth of the first node that they lock, each put before the first one placed so far
        that locked its node later, and so has a greater number; those that lock nothing come last."""
        forced = [self.tree.forced(accesses) for accesses in lists]
        order = []
        for number in sorted(filter(forced.__getitem__, range(len(lists))), key=lambda at: self.depth(forced[at][0])):
            later = (at for at, other in enumerate(order) if other > number and forced[number][0] in forced[other])
            order.insert(next(later, len(order)), number)
        return order + [number for number in range(len(lists)) if not forced[number]]

    def depth(self, node):
        return len(self.tree.way_up(node))

    def weights(self, _given):
        return {"waits": [0] * len(self.nodes), "weights": self.tree.weights}

    def reweigh(self, _given):
        new = [min(MOST_WEIGHT, 1 + (weight - 1) // 2) for weight in self.tree.weights]
        changed = sum(now != then for now, then in zip(self.tree.weights, new))
        for row, weight in zip(self.nodes, new):
            row["weight"] = weight
        self.tree.weights = new
        return {"changed": changed}


def need_short(line):
    if len(line) > MOST_LINE:
        raise Refused("long-line")


def told(wanted, reply):
    return None if wanted == reply else f"wanted {wanted[:200]!r}; came {reply[:200]!r}"
