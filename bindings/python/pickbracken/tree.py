"""Trees of nodes with a weight and a record each."""

from __future__ import annotations

import json
from array import array
from dataclasses import dataclass, field, replace
from functools import cached_property
from typing import Any, Dict, Iterable, Iterator, List, Mapping, Optional, Sequence, Tuple, Union

from .accesses import Access, Reply
from .faults import BadPath, NoNode
from .kept import KeptTree, opened
from .planning import Drawing, Judgement, Plan, drawn
from .steps import Step


@dataclass(frozen=True)
class Node:
    """A row of a tree: the number of the parent's row, unless it is the root, the name, the weight and the record."""

    parent: Optional[int]
    name: str
    weight: int
    record: int = 0

    def form(self) -> Dict[str, object]:
        """The row as a document has it."""
        return {"parent": self.parent, "name": self.name, "weight": self.weight, "value": self.record}


@dataclass
class Branch:
    """A node of a tree that isn't laid out yet."""

    weight: int = 1
    record: int = 0
    children: Dict[str, Branch] = field(default_factory=dict)


@dataclass(frozen=True)
class Tree:
    """Nodes in preorder. Whether they are a tree as grove takes it is seen by each call. From its first plan on the
    library keeps the tree, which is read but once."""

    nodes: Tuple[Node, ...]

    @staticmethod
    def from_paths(weights: Mapping[str, int], records: Mapping[str, int] = {}) -> Tree:
        """A tree of the nodes of these paths, each with its weight; each node above one of them has weight 1 unless it
        is one of them too. The records that aren't given are 0."""
        top = Branch()
        for path, weight in weights.items():
            branch = top
            for name in names_of(path):
                branch = branch.children.setdefault(name, Branch())
            branch.weight = weight
        for path, record in records.items():
            branch_at(top, path).record = record
        return Tree(tuple(laid_out(top)))

    def plan(self, accesses: Iterable[Access]) -> Plan:
        """The settled plan: no legal plan of the list costs less, and of all that cost as little it is the latest."""
        kept = self.kept
        return Plan.of(kept.plan(tuple(accesses)), kept.names.paths)

    def check(self, accesses: Iterable[Access], plan: Plan) -> int:
        """What a plan costs that its flow proves to be least. Else it is refused, whoever made the two; the cost that
        the plan has isn't looked at."""
        return self.kept.check(tuple(accesses), plan.steps, plan.flow)

    def judge(self, accesses: Iterable[Access], steps: Sequence[Step]) -> Judgement:
        """What steps cost that are a legal plan of the list, and what the list replies and leaves."""
        kept, given = self.kept, tuple(accesses)
        cost = kept.judge(given, steps)
        records = [node.record for node in self.nodes]
        replies: List[Union[int, Reply]] = []
        for access in given:
            node = kept.names.number_of[access.path]
            reply, records[node] = access.done_on(records[node])
            replies.append(reply)
        return Judgement(cost, tuple(replies), tuple(records))

    def reweigh(self, waits: Mapping[str, int]) -> Tree:
        """The tree with new weights, made of the old ones and of how often each node was waited for: not at all if its
        path isn't named (docs/PROTOCOL.md has the rule)."""
        kept, weighed = self.kept.reweighed(waits)
        made = Tree(tuple([replace(node, weight=weight) for node, weight in zip(self.nodes, weighed)]))
        made.keep(kept)
        return made

    def draw(self, accesses: Iterable[Access], steps: Optional[Sequence[Step]] = None) -> Drawing:
        """The settled plan, and above it the steps, if there are any and they are a legal plan of the list."""
        return drawn(self.rows(), accesses, steps)

    def __reduce__(self) -> Tuple[Any, ...]:
        """As its nodes; what the library keeps belongs to this tree alone."""
        return Tree, (self.nodes,)

    def rows(self) -> List[Dict[str, object]]:
        """The nodes as a document has them."""
        return [node.form() for node in self.nodes]

    def document(self) -> bytes:
        """The document of the tree and its records, without a list."""
        return json.dumps({"version": 2, "nodes": self.rows()}, separators=(",", ":")).encode()

    @cached_property
    def kept(self) -> KeptTree:
        """The tree as the library keeps it."""
        handle = opened(self.document())
        parents, weights = [node.parent or 0 for node in self.nodes], [node.weight for node in self.nodes]
        return KeptTree(handle, array("I", parents), array("I", weights), self.paths())

    def keep(self, kept: KeptTree) -> None:
        """Takes over what the library keeps of this tree already."""
        vars(self)["kept"] = kept

    def paths(self) -> List[str]:
        """The path of each node, in the tree's order: that of records."""
        paths: List[str] = []
        for node in self.nodes:
            above = "" if not node.parent else paths[node.parent]
            paths.append(f"{above}/{node.name}")
        return paths


def names_of(path: str) -> List[str]:
    """The names on the way down a path."""
    names = path.split("/")[1:]
    if path == "/":
        return []
    if not path.startswith("/") or not all(names):
        raise BadPath(f"{path!r} is no path from the root down")
    return names


def branch_at(top: Branch, path: str) -> Branch:
    """The branch that a path leads to."""
    branch = top
    for name in names_of(path):
        if name not in branch.children:
            raise NoNode(f"no node has the path {path!r}")
        branch = branch.children[name]
    return branch


def laid_out(top: Branch) -> Iterator[Node]:
    """The nodes of the branches from this one down, in preorder. (A path may have more names than calls can nest.)"""
    number = 0
    left: List[Tuple[Optional[int], str, Branch]] = [(None, "", top)]
    while left:
        parent, name, branch = left.pop()
        yield Node(parent, name, branch.weight, branch.record)
        left += [(number, child, branch.children[child]) for child in reversed(branch.children)]
        number += 1
