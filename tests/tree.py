"""The tree of a document's rows, and the nodes that a list forces."""


class Tree:
    """Rows by node number: what each has above it, its weight and its path."""

    def __init__(self, rows):
        self.parents = [row["parent"] for row in rows]
        self.weights = [row["weight"] for row in rows]
        self.paths = []
        for row in rows:
            above = "" if row["parent"] in (None, 0) else self.paths[row["parent"]]
            self.paths.append(f"{above}/{row['name']}")
        self.node_of = {path: node for node, path in enumerate(self.paths)}
        # The forced nodes of the lists that were asked for, by the paths of these.
        self.known = {}

    def way_up(self, node):
        """The node and those above it, itself first."""
        way = [node]
        while self.parents[way[-1]] is not None:
            way.append(self.parents[way[-1]])
        return way

    def forced(self, accesses):
        """The nodes above an accessed node and at or below the lowest one that is above them all, ascending."""
        paths = tuple(access[1] for access in accesses)
        if paths not in self.known:
            self.known[paths] = self.forced_by(accesses) if accesses else []
        return self.known[paths]

    def forced_by(self, accesses):
        ways = [self.way_up(node) for node in set(self.accessed(accesses))]
        above_all = set.intersection(*map(set, ways))
        return sorted(set.union(*map(set, ways)) - above_all | {max(above_all)})

    def accessed(self, accesses):
        """The nodes of the accesses, in their order."""
        return [self.node_of[access[1]] for access in accesses]


def length_of(access):
    """How many slots an access takes."""
    items = 2 if access[0] == "get" else 3
    return access[items] if len(access) > items else 1


def ends_of(accesses):
    """The numbers of slots before each access, and after the last one."""
    ends = [0]
    for access in accesses:
        ends.append(ends[-1] + length_of(access))
    return ends
