#!/usr/bin/env python3
"""Times `GET /nodes` of `grove page` over trees of 4,096 nodes.

    usage: bench/nodes.py [--times N] [--nodes N]

The trees are a binary one, whose deepest nodes have depth 12, and one with all nodes below the root. Each is asked for
N times, by default 200, one look after the other over a connection that stays. A row has the bytes of a response, the
server's processor time for a look, in the program and in the system, and the median of the times from request to
response.
"""
import argparse
import json
import os
import statistics
import sys
import time
from pathlib import Path

TOP = Path(__file__).resolve().parent.parent
sys.dont_write_bytecode = True
sys.path.insert(0, str(TOP / "tests"))
from server import Serving  # noqa: E402
from web import Client  # noqa: E402

PROGRAM = TOP / "crates/grove/out/grove"
NODES, TIMES, WARM = 4096, 200, 20
TICK = 1 / os.sysconf("SC_CLK_TCK")
# What `./grove` gives a server, so that it keeps no memory that is free.
MEMORY = "glibc.malloc.mmap_threshold=262144:glibc.malloc.trim_threshold=524288:glibc.malloc.arena_max=1"


def document(parents):
    """A tree by each row's parent, in preorder."""
    rows = [{"parent": None, "name": "", "weight": 5, "value": 0}]
    rows += [{"parent": up, "name": f"n{number}", "weight": 1, "value": number} for number, up in enumerate(parents, 1)]
    return json.dumps({"nodes": rows}).encode()


def flat(nodes):
    return document([0] * (nodes - 1))


def binary(nodes):
    """The parents in a tree whose rows are full from above, numbered anew in preorder."""
    parents = []

    def grow(place, parent):
        number = len(parents)
        parents.append(parent)
        for child in (2 * place + 1, 2 * place + 2):
            if child < nodes:
                grow(child, number)

    grow(0, None)
    return document(parents[1:])


def spent(process):
    """The seconds that all threads of a process have spent, in the program and in the system."""
    words = Path(f"/proc/{process}/stat").read_text(encoding="ascii").rpartition(")")[2].split()
    return int(words[11]) * TICK, int(words[12]) * TICK


def look(client):
    response = client.get("/nodes")
    if response.status != 200:
        sys.exit(f"came {response}")
    return len(response.body)


def measured(name, data, times):
    environment = {**os.environ, "GLIBC_TUNABLES": MEMORY}
    with Serving(str(PROGRAM), data, command="page", env=environment) as server, Client(server.port) as client:
        size = [look(client) for _ in range(WARM)][-1]
        before, walls = spent(server.started.pid), []
        for _ in range(times):
            began = time.perf_counter()
            look(client)
            walls.append(time.perf_counter() - began)
        own, system = ((after - first) / times * 1000 for first, after in zip(before, spent(server.started.pid)))
    wall = statistics.median(walls) * 1000
    print(f"{name}: {size:,} bytes, {own:.2f} + {system:.2f} ms of the server, {wall:.2f} ms in all")


def main():
    parser = argparse.ArgumentParser()
    parser.add_argument("--times", type=int, default=TIMES)
    parser.add_argument("--nodes", type=int, default=NODES)
    given = parser.parse_args()
    if not PROGRAM.exists():
        sys.exit("the program isn't built: ./grove prove")
    for shape in (binary, flat):
        measured(f"{given.nodes:,} {shape.__name__}", shape(given.nodes), given.times)


if __name__ == "__main__":
    main()
