"""Ways to the members of a cluster that can be cut: what is sent then comes once the way is there again."""
import socket
import threading

from server import HOST

MOST_BYTES = 65536


class Way:
    """To one member, at an address of its own."""

    def __init__(self, address):
        self.to = address.rpartition(":")
        self.listener = socket.create_server((HOST, 0))
        self.address = f"{HOST}:{self.listener.getsockname()[1]}"
        self.is_there = threading.Event()
        self.is_there.set()
        self.connections = [self.listener]
        start(self.accept)

    def accept(self):
        try:
            while True:
                came = self.listener.accept()[0]
                self.is_there.wait()
                there = socket.create_connection((self.to[0], int(self.to[2])))
                self.connections += [came, there]
                start(self.carry, came, there)
                start(self.carry, there, came)
        except OSError:
            """The way has been closed, or the member isn't there."""

    def carry(self, source, target):
        try:
            while content := source.recv(MOST_BYTES):
                self.is_there.wait()
                target.sendall(content)
        except OSError:
            """One end is gone, and so is the other."""
        source.close()
        target.close()

    def close(self):
        self.is_there.set()
        for each in self.connections:
            each.close()


def start(body, *words):
    threading.Thread(target=body, args=words, daemon=True).start()


class Ways:
    """To all members of the cluster, for as long as it is entered."""

    def __init__(self, cluster):
        self.ways = [Way(address) for address in cluster.clients]
        self.addresses = ",".join(way.address for way in self.ways)

    def __enter__(self):
        return self

    def cut(self):
        for way in self.ways:
            way.is_there.clear()

    def mend(self):
        for way in self.ways:
            way.is_there.set()

    def __exit__(self, *_):
        for way in self.ways:
            way.close()
