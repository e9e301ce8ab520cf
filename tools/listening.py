"""Which process below this one listens at an address, from /proc alone: a connection would take a slot, and be
logged."""

from __future__ import annotations

import os
from dataclasses import dataclass
from ipaddress import IPv4Address, IPv6Address
from pathlib import Path

LISTENING = "0A"


@dataclass
class Place:
    """An address and a port."""

    address: IPv4Address | IPv6Address
    port: int

    def __str__(self) -> str:
        return f"[{self.address}]:{self.port}" if self.address.version == 6 else f"{self.address}:{self.port}"


def listener_at(place: Place) -> int | None:
    """The process that listens there, if it was started by this one or by one that this one started."""
    sockets = {f"socket:[{it}]" for it in sockets_at(place)}
    if sockets:
        for process in descendants(os.getpid()):
            if sockets & open_files(process):
                return process
    return None


def sockets_at(place: Place) -> list[str]:
    """The numbers of the sockets that listen there."""
    # The kernel writes an address as words of the machine, each in hexadecimal.
    packed = place.address.packed
    words = [packed[at : at + 4][::-1] for at in range(0, len(packed), 4)]
    local = f"{b''.join(words).hex().upper()}:{place.port:04X}"
    table = Path("/proc/net/tcp6" if place.address.version == 6 else "/proc/net/tcp").read_text()
    rows = [line.split() for line in table.splitlines()[1:]]
    return [row[9] for row in rows if row[1] == local and row[3] == LISTENING]


def open_files(process: int) -> set[str]:
    """What the process has open, by name."""
    names = set()
    try:
        for descriptor in os.scandir(f"/proc/{process}/fd"):
            names.add(os.readlink(descriptor.path))
    except OSError:
        # It has ended, or just closed one.
        pass
    return names


def descendants(process: int) -> list[int]:
    """The processes that this one started, those that they started, and so on; none that has ended."""
    below: dict[int, list[int]] = {}
    for folder in Path("/proc").glob("[0-9]*"):
        try:
            state, parent = (folder / "stat").read_text(errors="replace").rpartition(")")[2].split()[:2]
        except OSError:
            continue
        if state != "Z":
            below.setdefault(int(parent), []).append(int(folder.name))
    found = list(below.get(process, []))
    for it in found:
        found += below.get(it, [])
    return found
