"""The installed programs of cluster/ on an etcd of their own, in a root with Debian's Python and not the checkout."""

from __future__ import annotations

import http.client
import subprocess
import tempfile
import time
from pathlib import Path

from packages import TOP, Packages, called
from server import HOST, free_port
from sweeps.program import Tally

# How long etcd may take to answer after it was started.
SECONDS = 120.0
PLACE = TOP / "tests/package/in_debian"
DOCUMENT = "/usr/local/share/doc/grove/examples/orders.json"


class Etcd:
    """One member, for as long as it is entered."""

    def __enter__(self) -> Etcd:
        self.port = free_port()
        self.room = tempfile.TemporaryDirectory(prefix="grove-etcd-")
        client, peer = f"http://{HOST}:{self.port}", f"http://{HOST}:{free_port()}"
        words = ["--data-dir", self.room.name, "--initial-cluster", f"default={peer}"]
        words += ["--listen-client-urls", client, "--advertise-client-urls", client]
        words += ["--listen-peer-urls", peer, "--initial-advertise-peer-urls", peer]
        none = subprocess.DEVNULL
        self.started = subprocess.Popen(["etcd", *words], stdin=none, stdout=none, stderr=none)
        until = time.monotonic() + SECONDS
        while not self.is_healthy() and time.monotonic() < until:
            time.sleep(0.1)
        return self

    def is_healthy(self) -> bool:
        connection = http.client.HTTPConnection(HOST, self.port, timeout=1)
        try:
            connection.request("GET", "/health")
            return b"true" in connection.getresponse().read()
        except OSError:
            return False
        finally:
            connection.close()

    def __exit__(self, *_) -> None:
        self.started.kill()
        self.started.wait()
        self.room.cleanup()


def no_mount() -> str:
    """Why a root of its own can't be made, if it can't."""
    with tempfile.TemporaryDirectory(prefix="grove-root-") as root, tempfile.TemporaryDirectory() as local:
        return "leave to mount" if called(PLACE, root, local, "/usr/bin/true").returncode else ""


def cluster(packages: Packages, room: Path, tally: Tally) -> None:
    """Jobs from their submission to the audit, by the programs' own way to the program that plans."""
    local, root = packages.unpacked(room / "local"), room / "root"
    root.mkdir()

    def note(wanted: str, command: str, *words: str) -> None:
        ran = called(PLACE, root, local, command, *words)
        is_well = ran.returncode == 0 and wanted in ran.stdout
        tally.note(command, None if is_well else f"status {ran.returncode}, {ran.stdout}{ran.stderr}")

    for program in sorted(path.name for path in (local / "bin").glob("grove-*")):
        note(f"usage: {program}", program, "--help")
    modules = "/usr/local/lib/python3/dist-packages"
    imported = f"import sys; sys.path.append('{modules}'); import grove_etcd.worker as it; print(it.__file__)"
    note(f"{modules}/grove_etcd/worker.py", "/usr/bin/python3", "-c", imported)
    with Etcd() as etcd:
        members = ["--members", f"{HOST}:{etcd.port}"]
        note("loaded 5 nodes", "grove-load", *members, DOCUMENT)
        note("submitted orders.2", "grove-submit", *members, "--id", "orders", DOCUMENT)
        note("", "grove-work", *members, "--until-ended")
        note("epoch 1: 3 jobs, 3 ended; 0 nodes held", "grove-status", *members)
        note("order [", "grove-audit", *members)
        note("reweighed 0 nodes", "grove-reweigh", *members)
