"""A cluster of etcd members on loopback, started for a test; its data lies in a folder that goes with it."""
import signal
import subprocess
import sys
import tempfile
import time
from pathlib import Path

TOP = Path(__file__).resolve().parents[2]
sys.path[:0] = [str(TOP / "cluster"), str(TOP / "tests")]

from grove_etcd.connecting import Credentials  # noqa: E402
from grove_etcd.members import Lost, Members  # noqa: E402
from server import HOST, free_port  # noqa: E402

# How long a member may take to answer after it was started.
SECONDS = 120.0


class Cluster:
    """So many members, for as long as it is entered."""

    def __init__(self, count):
        self.clients, self.peers = ([f"{HOST}:{free_port()}" for _ in range(count)] for _ in range(2))
        self.started = [None] * count
        self.room = tempfile.TemporaryDirectory(prefix="grove-etcd-")
        # As the programs' arguments have them, and as the members are called.
        self.credentials, self.scheme, self.more_words = [], "http", []
        self.let_in = Credentials()

    @property
    def addresses(self):
        return ",".join(self.clients)

    def __enter__(self):
        for member in range(len(self.clients)):
            self.start(member)
        for address in self.clients:
            need_answer(address, self.let_in)
        return self

    def start(self, member):
        """Starts a member; one that was killed goes on with its data."""
        everyone = ",".join(f"m{number}=http://{peer}" for number, peer in enumerate(self.peers))
        client, peer = f"{self.scheme}://{self.clients[member]}", f"http://{self.peers[member]}"
        words = ["--name", f"m{member}", "--data-dir", f"{self.room.name}/{member}", "--initial-cluster", everyone]
        words += ["--listen-client-urls", client, "--advertise-client-urls", client]
        words += ["--listen-peer-urls", peer, "--initial-advertise-peer-urls", peer, *self.more_words]
        words += ["--logger", "zap", "--log-level", "fatal", "--log-outputs", "/dev/null"]
        streams = dict.fromkeys(["stdin", "stdout", "stderr"], subprocess.DEVNULL)
        self.started[member] = subprocess.Popen(["etcd", *words], **streams)

    def kill(self, member):
        self.started[member].send_signal(signal.SIGKILL)
        self.started[member].wait()

    def members(self):
        return Members(self.clients, self.let_in)

    def __exit__(self, *_):
        for started in self.started:
            if started:
                started.kill()
                started.wait()
        self.room.cleanup()


class SecretCluster(Cluster):
    """One member that speaks TLS and wants a certificate, made by openssl."""

    def __init__(self):
        super().__init__(1)
        room = Path(self.room.name)
        self.cacert, self.cert, self.key = (str(room / name) for name in ("ca.pem", "cert.pem", "key.pem"))
        extension = room / "names"
        extension.write_text(f"subjectAltName=IP:{HOST}\n", encoding="utf-8")
        ca_key, request = room / "ca-key.pem", room / "request.pem"
        openssl(
            "req", "-x509", "-newkey", "rsa:2048", "-nodes", "-subj", "/CN=ca", "-keyout", ca_key, "-out", self.cacert
        )
        openssl("req", "-newkey", "rsa:2048", "-nodes", "-subj", "/CN=grove", "-keyout", self.key, "-out", request)
        signing = ["-CA", self.cacert, "-CAkey", ca_key, "-CAcreateserial", "-extfile", extension]
        openssl("x509", "-req", "-in", request, *signing, "-out", self.cert)
        self.scheme, self.let_in = "https", Credentials(self.cacert, self.cert, self.key)
        self.credentials = ["--cacert", self.cacert, "--cert", self.cert, "--key", self.key]
        self.more_words = ["--client-cert-auth", "--trusted-ca-file", self.cacert]
        self.more_words += ["--cert-file", self.cert, "--key-file", self.key]


def openssl(*words):
    subprocess.run(["openssl", *words], check=True, capture_output=True)


def need_answer(address, credentials=Credentials()):
    """Waits until the member answers; each try has a connection of its own, since one made too early hangs, and waits
    longer than the one before."""
    until, seconds = time.monotonic() + SECONDS, 0.0
    while True:
        seconds += 0.5
        members = Members([address], credentials, seconds=seconds)
        try:
            return members.commit([], [])
        except Lost:
            if time.monotonic() > until:
                raise
        finally:
            members.close()
        time.sleep(0.1)
