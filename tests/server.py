"""Starts the program as a server on a port of its own, and talks to it as a client."""
import itertools
import os
import socket
import subprocess
import tempfile
import threading
from pathlib import Path

HOST = "127.0.0.1"
# Below the ports that the system gives to clients; two runs at once begin at different ones.
PORTS = range(20000, 32000)
TURNS = itertools.count(os.getpid() * 97)
# How long a server may take to start, and to answer. (It serves a few clients at once, and lets the others wait for
# those, so this is far more than any of them takes.)
SECONDS = 60.0
PIECE = 65536


class BadServer(Exception):
    """The program doesn't answer."""


class NotListening(BadServer):
    """The program doesn't listen, and has ended so."""

    def __init__(self, status, out, err):
        super().__init__(f"it doesn't listen: status {status}, output {out!r}, errors {err!r}")
        self.ended = status, out, err


def free_port():
    """A port at which nothing listens."""
    for turn in itertools.islice(TURNS, len(PORTS)):
        port = PORTS[turn % len(PORTS)]
        with socket.socket() as trial:
            trial.setsockopt(socket.SOL_SOCKET, socket.SO_REUSEADDR, 1)
            try:
                trial.bind((HOST, port))
                return port
            except OSError:
                continue
    raise BadServer("no port is free")


class Server:
    """The program, serving, for as long as it is entered."""

    def __init__(self, program, words, folder=None, **how):
        self.port = int(words[words.index("--port") + 1]) if "--port" in words else None
        self.host = words[words.index("--bind") + 1] if "--bind" in words else HOST
        streams = {"stdin": subprocess.DEVNULL, "stdout": subprocess.PIPE, "stderr": subprocess.PIPE, **how}
        self.started = subprocess.Popen([program, *words], cwd=folder, **streams)

    def __enter__(self):
        watch = threading.Timer(SECONDS, self.started.kill)
        watch.start()
        line = self.started.stdout.readline()
        is_listening = self.hears_of_port(line)
        rest, errors = (b"", b"") if is_listening else self.started.communicate()
        watch.cancel()
        if not is_listening:
            raise NotListening(self.started.returncode, line + rest, errors)
        return self

    def hears_of_port(self, line):
        """Does the line say where it listens? If any port was asked for, it says which."""
        before, _, port = line.rstrip(b"\n").rpartition(b":")
        shown = f"[{self.host}]" if ":" in self.host else self.host
        if before != b"listening " + shown.encode() or line != before + b":%d\n" % int(port or 0):
            return False
        if self.port is None:
            self.port = int(port)
        return self.port == int(port) and 1 <= self.port <= 65535

    def __exit__(self, *_):
        self.started.kill()
        self.rest = self.started.communicate()

    def is_running(self):
        return self.started.poll() is None

    def talk(self, *words, **how):
        return talk(self.port, *words, host=self.host, **how)


class Serving(Server):
    """The program, serving a document that is given as bytes, at a port that is free, or at this one, or at any."""

    def __init__(self, program, document, workers=1, port=None, any_port=False, further=(), command="serve", **how):
        self.room = tempfile.TemporaryDirectory(prefix="grove-serve-")
        (Path(self.room.name) / "tree.json").write_bytes(document)
        place = ["--any-port"] if any_port else ["--port", str(port or free_port())]
        words = [command, "--tree", "tree.json", *place, "--workers", str(workers), *further]
        super().__init__(program, words, self.room.name, **how)

    def __exit__(self, *_):
        super().__exit__()
        self.room.cleanup()


def connected(port, host=HOST):
    connection = socket.create_connection((host, port), timeout=SECONDS)
    connection.setsockopt(socket.IPPROTO_TCP, socket.TCP_NODELAY, 1)
    return connection


def talk(port, text, piece=PIECE, leaves=False, host=HOST):
    """Sends the text, a piece at a time, and no more; gives all that comes back. One that leaves looks at nothing of
    it, and closes at once."""
    with connected(port, host) as connection:
        if leaves:
            send(connection, text, piece)
            return b""
        sender = threading.Thread(target=send_all, args=(connection, text, piece))
        sender.start()
        try:
            return b"".join(iter(lambda: connection.recv(PIECE), b""))
        except socket.timeout:
            raise BadServer(f"no answer within {SECONDS:g} seconds") from None
        finally:
            sender.join()


def talk_in_turn(port, lines):
    """Sends each line once the reply to the one before has come, as long as the other side doesn't close."""
    with connected(port) as connection:
        return ask_in_turn(connection, lines)


def ask_in_turn(connection, lines):
    """The same on a connection, on which nothing more is sent then."""
    came = []
    with connection.makefile("rb") as replies:
        try:
            for line in lines:
                connection.sendall(line)
                came.append(replies.readline())
                if not came[-1]:
                    return b"".join(came)
            connection.shutdown(socket.SHUT_WR)
            came.append(replies.read())
        except ConnectionError:
            # It closed with a line unread, as if no thread could be started.
            pass
    return b"".join(came)


def send(connection, text, piece):
    for at in range(0, len(text), piece):
        connection.sendall(text[at : at + piece])


def send_all(connection, text, piece):
    """Sends the text and closes this side. (A server that has gone is noticed when the replies are read.)"""
    try:
        send(connection, text, piece)
        connection.shutdown(socket.SHUT_WR)
    except OSError:
        pass
