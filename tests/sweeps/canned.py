"""Servers that take one connection and say what they were told to, for the trials of clients."""

from __future__ import annotations

import socket
import threading

from server import HOST

SECONDS = 60.0


class Canned:
    """A server that takes one connection, says something there, and closes it."""

    def __init__(self) -> None:
        self.listener = socket.create_server((HOST, 0))
        self.port = self.listener.getsockname()[1]
        self.thread = threading.Thread(target=self.serve)

    def __enter__(self) -> Canned:
        self.thread.start()
        return self

    def __exit__(self, *_) -> None:
        self.listener.close()
        self.thread.join(SECONDS)

    def serve(self) -> None:
        self.listener.settimeout(SECONDS)
        connection, _ = self.listener.accept()
        with connection:
            connection.settimeout(SECONDS)
            self.say(connection)

    def say(self, connection: socket.socket) -> None:
        raise NotImplementedError
