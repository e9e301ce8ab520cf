"""Connections to members by gRPC, which is loaded with the first of them."""
from __future__ import annotations

import os
import sys
from dataclasses import dataclass
from typing import Any

from .later import later
from .refusals import Failed

OPTIONS = [
    ("grpc.initial_reconnect_backoff_ms", 100),
    ("grpc.max_reconnect_backoff_ms", 1000),
    ("grpc.max_receive_message_length", -1),
    # Calls are repeated by who makes them, so gRPC needs to keep no copy of a request.
    ("grpc.enable_retries", 0),
    # So a connection that hangs, as one made while a member starts, isn't shared with other clients.
    ("grpc.use_local_subchannel_pool", 1),
]
# While nobody calls, gRPC takes the next step of a connection each so many milliseconds. By itself it does so each five
# seconds, and has no connection for most of a minute after all members were away.
BACKUP_POLL, POLL_MILLISECONDS = "GRPC_CLIENT_CHANNEL_BACKUP_POLL_INTERVAL_MS", "200"
# What a program says of packages that aren't there, or that don't go together.
LACKS = "needs the Python packages grpcio and protobuf"


def loaded() -> Any:
    """gRPC. No program uses it from tasks of an event loop, and to load what that needs takes half as long again."""
    os.environ.setdefault(BACKUP_POLL, POLL_MILLISECONDS)
    try:
        with later("asyncio", "grpc.aio"):
            import grpc
    except Exception as why:  # packages that don't go together raise errors of their own
        raise Failed(f"{LACKS} ({why})") from why
    return grpc


def errors() -> Any:
    """Those of its calls. There are none before it is loaded."""
    grpc = sys.modules.get("grpc")
    return grpc.RpcError if grpc else ()


@dataclass(frozen=True)
class Credentials:
    """As those of etcdctl: files with certificates and a key, and a user with a password."""

    cacert: str | None = None
    cert: str | None = None
    key: str | None = None
    user: str | None = None
    password: str | None = None

    def channel(self, address: str) -> Any:
        grpc = loaded()
        if self.cacert is None:
            return grpc.insecure_channel(address, options=OPTIONS)
        root, key, cert = (file and content_of(file) for file in (self.cacert, self.key, self.cert))
        return grpc.secure_channel(address, grpc.ssl_channel_credentials(root, key, cert), options=OPTIONS)


def content_of(file: str) -> bytes:
    try:
        with open(file, "rb") as it:
            return it.read()
    except OSError as why:
        raise Failed(f"{file}: {why.strerror}") from why
