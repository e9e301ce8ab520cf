#!/usr/bin/env python3
"""redis_locks.py PORT: two processes move numbers among records of a Redis at PORT, with locks that it keeps.

A lock of Redis has what `threading.Lock` has, so `Locks` of bindings/python takes and releases it where a plan says,
and the processes keep away from each other's records. 4 threads of each make 25 transfers among 16 accounts, each of
which reads and writes two records. At the end the sum has to be what it was. This needs a Redis, and of Python nothing
but the package; a client of your own takes the place of `Redis`.

A lock is a key that runs out after a while, so that one who dies holds up nobody for ever. No transaction may take as
long: by then another may have the lock. Who can't rule that out has records refuse what comes late.
"""
from __future__ import annotations

import multiprocessing
import random
import socket
import sys
import threading
import time
import uuid
from pathlib import Path

sys.path.append(str(Path(__file__).resolve().parent.parent / "bindings/python"))
from pickbracken import Locks  # noqa: E402

PROCESSES, THREADS, TRANSFERS = 2, 4, 25
SHOPS = [f"/shop{shop}" for shop in range(4)]
ACCOUNTS = [f"{shop}/account{account}" for shop in SHOPS for account in range(4)]
WEIGHTS = {"/": 16, **dict.fromkeys(SHOPS, 4), **dict.fromkeys(ACCOUNTS, 1)}
# How long a lock is kept, in milliseconds, and how often one that is taken is asked for, in seconds.
LEASE, PAUSE = "10000", 0.001
# Lets a lock go if it is still one's own.
RELEASE = "if redis.call('get', KEYS[1]) == ARGV[1] then return redis.call('del', KEYS[1]) else return 0 end"


class Redis:
    """A connection for each thread."""

    def __init__(self, port: int) -> None:
        self.port, self.mine = port, threading.local()

    def ask(self, *words: str) -> str | None:
        """The reply to a command, if it is a text or a number."""
        if not hasattr(self.mine, "stream"):
            self.mine.stream = socket.create_connection(("127.0.0.1", self.port)).makefile("rwb")
        stream, parts = self.mine.stream, [word.encode() for word in words]
        stream.write(b"*%d\r\n" % len(parts) + b"".join(b"$%d\r\n%s\r\n" % (len(part), part) for part in parts))
        stream.flush()
        line = stream.readline()[:-2].decode()
        if line[:1] == "-":
            raise OSError(line[1:])
        if line[:1] != "$":
            return line[1:]
        return None if line == "$-1" else stream.read(int(line[1:]) + 2)[:-2].decode()


class RedisLock:
    """A lock that Redis keeps for a path."""

    def __init__(self, redis: Redis, path: str) -> None:
        self.redis, self.key, self.own = redis, f"lock:{path}", ""

    def acquire(self, blocking: bool = True, timeout: float = -1) -> bool:
        own, until = uuid.uuid4().hex, time.monotonic() + timeout
        while self.redis.ask("SET", self.key, own, "NX", "PX", LEASE) is None:
            if not blocking or 0 <= timeout and time.monotonic() >= until:
                return False
            time.sleep(PAUSE)
        self.own = own
        return True

    def release(self) -> None:
        if self.redis.ask("EVAL", RELEASE, "1", self.key, self.own) != "1":
            raise OSError(f"{self.key} has run out")


def transfer_often(port: int, number: int) -> None:
    """What a process does."""
    redis = Redis(port)
    locks = Locks(WEIGHTS, lambda path: RedisLock(redis, path))

    def transfer(drawn: random.Random) -> None:
        with locks.transaction(drawn.sample(ACCOUNTS, 2), timeout=60) as accesses:
            for number, path in accesses:
                before = int(redis.ask("GET", path) or 0)
                redis.ask("SET", path, str(before + (1 if number else -1)))

    def work(thread: int) -> None:
        drawn = random.Random(THREADS * number + thread)
        for _ in range(TRANSFERS):
            transfer(drawn)

    threads = [threading.Thread(target=work, args=(thread,)) for thread in range(THREADS)]
    for thread in threads:
        thread.start()
    for thread in threads:
        thread.join()


def main(port: int) -> None:
    redis = Redis(port)
    for path in ACCOUNTS:
        redis.ask("SET", path, "100")
    # (A child that is forked from a process with threads may make no call of the library.)
    spawning = multiprocessing.get_context("spawn")
    processes = [spawning.Process(target=transfer_often, args=(port, number)) for number in range(PROCESSES)]
    for process in processes:
        process.start()
    for process in processes:
        process.join()
    if any(process.exitcode for process in processes):
        sys.exit("a process has failed")
    numbers = [int(redis.ask("GET", path) or 0) for path in ACCOUNTS]
    held = [path for path in WEIGHTS if redis.ask("GET", f"lock:{path}") is not None]
    print(f"{PROCESSES * THREADS * TRANSFERS} transfers: the sum is {sum(numbers)}, {len(held)} locks are held")
    if sum(numbers) != 100 * len(ACCOUNTS) or held:
        sys.exit(1)


if __name__ == "__main__":
    if len(sys.argv) != 2 or not sys.argv[1].isdecimal():
        sys.exit("usage: redis_locks.py PORT")
    main(int(sys.argv[1]))
