"""Work for `work --work counted_work:perform`: takes some time, and notes each try, and whether its node was held by
its job then. `counted_work:watch` looks again and again while it goes on. `counted_work:fail_at_a` fails at /a for as
long as a file is there.

The environment has COUNTED_ROOM, a folder; COUNTED_MEMBERS and COUNTED_STORE; and COUNTED_SECONDS. With
COUNTED_UNLEASHED the worker is never killed.
"""
import os
import sys
import time
from pathlib import Path

from grove_etcd.jobs import UnderWay
from grove_etcd.keys import Keys
from grove_etcd.leash import Leash
from grove_etcd.members import Members

ROOM = Path(os.environ["COUNTED_ROOM"])
MEMBERS = Members(os.environ["COUNTED_MEMBERS"].split(","))
KEYS = Keys(os.environ["COUNTED_STORE"])
SECONDS = float(os.environ.get("COUNTED_SECONDS", "0"))
# Between two looks.
LOOK_SECONDS = 0.02
if "COUNTED_UNLEASHED" in os.environ:
    Leash.arm = lambda *_: None


def note(line):
    """A line is appended whole, however many processes do so."""
    with open(ROOM / "tries", "a", encoding="utf-8") as file:
        file.write(line + "\n")


def is_held(access, token):
    owner = KEYS.owner(access[1])
    return MEMBERS.get(owner).value(owner) == token.partition("/")[0]


def perform(access, _record, token):
    held = is_held(access, token)
    time.sleep(SECONDS)
    held_still = is_held(access, token)
    note(f"{token} {held and held_still}")


def begin(access, record, token):
    """Notes the try before it takes its time."""
    note(f"{token} begun")
    perform(access, record, token)


def holders(access, token):
    """The job that holds the node, and the worker that goes on with this job."""
    owner, under_way = KEYS.owner(access[1]), KEYS.under_way(token.partition("/")[0])
    found = MEMBERS.get(owner, under_way)
    text = found.value(under_way)
    return found.value(owner), UnderWay.read(text).by if text is not None else None


def watch(access, _record, token):
    """Notes it as soon as the node isn't held, or by another worker."""
    note(f"{token} begun")
    until, own = time.monotonic() + SECONDS, holders(access, token)
    held = goes_on = own[0] == token.partition("/")[0]
    while held and goes_on:
        goes_on = time.monotonic() < until
        time.sleep(LOOK_SECONDS)
        held = holders(access, token) == own
    note(f"{token} {held}")


def fail_at_a(access, _record, token):
    note(f"{token} begun")
    if access[1] == "/a" and (ROOM / "broken").exists():
        raise RuntimeError("the machine is\nbroken")


def raise_much(access, _record, _token):
    if access[1] == "/a":
        raise RuntimeError("upstream said: " + "x" * 2_000_000)


def leave(access, _record, _token):
    if access[1] == "/a":
        sys.exit("no such shop")


class Odd(Exception):
    """Its text can't be had."""

    def __str__(self):
        return self.args[0]


def raise_odd(access, _record, _token):
    if access[1] == "/a":
        raise Odd(7)


def raise_interrupt(access, _record, _token):
    if access[1] == "/a":
        raise KeyboardInterrupt


def close_standard_error(access, _record, _token):
    if access[1] == "/a":
        sys.stdout.close()
        sys.stderr.close()
        raise RuntimeError("unheard")


def have_no_standard_error(access, _record, _token):
    if access[1] == "/a":
        sys.stdout = sys.stderr = None
        raise RuntimeError("unheard")


def fork_a_worker(access, _record, _token):
    """A child that would go on as a worker beside its parent."""
    if access[1] == "/a":
        if os.fork() == 0:
            raise RuntimeError("the child goes on")
        raise RuntimeError(f"the child ended with {os.waitstatus_to_exitcode(os.wait()[1])}")


class Unnamed(type):
    """Of its classes nobody gets the name."""

    def __getattribute__(cls, name):
        return sys.exit("no name") if name == "__name__" else super().__getattribute__(name)


class Nameless(Exception, metaclass=Unnamed):
    pass


def raise_nameless(access, _record, _token):
    if access[1] == "/a":
        raise Nameless


def end_as_if_well(access, _record, _token):
    if access[1] == "/a":
        os._exit(0)


def end_the_process(access, _record, _token):
    if access[1] == "/a":
        os._exit(7)
