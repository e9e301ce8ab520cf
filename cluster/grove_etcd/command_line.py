"""What the programs have in common: their arguments, and how they end."""
from __future__ import annotations

import argparse
import os
import sys
from importlib import import_module
from io import TextIOWrapper
from typing import Any, Callable, NoReturn

from .later import later

# A program imports this module before the others, which import these. What isn't used of them takes longer to load than
# a short program for its work.
try:
    with later("calendar", "inspect"):
        import_module("dataclasses")
        import_module("google.protobuf.descriptor_pb2")
        import_module("google.protobuf.message_factory")
except Exception as why:  # packages that don't go together raise errors of their own
    from .connecting import LACKS

    usage = sys.modules["__main__"].__doc__
    if usage and {"-h", "--help"} & set(sys.argv[1:]):
        print(usage.strip())
        sys.exit(0)
    told = " ".join(str(why).split())
    print(f"{os.path.basename(sys.argv[0])}: {LACKS} ({told})", file=sys.stderr)
    sys.exit(3)

from .connecting import Credentials
from .keys import Keys
from .members import Lost, Members, addresses_of
from .nested import warning
from .refusals import Failed, Refused

# As etcdctl has it.
PASSWORD = "ETCDCTL_PASSWORD"

Program = Callable[[Members, Keys, argparse.Namespace], None]


def arguments(description: str) -> argparse.ArgumentParser:
    """The arguments that every program takes."""
    parser = argparse.ArgumentParser(description=description)
    add = parser.add_argument
    add("--members", default="127.0.0.1:2379", metavar="HOST:PORT,..", help="the members (default: 127.0.0.1:2379)")
    add("--store", default="grove", metavar="NAME", help="the store's name, with which its keys begin (default: grove)")
    add("--cacert", metavar="FILE", help="use TLS, and trust certificates of this authority")
    add("--cert", metavar="FILE", help="this client's certificate")
    add("--key", metavar="FILE", help="the key of that certificate")
    add("--user", metavar="NAME[:PASSWORD]", help=f"a user of etcd (default for the password: ${PASSWORD})")
    return parser


def with_grove(parser: argparse.ArgumentParser) -> argparse.ArgumentParser:
    # Only the programs that audit look for it.
    from .program import GROVE

    parser.add_argument("--grove", default=str(GROVE), metavar="PROGRAM", help="the program that audits")
    return parser


def seconds(text: str) -> float:
    number = float(text)
    if not 0 < number < float("inf"):
        raise argparse.ArgumentTypeError(f"a time is more than 0: {text!r}")
    return number


def address(text: str) -> tuple[str, int]:
    """Of `[ADDRESS:]PORT`; without an address it is this machine alone."""
    host, _, port = text.rpartition(":")
    if not port.isdecimal() or not 0 < int(port) < 65536:
        raise argparse.ArgumentTypeError(f"it is [ADDRESS:]PORT, such as 9464: {text!r}")
    return host or "127.0.0.1", int(port)


def credentials_of(given: argparse.Namespace) -> Credentials:
    if (given.cert is None) != (given.key is None):
        raise ValueError("--cert and --key go together")
    if given.cert is not None and given.cacert is None:
        raise ValueError("--cert needs --cacert")
    user, _, password = given.user.partition(":") if given.user else (None, "", "")
    return Credentials(given.cacert, given.cert, given.key, user, password or os.environ.get(PASSWORD))


def run(
    parser: argparse.ArgumentParser,
    program: Program,
    is_brief: Callable[[argparse.Namespace], bool] = lambda _: False,
) -> None:
    """Runs a program on the members and keys that its arguments name. Its status is 1 if it refuses, 2 if an argument
    is wrong, and 3 if no member answers, a file, a program or etcd fails, or the program itself has an error."""
    given = parser.parse_args()
    if isinstance(sys.stdout, TextIOWrapper):
        # Names and values in etcd may be any bytes.
        sys.stdout.reconfigure(errors="backslashreplace")
    try:
        addresses, keys, credentials = addresses_of(given.members), Keys(given.store), credentials_of(given)
    except ValueError as bad:
        parser.error(str(bad))
    end(status_of(lambda: program(Members(addresses, credentials, is_brief=is_brief(given)), keys, given)))


def end(status: int) -> NoReturn:
    """Ends the process at once: gRPC takes longer to be tidied up than a short program takes for its work."""
    for stream in (sys.stdout, sys.stderr):
        try:
            stream.flush()
        except (OSError, ValueError, AttributeError):
            """Nobody reads it any more, or work has closed it."""
    os._exit(status)


def warn_of_rights(members: Members, keys: Keys) -> None:
    told = warning(members, keys)
    if told:
        print(told, file=sys.stderr, flush=True)


def status_of(program: Callable[[], Any]) -> int:
    """Runs the program. An error is printed as one line, but for one of the program itself, with its traceback."""
    try:
        return status_told(program)
    except BrokenPipeError:
        os.dup2(os.open(os.devnull, os.O_WRONLY), sys.stdout.fileno())
        return 3


def status_told(program: Callable[[], Any]) -> int:
    try:
        program()
        if sys.stdout and not sys.stdout.closed:
            sys.stdout.flush()
        return 0
    except Refused as refused:
        print(f"refused {refused}", flush=True)
        return 1
    except Lost as lost:
        return print_error(f"no member answered, so a change may or may not have been made: {lost}", 3)
    except Failed as failed:
        return print_error(str(failed), 3)
    except BrokenPipeError:
        raise
    except KeyboardInterrupt:
        return 130
    except Exception:  # an error of the program itself
        from traceback import print_exc

        print_exc()
        return 3


def print_error(line: str, status: int) -> int:
    print(" ".join(line.split()), file=sys.stderr)
    return status
