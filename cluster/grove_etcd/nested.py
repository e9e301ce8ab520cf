"""Whether etcd checks a user's rights inside transactions within transactions. Not every version does; then a role
doesn't keep its users from any key.

What is tried changes nothing: it stands in a branch that isn't taken, whose rights etcd checks all the same.
"""
from __future__ import annotations

from typing import Optional

from .head import need_store
from .keys import Keys
from .members import Members
from .refusals import Failed
from .wire import Operation, absent, choosing, deleting, putting, reading, request_of

DENIED = "permission denied"


def unchecked(members: Members, keys: Keys) -> list[str]:
    """Of what isn't this user's right, what etcd lets be done all the same: put, delete, read. None if all is its
    right, as without users."""
    if not members.has_user():
        return []
    need_store(members, keys)
    own = [keys.weight("/"), keys.head(), keys.job("x.0"), keys.record("/")]
    tried = {
        "put": [putting(key, "") for key in own],
        "delete": [deleting(key) for key in own],
        "read": [reading(f"{keys.store}-/x")],
    }
    return [name for name, operations in tried.items() if is_unchecked(members, keys, operations)]


def is_unchecked(members: Members, keys: Keys, operations: list[Operation]) -> bool:
    denied = next((operation for operation in operations if not may(members, keys, operation)), None)
    return denied is not None and may(members, keys, choosing([], [denied], []))


def may(members: Members, keys: Keys, operation: Operation) -> bool:
    """Is the user let do that? There is a head, so it isn't done."""
    try:
        members.transact(request_of([absent(keys.head())], [operation], []))
    except Failed as failed:
        if DENIED not in str(failed):
            raise
        return False
    return True


def warning(members: Members, keys: Keys) -> Optional[str]:
    """What to tell an operator."""
    told = ", ".join(unchecked(members, keys))
    return f"this etcd doesn't check rights inside nested transactions: {told}" if told else None
