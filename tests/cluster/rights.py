"""A trial of etcd's own rights: a user who may write what workers write can't write what audits rest on."""
import json
from dataclasses import replace
from functools import partial

from etcd3 import etcdrpc
from etcd3.etcdrpc.auth_pb2 import Permission
from members_at_hand import SecretCluster
from store_at_hand import BOTH, SECONDS, SMALL, Programs, in_time, untimely_if_unanswered

from grove_etcd.keys import Keys
from grove_etcd.members import Members
from grove_etcd.refusals import Failed
from grove_etcd.wire import after, choosing, deleting, putting, reading

# The kinds of keys that workers write.
KINDS = "rovqusaje"
USERS = {"root": "secret", "worker": "work"}


def a_worker_needs_few_rights(_cluster, grove):
    """Jobs wait for each other, with and without work, and an audit of them passes."""
    return in_time(partial(few_rights_do, grove))


def few_rights_do(grove, _number):
    with SecretCluster() as cluster:
        programs, keys = Programs(cluster, "rights"), Keys("rights")
        file = programs.file("rights.json", json.dumps({"nodes": SMALL, "lists": [BOTH] * 8}))
        programs.lines("load", file)
        programs.lines("submit", "--grove", grove, file)
        add_users(cluster.members(), keys)
        root, worker = (["--user", f"{name}:{password}"] for name, password in USERS.items())
        words = [*worker, "--slot", "5", "--until-ended"]
        started = [programs.start("work", *words) for _ in range(3)]
        statuses = [each.wait(SECONDS) for each in started]
        untimely_if_unanswered(statuses)
        programs.lines("submit", *root, "--grove", grove, file)
        programs.lines("work", *worker, "--until-ended")
        lines = programs.lines("audit", *root, "--grove", grove)
        user = Members(cluster.clients, replace(cluster.let_in, user="worker", password="work"))
        told = forbidden(user, keys) or fault_of_nested(programs, user, keys, root, worker)
    is_well = statuses == [0] * 3 and len(json.loads(lines[1].partition(" ")[2])) == 16
    return told or (None if is_well else f"statuses {statuses}, {lines}")


def fault_of_nested(programs, members, keys, root, worker):
    """What `status` says of nested transactions is what they do, for a user with few rights; root has them all."""
    tried = {
        "put": [putting(keys.weight("/a"), "9 0 9")],
        "delete": [deleting(keys.job("no.0"))],
        "read": [reading("rights-/x")],
    }
    allowed = [name for name, operations in tried.items() if is_let(members, operations)]
    said = programs.ran("status", *worker).stderr
    told = f"this etcd doesn't check rights inside nested transactions: {', '.join(allowed)}\n" if allowed else ""
    of_root = programs.ran("status", *root).stderr
    return None if (said, of_root) == (told, "") else f"it let {allowed}, and said {said!r}, {of_root!r}"


def is_let(members, operations):
    try:
        members.commit([], [choosing([], operations, [])])
    except Failed:
        return False
    return True


def add_users(members, keys):
    """A root, and a worker who may read the store, and write what workers write."""
    calls = etcdrpc.AuthStub(members.asked.channel)
    for name, password in USERS.items():
        calls.UserAdd(etcdrpc.AuthUserAddRequest(name=name, password=password))
        calls.RoleAdd(etcdrpc.AuthRoleAddRequest(name=name))
        calls.UserGrantRole(etcdrpc.AuthUserGrantRoleRequest(user=name, role=name))
    rights = [(Permission.READ, f"{keys.store}/"), *((Permission.READWRITE, keys.whole(kind)) for kind in KINDS)]
    for right, prefix in rights:
        range_of = Permission(permType=right, key=prefix.encode(), range_end=after(prefix).encode())
        calls.RoleGrantPermission(etcdrpc.AuthRoleGrantPermissionRequest(name="worker", perm=range_of))
    calls.AuthEnable(etcdrpc.AuthEnableRequest())


def forbidden(members, keys):
    """What is wrong: a key that the members let be written, of those that audits rest on."""
    written = []
    left = keys.left("/a", 1), keys.closed(1), keys.waits(1, "/a")
    for key in (keys.head(), keys.load(), keys.weight("/a"), keys.job("x.0"), keys.weighing(), *left):
        try:
            members.write([putting(key, "x")])
            written.append(key)
        except Failed as failed:
            if "permission denied" not in str(failed):
                return f"it said {failed}"
    return f"{written} were written" if written else None
