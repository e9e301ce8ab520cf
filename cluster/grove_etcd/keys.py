"""The keys of a store in etcd, all below its name, and the revisions by which an audit checks the chain of records.

A path begins with a slash, so the weight of `/a/b` stands at `STORE/m/a/b`. A job has a NAME of its own, so that it is
made once. Its AGE, a time of the submitter's clock, only decides which job goes first. GROUP counts the transactions of
a job.

    head               the format, and the open epoch. Made by the last commit of `load`, put once by each audit that
                       closes an epoch: its version is the number of the open epoch
    load               the token of the loader; guards its transactions, so that no other loader's succeed
    m/PATH             the node's weight, the reweighing that made it, and the record that was loaded
    r/PATH             the node's record; 0 if there is no such key
    o/PATH             the name of the job that holds the node, or nothing. It is never deleted, so its version counts
                       how often the node changed hands
    v/PATH//AGE/NAME   a job that waits for the node, in the order in which they are woken; with what is put for it
                       when the node is handed to it
    p/NAME             the job: its list, plan and age; put once
    q/AGE/NAME         is there until the job's first group is taken; with the node of its first lock
    u/NAME             is there from then on until the job ends: the worker that goes on with it, and for how long
                       others wait for its next sign. It is put by each of the job's groups, and by a worker that takes
                       the job up; the guard of the next group is that no other worker has put it
    s/WORKER           the last sign of life that a worker gave for all its jobs that wait or have work; deleted by who
                       takes up one of them. The guard of the next sign is that nobody has
    a/NAME             is there in place of `q` or `u` while the job is set aside: why, and what it holds
    j/NAME             the job's progress; put once by each group
    e/NAME/GROUP       what the group took, whether it marked the next step, the records that it left, and its place
                       among the groups of its transaction; put once
    x/EPOCH            the jobs of an epoch that is closed or being closed; with a flag while it is being forgotten
    b/PATH//EPOCH      what the epoch left of a node that its jobs name: the record, the revision of the write that
                       left it, and the version of `o/PATH`
    w/EPOCH/PATH       how often the node was waited for
    weighing           the last reweighing, and whether it is done
    followed           the revision up to which `audit --follow` has come

Workers write `r`, `o`, `v`, `q`, `u`, `s`, `a`, `j` and `e` alone; submitters `p` and `q`.

The chain: an epoch begins at a node with the last `b/PATH//EPOCH` before it, or with what `load` left: the record in
`m/PATH`, and a key `r/PATH` put before `head` was made. The key `r/PATH` has to have been put last by that write, or by
a transaction with an event that has the record, of a job that isn't forgotten and whose steps access the node
(`stray-record`).
"""
from __future__ import annotations

import re

NAME = re.compile(r"[a-z0-9_-]{1,32}")
# Of a job: the ID given to `submit --id`, or a new one, and the number of the list.
JOB_NAME = re.compile(r"[a-z0-9_-]{1,64}\.[0-9]{1,9}")
# Of a key that is a job's. What is longer below `p/` or `q/` somebody has put there, and no program takes it for a job:
# etcd wouldn't take a transaction that names it twice.
MOST_KEY = 512
DIGITS_OF_AGE = 17
# The kinds of keys that go on with a path.
OF_NODES = set("mrovb")
# The format of the keys and their values as described here. Stores of the format before are gone on with.
FORMAT = 3


class Keys:
    def __init__(self, store: str) -> None:
        if not NAME.fullmatch(store):
            raise ValueError(f"a store's name has 1 to 32 characters of a to z, 0 to 9, _ and -: {store!r}")
        self.store = store

    def head(self) -> str:
        return f"{self.store}/head"

    def old_head(self) -> str:
        """The key of the open epoch in the first format."""
        return f"{self.store}/epoch"

    def load(self) -> str:
        return f"{self.store}/load"

    def weight(self, path: str) -> str:
        return f"{self.store}/m{path}"

    def record(self, path: str) -> str:
        return f"{self.store}/r{path}"

    def owner(self, path: str) -> str:
        return f"{self.store}/o{path}"

    def waiters(self, path: str) -> str:
        """No name is empty, so no other node's waiters have this prefix."""
        return f"{self.store}/v{path}//"

    def waiter(self, path: str, age: int, name: str) -> str:
        return f"{self.waiters(path)}{age:0{DIGITS_OF_AGE}}/{name}"

    def job(self, name: str) -> str:
        return f"{self.store}/p/{name}"

    def fresh(self, age: int, name: str) -> str:
        return f"{self.store}/q/{age:0{DIGITS_OF_AGE}}/{name}"

    def under_way(self, name: str) -> str:
        return f"{self.store}/u/{name}"

    def sign(self, worker: str) -> str:
        return f"{self.store}/s/{worker}"

    def aside(self, name: str) -> str:
        return f"{self.store}/a/{name}"

    def progress(self, name: str) -> str:
        return f"{self.store}/j/{name}"

    def events(self, name: str) -> str:
        return f"{self.store}/e/{name}/"

    def event(self, name: str, group: int) -> str:
        return f"{self.events(name)}{group:06}"

    def closed(self, epoch: int) -> str:
        return f"{self.store}/x/{epoch:010}"

    def all_left(self, path: str) -> str:
        return f"{self.store}/b{path}//"

    def left(self, path: str, epoch: int) -> str:
        return f"{self.all_left(path)}{epoch:010}"

    def waits(self, epoch: int, path: str) -> str:
        return f"{self.all_waits(epoch)[:-1]}{path}"

    def all_waits(self, epoch: int) -> str:
        return f"{self.store}/w/{epoch:010}/"

    def followed(self) -> str:
        return f"{self.store}/followed"

    def parts(self, key: str) -> tuple[str, str]:
        """The kind of a key, and what comes after it; of one of a node a path, but for what may follow that."""
        kind, slash, rest = key[len(self.store) + 1 :].partition("/")
        return kind, slash + rest if kind in OF_NODES else rest

    def weighing(self) -> str:
        return f"{self.store}/weighing"

    def whole(self, kind: str) -> str:
        """The prefix of all keys of a kind, such as the `m` of weights."""
        return f"{self.store}/{kind}/"


def last_part(key: str) -> str:
    """The job's name, or the epoch's number, with which the key ends."""
    return key.rpartition("/")[2]
