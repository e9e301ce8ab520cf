"""Whether what stands at a job's key is a job: of the form of one, and with a plan that is legal for its list.

A worker judges each job before it locks anything for it, since one that isn't legal would hold nodes for good, and no
audit of it could pass. The faults are those of `grove judge` (docs/FORMATS.md). Which nodes there are is asked of the
tree, by its paths.
"""
from __future__ import annotations

import json
from functools import lru_cache
from typing import Any, Container, Optional

from .accesses import MOST_ACCESSES, is_access
from .documents import MOST_DEPTH, NAME, is_whole
from .jobs import KINDS, Job, Kind, Step
from .refusals import Refused
from .tree import names_of, path_of, ways_down

# Of a job's text, and of the nodes on the ways down to those that it names, which one audit takes.
MOST_BYTES, MOST_NODES = 1_000_000, 4096
MOST_AGE = 10**17 - 1
# Of a path, and of paths of which it is kept whether they have the form of one.
MOST_LENGTH, MOST_KEPT = 33 * MOST_DEPTH, 16384


def read_job(name: str, text: str, put_at: int = 0) -> Job:
    """The job that the text has. Its paths have the form of paths, but need not be nodes."""
    if len(text) > MOST_BYTES:
        raise Refused("malformed too-large")
    try:
        fields = json.loads(text)
    except (ValueError, RecursionError) as why:
        raise Refused("malformed bad-json") from why
    wrong = wrong_member(fields)
    if wrong:
        raise Refused(f"malformed {wrong}")
    job = Job(name, fields["age"], fields["list"], fields["plan"], fields.get("by"), put_at)
    nodes = job.nodes()
    if len(nodes) * (MOST_DEPTH + 1) > MOST_NODES and len(ways_down(nodes)) > MOST_NODES:
        raise Refused("malformed too-many-nodes")
    return job


def wrong_member(fields: Any) -> Optional[str]:
    """The first member that hasn't its form."""
    if not isinstance(fields, dict):
        return "whole"
    if not is_whole(fields.get("age"), 0, MOST_AGE):
        return "age"
    if not (fields.get("by") is None or is_whole(fields["by"], 0, MOST_AGE)):
        return "by"
    accesses, plan = fields.get("list"), fields.get("plan")
    if not isinstance(accesses, list) or len(accesses) > MOST_ACCESSES:
        return "list"
    for number, access in enumerate(accesses):
        if not (is_access(access) and is_path(access[1])):
            return f"list {number}"
    if not isinstance(plan, list):
        return "plan"
    for number, step in enumerate(plan):
        if not is_step(step, len(accesses)):
            return f"plan {number}"
    return None


def is_path(path: Any) -> bool:
    return isinstance(path, str) and len(path) <= MOST_LENGTH and has_form_of_path(path)


@lru_cache(MOST_KEPT)
def has_form_of_path(text: str) -> bool:
    names = names_of(text)
    return text.startswith("/") and len(names) <= MOST_DEPTH and all(map(NAME.fullmatch, names))


def is_step(step: Any, accesses: int) -> bool:
    """An access that isn't in the list has no node, so it is none."""
    if not isinstance(step, list) or len(step) != 2 or not isinstance(step[0], str) or step[0] not in KINDS:
        return False
    return is_whole(step[1], 0, accesses - 1) if step[0] == Kind.ACCESS.value else is_path(step[1])


def need_legal(job: Job, nodes: Container[str]) -> None:
    """Refuses a job whose plan breaks a rule of docs/PROTOCOL.md, or stops too soon."""
    locked: set[str] = set()
    held: set[str] = set()
    accesses = 0
    for number, step in enumerate(job.steps):
        fault = fault_of(step, nodes, locked, held, accesses)
        if fault:
            raise Refused(f"step {number} {fault}")
        if step.kind is Kind.LOCK:
            locked.add(step.path)
            held.add(step.path)
        elif step.kind is Kind.UNLOCK:
            held.remove(step.path)
        else:
            accesses += 1
    if accesses < len(job.accesses):
        raise Refused(f"access {accesses} missing")
    if held:
        raise Refused(f"node {min(held, key=names_of)} still-held")


def fault_of(step: Step, nodes: Container[str], locked: set[str], held: set[str], accesses: int) -> Optional[str]:
    """The first rule that the step breaks."""
    if step.path not in nodes:
        return "strange"
    if step.kind is Kind.LOCK:
        above = names_of(step.path)[:-1]
        has_parent = step.path != "/" and path_of(above) in held
        return "relock" if step.path in locked else None if has_parent or not locked else "parent-not-held"
    if step.kind is Kind.UNLOCK:
        return None if step.path in held else "not-held"
    if step.access != accesses:
        return "wrong-access"
    return None if step.path in held else "access-not-held"

