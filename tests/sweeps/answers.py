"""The forms that answers of the program have."""

from __future__ import annotations

import re

from sweeps.program import Ran

N = rb"(?:0|[1-9][0-9]*)"
ARRAY = rb"\[[^\n]*\]"
DONE = {
    "judge": re.compile(rb"cost (%s)\nreplies %s\nrecords %s\n" % (N, ARRAY, ARRAY)),
    "check": re.compile(rb"cost (%s)\n" % N),
    "plan": re.compile(rb"cost (%s)\nplan %s\nflow %s\n" % (N, ARRAY, ARRAY)),
}
FAULTS = [
    rb"bad-json",
    rb"limit (?:whole|list)",
    rb"shape (?:whole|(?:nodes|list|plan|flow)(?: N)?)",
    rb"no-path (?:list|plan|flow) N",
    rb"bad-length list N",
    rb"tree (?:empty|too-many)",
    rb"row N (?:bad-parent|too-deep|bad-name|twice-named|bad-weight)",
    rb"step N (?:strange|relock|parent-not-held|not-held|wrong-access|access-not-held)",
    rb"access N missing",
    rb"node /[a-z0-9_/-]* still-held",
    rb"(?:rows|sign|too-big|lock-balance|release-balance) N",
    rb"value N -?N",
]
REFUSED = re.compile(rb"refused (?:%s)\n" % rb"|".join(FAULTS).replace(b"N", N))


def is_done(command: str, ran: Ran) -> bool:
    """Is the run the whole of an answer, with status 0?"""
    return ran.status == 0 and not ran.err and DONE[command].fullmatch(ran.out) is not None


def is_refused(ran: Ran) -> bool:
    """Is the run one line with a fault that there is, with status 1?"""
    return ran.status == 1 and not ran.err and REFUSED.fullmatch(ran.out) is not None


def form_fault(command: str, ran: Ran) -> str | None:
    """What is wrong with the form of the run, if it neither answers nor refuses."""
    return None if is_done(command, ran) or is_refused(ran) else f"no answer and no refusal: {ran}"


def cost_of(command: str, ran: Ran) -> int | None:
    """The cost that the run prints; none if it is no answer."""
    return int(DONE[command].fullmatch(ran.out)[1]) if is_done(command, ran) else None
