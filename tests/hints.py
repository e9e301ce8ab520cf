"""The hint that may stand on standard error beside an answer, or in the reply to a refused line."""
import json
import re

HINT = re.compile(rb"hint: [ -~]{1,400}\n")


def split_hint(errors: bytes) -> tuple[bytes, bytes]:
    """The hint, if it is all that came on standard error, and what else came."""
    return (errors, b"") if HINT.fullmatch(errors) else (b"", errors)


def split_reply(reply: bytes) -> tuple[bytes, bytes]:
    """A reply without its hint, and the line of the hint, which is empty if it has none. What isn't written as a
    refusal with a hint is left as it is."""
    try:
        found = json.loads(reply)
    except ValueError:
        return reply, b""
    if not isinstance(found, dict) or found.keys() != {"error", "hint"}:
        return reply, b""
    hint = b"hint: %s\n" % str(found["hint"]).encode()
    is_written = json.dumps(found, separators=(",", ":"), sort_keys=True).encode() == reply
    return (json.dumps({"error": found["error"]}, separators=(",", ":")).encode(), hint) if is_written else (reply, b"")
