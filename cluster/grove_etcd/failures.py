"""What is said of work that has failed, and of a job that can't be done: short enough for a key, and printable."""
from __future__ import annotations

# Of what is kept and logged of a failure, as it is written in JSON.
MOST_BYTES = 4096
CUT = ".."


def why_of(failure: BaseException) -> str:
    """The kind of the failure and its text, which needn't be printable."""
    try:
        text = str(failure)
    except BaseException as why:  # whatever its own text raises
        text = f"its text raises {kind_of(why)}"
    return cut(f"{kind_of(failure)}: {text}")


def kind_of(failure: BaseException) -> str:
    """The name that its class was given, whatever a class of classes makes of that."""
    return str(vars(type)["__name__"].__get__(type(failure)))


def cut(text: str) -> str:
    """On one line; a character that isn't printable is a question mark."""
    plain = "".join(each if each.isprintable() else " " if each.isspace() else "?" for each in text[:MOST_BYTES])
    content = " ".join(plain.split()).encode(errors="replace")
    if len(content) <= MOST_BYTES and len(text) <= MOST_BYTES:
        return content.decode()
    return content[: MOST_BYTES - len(CUT)].decode(errors="ignore") + CUT
