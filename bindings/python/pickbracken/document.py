"""The commands over the bytes of a document, as the program reads it and prints it (docs/FORMATS.md).

What is refused is raised as `Refused`, with the fault that the program prints.
"""

from __future__ import annotations

from .library import Command, say


def plan(document: bytes) -> str:
    """The cost of the settled plan of the document's list, the plan, and the flow that proves it: three lines."""
    return say(Command.PLAN, document)


def plan_document(document: bytes) -> str:
    """The document with that plan and that flow in it, as a line."""
    return say(Command.PLAN_DOCUMENT, document)


def check(document: bytes) -> str:
    """The line of the cost of the document's plan, which its flow proves to be least."""
    return say(Command.CHECK, document)


def judge(document: bytes) -> str:
    """The cost of the document's plan, and the replies and the records of its list: three lines."""
    return say(Command.JUDGE, document)


def draw_svg(document: bytes) -> str:
    """The settled plan, and above it the document's own, if it has one, as an SVG document."""
    return say(Command.DRAW_SVG, document)


def draw_text(document: bytes) -> str:
    """The same as lines for a terminal."""
    return say(Command.DRAW_TEXT, document)


def audit(document: bytes) -> str:
    """What the run of the document's jobs replies and leaves that its events are: four lines."""
    return say(Command.AUDIT, document)
