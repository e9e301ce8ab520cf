"""The errors by which a program ends without having done what it was asked for."""
from __future__ import annotations

from .failures import cut

# Of the value, as many characters are said.
MOST_SAID = 80


class Refused(Exception):
    """A refusal, by its name in docs/CLUSTER.md or docs/FORMATS.md. Nothing has changed."""


class NoForm(Refused):
    """What stands at a key hasn't the form that programs put there."""

    def __init__(self, kind: str, text: str) -> None:
        super().__init__(f"no-form {kind} {cut(text[:MOST_SAID])}")


class Failed(Exception):
    """A file, a program or etcd itself failed. The error is printed as one line."""
