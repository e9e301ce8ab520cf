"""What is made beside the packages."""

from __future__ import annotations

from dataclasses import dataclass


@dataclass(frozen=True)
class Made:
    """A file, under its name."""

    name: str
    content: bytes
