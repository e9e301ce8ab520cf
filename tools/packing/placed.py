"""Files with the paths that they are installed at, below the prefix."""

from __future__ import annotations

from dataclasses import dataclass

from .source import Source


@dataclass(frozen=True)
class Placed:
    """A file, or a link to another one."""

    path: str
    content: bytes = b""
    is_program: bool = False
    target: str | None = None

    def mode(self) -> int:
        return 0o755 if self.is_program else 0o644


def copied(source: Source, path: str, file: str) -> Placed:
    return Placed(path, source.read(file), source.is_program(file))


def texts(folder: str, named: dict[str, str]) -> list[Placed]:
    return [Placed(f"{folder}/{name}", text.encode()) for name, text in named.items()]
