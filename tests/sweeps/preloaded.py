"""C files of this folder, to be preloaded into a program: each changes what some of its calls to the system do."""

from __future__ import annotations

import os
import subprocess
from pathlib import Path

FOLDER = Path(__file__).parent


def library_of(source: str, room: str) -> str:
    """Compiles the file of this name, without `.c`, in the room, and gives the library's name."""
    library = f"{room}/{source}.so"
    words = ["cc", "-O1", "-shared", "-fPIC", "-o", library, FOLDER / f"{source}.c", "-ldl"]
    subprocess.run(words, check=True, stdin=subprocess.DEVNULL)
    return library


def failed_accepts(library: str, error: int, count: int, first: int = 1, port: int = 0) -> dict[str, str]:
    """The surroundings in which so many calls for a connection fail with this error, at this port or at any."""
    numbers = {"ACCEPT_ERROR": error, "FAILED_ACCEPTS": count, "FIRST_FAILED": first, "FAILED_PORT": port}
    return {**os.environ, "LD_PRELOAD": library, **{name: str(number) for name, number in numbers.items()}}
