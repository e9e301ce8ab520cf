"""The `grove` program, which plans and audits."""
from __future__ import annotations

import shlex
import shutil
import subprocess
from pathlib import Path

from .refusals import Failed, Refused

TOP = Path(__file__).resolve().parents[2]
IS_CHECKOUT = (TOP / "crates").is_dir()
# The program of the checkout; or, if tools/package has put these files into lib/grove/cluster, that of the same prefix;
# or, if a wheel has, the one beside its Python, or else on the path.
BESIDE = TOP / "crates/grove/out/grove" if IS_CHECKOUT else TOP.parents[1] / "bin/grove"
GROVE = BESIDE if IS_CHECKOUT or BESIDE.exists() else Path(shutil.which("grove") or BESIDE)
# The folder with the Python package that calls the library, likewise.
PACKAGES = TOP / "bindings/python" if IS_CHECKOUT else TOP / "python"


def ask(grove: str, command: str, document: str) -> dict[str, str]:
    """What a command of the program prints for a document, as lines by their first word."""
    try:
        ran = subprocess.run([*shlex.split(grove), command], input=document.encode(), capture_output=True, check=False)
    except OSError as why:
        raise Failed(f"{grove}: {why.strerror}") from why
    text = ran.stdout.decode()
    if ran.returncode == 1 and text.startswith("refused "):
        raise Refused(text.removeprefix("refused ").strip())
    if ran.returncode:
        raise Failed(f"{grove} {command} ended with status {ran.returncode}: {ran.stderr.decode().strip()[:200]}")
    return by_first_words(text)


def by_first_words(text: str) -> dict[str, str]:
    """The lines of an answer, each by its first word."""
    return dict(line.split(" ", 1) for line in text.splitlines())
