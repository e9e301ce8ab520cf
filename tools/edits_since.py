"""Which edits have to be tried for what has changed since a commit."""

from __future__ import annotations

import io
import json
import shutil
import subprocess
import sys
import tarfile
import tempfile
from pathlib import Path

from edit_files import TOP, all_of, crates

# How many reasons are printed of a crate.
MOST_REASONS = 3


def checkout_of(revision: str, folder: Path) -> None:
    """Lays out a commit, with the tools of this checkout."""
    packed = subprocess.run(["git", "archive", revision], cwd=TOP, stdout=subprocess.PIPE, check=False)
    if packed.returncode:
        sys.exit(f"edits: there is no commit {revision}")
    with tarfile.open(fileobj=io.BytesIO(packed.stdout)) as files:
        files.extractall(folder)
    (folder / "tools").mkdir(exist_ok=True)
    for tool in (TOP / "tools").glob("*.py"):
        shutil.copy(tool, folder / "tools")


def views_of(checkout: Path) -> dict[str, dict[str, str]]:
    """What the check of each crate stands on, with a mark of each."""
    ran = subprocess.run([sys.executable, checkout / "tools/views.py"], stdout=subprocess.PIPE, check=True)
    return dict(json.loads(ran.stdout))


def turned(before: dict[str, str], now: dict[str, str]) -> list[str]:
    """What differs for a crate: its own sources, or what it names below."""
    return sorted(name for name in before.keys() | now.keys() if before.get(name) != now.get(name))


def chosen_since(revision: str) -> dict[str, list[Path]]:
    """The edits of each crate that have to be tried for what has changed since a commit; and prints why."""
    with tempfile.TemporaryDirectory(prefix="edits-") as folder:
        checkout_of(revision, Path(folder))
        before, now = views_of(Path(folder)), views_of(TOP)
        known = {edit.read_bytes() for edit in Path(folder).rglob("*.edit")}
    chosen = {}
    for name in crates():
        reasons = turned(before.get(name, {}), now[name])
        edits = all_of(name) if reasons else [edit for edit in all_of(name) if edit.read_bytes() not in known]
        if edits:
            chosen[name] = edits
            print(f"{name}: {len(edits)} edits: {reasons_told(reasons) or 'they are new'}", flush=True)
    return chosen


def reasons_told(reasons: list[str]) -> str:
    if "own" in reasons:
        return "its own sources have changed"
    more = f" and {len(reasons) - MOST_REASONS} more" if len(reasons) > MOST_REASONS else ""
    return f"it names {', '.join(reasons[:MOST_REASONS])}{more}" if reasons else ""
