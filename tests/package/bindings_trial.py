"""The packages alone, in programs in C, Rust and Python: what docs/LIBRARY.md shows, with nothing of the checkout."""

from __future__ import annotations

import os
import re
import shutil
import subprocess
import sys
import tarfile
from pathlib import Path

from looking import note_equal, note_silent
from packages import TOP, Packages, called
from sweeps.program import Tally

STRICT = ["-std=c99", "-Wall", "-Wextra", "-pedantic", "-Werror"]
# Folders of a checkout and other places would be looked into first.
UNSET = ("GROVE_LIBRARY", "PYTHONPATH", "LD_LIBRARY_PATH")
SURROUNDINGS = {name: value for name, value in os.environ.items() if name not in UNSET}
SURROUNDINGS["PYTHONDONTWRITEBYTECODE"] = "1"
MANIFEST = """\
[package]
name = "follows"
version = "0.1.0"
edition = "2024"

[dependencies]
pickbracken = {{ path = "{crate}" }}
"""
MAIN = """\
fn main() -> Result<(), pickbracken::Error> {
%s    Ok(())
}
"""
# What the package is, and that its library is the one beside it.
LOOK = "import pickbracken.library as it; print(it.__file__); it.loaded()"


def blocks(language: str) -> list[str]:
    """What docs/LIBRARY.md shows in a language."""
    page = (TOP / "docs/LIBRARY.md").read_text(encoding="utf-8")
    return re.findall(rf"^```{language}\n(.*?)^```", page, re.M | re.S)


def linked_in_c(packages: Packages, room: Path, tally: Tally) -> None:
    """The examples in C, with the static library, as pkg-config says, and with the shared one."""
    prefix = packages.unpacked(room / "prefix")
    pages = prefix / "share/doc/grove"
    document = pages / "examples/settings.json"
    wanted = called(prefix / "bin/grove", "plan", document).stdout + "cost 16\n"
    static = configured(packages, prefix, tally)
    shared = [f"-I{prefix}/include", f"-L{prefix}/lib/grove", f"-Wl,-rpath,{prefix}/lib/grove", "-lgrove"]
    for place in (static, shared):
        note_silent(tally, place[1], called("cc", *STRICT, f"{pages}/bindings/c/plan.c", *place, "-o", room / "plan"))
        note_equal(tally, "settings.json", called(room / "plan", document, env=SURROUNDINGS).stdout, wanted)
        words = [f"{pages}/bindings/c/locks.c", *place, "-pthread"]
        note_silent(tally, f"locks, {place[1]}", called("cc", *STRICT, *words, "-o", room / "locks"))
        moved = called(room / "locks", env=SURROUNDINGS).stdout
        note_equal(tally, "locks", moved, "4000 moves, and the shelves hold 400\n")


def configured(packages: Packages, prefix: Path, tally: Tally) -> list[str]:
    """What pkg-config says of compiling with the library."""
    surroundings = {**SURROUNDINGS, "PKG_CONFIG_PATH": f"{prefix}/lib/pkgconfig"}
    version = called("pkg-config", "--modversion", "grove", env=surroundings).stdout
    note_equal(tally, "the version", version, f"{packages.version}\n")
    return called("pkg-config", "--cflags", "--libs", "grove", env=surroundings).stdout.split()


# What the code of the pages in Rust prints: the amounts of a run, and the steps of a plan for two leaves.
STEPS = (
    'Lock("/")', 'Lock("/a")', 'Lock("/b")', 'Unlock("/")', "Access(0)", 'Unlock("/a")', "Access(1)", 'Unlock("/b")'
)
PRINTED = "\n".join(["[9, 11]", *STEPS, ""])


def crate(packages: Packages, room: Path, tally: Tally) -> None:
    """A program that names the crate of the prefix, and that of the crate's own archive."""
    prefix = packages.unpacked(room / "prefix")
    with tarfile.open(packages.crate) as tar:
        tar.extractall(room)
    for place in (prefix / "share/grove/pickbracken", room / packages.crate.name.removesuffix(".crate")):
        project = room / "follows"
        (project / "src").mkdir(parents=True, exist_ok=True)
        (project / "Cargo.toml").write_text(MANIFEST.format(crate=place))
        (project / "src/main.rs").write_text(MAIN % "".join(f"{{\n{block}}}\n" for block in blocks("rust")))
        surroundings = {**SURROUNDINGS, "CARGO_TARGET_DIR": str(room / "target")}
        ran = called("cargo", "run", "--quiet", "--offline", cwd=project, env=surroundings)
        note_equal(tally, place.name, (ran.stdout, ran.stderr, ran.returncode), (PRINTED, "", 0))
        ran = called("cargo", "run", "--quiet", "--offline", "--example", "stock", cwd=place, env=surroundings)
        note_equal(tally, "stock", (ran.stdout, ran.returncode), ("4000 moves, and the shelves hold 400\n", 0))


def python_in(room: Path) -> Path:
    """A Python of its own, without packages."""
    called(sys.executable, "-m", "venv", room / "venv")
    return room / "venv/bin/python3"


def wheel(packages: Packages, room: Path, tally: Tally) -> None:
    """`pip install` of the wheel, of the one that is installed below the prefix too: they are one file."""
    python = python_in(room)
    installed = packages.prefix / "share/grove" / packages.wheel.name
    note_equal(tally, "the installed wheel", installed.read_bytes() == packages.wheel.read_bytes(), True)
    note_pip(tally, "the wheel", python, packages.wheel)
    note_package(tally, room, python)
    note_equal(tally, "pip check", called(python, "-m", "pip", "check", env=SURROUNDINGS).returncode, 0)


def pip_install(packages: Packages, room: Path, tally: Tally) -> None:
    """`pip install` of the folder, which takes the library that is named, or the one of tools/library; without one it
    says what makes it."""
    python = python_in(room)
    folder = shutil.copytree(packages.copy / "bindings/python", room / "checkout/bindings/python")
    ran = pip(python, folder)
    is_told = "tools/library makes it" in ran.stderr + ran.stdout
    note_equal(tally, "without a library", (ran.returncode, is_told), (1, True))
    note_pip(tally, "a library that is named", python, folder, GROVE_LIBRARY=str(packages.copy / "out/library"))
    note_package(tally, room, python)
    called(python, "-m", "pip", "uninstall", "--yes", "pickbracken", env=SURROUNDINGS)
    (room / "checkout/out").mkdir()
    (room / "checkout/out/library").symlink_to(packages.copy / "out/library")
    note_pip(tally, "that of tools/library", python, folder)
    note_package(tally, room, python)


def pip(python: Path, what: Path, **more: str) -> subprocess.CompletedProcess:
    words = ["-m", "pip", "install", "--no-index", "--no-deps"]
    return called(python, *words, what, env={**SURROUNDINGS, "PIP_DISABLE_PIP_VERSION_CHECK": "1", **more})


def note_pip(tally: Tally, where: str, python: Path, what: Path, **more: str) -> None:
    ran = pip(python, what, **more)
    tally.note(where, None if ran.returncode == 0 else ran.stdout + ran.stderr)


def note_package(tally: Tally, room: Path, python: Path) -> None:
    """The package is the one that was installed, with the library beside it, and does what the page shows."""
    told = called(python, "-c", LOOK, cwd=room, env=SURROUNDINGS)
    file = Path(told.stdout.strip())
    is_there = file.is_relative_to(room / "venv") and file.with_name("libgrove.so").is_file()
    tally.note("its place", None if is_there else told.stdout + told.stderr)
    ran = called(python, "-c", "\n".join(blocks("python")[:2]), cwd=room, env=SURROUNDINGS)
    moved = "{'/north/a': 6, '/north/b': 4}\n"
    is_well = ran.stdout.startswith(f"{moved}3 (Step(") and ran.stdout.endswith("no-path list 0\n") and not ran.stderr
    tally.note("docs/LIBRARY.md", None if is_well else ran.stdout + ran.stderr)
