"""What is installed, and where below the prefix: the same for the archive, for Debian and for `--install`."""

from __future__ import annotations

from pathlib import PurePosixPath

from .bindings import built_bindings
from .completion import in_bash, in_zsh
from .help_text import helps_of
from .manual import Edition, page_of_cluster, page_of_program
from .placed import Placed, copied, texts
from .source import Source, proved_program
from .units import units

CLUSTER = "lib/grove/cluster"
# Where Debian's Python looks below /usr.
MODULES = "lib/python3/dist-packages"
MANUAL = "share/man/man1"
PAGES = "share/doc/grove"


def layout(source: Source, prefix: str) -> list[Placed]:
    """All that is installed below the prefix, by path."""
    program = proved_program(source)
    helps = helps_of(str(program))
    edition = Edition(source.version(), source.date(), source.server_memory())
    commands = commands_of_cluster(source)
    placed = [Placed("bin/grove", program.read_bytes(), True)]
    placed += cluster(source, commands)
    placed += built_bindings(source).placed()
    placed.append(Placed(f"{MODULES}/pickbracken", target="../../grove/python/pickbracken"))
    placed += texts(MANUAL, {"grove.1": page_of_program(helps, list(commands), edition)})
    # `man grove plan` asks for grove-plan first.
    own_pages = {f"grove-{name}" for name in helps.commands} - set(commands)
    placed += [Placed(f"{MANUAL}/{name}.1", target="grove.1") for name in own_pages]
    for name, file in commands.items():
        page = page_of_cluster(name, source.read(file).decode(), list(commands), edition)
        placed += texts(MANUAL, {f"{name}.1": page})
    placed += texts("share/bash-completion/completions", {"grove": in_bash(helps)})
    placed += texts("share/zsh/site-functions", {"_grove": in_zsh(helps)})
    placed += texts("lib/systemd/system", units(prefix, edition.server_memory))
    pages = source.files("README.md", "CHANGELOG.md", "docs", "examples", "bindings/c")
    placed += [copied(source, f"{PAGES}/{file}", file) for file in pages]
    return sorted(placed, key=lambda each: each.path)


def commands_of_cluster(source: Source) -> dict[str, str]:
    """The programs that stand in cluster/ itself, by the names that they are installed by."""
    files = [file for file in source.files("cluster") if file.count("/") == 1 and source.is_program(file)]
    return {f"grove-{PurePosixPath(file).name}": file for file in files}


def cluster(source: Source, commands: dict[str, str]) -> list[Placed]:
    """The programs stand beside their modules, as in the checkout, where a link leads to each; so they find these below
    any prefix. Another link has the modules where Python looks for them."""
    files = [file for file in source.files("cluster") if not file.endswith(".md")]
    placed = [copied(source, f"{CLUSTER}/{file.removeprefix('cluster/')}", file) for file in files]
    for name, file in commands.items():
        placed.append(Placed(f"bin/{name}", target=f"../{CLUSTER}/{PurePosixPath(file).name}"))
    for file in files:
        if file.count("/") == 2 and file.endswith("/__init__.py"):
            module = PurePosixPath(file).parts[1]
            placed.append(Placed(f"{MODULES}/{module}", target=f"../../grove/cluster/{module}"))
    return placed
