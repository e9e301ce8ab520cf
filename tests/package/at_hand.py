"""What is there for a person who types: manual pages, and completions."""

from __future__ import annotations

import re
from pathlib import Path

from looking import COMMANDS, note_equal, note_silent, with_manual
from packages import TOP, Packages, called
from sweeps.program import Tally

# What the help says of a command, an argument or an option: the end of a line.
SAID = re.compile(r"(?:^|  )([A-Z][^\n]{20,})$", re.M)

COMPLETE_IN_BASH = """
. "$1"
shift
COMP_WORDS=(grove "$@")
COMP_CWORD=$#
_grove
printf '%s\\n' "${COMPREPLY[@]}"
"""
IN_BASH = {
    "pl": "plan",
    "": " ".join([*COMMANDS, "help"]),
    "help dr": "draw",
    "--v": "--version",
    "plan --d": "--document",
    "plan t": "tree.json",
    "plan --quiet t": "tree.json",
    "judge ": "tree.json other",
    "serve --tree ": "tree.json other",
    "serve --tree = t": "tree.json",
    "serve --tree =": "tree.json other",
    "serve --port ": "",
    "serve --an": "--any-port",
    "serve --id": "--idle",
    "serve t": "",
    "ask --a": "--address",
    "save --port 8080 t": "tree.json",
    "save --port ": "",
    "run --wor": "--workers",
    "nothing x": "",
}
IN_ZSH = {
    "pla": "plan ",
    "plan --doc": "plan --document ",
    "plan --quiet t": "plan --quiet tree.json ",
    "draw --te": "draw --text ",
    "serve --tr": "serve --tree=",
    "save --port 8080 t": "save --port 8080 tree.json ",
}


def manual(packages: Packages, _room: Path, tally: Tally) -> None:
    """Each page is shown without a warning; the program's has a section for each command, with what its help says."""
    surroundings = with_manual(packages.prefix)
    for page in sorted((packages.prefix / "share/man/man1").iterdir()):
        ran = called("man", "--warnings", "--local-file", page, env=surroundings)
        tally.note(page.name, None if ran.stdout.strip() and not (ran.stderr or ran.returncode) else ran.stderr)
    text = called("man", "grove", env=surroundings).stdout
    one_line = " ".join(text.split())
    for command in COMMANDS:
        note_equal(tally, command, f"\nGROVE {command.upper()}\n" in text, True)
        for said in SAID.findall(called(packages.prefix / "bin/grove", command, "--help").stdout):
            note_equal(tally, f"{command}: {said}", said in one_line or said.startswith("Usage: "), True)
    note_equal(tally, "the status of ask", "Of grove ask: a reply is an error." in one_line, True)
    note_equal(tally, "man grove plan", called("man", "grove", "plan", env=surroundings).stdout, text)


def names_of_manual(packages: Packages, _room: Path, tally: Tally) -> None:
    """Each program has a page, whose name and purpose `whatis` finds."""
    for program in sorted((packages.prefix / "bin").iterdir()):
        ran = called("lexgrog", packages.prefix / f"share/man/man1/{program.name}.1")
        is_well = ran.returncode == 0 and f'"{program.name} - ' in ran.stdout
        tally.note(program.name, None if is_well else ran.stdout + ran.stderr)


def completed_by_bash(packages: Packages, room: Path, tally: Tally) -> None:
    """What bash completes of some beginnings, in a folder with a file and a folder."""
    (room / "tree.json").write_text("{}")
    (room / "other").mkdir()
    script = packages.prefix / "share/bash-completion/completions/grove"
    for words, wanted in IN_BASH.items():
        ran = called("bash", "-uc", COMPLETE_IN_BASH, "bash", script, *words.split(" "), cwd=room)
        note_equal(tally, words, (sorted(ran.stdout.split()), ran.stderr), (sorted(wanted.split()), ""))


def completed_by_zsh(packages: Packages, room: Path, tally: Tally) -> None:
    """What becomes of a line in zsh once Tab is pressed."""
    (room / "tree.json").write_text("{}")
    script = packages.prefix / "share/zsh/site-functions/_grove"
    note_silent(tally, "syntax", called("zsh", "-n", script))
    for words, wanted in IN_ZSH.items():
        ran = called("zsh", "-f", TOP / "tests/package/complete.zsh", script.parent, words, cwd=room)
        note_equal(tally, words, ran.stdout.strip("\n"), f"grove {wanted}")
