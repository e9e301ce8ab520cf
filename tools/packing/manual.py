"""Manual pages: of the program from its help, and of the programs of cluster/ from the text that each begins with."""

from __future__ import annotations

import ast
import re
import time
from dataclasses import dataclass

from .help_text import Entry, Help, Helps

# The words of a usage line: an option, what stands for a value (`<DOC>`, `[OPTIONS]`), the name of a program.
WORD = re.compile(r"(?<![\w-])-{1,2}[\w-]+|\b[A-Z]+\b|\b[a-z][\w-]*")

STATUSES = [
    ("0", "Done: if there is an answer, it is on standard output."),
    (
        "1",
        "The input is refused: standard output has \\fBrefused\\fR and the fault, standard error a hint. "
        "Of \\fBgrove ask\\fR: a reply is an error.",
    ),
    ("2", "The command line is wrong."),
    ("3", "Standard error says why, and has \\fBdevice\\fR: something couldn't be read or written; or \\fBmemory\\fR."),
]


class BadText(Exception):
    """A program of cluster/ doesn't say what it does."""


@dataclass(frozen=True)
class Edition:
    """What stands at the foot of each page, and what the pages say of the place."""

    version: str
    made: int
    server_memory: str


def page_of_program(helps: Helps, further: list[str], edition: Edition) -> str:
    """The page of the program, with a section for each command, and the names of the other pages."""
    top = helps.program
    name, _, _ = top.about.partition(". ")
    parts = [heading("grove", edition), section("Name"), f"grove \\- {escaped(lowered(name))}"]
    parts += [section("Synopsis"), *synopsis([top.usage, *(each.usage for each in helps.commands.values())])]
    parts += [section("Description"), escaped(full_stop(top.about)), *listed(top.options())]
    for command, of in helps.commands.items():
        parts += [section(f"grove {command}"), *section_of_command(of)]
    parts += [section("Exit status"), *(line for status in STATUSES for line in tagged(*status))]
    parts += [section("Environment"), *environment(edition)]
    parts += [section("See also"), also([*further]), ".PP", "The pages and the examples in share/doc/grove."]
    return "\n".join(parts) + "\n"


def section_of_command(of: Help) -> list[str]:
    return [styled(of.usage), ".PP", escaped(full_stop(of.about)), *listed([*of.arguments(), *of.options()])]


def environment(edition: Edition) -> list[str]:
    told = (
        "The C library keeps memory that was given back. A server that runs for long gives it to the system if its "
        "environment has the line below. The unit files set it; whoever starts \\fBgrove serve\\fR or "
        "\\fBgrove page\\fR by hand for long should, too."
    )
    return [*tagged("\\fBGLIBC_TUNABLES\\fR", told), ".PP", ".nf", f"GLIBC_TUNABLES={edition.server_memory}", ".fi"]


def page_of_cluster(name: str, source: str, others: list[str], edition: Edition) -> str:
    """The page of a program of cluster/."""
    about, usage, rest = text_of(name, source)
    first, *_ = re.split(r"[.;] ", about.replace("`", ""))
    parts = [heading(name, edition), section("Name"), f"{hyphened(name)} \\- {escaped(lowered(first).rstrip('.'))}"]
    parts += [section("Synopsis"), styled(usage), section("Description"), escaped(about)]
    for paragraph in rest:
        parts += [".PP", escaped(paragraph)]
    parts += [section("See also"), also(["grove", *(other for other in others if other != name)])]
    return "\n".join([*parts, ".PP", "CLUSTER.md in share/doc/grove/docs."]) + "\n"


def text_of(name: str, source: str) -> tuple[str, str, list[str]]:
    """Of such a program's text: what it does, how it is called, and what else it says, by paragraphs."""
    text = ast.get_docstring(ast.parse(source))
    if not text:
        raise BadText(f"{name}: its source doesn't begin with a text that says what it does")
    paragraphs = [" ".join(paragraph.split()) for paragraph in re.split(r"\n\s*\n", text)]
    usages = [paragraph for paragraph in paragraphs if paragraph.startswith("usage: ")]
    usage = usages[0].removeprefix("usage: ") if usages else name
    about, *rest = [paragraph for paragraph in paragraphs if paragraph not in usages]
    return about, re.sub(r"\bcluster/(?=[a-z])", "grove-", usage), rest


def heading(name: str, edition: Edition) -> str:
    date = time.strftime("%Y-%m-%d", time.gmtime(edition.made))
    return f'.TH {hyphened(name).upper()} 1 {date} "grove {edition.version}" "User Commands"\n.ad l'


def section(title: str) -> str:
    return f'.SH "{escaped(title).upper()}"'


def synopsis(usages: list[str]) -> list[str]:
    lines = [line for usage in usages for line in (".br", styled(usage))]
    return [".nh", *lines[1:], ".hy"]


def listed(entries: list[Entry]) -> list[str]:
    return [line for entry in entries for line in tagged(styled(entry.name), escaped(full_stop(entry.text)))]


def tagged(tag: str, text: str) -> list[str]:
    return [".TP", tag, text]


def also(names: list[str]) -> str:
    return ",\n".join(f"\\fB{hyphened(name)}\\fR(1)" for name in names)


def styled(usage: str) -> str:
    """A usage with what is written so in bold, and what stands for a value in italics."""

    def font(it: re.Match) -> str:
        return f"\\f{'I' if it[0].isupper() and it[0].isalpha() else 'B'}{hyphened(it[0])}\\fR"

    return WORD.sub(font, usage)


def hyphened(text: str) -> str:
    """With dashes that can be copied."""
    return text.replace("-", "\\-")


def escaped(text: str) -> str:
    """As running text; no line of it is taken for a request."""
    plain = text.replace("\\", "\\e").replace(" --", " \\-\\-")
    bold = re.sub(r"`([^`]*)`", r"\\fB\1\\fR", plain)
    return f"\\&{bold}" if bold[:1] in (".", "'") else bold


def lowered(text: str) -> str:
    return text[:1].lower() + text[1:]


def full_stop(text: str) -> str:
    return text if text.endswith(".") else f"{text}."
