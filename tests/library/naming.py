"""The names that the package and the crate have, read from both, beside the table of docs/LIBRARY.md."""

from __future__ import annotations

import ast
import inspect
import re
import sys
import textwrap
from collections.abc import Iterator
from pathlib import Path
from types import ModuleType

TOP = Path(__file__).resolve().parents[2]
CRATE, PAGE = TOP / "bindings/rust/src", TOP / "docs/LIBRARY.md"
HEAD = "| Of | Both | Python alone | Rust alone |\n|---|---|---|---|\n"
# The rows that are about no type: what the package and the crate have, and the errors, which are a type in Rust.
ALL, ERRORS = "pickbracken", "Error"
# What a type of the package is called in the crate, if otherwise.
CALLED = {"Refused": "Fault"}

Names = dict[str, set[str]]
# What a row of the table is about, and the names in its three columns.
Row = tuple[str, set[str], set[str], set[str]]


def differences() -> Iterator[tuple[str, str | None]]:
    """For each row of the table what is wrong there, if anything is."""
    python, rust = names_of_package(), names_of_crate()
    listed = {row[0] for row in rows()}
    for of, both, in_python, in_rust in rows():
        theirs, ours = python.get(of, set()), rust.get(CALLED.get(of, of), set())
        wrong = [f"{name} isn't in Python" for name in (both | in_python) - theirs]
        wrong += [f"{name} isn't in Rust" for name in (both | in_rust) - ours]
        wrong += [f"{name} is in Rust" for name in in_python & ours]
        wrong += [f"{name} is in Python" for name in in_rust & theirs]
        wrong += [f"{name} of Rust isn't in the table" for name in ours - both - in_rust]
        if of in (ALL, ERRORS):
            wrong += [f"{name} of Python isn't in the table" for name in theirs - both - in_python]
        yield f"row {of}", ", ".join(sorted(wrong)) or None
    types = {name for name in python if name in rust and python[name] & rust[name]}
    yield "rows", None if types <= listed else f"none for {sorted(types - listed)}"


def rows() -> Iterator[Row]:
    table = PAGE.read_text(encoding="utf-8").partition(HEAD)[2].partition("\n\n")[0]
    for line in table.splitlines():
        of, *cells = line.split("|")[1:5]
        both, in_python, in_rust = [set(map(alike, re.findall(r"`(\w+)`", cell))) for cell in cells]
        yield of.strip("` "), both, in_python, in_rust


def alike(name: str) -> str:
    """A name as it is in each spelling."""
    return name.replace("_", "").lower()


# ---- Python


def names_of_package() -> Names:
    sys.path.insert(0, str(TOP / "bindings/python"))
    import pickbracken
    from pickbracken import client, document, faults

    types = {name: value for name, value in vars(pickbracken).items() if name in pickbracken.__all__}
    types |= {"Client": client.Client, "Lost": client.Lost}
    found = {name: set(map(alike, members_of(value))) for name, value in types.items() if inspect.isclass(value)}
    errors = {name for module in (faults, client) for name in errors_of(module)}
    found["document"] = {alike(name) for name in functions_of(document)}
    found[ALL] = {alike(name) for name in types if name not in errors and name[0] != "_"} | {"document"}
    found[ERRORS] = set(map(alike, errors - {ERRORS}))
    return found


def members_of(of: type) -> Iterator[str]:
    """What a class of the package has by name, and what its methods give an object."""
    for each in of.__mro__:
        if not each.__module__.startswith("pickbracken"):
            continue
        yield from (name for name in (*vars(each), *vars(each).get("__annotations__", ())) if name[0] != "_")
        for node in ast.walk(ast.parse(textwrap.dedent(inspect.getsource(each)))):
            if isinstance(node, ast.Attribute) and isinstance(node.ctx, ast.Store):
                yield node.attr


def errors_of(module: ModuleType) -> Iterator[str]:
    for name, value in vars(module).items():
        if inspect.isclass(value) and issubclass(value, Exception) and value.__module__.startswith("pickbracken"):
            yield name


def functions_of(module: ModuleType) -> Iterator[str]:
    for name, value in vars(module).items():
        if inspect.isfunction(value) and value.__module__ == module.__name__:
            yield name


# ---- Rust

# An item of a file that rustfmt has laid out, up to its brace at the margin.
ITEM = re.compile(r"^(pub struct|pub enum|pub trait|impl)\b([^\n{;]*)\{\n(.*?)^\}", re.MULTILINE | re.DOTALL)
MEMBERS = {
    "pub struct": re.compile(r"^    pub (\w+):", re.MULTILINE),
    "pub enum": re.compile(r"^    ([A-Z]\w*)[,({ ]", re.MULTILINE),
    "pub trait": re.compile(r"^    fn (\w+)", re.MULTILINE),
    "impl": re.compile(r"^    pub fn (\w+)", re.MULTILINE),
}
# A variant with named fields.
VARIANT = re.compile(r"^    ([A-Z]\w*) \{\n(.*?)^    \}", re.MULTILINE | re.DOTALL)


def names_of_crate() -> Names:
    sources = [path.read_text(encoding="utf-8") for path in sorted(CRATE.glob("*.rs"))]
    found: Names = {}
    for text in sources:
        for kind, head, body in ITEM.findall(text):
            of = re.findall(r"\w+", re.sub(r"<[^<>]*>|<.*?> ", "", head))
            if kind == "impl" and of[1:2] == ["for"]:
                found.setdefault(of[2], set()).update([f"trait {of[0]}"])
            elif of:
                found.setdefault(of[0], set()).update(map(alike, MEMBERS[kind].findall(body)))
            for variant, fields in VARIANT.findall(body) if kind == "pub enum" else []:
                found[variant] = set(map(alike, re.findall(r"^        (\w+):", fields, re.MULTILINE)))
    for name, members in found.items():
        traits = [found[member[6:]] for member in members if member[:6] == "trait " and member[6:] in found]
        found[name] = set().union(*traits, (member for member in members if member[:6] != "trait "))
    found["document"] = set(map(alike, re.findall(r"^pub fn (\w+)", (CRATE / "document.rs").read_text(), re.MULTILINE)))
    used = re.findall(r"^pub use \w+::\{?([^;}]*)", (CRATE / "lib.rs").read_text(), re.MULTILINE)
    found[ALL] = {alike(name) for names in used for name in re.findall(r"\w+", names)} - {alike(ERRORS)} | {"document"}
    return found
