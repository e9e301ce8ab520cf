"""The definitions of the kit's crates that ours cite: their lines, followed from name to name as those of ours are.

Rattle's std and core aren't counted: they are the language's own.
"""
import re
import subprocess
from functools import cache
from pathlib import Path

from definitions import WORD, crates

USE = re.compile(r"use Rattle\.(\w+)\.specs\.([\w.]+?)\.\{([^}]*)\}")
HEAD = re.compile(r"(?:abbrev |unfoldable )?(?:pub )?(?:data |record )?([A-Za-z_][\w'-]*)")
CONSTRUCTOR = re.compile(r"^ +([A-Za-z_][\w'-]*) :", re.M)


@cache
def kit():
    """Where the kit's crates are."""
    page = subprocess.run(["rt", "doc"], capture_output=True, text=True, check=True).stdout.split()[0]
    return Path(page).parent / "rattle"


def imports_in(text):
    """What each imported name of a text stands for, in the specs/ of a crate of the kit."""
    found = {}
    for crate, module, names in USE.findall(text):
        for name in names.split(",") if crate not in crates() else []:
            words = name.split(" as ")
            found[words[-1].strip()] = (crate, module, words[0].strip())
    return found


def blocks(lines):
    """What stands at the left margin of these lines, each with its own and those of the comment right above it. What
    stands in a module counts as if it stood at the margin."""
    comment, found = [], []
    for line in lines:
        if line.startswith("--"):
            comment.append(line)
        elif not line.strip():
            comment = []
        elif line[0] != " ":
            found.append(comment + [line])
            comment = []
        elif found:
            found[-1].append(line)
    for block in found:
        begins = next(line for line in block if not line.startswith("--"))
        if begins.startswith("module"):
            inside = next((at for at, line in enumerate(block) if line.endswith(" where")), len(block))
            yield from blocks(line.removeprefix("  ") for line in block[inside + 1 :])
        elif not re.match(r"(?:pub )?(?:use|mod)\b", begins):
            yield block


def names_of(block):
    """The definitions of a block: those that stand in one, as mutual ones do, are one; of data its constructors too."""
    text = "\n".join(line for line in block if not line.startswith("--"))
    if not re.match(r"(?:abbrev )?mutual\b", text):
        constructors = CONSTRUCTOR.findall(text) if re.match(r"(?:pub )?data\b", text) else []
        return {found[1] for found in [HEAD.match(text)] if found} | set(constructors)
    return set(re.findall(r"(?m)^ *pub (?:data |record )?([A-Za-z_][\w'-]*)", text)) | set(CONSTRUCTOR.findall(text))


@cache
def parts(crate, module):
    """The lines of each definition of a file of the kit, and what its imported names stand for."""
    path = kit() / crate / "specs" / (module.replace(".", "/") + ".antt")
    text = path.read_text() if path.is_file() else ""
    by_name = {}
    for block in blocks(text.split("\n")):
        for name in names_of(block):
            by_name[name] = by_name.get(name, ()) + tuple(block)
    return by_name, imports_in(text)


def kit_lines(definitions):
    """The number of lines in each crate of the kit that these definitions of ours reach."""
    left = [root for definition in definitions for root in roots_of(definition)]
    seen, lines = set(), {}
    while left:
        crate, module, name = root = left.pop()
        if root in seen:
            continue
        seen.add(root)
        by_name, imports = parts(crate, module)
        own = by_name.get(name, ())
        if own:
            lines[crate, module, own] = len(own)
            words = set(WORD.findall("\n".join(re.sub(r"--.*", "", line) for line in own)))
            left += [imports.get(word, (crate, module, word)) for word in words]
        elif name in imports:
            left.append(imports[name])
    named = sorted({key[0] for key in lines} - {"std", "core"})
    return {crate: sum(lines[key] for key in lines if key[0] == crate) for crate in named}


def roots_of(definition):
    """What a definition of ours names of the kit."""
    imports = imports_in(definition.file.path.read_text())
    return [imports[word] for word in definition.words() if word in imports]
