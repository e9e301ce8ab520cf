"""The contracts of the sources: the clauses of public calls, and which definitions of specs/ they name."""
import re

from definitions import TOP, WORD, crates, imports_of


# How a function begins that a static library has for other languages; it reads as any other.
EXPORT = 'pub extern "C" fn '


class Clause:
    """A clause of a function: `requires` or `ensures`, its name, which may be empty, and what it names of specs/."""

    def __init__(self, kind, name, roots):
        self.kind, self.name, self.roots = kind, name, roots


def exported(crate):
    """The names that the root file of a library hands out; all of a program's, whose callers are its files."""
    root = TOP / "crates" / crate / "src/lib.rt"
    if not root.exists():
        return None
    text = root.read_text()
    names = re.findall(r"pub use [\w:]+::(?:\{([^}]*)\}|(\w+));", text)
    used = {word.strip() for group in names for word in (group[0] or group[1]).split(",") if word.strip()}
    return used | set(re.findall(rf"{EXPORT}(\w+)", text))


def blocks(text):
    """The top-level items of a source text: each with its head line and its whole text."""
    first_words = r"^(?:pub(?:\(crate\))? |impl|fn |trait |struct |enum |#\[cfg)"
    starts = [found.start() for found in re.finditer(first_words, text, re.M)]
    return [text[a:b] for a, b in zip(starts, [*starts[1:], len(text)])]


def head(item):
    """An item's own name: of a function, a type or a trait, or of the type that an `impl` is for."""
    block = re.match(r"impl(?:<(?:[^<>]|<[^<>]*>)*>)?\s+(?:[\w:<>', ]+?\s+for\s+)?(\w+)", item)
    plain = re.match(r"(?:pub )?(?:fn|struct|enum|trait)\s+(\w+)", item)
    return (block or plain)[1] if block or plain else None


def functions(item):
    """An item's text before its first method, and that of each method; of a function, nothing and its own."""
    if re.match(r"(?:pub )?fn ", item):
        return ["", item]
    return re.split(r"(?m)^    (?=(?:pub(?:\(crate\))? )?fn )", item)


def contract(function):
    """The contract of a function: from its first clause to its body, or to its end if it has none."""
    return "".join(re.findall(r"(?ms)^\s*(?:requires|ensures).*?(?=^\s*\{\}?$|\Z)", function))


def clauses(item):
    """The clauses and ghost parts of an item that callers see: those of private functions are left out."""
    first, *others = functions(item)
    parts = [first, *others]
    if item.startswith("impl") and not re.match(r"impl[^{]*\bfor\b", item):
        parts = [part for part in others if part.startswith("pub ")]
    ghosts = [text for part in parts for text in re.findall(r"(?ms)^\s*ghost (?!use).*?[;}]$", part)]
    return "\n".join(ghosts + [contract(part) for part in parts])


def sources(crate):
    """The texts of a crate's sources, but for its tests."""
    paths = sorted((TOP / "crates" / crate / "src").rglob("*.rt"))
    texts = [path.read_text() for path in paths if path.name not in ("tests.rt", "examples.rt")]
    return [text.replace(EXPORT, "pub fn ") for text in texts]


def calls(crate):
    """The public functions of a crate, and the methods of its public types, each with its text."""
    names = exported(crate)
    for text in sources(crate):
        for item in blocks(text):
            if names is not None and head(item) not in names:
                continue
            is_trait = bool(re.match(r"pub trait|impl[^{]*\bfor\b", item))
            owner = "" if item.startswith("pub fn") else head(item) or ""
            for function in functions(item)[1:]:
                name = re.match(r"(?:pub )?fn (\w+)", function)
                if name and (is_trait or function.startswith("pub ")):
                    yield f"{owner}::{name[1]}" if owner else name[1], function


def comment_above(crate, function):
    """What the comment above a function says, which may have attributes below it."""
    before = next(text.partition(function)[0] for text in sources(crate) if function in text)
    lines = before.rstrip().split("\n")
    while lines and lines[-1].lstrip().startswith("#["):
        lines.pop()
    said = []
    while lines and lines[-1].lstrip().startswith("///"):
        said.append(lines.pop().strip().removeprefix("///").strip())
    return " ".join(reversed(said))


def named(text, imports):
    """The definitions that a text names."""
    return {imports[word] for word in WORD.findall(text) if word in imports}


def roots(crate):
    """The definitions that the public contracts of a crate name."""
    names, found = exported(crate), set()
    for text in sources(crate):
        for item in blocks(text):
            is_public = head(item) in names if names is not None else item.startswith("pub fn run_command")
            if is_public:
                found |= named(clauses(item), imports_of(text))
    return found


def values():
    """Of each type what its values are to callers: the definitions that its `ghost Value` names."""
    found = {}
    for crate in crates():
        for text in sources(crate):
            for item in blocks(text):
                value = re.search(r"(?s)\bghost Value = (.*?);", item)
                if value and re.match(r"impl[^{]*\bModel for\b", item):
                    found[head(item)] = named(value[1], imports_of(text))
    return found


def clauses_of(crate, call, values_of):
    """The clauses of a call, as `plan` or `Desk::close`, what it requires among them. The name of a type in what the
    call takes and gives brings what its values are."""
    owner, _, name = call.rpartition("::")
    found = []
    for function, imports in functions_named(crate, owner, name):
        types = signature_values(function, owner, values_of)
        found += [Clause(kind, label, types | named(body, imports)) for kind, label, body in parted(function)]
    return found


def functions_named(crate, owner, name):
    """The functions of this name, or the methods of it that an owner has, each with the imports of its file."""
    for text in sources(crate):
        imports = imports_of(text)
        items = [item for item in blocks(text) if head(item) == (owner or name)]
        for function in [function for item in items for function in functions(item)[1:]]:
            if re.match(rf"(?:pub )?fn {name}\b", function):
                yield function, imports


def signature_values(function, owner, values_of):
    """What the values of the types are that a function takes and gives."""
    signature = re.split(r"(?m)^\s*(?:requires|ensures)\b", function)[0]
    types = set(re.findall(r"\w+", signature)) | {owner}
    return set().union(*(values_of[word] for word in types if word in values_of))


def parted(function):
    """The clauses of a function: kind, name and text of each."""
    parts = re.split(r"(?m)^\s*(?=(?:requires|ensures)\b)", contract(function))
    matches = [re.match(r"(?s)(requires|ensures)\s*(\w*)\s*(\{.*)", part) for part in parts]
    return [found.groups() for found in matches if found]
