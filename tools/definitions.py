"""The definitions of specs/, by file: their lines, the names that they use, and which of them are reached from some."""
import re
from pathlib import Path

TOP = Path(__file__).resolve().parent.parent
WORD = re.compile(r"[A-Za-z_][\w']*(?:-[A-Za-z0-9_']+)*")
DEFINITION = re.compile(r"^(abbrev |unfoldable )?pub (record |data )?([A-Za-z_][\w'-]*)")


class Definition:
    """A definition of specs/: its file, its name, its lines, and the names that it uses. A lemma is one that is proved
    there: it stands with nothing before its `pub` and its name."""

    def __init__(self, file, name, is_lemma):
        self.file, self.name, self.is_lemma, self.lines = file, name, is_lemma, []

    def words(self):
        return set(WORD.findall("\n".join(re.sub(r"--.*", "", line) for line in self.lines)))


class SpecFile:
    """A file of specs/: its definitions by name, and what its names of other files stand for."""

    def __init__(self, crate, path):
        self.crate, self.path = crate, path
        self.module = path.relative_to(TOP / "crates" / crate / "specs").with_suffix("").as_posix().replace("/", ".")
        text = path.read_text()
        self.first = text.split("\n", 1)[0]
        self.imports = imports_of(text)
        self.definitions = {}
        self.read(text)

    def read(self, text):
        comment, current = [], None
        for line in text.split("\n"):
            begins = DEFINITION.match(line)
            if begins:
                current = Definition(self, begins[3], is_lemma=not (begins[1] or begins[2]))
                current.lines = comment + [line]
                self.definitions[begins[3]] = current
                comment = []
            elif line.startswith("--"):
                comment, current = comment + [line], None
            elif not line.strip() or line.startswith("use ") or line.startswith("pub use "):
                comment, current = [], None
            elif current:
                current.lines.append(line)

    def label(self):
        return f"{self.crate}/specs/{self.module.replace('.', '/')}.antt"


def imports_of(text):
    """What each imported name of a text stands for: (crate, module, name) in the specs/ of a crate of ours."""
    found = {}
    for crate, module, names in re.findall(r"use Rattle\.(grove\w*)\.specs\.([\w.]+?)\.\{([^}]*)\}", text):
        for name in names.split(","):
            words = name.split(" as ")
            found[words[-1].strip()] = (crate, module, words[0].strip())
    return found


def crates():
    lines = (TOP / "crates.txt").read_text().split("\n")
    return [re.split(r"[\s:]", line)[0] for line in lines if line and not line.startswith("#")]


def read_specs():
    """All files of specs/ by crate and module."""
    files = {}
    for crate in crates():
        for path in sorted((TOP / "crates" / crate / "specs").rglob("*.antt")):
            if path.name != "Lib.antt":
                file = SpecFile(crate, path)
                files[crate, file.module] = file
    return files


def closure(files, begin, with_lemmas=True):
    """The definitions reached from the ones to begin with."""
    reached, left = set(), list(begin)
    while left:
        crate, module, name = left.pop()
        file = files.get((crate, module))
        definition = file.definitions.get(name) if file else None
        if definition is None or definition in reached or (definition.is_lemma and not with_lemmas):
            continue
        reached.add(definition)
        for word in definition.words():
            left.append(file.imports.get(word, (crate, module, word)))
    return reached


def count_lines(definitions):
    return sum(len(definition.lines) for definition in definitions)
