"""The library for programs in other languages, with what belongs to it: headers, the crate, the Python package."""

from __future__ import annotations

import sys
from dataclasses import dataclass
from pathlib import Path

from .archive import archive
from .made import Made
from .placed import Placed, copied, texts
from .source import Source, Unfit, need_new

sys.path.insert(0, str(Path(__file__).resolve().parents[2] / "bindings/python/building"))
import wheels  # noqa: E402

STATIC, SHARED = "out/library/libgrove.a", "out/library/libgrove.so"
HEADER, HEADERS = "include/grove.h", "include"
# Where the files that have a version of their own name it.
VERSIONED = ("bindings/rust/Cargo.toml", "bindings/tokio/Cargo.toml", "bindings/python/pyproject.toml")
# Below the prefix: where linkers look, and where they look only if the path is given. There the name of the library is
# followed by its version, and links lead to it by its own name and by the one that linkers look for.
LINKED, LOADED = "lib/libgrove.a", "lib/grove/libgrove.so"
PYTHON = "lib/grove/python"
SHARE = "share/grove"
CRATE = "pickbracken"

# What pkg-config reads: the prefix is the one that the file is found below.
PKG_CONFIG = """\
prefix=${{pcfiledir}}/../..
includedir=${{prefix}}/include
libdir=${{prefix}}/lib

Name: grove
Description: Least-cost lock plans over trees, by the proved planner and checker of grove
Version: {version}
Cflags: -I${{includedir}}
Libs: -L${{libdir}} -lgrove
"""


@dataclass(frozen=True)
class Bindings:
    """The library that tools/library made of these sources, and what is made of it."""

    source: Source
    static: bytes
    shared: bytes

    def crate(self) -> Made:
        """The crate's archive, as `cargo package` names it, with the static library in it."""
        name = f"{CRATE}-{self.source.version()}"
        placed = [*crate_files(self.source, ""), Placed("lib/libgrove.a", self.static)]
        return Made(f"{name}.crate", archive(sorted(placed, key=lambda it: it.path), name, self.source.date()))

    def wheel(self) -> Made:
        """The Python package with the shared library in it."""
        try:
            made = wheels.wheel(map(self.source.top.joinpath, self.modules()), self.shared, self.source.date())
        except wheels.Unmade as why:
            raise Unfit(str(why)) from why
        return Made(made.name, made.content)

    def modules(self) -> list[str]:
        """The files of the Python package."""
        return self.source.files("bindings/python/pickbracken")

    def loaded(self) -> list[Placed]:
        """The shared library, with the links to it."""
        file = loaded(self.source.version())
        own = f"{LOADED}.{self.source.version().partition('.')[0]}"
        return [
            Placed(file, self.shared),
            Placed(own, target=Path(file).name),
            Placed(LOADED, target=Path(own).name),
        ]

    def placed(self) -> list[Placed]:
        """All of it below the prefix. The package stands beside the library, where Debian's Python finds it by another
        link; the crate finds the library below the same prefix."""
        made, version = self.wheel(), self.source.version()
        placed = [Placed(LINKED, self.static), *self.loaded()]
        placed += [Placed(f"{SHARE}/{made.name}", made.content)]
        placed += [copied(self.source, file, file) for file in self.source.files(HEADERS)]
        placed += texts("lib/pkgconfig", {"grove.pc": PKG_CONFIG.format(version=version)})
        placed += crate_files(self.source, f"{SHARE}/{CRATE}/")
        for file in self.modules():
            placed.append(copied(self.source, f"{PYTHON}/{file.removeprefix('bindings/python/')}", file))
        placed.append(Placed(f"{PYTHON}/pickbracken/libgrove.so", target="../../libgrove.so"))
        return placed


def loaded(version: str) -> str:
    """The file of the shared library."""
    return f"{LOADED}.{version}"


def crate_files(source: Source, folder: str) -> list[Placed]:
    """The crate's sources, without its tests, which need the checkout."""
    files = source.files("bindings/rust/Cargo.toml", "bindings/rust/*.rs")
    return [
        copied(source, f"{folder}{file.removeprefix('bindings/rust/')}", file)
        for file in files
        if not file.startswith("bindings/rust/tests/")
    ]


def built_bindings(source: Source) -> Bindings:
    """The library, as long as it is that of the sources that stand here."""
    for file in (STATIC, SHARED):
        if not (source.top / file).is_file():
            raise Unfit(f"there is no library at {file}; tools/library makes it")
        need_new(source.top, source.top / file, "the library; tools/library")
    versions = {file: source.only(file, r'^version = "([0-9.]+)"$') for file in VERSIONED}
    versions[HEADER] = header_version(source)
    for file, told in versions.items():
        if told != source.version():
            raise Unfit(f"{file} has version {told}, and the program {source.version()}")
    return Bindings(source, source.read(STATIC), source.read(SHARED))


def header_version(source: Source) -> str:
    """The version that the header tells, a byte for each part."""
    told = source.only(HEADER, r"^#define GROVE_VERSION 0x([0-9a-f]{6})u\b")
    return ".".join(str(part) for part in bytes.fromhex(told))
