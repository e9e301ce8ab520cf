"""Makes wheels of the package, each with the shared library in it: a build backend (PEP 517) that needs Python alone.

`pip install bindings/python` calls `build_wheel` here, and tools/package calls `wheel`. The library is that of the
folder that GROVE_LIBRARY names, or else the one beside the package's own files, or the one that tools/library makes.
Of one library, one version and one date the wheels are the same bytes.
"""

from __future__ import annotations

import base64
import hashlib
import io
import os
import re
import time
import zipfile
from dataclasses import dataclass
from pathlib import Path
from typing import Dict, Iterable, Iterator, Optional

HERE = Path(__file__).resolve().parents[1]
PACKAGE = "pickbracken"
LIBRARY = "libgrove.so"
# What an ELF file for x86_64 has at byte 18.
X86_64 = b"\x3e\x00"
# The oldest C library that a tag can name.
OLDEST = (2, 5)
# The first date that an archive of this form can have, 1980-01-02, whatever the zone.
FIRST_DATE = 315_619_200

METADATA = """\
Metadata-Version: 2.1
Name: {name}
Version: {version}
Summary: {description}
Requires-Python: {python}
"""
WHEEL = """\
Wheel-Version: 1.0
Generator: {name} {version}
Root-Is-Purelib: false
Tag: {tag}
"""


class Unmade(Exception):
    """No wheel can be made; the text says why."""


class UnsupportedOperation(Exception):
    """What a build backend raises that makes no archive of sources (PEP 517)."""


@dataclass(frozen=True)
class Wheel:
    """A wheel, under the name that says what it fits."""

    name: str
    content: bytes


# What a frontend calls.


def build_wheel(
    wheel_directory: str,
    config_settings: Optional[Dict[str, object]] = None,
    metadata_directory: Optional[str] = None,
) -> str:
    """Puts a wheel into the folder, and gives its name."""
    made = wheel(sources(), library_at_hand().read_bytes(), date_given())
    Path(wheel_directory, made.name).write_bytes(made.content)
    return made.name


def build_sdist(sdist_directory: str, config_settings: Optional[Dict[str, object]] = None) -> str:
    raise UnsupportedOperation("an archive of sources would lack the library: install the folder, or a wheel")


# What they come to.


def wheel(modules: Iterable[Path], library: bytes, date: int) -> Wheel:
    """The wheel of these files of the package and of this library."""
    project = project_of((HERE / "pyproject.toml").read_text(encoding="utf-8"))
    tag = f"py3-none-{platform_of(library)}"
    info = f"{PACKAGE}-{project['version']}.dist-info"
    values = {"name": PACKAGE, "python": project["requires-python"], "tag": tag}
    files = {f"{PACKAGE}/{path.name}": path.read_bytes() for path in modules}
    files[f"{PACKAGE}/{LIBRARY}"] = library
    files[f"{info}/METADATA"] = METADATA.format(**{**project, **values}).encode()
    files[f"{info}/WHEEL"] = WHEEL.format(**{**project, **values}).encode()
    files[f"{info}/RECORD"] = record(files, f"{info}/RECORD").encode()
    return Wheel(f"{PACKAGE}-{project['version']}-{tag}.whl", zipped(files, date))


def project_of(text: str) -> Dict[str, str]:
    """What pyproject.toml says of the project, as far as it is one text a line. Python 3.9 and 3.10 read no TOML."""
    _, _, behind = text.partition("[project]\n")
    table, _, _ = behind.partition("\n[")
    return dict(re.findall(r'^([\w-]+) = "(.*)"$', table, re.M))


def sources() -> Iterator[Path]:
    """The package's files, but for a library that stands beside them."""
    for path in sorted((HERE / PACKAGE).iterdir()):
        if path.suffix == ".py" or path.name == "py.typed":
            yield path


def library_at_hand() -> Path:
    """The shared library that goes into a wheel."""
    named = os.environ.get("GROVE_LIBRARY")
    folders = [Path(named)] if named else [HERE / PACKAGE, HERE.parents[1] / "out/library"]
    for folder in folders:
        if (folder / LIBRARY).is_file():
            return folder / LIBRARY
    raise Unmade(f"there is no {LIBRARY} in {' nor in '.join(map(str, folders))}: tools/library makes it")


def date_given() -> int:
    given = os.environ.get("SOURCE_DATE_EPOCH", "")
    return int(given) if given.isdigit() else FIRST_DATE


def platform_of(library: bytes) -> str:
    """The tag of the systems that the library fits: those with the C library that it asks for, or a later one."""
    if not library.startswith(b"\x7fELF") or library[18:20] != X86_64:
        raise Unmade(f"{LIBRARY} isn't a library for Linux on x86_64")
    major, minor = libc_of(library)
    return f"manylinux_{major}_{minor}_x86_64"


def libc_of(binary: bytes) -> tuple[int, int]:
    """The oldest C library that has all that an ELF file asks of it, by the versions that it names."""
    named = re.findall(rb"\0GLIBC_(\d+)\.(\d+)", binary)
    return max([OLDEST, *((int(major), int(minor)) for major, minor in named)])


def record(files: Dict[str, bytes], own: str) -> str:
    """The list of all files with their digests; its own line has none."""
    lines = [f"{name},sha256={digest_of(content)},{len(content)}\n" for name, content in sorted(files.items())]
    return "".join([*lines, f"{own},,\n"])


def digest_of(content: bytes) -> str:
    return base64.urlsafe_b64encode(hashlib.sha256(content).digest()).rstrip(b"=").decode()


def mode_of(name: str) -> int:
    """A plain file that its owner may write and all may read; of a command one that all may execute. pip keeps that."""
    return 0o100755 if ".data/scripts/" in name else 0o100644


def zipped(files: Dict[str, bytes], date: int) -> bytes:
    """An archive of the files in this order, all of one date."""
    packed = io.BytesIO()
    year, month, day, hour, minute, second = time.gmtime(max(date, FIRST_DATE))[:6]
    with zipfile.ZipFile(packed, "w", zipfile.ZIP_DEFLATED, compresslevel=9) as archive:
        for name, content in files.items():
            entry = zipfile.ZipInfo(name, (year, month, day, hour, minute, second))
            # As made by Unix.
            entry.create_system, entry.external_attr = 3, mode_of(name) << 16
            entry.compress_type = zipfile.ZIP_DEFLATED
            archive.writestr(entry, content)
    return packed.getvalue()
