"""What is tried of the packages, and what is needed for it."""

from __future__ import annotations

import os
import re
import subprocess
import tarfile
import time
from pathlib import Path

from at_hand import completed_by_bash, completed_by_zsh, manual, names_of_manual
from bindings_trial import crate, linked_in_c, pip_install, wheel
from cluster_trial import cluster, no_mount
from in_root import commands_of_pages, commands_on_examples, paged, served
from looking import below, note_equal, note_silent, with_manual
from nginx_trial import behind_nginx
from packages import LIBRARIES, PROGRAM, Packages, called, copy_of_checkout, package
from sweeps.program import Tally
from tool_trials import Trial

# What a unit file of a service has to have, and what each.
GRANTED = ["DynamicUser=yes", "NoNewPrivileges=yes", "MemoryMax=", "TasksMax="]
SERVING_UNIT = [*GRANTED, "--verbose", "--idle", "--data ", "KillSignal=SIGTERM"]
UNITS = {
    "grove-page.service": [*SERVING_UNIT, "StateDirectory=grove-page"],
    "grove-save.service": [*GRANTED, "--port 8080", "Type=oneshot", "StateDirectory=grove", "TimeoutStartSec="],
    "grove-save.timer": ["OnCalendar=", "WantedBy=timers.target"],
    "grove-serve.service": [*SERVING_UNIT, "StateDirectory=grove-serve"],
    "grove-work.service": [*GRANTED, "--verbose"],
}


def twice_the_same(packages: Packages, room: Path, tally: Tally) -> None:
    """Made in another folder, at another time, with other rights for new files."""
    other = copy_of_checkout(packages.copy / PROGRAM, room / "elsewhere" / "two")
    note_equal(tally, "status", package(other, umask=0o077).returncode, 0)
    for path in packages.all:
        note_equal(tally, path.name, (other / "out" / path.name).read_bytes() == path.read_bytes(), True)


def refused(packages: Packages, room: Path, tally: Tally) -> None:
    """Nothing is made if program and library aren't those of the sources."""
    copy = copy_of_checkout(packages.copy / PROGRAM, room / "copy")
    cargo = copy / "bindings/rust/Cargo.toml"
    told = cargo.read_text()
    cargo.write_text(re.sub(r'(?m)^version = ".*"', 'version = "9.9.9"', told))
    note_refusal(tally, package(copy), "bindings/rust/Cargo.toml has version 9.9.9, and the program")
    cargo.write_text(told)
    dated(copy / LIBRARIES[0], -1_000_000_000)
    note_refusal(tally, package(copy), "is newer than the library; tools/library makes it anew")
    (copy / LIBRARIES[0]).unlink()
    note_refusal(tally, package(copy), f"there is no library at {LIBRARIES[0]}; tools/library makes it")
    dated(copy / "crates/grove_words/src/lib.rt", 10)
    note_refusal(tally, package(copy), "crates/grove_words/src/lib.rt is newer than the proved program")
    words = copy / "crates/grove_words/src/definitions.rt"
    words.write_text(re.sub(r'(const VERSION: &str = )".*"', r'\1"9.9.9"', words.read_text()))
    dated(copy / PROGRAM, 20)
    note_refusal(tally, package(copy), "and the sources 'grove 9.9.9'")
    (copy / PROGRAM).unlink()
    note_refusal(tally, package(copy), f"there is no proved program at {PROGRAM}")
    note_refusal(tally, package(copy, "--install", str(room / "prefix")), "./grove prove makes it")
    made = [path.name for path in (copy / "out").iterdir()], (room / "prefix").exists()
    note_equal(tally, "nothing is made", made, (["library"], False))


def dated(file: Path, seconds: float) -> None:
    """Sets a file's date to so many seconds from now."""
    date = time.time() + seconds
    os.utime(file, (date, date))


def note_refusal(tally: Tally, ran: subprocess.CompletedProcess, wanted: str) -> None:
    is_well = ran.returncode == 1 and not ran.stdout and wanted in ran.stderr and ran.stderr.count("\n") == 1
    tally.note(wanted, None if is_well else f"status {ran.returncode}, {ran.stdout}{ran.stderr}")


def moved(packages: Packages, room: Path, tally: Tally) -> None:
    """Installed over itself and moved elsewhere: an example finds the program."""
    for _ in range(2):
        note_equal(tally, "installed", package(packages.copy, "--install", str(room / "prefix")).returncode, 0)
    elsewhere = room / "elsewhere"
    (room / "prefix").rename(elsewhere)
    note_equal(tally, "the files", below(elsewhere), below(packages.prefix))
    surroundings = {**os.environ, "PATH": f"{elsewhere}/bin:{os.environ['PATH']}"}
    examples = elsewhere / "share/doc/grove/examples"
    told = called(examples / "plan-then-check", examples / "one-setting.json", env=surroundings)
    note_equal(tally, "plan-then-check", (told.stdout.splitlines()[-1:], told.stderr), (["cost 2"], ""))


def owned(packages: Packages, _room: Path, tally: Tally) -> None:
    """In the archive all belongs to root, and nobody else may write."""
    with tarfile.open(packages.archive) as tar:
        entries = tar.getmembers()
    owners = {(entry.uid, entry.gid, entry.uname, entry.gname) for entry in entries}
    note_equal(tally, "owners", owners, {(0, 0, "root", "root")})
    modes = {(entry.issym(), oct(entry.mode)) for entry in entries}
    note_equal(tally, "modes", modes, {(False, "0o755"), (False, "0o644"), (True, "0o777")})


def unit_files(packages: Packages, _room: Path, tally: Tally) -> None:
    """They pass systemd's own check, and have the limits."""
    units = sorted((packages.prefix / "lib/systemd/system").iterdir())
    note_equal(tally, "the files", [unit.name for unit in units], [*UNITS])
    for unit in units:
        ran = called("systemd-analyze", "verify", unit, env=with_manual(packages.prefix))
        note_silent(tally, unit.name, ran)
        for line in UNITS.get(unit.name, []):
            note_equal(tally, f"{unit.name}: {line}", line in unit.read_text(), True)


def debian(packages: Packages, room: Path, tally: Tally) -> None:
    """It has the same files below /usr."""
    if packages.debian is None:
        tally.note("the package", "none was made")
        return
    note_silent(tally, "unpacked", called("dpkg-deb", "--extract", packages.debian, room / "root"))
    found = below(room / "root/usr")
    for path in below(packages.unpacked(room / "archive")):
        name = path.replace("zsh/site-functions", "zsh/vendor-completions").replace("CHANGELOG.md", "changelog")
        note_equal(tally, path, name in found or f"{name}.gz" in found, True)
    told = called(room / "root/usr/bin/grove", "--version").stdout
    note_equal(tally, "--version", told, f"grove {packages.version}\n")
    version = called("dpkg-deb", "--field", packages.debian, "Version").stdout.strip()
    note_equal(tally, "version", version.rpartition("-")[0], packages.version)


def lintian(packages: Packages, _room: Path, tally: Tally) -> None:
    """No error. docs/PACKAGE.md says what it warns of."""
    ran = called("lintian", "--fail-on", "error", "--tag-display-limit", "0", packages.debian or "no package")
    errors = [line for line in ran.stdout.splitlines() if line.startswith("E:")]
    tally.note("errors", None if not errors and ran.returncode == 0 else "\n".join([*errors, ran.stderr]))


TRIALS = [
    Trial("twice_the_same", twice_the_same),
    Trial("refused", refused),
    Trial("commands_of_pages", commands_of_pages, ("chroot", "ldd")),
    Trial("commands_on_examples", commands_on_examples, ("chroot", "ldd")),
    Trial("served", served, ("chroot", "ldd")),
    Trial("paged", paged, ("chroot", "ldd")),
    Trial("behind_nginx", behind_nginx, ("nginx", "openssl")),
    Trial("linked_in_c", linked_in_c, ("cc", "pkg-config")),
    Trial("crate", crate, ("cargo",)),
    Trial("wheel", wheel, ("ensurepip",)),
    Trial("pip_install", pip_install, ("ensurepip",)),
    Trial("moved", moved),
    Trial("owned", owned),
    Trial("cluster", cluster, ("etcd", "etcd3", "grpc", "chroot", "unshare"), no_mount),
    Trial("manual", manual, ("man",)),
    Trial("names_of_manual", names_of_manual, ("lexgrog",)),
    Trial("completed_by_bash", completed_by_bash, ("bash",)),
    Trial("completed_by_zsh", completed_by_zsh, ("zsh",)),
    Trial("unit_files", unit_files, ("systemd-analyze",)),
    Trial("debian", debian, ("dpkg-deb",)),
    Trial("lintian", lintian, ("dpkg-deb", "lintian")),
]
