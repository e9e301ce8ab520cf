"""Trials of what an operator does: a store is exported and loaded, programs of two versions work on one, and the
programs of the wheel."""
import json
import subprocess
import sys
import zipfile
from dataclasses import replace
from pathlib import Path
from unittest import mock

from members_at_hand import TOP
from store_at_hand import BOTH, SMALL, Programs, Store, one_group

from grove_etcd import head
from grove_etcd.jobs import Progress, UnderWay
from grove_etcd.keys import FORMAT
from grove_etcd.weighing import reweigh
from grove_etcd.wire import putting

sys.path.insert(0, str(TOP / "tools"))
from packing.cluster_wheel import cluster_wheel  # noqa: E402
from packing.source import Source  # noqa: E402


def what_audits_have_passed_is_exported(cluster, grove):
    """And loaded again: the same tree, with the weights as they are, and no job that no audit has closed."""
    store, programs = Store(cluster, grove, "exported", [BOTH]), Programs(cluster, "exported")
    one_group(store.attempt(0))
    store.write(putting(store.keys.waits(0, "/b"), "7"))
    store.work(patience=0.2)
    store.audit()
    reweigh(store.members, store.keys)
    store.do([["add", "/b/c", 100], ["add", "/a", 100]])
    file = str(Path(cluster.room.name, "exported.json"))
    told = programs.lines("export", file)
    rows = json.loads(Path(file).read_text())["nodes"]
    again = Programs(cluster, "imported")
    loaded = again.lines("load", file)
    records = [again.lines("status", "--record", path)[-1] for path in ("/", "/a", "/b", "/b/c", "/a-d")]
    wanted = [f"record {value}" for value in (0, 11, 1, 5, 0)]
    weights = {row["name"]: row["weight"] for row in rows}
    halved = {row["name"]: 1 + (row["weight"] - 1) // 2 for row in SMALL}
    came = told, loaded, records, {**weights, "b": 0} == {**halved, "b": 0}
    well = ["exported what the epochs before 2 left"], ["loaded 5 nodes"], wanted, True
    return None if came == well else f"wanted {well}; came {came}, {weights}"


def programs_of_two_versions_work_on_one_store(cluster, grove):
    """A store of the format before is gone on with; and fields of a later version are kept."""
    with mock.patch.object(head, "FORMAT", FORMAT - 1):
        store = Store(cluster, grove, "versions", [BOTH])
        before = json.loads(store.read(store.keys.head()))["format"]
    store.work()
    store.audit()
    after = json.loads(store.read(store.keys.head()))["format"]
    fresh = Store(cluster, grove, "versions-2", [BOTH])
    one_group(fresh.attempt(0, patience=0.2))
    key = fresh.keys.under_way(fresh.jobs[0])
    later = {**json.loads(fresh.read(key)), "colour": "red"}
    fresh.write(putting(key, json.dumps(later)))
    attempt = fresh.attempt(0, patience=0.2)
    attempt.leave(attempt.look(3))
    kept = json.loads(fresh.read(key)).get("colour")
    progress = Progress.read('{"step":1,"steps":2,"colour":"red"}')
    known = replace(progress, step=2).members()
    fresh.work(patience=0.2)
    fresh.audit()
    old = UnderWay.read('{"by":"","waits":null,"fails":5,"why":"no","aside":true,"patience":0.0}').is_aside()
    came = before, after, kept, known.get("colour"), known["step"], old
    return None if came == (FORMAT - 1, FORMAT, "red", "red", 2, True) else f"came {came}"


def the_wheel_has_the_programs(cluster, grove):
    """As pip puts its files: a package, and commands that name no Python, and that may be executed."""
    wheel = cluster_wheel(Source(TOP))
    room = Path(cluster.room.name, "wheel")
    archive = Path(cluster.room.name, wheel.name)
    archive.write_bytes(wheel.content)
    with zipfile.ZipFile(archive) as it:
        it.extractall(room)
        modes = {each.external_attr >> 16 for each in it.infolist() if ".data/scripts/" in each.filename}
    scripts = next(room.glob("*.data/scripts"))
    document = TOP / "examples/orders.json"
    words = ["--members", cluster.addresses, "--store", "wheel"]
    told = []
    for command in ("grove-load {document}", "grove-submit --grove {grove} {document}", "grove-work --until-ended"):
        told.append(ran(room, scripts, words, command.format(document=document, grove=grove)))
    told.append(ran(room, scripts, words, f"grove-audit --grove {grove}"))
    heads = {path.read_text().partition("\n")[0] for path in scripts.iterdir()}
    names = {path.name for path in scripts.iterdir()}
    wanted = {f"grove-{path.name}" for path in (TOP / "cluster").iterdir() if path.is_file() and not path.suffix}
    is_well = not any(each.returncode for each in told) and names == wanted
    is_well = is_well and (heads, modes) == ({"#!python"}, {0o100755})
    return None if is_well else f"{[(each.returncode, each.stderr) for each in told]}, {heads, modes}, {names ^ wanted}"


def ran(room, scripts, words, command):
    name, *more = command.split()
    line = ["/usr/bin/python3", "-B", scripts / name, *words, *more]
    return subprocess.run(line, env={"PYTHONPATH": str(room)}, capture_output=True, text=True, check=False, cwd=room)
