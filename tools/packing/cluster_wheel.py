"""The wheel of the programs for an etcd cluster, for a Python that isn't Debian's: grove_etcd, and its commands."""

from __future__ import annotations

import sys
from pathlib import Path

from .layout import commands_of_cluster
from .made import Made
from .source import Source

sys.path.insert(0, str(Path(__file__).resolve().parents[2] / "bindings/python/building"))
import wheels  # noqa: E402

NAME, TAG = "grove_etcd", "py3-none-any"
# The document that docs/CLUSTER.md begins with.
EXAMPLE = "examples/orders.json"
METADATA = """\
Metadata-Version: 2.1
Name: {name}
Version: {version}
Summary: Jobs by settled plans of locks on an etcd cluster, with audits of what they did
Requires-Python: >=3.11
Requires-Dist: grpcio
Requires-Dist: protobuf
"""
WHEEL = """\
Wheel-Version: 1.0
Generator: grove {version}
Root-Is-Purelib: true
Tag: {tag}
"""
# As a file of the checkout begins, and as one of a wheel does, into which pip writes the Python that it installs for.
OURS, ANY = b"#!/usr/bin/python3\n", b"#!python\n"


def cluster_wheel(source: Source) -> Made:
    version = source.version()
    told = {"name": NAME, "version": version, "tag": TAG}
    info = f"{NAME}-{version}.dist-info"
    modules = [file for file in source.files(f"cluster/{NAME}") if file.endswith((".py", "py.typed"))]
    files = {file.removeprefix("cluster/"): source.read(file) for file in modules}
    for command, file in commands_of_cluster(source).items():
        files[f"{NAME}-{version}.data/scripts/{command}"] = ANY + source.read(file).removeprefix(OURS)
    files[f"{NAME}-{version}.data/data/share/grove/{EXAMPLE}"] = source.read(EXAMPLE)
    files[f"{info}/METADATA"] = METADATA.format(**told).encode()
    files[f"{info}/WHEEL"] = WHEEL.format(**told).encode()
    files[f"{info}/RECORD"] = wheels.record(files, f"{info}/RECORD").encode()
    return Made(f"{NAME}-{version}-{TAG}.whl", wheels.zipped(files, source.date()))
