"""The text of `GET /metrics`, read strictly: families with their help, their type and their samples."""
from __future__ import annotations

import re
from dataclasses import dataclass, field

KIND = b"text/plain; version=0.0.4; charset=utf-8"
NAME = r"[a-z_]+"
HELP = re.compile(rf"# HELP ({NAME}) (\S.*\.)")
TYPE = re.compile(rf"# TYPE ({NAME}) (counter|gauge|histogram)")
LABEL = r'[a-z]+="[A-Za-z0-9_/.+-]*"'
SAMPLE = re.compile(rf"({NAME})(?:\{{({LABEL})\}})? ([0-9]+(?:\.[0-9]+)?)")
ENDINGS = ("_bucket", "_sum", "_count")


class BadText(Exception):
    """What came isn't such a text."""


@dataclass
class Family:
    """A kind of number, and its samples by name and label."""

    kind: str
    samples: dict[str, float] = field(default_factory=dict)


def families_in(text: str) -> dict[str, Family]:
    """The families of the text by name, in order."""
    if not text.endswith("\n"):
        raise BadText("the last line has no line feed")
    families: dict[str, Family] = {}
    helped = current = None
    for line in text[:-1].split("\n"):
        if found := HELP.fullmatch(line):
            helped = found[1]
        elif found := TYPE.fullmatch(line):
            if found[1] != helped or helped in families:
                raise BadText(f"{line!r} has no help before it, or comes twice")
            current = helped
            families[current] = Family(found[2])
        else:
            add_sample(families, current, line)
    for name, family in families.items():
        check_family(name, family)
    return families


def add_sample(families: dict[str, Family], current: str | None, line: str) -> None:
    found = SAMPLE.fullmatch(line)
    if not found or current is None:
        raise BadText(f"{line!r} is no sample")
    family = families[current]
    owns = {current + ending for ending in ENDINGS} if family.kind == "histogram" else {current}
    key = found[1] + (f"{{{found[2]}}}" if found[2] else "")
    if found[1] not in owns or key in family.samples:
        raise BadText(f"{line!r} isn't of {current}, or comes twice")
    family.samples[key] = float(found[3])


def check_family(name: str, family: Family) -> None:
    if (family.kind == "counter") != name.endswith("_total"):
        raise BadText(f"{name} is a {family.kind}")
    if family.kind == "histogram":
        buckets = buckets_of(name, family)
        counts = list(buckets.values())
        if counts != sorted(counts) or list(buckets)[-1] != "+Inf" or counts[-1] != family.samples[f"{name}_count"]:
            raise BadText(f"the buckets of {name} are {buckets}")
        bounds = [float(bound) for bound in buckets]
        if bounds != sorted(set(bounds)):
            raise BadText(f"the bounds of {name} are {bounds}")


def buckets_of(name: str, family: Family) -> dict[str, float]:
    """How many values each bound of a histogram is met by."""
    found = (re.fullmatch(rf'{name}_bucket\{{le="(.*)"\}}', key) for key in family.samples)
    return {match[1]: family.samples[match[0]] for match in found if match}


def samples_in(text: str) -> dict[str, float]:
    """All samples by name and label."""
    return {key: value for family in families_in(text).values() for key, value in family.samples.items()}
