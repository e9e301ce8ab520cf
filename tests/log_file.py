"""A store's file by itself, from its bytes: which frames stand in it, what is wrong with it, and which store it is.

A file has a head (a magic word, its version, and a number that was drawn for it) and frames. A frame is its payload's
length, the number that makes 2^32 - 1 with it, the payload, and a digest of the digest before and the payload; the
first is chained to the file's number. The first payload is a snapshot, each other one the effect of
rounds that share a sync.
"""

from __future__ import annotations

import struct
from dataclasses import dataclass
from hashlib import sha256

MAGIC, VERSION = b"grovelog", 1
HEAD, SIZE, SEAL = 44, 8, 32
FULL = 2**32 - 1
# An effect's number: its place and what stands there.
CHANGED = struct.Struct("<IQ")


# ---- frames


def size_of(length: int) -> bytes:
    return struct.pack("<II", length, FULL - length)


def seal_of(before: bytes, payload: bytes) -> bytes:
    return sha256(before + payload).digest()


def frame(before: bytes, payload: bytes) -> bytes:
    return size_of(len(payload)) + payload + seal_of(before, payload)


def size_at(data: bytes, at: int) -> int | None:
    """The length that stands there, if one does."""
    if at + SIZE > len(data):
        return None
    length, check = struct.unpack_from("<II", data, at)
    return length if length + check == FULL else None


def frame_at(before: bytes, data: bytes, at: int) -> bytes | None:
    """The payload of the frame that stands there, if one that is chained to this digest does."""
    length = size_at(data, at)
    if length is None or at + SIZE + length + SEAL > len(data):
        return None
    payload = data[at + SIZE : at + SIZE + length]
    behind = at + SIZE + length
    return payload if data[behind : behind + SEAL] == seal_of(before, payload) else None


@dataclass(frozen=True)
class Reading:
    """The payloads that pass, where each frame begins, the digest that the next is chained to, and where it begins."""

    payloads: list[bytes]
    places: list[int]
    seal: bytes
    end: int


def reading(data: bytes) -> Reading:
    payloads: list[bytes] = []
    places: list[int] = []
    seal, at = data[12:HEAD], HEAD
    # (A frame has 40 bytes at least.)
    for _ in range(len(data) // (SIZE + SEAL) + 1):
        payload = frame_at(seal, data, at)
        if payload is None:
            break
        payloads.append(payload)
        places.append(at)
        seal, at = seal_of(seal, payload), at + SIZE + len(payload) + SEAL
    return Reading(payloads, places, seal, at)


def holds_frame(data: bytes, at: int) -> bool:
    """Does a frame stand somewhere from there on, chained to the 32 bytes in front of it?"""
    places = range(at, len(data) - SEAL - SIZE + 1)
    return any(
        size_at(data, place + SEAL) is not None and frame_at(data[place : place + SEAL], data, place + SEAL) is not None
        for place in places
    )


def is_damaged(seal: bytes, data: bytes, at: int) -> bool:
    """Does a whole frame stand behind what stands there?"""
    length = size_at(data, at)
    if length is None:
        return holds_frame(data, at)
    behind = at + SIZE + length
    if behind + SEAL > len(data):
        return False
    is_chained = frame_at(seal_of(seal, data[at + SIZE : behind]), data, behind + SEAL) is not None
    return holds_frame(data, behind) or is_chained


def damage_of(data: bytes) -> int | None:
    """Where a damaged frame stands, behind which there is a whole one."""
    found = reading(data)
    return found.end if is_damaged(found.seal, data, found.end) else None


def fault_of(data: bytes) -> str | None:
    """What is wrong with a file, by one word and a number; a torn end is nothing wrong."""
    if len(data) < HEAD or not data.startswith(MAGIC):
        return "not-a-log"
    (version,) = struct.unpack_from("<I", data, len(MAGIC))
    if version != VERSION:
        return f"version {version}"
    damage = damage_of(data)
    return None if damage is None else f"damaged {damage}"


# ---- what the payloads say


@dataclass(frozen=True)
class Standing:
    """All the numbers of a store."""

    weights: tuple[int, ...]
    records: tuple[int, ...]
    waits: tuple[int, ...]
    rounds: int


# A node's parent, and its name.
Name = tuple[int | None, bytes]


def numbers_of(standing: Standing) -> list[int]:
    return [*standing.weights, *(record % 2**64 for record in standing.records), *standing.waits, standing.rounds]


def standing_of(numbers: list[int]) -> Standing:
    count = (len(numbers) - 1) // 3
    weights, records, waits = (tuple(numbers[at * count : (at + 1) * count]) for at in range(3))
    return Standing(weights, tuple(map(signed, records)), waits, numbers[-1])


def signed(word: int) -> int:
    return word - 2**64 if word >= 2**63 else word


def snapshot(names: list[Name], numbers: list[int]) -> bytes:
    rows = [struct.pack("<IB", 0 if parent is None else parent + 1, len(name)) + name for parent, name in names]
    return struct.pack("<I", len(names)) + b"".join(rows) + struct.pack(f"<{len(numbers)}Q", *numbers)


def read_snapshot(payload: bytes) -> tuple[list[Name], list[int]]:
    (count,) = struct.unpack_from("<I", payload)
    names: list[Name] = []
    at = 4
    for _ in range(count):
        parent, size = struct.unpack_from("<IB", payload, at)
        names.append((parent - 1 if parent else None, payload[at + 5 : at + 5 + size]))
        at += 5 + size
    numbers = list(struct.unpack_from(f"<{3 * count + 1}Q", payload, at))
    if at + 8 * len(numbers) != len(payload):
        raise ValueError(f"a snapshot of {count} nodes has {len(payload)} bytes")
    return names, numbers


def effect(old: list[int], new: list[int]) -> bytes:
    return b"".join(CHANGED.pack(at, now) for at, (was, now) in enumerate(zip(old, new, strict=True)) if was != now)


def standings_in(data: bytes) -> list[Standing]:
    """The store of the snapshot, and that after each effect."""
    first, *effects = reading(data).payloads
    _, numbers = read_snapshot(first)
    standings = [standing_of(numbers)]
    for payload in effects:
        for at, number in CHANGED.iter_unpack(payload):
            numbers[at] = number
        standings.append(standing_of(numbers))
    return standings


def file_of(number: bytes, names: list[Name], standings: list[Standing]) -> bytes:
    """The file with this number of a store that was each of these, one after the other."""
    all_numbers = list(map(numbers_of, standings))
    payloads = [snapshot(names, all_numbers[0])]
    payloads += [effect(old, new) for old, new in zip(all_numbers, all_numbers[1:])]
    parts, seal = [MAGIC + struct.pack("<I", VERSION) + number], number
    for payload in payloads:
        parts.append(frame(seal, payload))
        seal = parts[-1][-SEAL:]
    return b"".join(parts)
