"""Proofs that are simulated by the times of the table, and what would have been said in each of how long it takes."""

from __future__ import annotations

from collections.abc import Callable, Iterator
from dataclasses import dataclass, field
from random import Random

from proof_times import TOP, below, read_times
from remaining import ALONE, Machine, Part, minutes_said, seconds_left

# What is said on a machine that stays as it is, from so many crates on, is at most so many times what it takes, or
# that part of it; and a minute more or less.
KNOWN, RIGHT = 4, 1.5
SEEDS = 5


@dataclass(frozen=True)
class Course:
    """A machine: its processors, what part of them the proof gets at each time, how fast they are, the load average
    when it begins, and how much more or less than by the table a crate may take."""

    processors: int = 4
    share: Callable[[float], float] = lambda _: 1.0
    speed: float = 1.0
    load: float = 0.3
    spread: float = 1.2
    is_steady: bool = True


COURSES = {
    "with nothing else to do": Course(),
    "of two processors": Course(processors=2),
    "of eight processors": Course(processors=8),
    "half as fast": Course(speed=0.5),
    "with other work": Course(share=lambda _: 0.35, load=8.0),
    "with other work that begins as the proof does": Course(share=lambda _: 0.35, is_steady=False),
    "with other work from the tenth minute on": Course(share=lambda at: 1.0 if at < 600 else 0.3, is_steady=False),
    "with other work to the tenth minute": Course(share=lambda at: 0.3 if at < 600 else 1.0, load=9.0, is_steady=False),
    "with other work now and then": Course(share=lambda at: 0.25 if at % 400 < 200 else 1.0, is_steady=False),
    "on which the crates have changed": Course(spread=3.0, is_steady=False),
}


@dataclass
class Simulated:
    """A proof under way: the work that each crate still needs, what those that run have used, and the time."""

    course: Course
    under: dict[str, set[str]]
    left: dict[str, float]
    used: dict[str, float] = field(default_factory=dict)
    at: float = 0.0

    def running(self) -> list[str]:
        ready = [name for name in self.left if not self.under[name] & set(self.left)]
        return ready[: self.course.processors]

    def go_on(self) -> str:
        """Goes on until a crate ends, in steps of at most ten seconds."""
        while True:
            names = self.running()
            each = min(ALONE, self.course.processors * self.course.share(self.at) / len(names))
            step = min(10.0, *(self.left[name] / (each * self.course.speed) for name in names))
            self.at += step
            for name in names:
                self.used[name] = self.used.get(name, 0.0) + step * each
                self.left[name] -= step * each * self.course.speed
                if self.left[name] < 1e-6:
                    del self.left[name]
                    return name


def said_in(course: Course, seed: int) -> list[tuple[float, int]]:
    """When each crate ends: how long the rest takes in truth, in seconds, and how many minutes are said."""
    random, times = Random(seed), read_times()
    under = below((TOP / "crates.txt").read_text(encoding="utf-8"))
    needed = [name for name in under if name in under["grove"] | {"grove"}]
    work = {name: times.of(name) * course.spread ** random.uniform(-1, 1) for name in needed}
    machine, proof = Machine(course.processors, course.load), Simulated(course, under, work)
    said: list[tuple[float, int]] = []
    while proof.left:
        proof.go_on()
        parts = {name: Part(times.of(name), proof.used.get(name, 0.0), name not in proof.left) for name in needed}
        least = min((minutes for _, minutes in said), default=None)
        said.append((proof.at, minutes_said(seconds_left(parts, under, proof.at, machine), least)))
    return [(proof.at - at, minutes) for at, minutes in said[:-1]]


def faults_of(name: str, course: Course, said: list[tuple[float, int]]) -> Iterator[str | None]:
    """Of each time that something is said, whether it rises too much, and is about right."""
    least = said[0][1]
    for number, (rest, minutes) in enumerate(said):
        rises = minutes > least * 6 / 5
        least = min(least, minutes)
        is_right = rest / 60 / RIGHT - 1 <= minutes <= rest / 60 * RIGHT + 1
        told = f"on a machine {name}, after {number + 1} crates: {minutes} min with {rest / 60:.1f} left"
        yield f"{told}, after {least} min" if rises else None
        if course.is_steady and number >= KNOWN:
            yield None if is_right else told


def verify() -> int:
    runs = [(name, course, said_in(course, seed)) for name, course in COURSES.items() for seed in range(SEEDS)]
    found = [fault for name, course, said in runs for fault in faults_of(name, course, said)]
    faults = [fault for fault in found if fault]
    print("".join(f"FAILED {fault}\n" for fault in faults), end="")
    print(f"{len(found) - len(faults)} passed, {len(faults)} failed")
    return 1 if faults or not found else 0
