"""Whether pages state limits as the sources have them, and whether each number that they state is such a limit."""
from __future__ import annotations

import re
from collections.abc import Iterator

from constants import number_in
from definitions import TOP
from limits import LIMITS

# What may stand behind a number, and what it is then.
UNITS = {" KiB": 2**10, " MiB": 2**20, " GiB": 2**30, " ms": 0.001}
CODE = re.compile(r"^```.*?^```$|`[^`\n]*`", re.M | re.S)
# A number of four digits or more, and one of two or more behind the words of a limit.
LARGE = r"\d{1,3}(?:,\d{3})+"
BOUND = r"(?:(?<=at most )|(?<=more than )|(?<=fewer than )|(?<=up to )|(?<= 1 to )|(?<=above ))\d{2,}"
NUMBER = re.compile(rf"(?<![\w.,:^/-])(?:{LARGE}|{BOUND})(?![\w^]|[.,:/-]\d)")
# A number that was measured stands in a paragraph with its commit; tools/believed compares how many lines there are.
MEASURED = re.compile(r"\bcommit [0-9a-f]{7,40}\b")
COUNTED = re.compile(r"[\d,]+ lines (?:in|of) the ")
# What no page says.
PLANTED = "\n\nThere are at most 77 of them.\n\nEach has 7,777 bytes.\n"


def limit_faults() -> Iterator[str | None]:
    """Of each place at which a page states a limit whether it has the number that the code has, and whether another
    number there would be seen."""
    for file, name, stated in LIMITS:
        for page, sentence in stated:
            text, number = read(page), told(number_in(TOP / file, name), sentence)
            is_there = has_all(text, sentence, number)
            yield None if is_there else f"{page}: it doesn't state {name} of {file}: '{sentence.format(number)}'"
            if is_there:
                altered = pattern(sentence).sub(lambda found: f"{found[1]}{number + 1}", text, count=1)
                is_seen = not has_all(altered, sentence, number)
                yield None if is_seen else f"{page}: '{sentence.format(number + 1)}' isn't seen to be wrong"


def has_all(text: str, sentence: str, number: int) -> bool:
    """Whether the sentence is there, and has this number wherever it stands."""
    numbers = {int(found[2].replace(",", "")) for found in pattern(sentence).finditer(text)}
    return numbers == {number}


def pattern(sentence: str) -> re.Pattern[str]:
    before, behind = (re.escape(part) for part in sentence.split("{}"))
    return re.compile(rf"({before})(\d[\d,]*\b)(?={behind})")


def told(number: float, sentence: str) -> int:
    """What stands in the sentence for this number."""
    if "2^{}" in sentence:
        return int(number).bit_length() - 1
    size = next((size for unit, size in UNITS.items() if f"{{}}{unit}" in sentence), 1)
    return round(number / size) if size < 1 else int(number // size)


def unlisted_faults(pages: list[str]) -> Iterator[str | None]:
    """Of each number of a page that has the form of a limit whether LIMITS has it, or it was measured."""
    for page in pages:
        text = read(page)
        yield from numbers_seen(page, text)
        seen = sum(fault is not None for fault in numbers_seen(page, text + PLANTED))
        clean = sum(fault is not None for fault in numbers_seen(page, text))
        yield None if seen == clean + 2 else f"{page}: of two numbers more {seen - clean} are seen"


def numbers_seen(page: str, text: str) -> Iterator[str | None]:
    known = set(listed(page, text))
    for found in NUMBER.finditer(CODE.sub(lambda code: "`" * len(code[0]), text)):
        start = found.start()
        is_known = start in known or COUNTED.match(text, start) or MEASURED.search(paragraph(text, start))
        yield None if is_known else f"{page}: no line of LIMITS has {text[start - 40 : found.end() + 20]!r}"


def listed(page: str, text: str) -> Iterator[int]:
    """Where the numbers begin that LIMITS has of a page."""
    for _, _, stated in LIMITS:
        for sentence in (sentence for other, sentence in stated if other == page):
            yield from (found.start(2) for found in pattern(sentence).finditer(text))


def paragraph(text: str, place: int) -> str:
    return text[text.rfind("\n\n", 0, place) + 1 :].partition("\n\n")[0]


def read(page: str) -> str:
    return (TOP / page).read_text(encoding="utf-8")
