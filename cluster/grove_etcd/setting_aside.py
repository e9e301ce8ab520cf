"""The jobs that are set aside. An operator looks at them, and has them tried again, or drops them (letting_go.py)."""
from __future__ import annotations

from dataclasses import replace
from typing import Iterable, Iterator

from .head import need_store
from .jobs import Aside, UnderWay
from .keys import Keys, last_part
from .members import Members
from .refusals import NoForm, Refused
from .wire import deleting, putting, unchanged


def failed(members: Members, keys: Keys) -> Iterator[tuple[str, Aside]]:
    """The jobs that are set aside, and why."""
    for page in members.pages(keys.whole("a")):
        for key, entry in page.entries.items():
            yield last_part(key), aside_of(entry.value)
    for key, under_way in of_older_version(members, keys).items():
        yield last_part(key), Aside(" ".join(under_way.why.split()), under_way.fails)


def of_older_version(members: Members, keys: Keys) -> dict[str, UnderWay]:
    """The jobs that an older version has set aside, by the keys that say who goes on with them."""
    found = members.below(keys.whole("u")).entries
    return {key: UnderWay.read(entry.value) for key, entry in found.items() if is_aside(entry.value)}


def is_aside(text: str) -> bool:
    """Had an older version set the job aside?"""
    try:
        return UnderWay.read(text).is_aside()
    except NoForm:
        return False


def aside_of(text: str) -> Aside:
    """If it hasn't its form, that is why the job is set aside."""
    try:
        return Aside.read(text)
    except NoForm as why:
        return Aside(str(why))


def names_of(members: Members, keys: Keys, names: Iterable[str]) -> list[str]:
    """These jobs, or all that are set aside if none is named; each has to be."""
    need_store(members, keys)
    known = dict(failed(members, keys))
    unknown = [name for name in names if name not in known]
    if unknown:
        raise Refused(f"not-set-aside {min(unknown)}")
    return list(names) or list(known)


def retry(members: Members, keys: Keys, names: Iterable[str]) -> list[str]:
    """Lets workers take these jobs up again, or all that are set aside if none is named; gives their names."""
    again = names_of(members, keys, list(names))
    for name in again:
        retry_one(members, keys, name)
    return again


def retry_one(members: Members, keys: Keys, name: str) -> None:
    """Once it has begun, it is under way again, and else it is one that nobody has begun."""
    found = members.get(keys.aside(name), keys.under_way(name), keys.job(name), keys.progress(name))
    job = found.entries.get(keys.job(name))
    if job is None:
        raise Refused(f"job-gone {name}")
    aside = found.entries.get(keys.aside(name))
    if aside is None:
        old = UnderWay.read(found.entries[keys.under_way(name)].value)
        more = {field: member for field, member in old.more.items() if field != "aside"}
        ready = replace(old, by="", fails=0, more=more)
    else:
        ready = UnderWay("")
    guards = [unchanged(key, found.revision_of(key)) for key in (keys.aside(name), keys.under_way(name))]
    members.write([deleting(keys.aside(name)), putting(keys.under_way(name), ready.text())], guards)
