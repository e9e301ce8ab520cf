"""Values of keys as JSON objects. Fields that this version doesn't know are kept, and written again with the others, so
that programs of two versions can work on one store."""
from __future__ import annotations

import json
from dataclasses import dataclass, field, fields
from typing import Any, Callable, TypeVar

from .refusals import NoForm

Kept = TypeVar("Kept", bound="Value")
Form = Callable[[Any], bool]


# One for all, since making one takes longer than writing a value.
ENCODER = json.JSONEncoder(separators=(",", ":"))


def written(value: object) -> str:
    return ENCODER.encode(value)


@dataclass(frozen=True)
class Value:
    """What stands at a key; `more` has the fields of other versions."""

    more: dict[str, Any] = field(default_factory=dict, kw_only=True)

    @classmethod
    def read(cls: type[Kept], text: str) -> Kept:
        try:
            members = json.loads(text)
        except (ValueError, RecursionError) as why:
            raise NoForm(cls.__name__, text) from why
        return cls.of(members)

    @classmethod
    def of(cls: type[Kept], members: Any) -> Kept:
        """Refuses what isn't an object with these fields, each of its form."""
        if not isinstance(members, dict):
            raise NoForm(cls.__name__, repr(members))
        forms = cls.forms()
        own: dict[str, Any] = {}
        more: dict[str, Any] = {}
        for name, member in members.items():
            form = forms.get(name)
            (more if form is None else own)[name] = member
            if form is not None and not form(member):
                raise NoForm(cls.__name__, f"{name} {member!r}")
        try:
            return cls(**own, more=more)
        except TypeError as why:
            raise NoForm(cls.__name__, repr(members)) from why

    @classmethod
    def forms(cls) -> dict[str, Form]:
        """Of the fields that this version knows."""
        if cls not in KNOWN:
            KNOWN[cls] = {each.name: FORMS[str(each.type)] for each in fields(cls) if each.name != "more"}
        return KNOWN[cls]

    def members(self) -> dict[str, Any]:
        """Without those that are none."""
        own = {name: member for name, member in vars(self).items() if name != "more" and member is not None}
        return {**own, **self.more}

    def text(self) -> str:
        return written(self.members())


KNOWN: dict[type[Value], dict[str, Form]] = {}


def is_int(member: Any) -> bool:
    return isinstance(member, int) and not isinstance(member, bool)


def is_text(member: Any) -> bool:
    return isinstance(member, str)


def is_reply(member: Any) -> bool:
    return is_int(member) or is_text(member)


def or_none(form: Form) -> Form:
    return lambda member: member is None or form(member)


def list_of(form: Form) -> Form:
    return lambda member: isinstance(member, list) and all(map(form, member))


# By the types of fields, as these are written.
FORMS: dict[str, Form] = {
    "int": is_int,
    "bool": lambda member: isinstance(member, bool),
    "float": lambda member: (is_int(member) or isinstance(member, float)) and 0 <= member < float("inf"),
    "str": is_text,
    "Optional[int]": or_none(is_int),
    "Optional[str]": or_none(is_text),
    "list[int]": list_of(is_int),
    "list[str]": list_of(is_text),
    "list[Reply]": list_of(is_reply),
    "dict[str, Any]": lambda member: isinstance(member, dict),
    "dict[str, int]": lambda member: isinstance(member, dict) and all(map(is_int, member.values())),
}
