"""A profile: which steps prepare articles and queries, what kind of value a field has, and how queries are read."""

from __future__ import annotations

import tomllib
from collections.abc import Mapping
from dataclasses import dataclass
from pathlib import Path
from typing import Any

from .choices import Choices, ProfileFault
from .kinds import Kind
from .preparing.folding import FOLDING
from .preparing.mending import MENDING

DEFAULT = Path(__file__).with_name("profile.toml")
_TABLES = {"steps", "kinds", "dialect"}


@dataclass(frozen=True)
class Profile:
    """The names of the steps that are taken, the kinds of fields, and the choices of the dialect."""

    steps: frozenset[str]
    kinds: Mapping[str, Kind]
    choices: Choices

    def kind(self, field: str) -> Kind:
        """The kind of a field; text where the profile has no other."""
        return self.kinds.get(field, Kind.TEXT)

    @staticmethod
    def load(path: Path | None) -> Profile:
        """The profile of a file, or the usual one. What a file lacks is as usual. `ProfileFault` with the file and the
        reason where it is none."""
        usual = _tables(DEFAULT)
        own = {} if path is None else _tables(path)
        try:
            _need_tables(own)
            return _profile({name: {**_without(table, own.get(name, {})), **own.get(name, {})}
                             for name, table in usual.items()})
        except ProfileFault as fault:
            raise ProfileFault(f"{path or DEFAULT.name}: {fault}") from None


def _tables(path: Path) -> dict[str, Any]:
    """The tables of a file of TOML."""
    try:
        with open(path, "rb") as file:
            return tomllib.load(file)
    except OSError as error:
        raise ProfileFault(f"{path}: it can't be read: {error.strerror}") from None
    except (tomllib.TOMLDecodeError, UnicodeDecodeError) as error:
        raise ProfileFault(f"{path}: it is no TOML: {error}") from None


def _need_tables(tables: Mapping[str, Any]) -> None:
    """`ProfileFault` where there is another table, or what is none."""
    for name, table in tables.items():
        if name not in _TABLES:
            raise ProfileFault(f"a profile has no table {name}")
        if not isinstance(table, dict):
            raise ProfileFault(f"{name} is a table")


def _without(usual: Mapping[str, Any], own: Mapping[str, Any]) -> dict[str, Any]:
    """A usual table without the items of its lists that lists of one's own have."""
    taken = [name for names in own.values() if isinstance(names, list) for name in names]
    return {name: [item for item in value if item not in taken] if isinstance(value, list) else value
            for name, value in usual.items()}


def _profile(tables: Mapping[str, Mapping[str, Any]]) -> Profile:
    return Profile(_steps(tables["steps"]), _kinds(tables["kinds"]), Choices.of(tables["dialect"]))


def _steps(table: Mapping[str, Any]) -> frozenset[str]:
    """The steps that are taken: all but those that are false."""
    known = {step.name for step in (*MENDING, *FOLDING)}
    for name, taken in table.items():
        if name not in known:
            raise ProfileFault(f"[steps] has no {name}: {', '.join(sorted(known))}")
        if not isinstance(taken, bool):
            raise ProfileFault(f"{name} is true or false")
    return frozenset(name for name in known if table.get(name, True))


def _kinds(table: Mapping[str, Any]) -> dict[str, Kind]:
    """The kind of each field that is listed, by the lists of the kinds."""
    made: dict[str, Kind] = {}
    for word, names in table.items():
        try:
            kind = Kind(word)
        except ValueError:
            raise ProfileFault(f"[kinds] has no {word}: {', '.join(kind.value for kind in Kind)}") from None
        if not isinstance(names, list) or not all(isinstance(name, str) for name in names):
            raise ProfileFault(f"{word} is a list of names of fields")
        for name in names:
            if made.setdefault(name, kind) is not kind:
                raise ProfileFault(f"{name} is {made[name].value}, and can't be {word} too")
            if name in ("title", "text", "body") and kind is not Kind.TEXT:
                raise ProfileFault(f"{name} is text, and can't be {word}")
    return made
