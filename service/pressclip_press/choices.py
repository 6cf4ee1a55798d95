"""What a desk chooses of the dialect: the table `[dialect]` of a profile."""

from __future__ import annotations

import re
from collections.abc import Mapping
from dataclasses import dataclass, field, fields
from enum import Enum
from typing import Any

from .tree import BODY, TEXT, TITLE


class ProfileFault(Exception):
    """A profile can't be used, and why."""


class Blank(Enum):
    """What a bare blank between two words means."""

    AND = "and"
    OR = "or"
    PHRASE = "phrase"


ALIASES: Mapping[str, str] = {
    **dict.fromkeys(("title", "headline", "hl", "hd", "intitle", "allintitle", "titel", "titre", "titulo", "titolo"),
                    TITLE),
    **dict.fromkeys(("body", "intext", "allintext", "content", "bodytext", "fulltext"), BODY),
    **dict.fromkeys(("text", "article", "all", "any"), TEXT),
    **dict.fromkeys(("site", "host", "domain"), "host"),
    **dict.fromkeys(("url", "inurl", "link", "allinurl"), "url"),
    **dict.fromkeys(("author", "byline", "by", "autor", "auteur", "journalist"), "author"),
    **dict.fromkeys(("language", "lang", "la", "sprache", "langue"), "language"),
    **dict.fromkeys(("country", "land", "pays"), "country"),
    **dict.fromkeys(("source", "sourcename", "publication", "pub", "medium", "outlet", "quelle"), "source"),
    **dict.fromkeys(("date", "datum", "published", "pubdate"), "date"),
    **dict.fromkeys(("reach", "reichweite"), "reach"),
}
_NAME = re.compile(r"[A-Za-z_][A-Za-z0-9_]{0,63}")
_MOST_WORDS_NEAR = 1_000


def _aliases() -> dict[str, str]:
    return dict(ALIASES)


@dataclass(frozen=True)
class Choices:
    """How a desk reads what tools read in several ways."""

    blank: Blank = Blank.AND
    exact_capitals: bool = False
    exact_quotes: bool = False
    near: int = 10
    lower_case_operators: bool = True
    prefixes: bool = True
    aliases: Mapping[str, str] = field(default_factory=_aliases)

    @staticmethod
    def of(table: Mapping[str, Any]) -> Choices:
        """The choices that a table names, and the usual ones else. `ProfileFault` where it names what is none."""
        made = dict(table)
        for name in made:
            if name not in {item.name for item in fields(Choices)}:
                raise ProfileFault(f"[dialect] has no {name}")
        if "blank" in made:
            made["blank"] = _blank_of(made["blank"])
        if "near" in made and not (type(made["near"]) is int and 1 <= made["near"] <= _MOST_WORDS_NEAR):
            raise ProfileFault(f"near is a number of words, 1 to {_MOST_WORDS_NEAR}")
        for name in ("exact_capitals", "exact_quotes", "lower_case_operators", "prefixes"):
            if not isinstance(made.get(name, False), bool):
                raise ProfileFault(f"{name} is true or false")
        made["aliases"] = {**ALIASES, **_named(made.get("aliases", {}))}
        return Choices(**made)


def _blank_of(value: object) -> Blank:
    try:
        return Blank(value)
    except ValueError:
        raise ProfileFault(f"blank is one of {', '.join(blank.value for blank in Blank)}") from None


def _named(table: object) -> dict[str, str]:
    """Other names of fields, in small letters."""
    if not isinstance(table, Mapping):
        raise ProfileFault("aliases is a table of names")
    for name, named in table.items():
        if not _NAME.fullmatch(name) or not isinstance(named, str) or not _NAME.fullmatch(named):
            raise ProfileFault(f"aliases: {name} = {named!r} are no two names of fields")
    return {name.lower(): named for name, named in table.items()}
