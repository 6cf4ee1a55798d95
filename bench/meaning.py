"""What the replies ought to be, said a second time in Python: when a query holds, and by which keys it is found.

It is written from docs/PROTOCOL.md and docs/DEFINITIONS.md and shares nothing
with the engine, so it serves as a check on a few articles. It also counts
candidates, which replies do not tell.
"""

from __future__ import annotations

from dataclasses import dataclass
from typing import Iterable, NamedTuple, Sequence

from prose import Article, words_of
from queries import All, Group, Phrase, Prefix, Query, Span, Word
from reading import signs_after

# The most characters of a front that find a prefix.
FRONT = 8


class Key(NamedTuple):
    """What a query is found by: a word of a field, or the front of one."""

    kind: str
    field: str
    text: str


# The key of what nothing narrows, which each article has.
ANY = Key("any", "", "")


@dataclass(frozen=True)
class Field:
    """The words of a field in order, and each once."""

    words: list[str]
    distinct: frozenset[str]


def fields_of(article: Article) -> dict[str, Field]:
    """The fields of an article, cut into words."""
    cut = {"title": words_of(article.title), "text": words_of(article.text)}
    return {name: Field(words, frozenset(words)) for name, words in cut.items()}


def holds(query: Query, fields: dict[str, Field]) -> bool:
    """Whether the query holds of an article with these fields."""
    if isinstance(query, Word):
        return query.word in fields[query.field].distinct
    if isinstance(query, Phrase):
        return has_phrase(query.words, fields[query.field])
    if isinstance(query, Prefix):
        return any(word.startswith(query.front) for word in fields[query.field].distinct)
    if isinstance(query, Span):
        return any(query.low <= word <= query.high for word in fields[query.field].distinct)
    if isinstance(query, All):
        return True
    return group_holds(query, fields)


def has_phrase(words: tuple[str, ...], field: Field) -> bool:
    """Whether the words stand next to each other, in this order."""
    if not field.distinct.issuperset(words):
        return False
    size = len(words)
    return any(tuple(field.words[at:at + size]) == words for at in range(len(field.words) - size + 1))


def counted(group: Group) -> Sequence[tuple[str, Query]]:
    """The clauses, each with the sign by which it counts."""
    if not group.operators:
        return group.clauses
    signs = signs_after([sign for sign, _ in group.clauses], group.operators)
    return [(sign, child) for sign, (_, child) in zip(signs, group.clauses)]


def group_holds(group: Group, fields: dict[str, Field]) -> bool:
    """Each required clause, no excluded one, and where none is required at least one other."""
    clauses = counted(group)
    signs = {sign for sign, _ in clauses}
    if any(not holds(child, fields) for sign, child in clauses if sign == "+"):
        return False
    if any(holds(child, fields) for sign, child in clauses if sign == "-"):
        return False
    return "+" in signs or any(holds(child, fields) for sign, child in clauses if sign == "")


def extract(query: Query) -> tuple[int, list[Key]]:
    """The weight and the keys of a query: of a phrase its longest word, of a prefix its first characters, of a group its
    weightiest required clause or, without one, all that are optional; `ANY` for what nothing narrows."""
    if isinstance(query, Word):
        return len(query.word), [Key("word", query.field, query.word)]
    if isinstance(query, Phrase):
        longest = max(query.words, key=len)
        return len(longest), [Key("word", query.field, longest)]
    if isinstance(query, Prefix) and query.front:
        front = query.front[:FRONT]
        return len(front), [Key("front", query.field, front)]
    if isinstance(query, Group):
        clauses = counted(query)
        musts = [extract(child) for sign, child in clauses if sign == "+"]
        if musts:
            return max(musts, key=lambda found: found[0])
        shoulds = [extract(child) for sign, child in clauses if sign == ""]
        if shoulds:
            return min(weight for weight, _ in shoulds), [key for _, keys in shoulds for key in keys]
    return 0, [ANY]


def article_keys(fields: dict[str, Field]) -> set[Key]:
    """The keys of an article: `ANY`, each word, and the first one to eight characters of each."""
    keys = {ANY}
    for name, field in fields.items():
        for word in field.distinct:
            keys.add(Key("word", name, word))
            keys.update(Key("front", name, word[:end]) for end in range(1, min(FRONT, len(word)) + 1))
    return keys


class Presearcher:
    """Queries by their keys."""

    def __init__(self) -> None:
        self._holders: dict[Key, list[int]] = {}
        self._count = 0

    def add(self, queries: Iterable[Query]) -> None:
        """Adds queries, which are numbered in order from 0."""
        for query in queries:
            for key in set(extract(query)[1]):
                self._holders.setdefault(key, []).append(self._count)
            self._count += 1

    def candidates(self, fields: dict[str, Field]) -> set[int]:
        """The numbers of the queries that share a key with an article of these fields."""
        found: set[int] = set()
        for key in article_keys(fields):
            found.update(self._holders.get(key, ()))
        return found
