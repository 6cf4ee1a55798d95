"""Queries that cut their texts into words: `match` and its kin."""

from __future__ import annotations

from dataclasses import dataclass
from typing import Awaitable, Callable, Sequence

from .counting import asked_for, at_least
from .leaves import whole
from .mapping import Field, Kind
from .part import Options, Part
from .reader import Reader, form
from .trouble import bad_query, malformed, not_served
from .tree import All, Front, Never, Node, Word, both, either


@dataclass(frozen=True)
class Matching:
    """How words are put together: all of them, or so many; and what a text without words means."""

    needs_all: bool = False
    least: Part | None = None
    empty: Node = Never()

    def together(self, nodes: Sequence[Node], place: str) -> Node:
        """Words put together."""
        if len(nodes) == 1:
            return nodes[0]
        if self.needs_all:
            return both(nodes)
        return at_least(1 if self.least is None else max(1, asked_for(self.least, len(nodes))), nodes, place)


def matching_of(options: Options) -> Matching:
    """What the options of a form say of it."""
    least = options.take("minimum_should_match")
    needs_all = is_and(options.take("operator"))
    if needs_all and least is not None:
        raise not_served("minimum_should_match", least.place, "the operator [and] asks for all words")
    return Matching(needs_all, least, empty_of(options))


def is_and(part: Part | None) -> bool:
    """Whether an operator is `and`; it is `or` where none is given."""
    if part is None:
        return False
    word = part.text().lower()
    if word not in ("and", "or"):
        raise malformed(part.place, f"the operator is [and] or [or], and not [{part.value}]")
    return word == "and"


def empty_of(options: Options) -> Node:
    """What a text without words means: nothing holds, or all does."""
    part = options.take("zero_terms_query")
    if part is None or part.text().lower() == "none":
        return Never()
    if part.text().lower() != "all":
        raise malformed(part.place, "zero_terms_query is [none] or [all]")
    return All()


async def matched(reader: Reader, field: Field, text: Part, how: Matching) -> Node | None:
    """The words of a text in a field; None where there is none. A field that is no text takes it whole."""
    if field.kind is not Kind.TEXT:
        return whole(field, text)
    words = await reader.leaves.words(text)
    return how.together([Word(field.engine, word) for word in words], text.place) if words else None


async def begun(reader: Reader, field: Field, text: Part, how: Matching) -> Node | None:
    """The words of a text, the last of which may go on."""
    if field.kind is not Kind.TEXT:
        return reader.leaves.front(field, text)
    words = await reader.leaves.words(text)
    nodes: list[Node] = [Word(field.engine, word) for word in words[:-1]]
    return how.together([*nodes, Front(field.engine, words[-1])], text.place) if words else None


async def phrased(reader: Reader, field: Field, text: Part, how: Matching) -> Node | None:
    """The words of a text next to each other."""
    return await reader.leaves.phrase(field, text)


async def phrase_begun(reader: Reader, field: Field, text: Part, how: Matching) -> Node | None:
    """A word that may go on; more words are refused, since a phrase has whole words here."""
    if field.kind is not Kind.TEXT:
        raise bad_query(f"Can only use phrase prefix queries on text fields - not on [{field.path}] which is of type"
                        f" [{field.type}]")
    words = await reader.leaves.words(text)
    if len(words) > 1:
        raise not_served("match_phrase_prefix", text.place, "the words of a phrase are whole: one word may go on, more"
                                                            " may not")
    return Front(field.engine, words[0]) if words else None


Way = Callable[[Reader, Field, Part, Matching], Awaitable["Node | None"]]
_WAYS: dict[str, Way] = {"best_fields": matched, "most_fields": matched, "bool_prefix": begun, "phrase": phrased,
                         "phrase_prefix": phrase_begun}


@form("match")
async def match(reader: Reader, part: Part) -> Node:
    """The words of a text in one field."""
    return await in_one(reader, part, "match", matched)


@form("match_bool_prefix")
async def match_bool_prefix(reader: Reader, part: Part) -> Node:
    """The words of a text in one field, the last of which may go on."""
    return await in_one(reader, part, "match_bool_prefix", begun)


@form("match_phrase")
async def match_phrase(reader: Reader, part: Part) -> Node:
    """The words of a text in one field, next to each other."""
    return await in_one(reader, part, "match_phrase", phrased)


@form("match_phrase_prefix")
async def match_phrase_prefix(reader: Reader, part: Part) -> Node:
    """A word in one field, which may go on."""
    return await in_one(reader, part, "match_phrase_prefix", phrase_begun)


async def in_one(reader: Reader, part: Part, name: str, way: Way) -> Node:
    """A text in one field."""
    field, text, options = reader.of_field(part, name, "query")
    check_lenient(options, [field])
    how = matching_of(options) if way in (matched, begun) else Matching(empty=empty_of(options))
    options.end()
    node = await way(reader, field, text, how)
    return how.empty if node is None else node


@form("multi_match")
async def multi_match(reader: Reader, part: Part) -> Node:
    """A text in one of several fields; of the type `cross_fields`, each word in one of them."""
    options = Options(part, "multi_match")
    text = options.need("query")
    fields = reader.named_fields(options, "multi_match", part.place)
    check_lenient(options, fields)
    how = matching_of(options)
    kind = options.take("type") or Part("best_fields", part.place)
    options.end()
    if kind.value == "cross_fields":
        return await crossed(reader, fields, text, how)
    way = _WAYS.get(kind.value) if isinstance(kind.value, str) else None
    if way is None:
        raise malformed(kind.place, f"there is no type [{kind.value}]")
    nodes = [node for field in fields if (node := await way(reader, field, text, how)) is not None]
    return either(nodes) if nodes else how.empty


async def crossed(reader: Reader, fields: Sequence[Field], text: Part, how: Matching) -> Node:
    """The words of a text, each of them in one of several fields."""
    if any(field.kind is not Kind.TEXT for field in fields):
        raise not_served("cross_fields", text.place, "its fields have to be texts")
    words = await reader.leaves.words(text)
    if not words:
        return how.empty
    return how.together([either([Word(field.engine, word) for field in fields]) for word in words], text.place)


def check_lenient(options: Options, fields: Sequence[Field]) -> None:
    """Refuses `lenient` where it would change something: where a field takes no text."""
    lenient = options.take("lenient")
    if lenient is not None and lenient.truth() and any(field.kind not in (Kind.TEXT, Kind.WHOLE) for field in fields):
        raise not_served("lenient", lenient.place, "a value that its field can't take is refused")
