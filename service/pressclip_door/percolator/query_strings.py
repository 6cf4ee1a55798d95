"""`query_string` and `simple_query_string`: queries as texts with operators."""

from __future__ import annotations

from enum import Enum
from typing import Sequence

from . import classic, simple
from .full_text import Matching, check_lenient, is_and, matched
from .leaves import MOST_CHARACTERS, Bound
from .mapping import Field, Kind
from .part import Options, Part
from .reader import Reader, form
from .simple import Operator
from .tree import All, Group, Never, Node, Word, both, either, without
from .trouble import bad_query, not_served
from .words import lowered

_EXISTS = "_exists_"


class Occur(Enum):
    """What becomes of a clause."""

    MUST = "must"
    SHOULD = "should"
    MUST_NOT = "must_not"


@form("query_string")
async def query_string(reader: Reader, part: Part) -> Node:
    """A text in the syntax of Lucene's classic parser."""
    options = Options(part, "query_string")
    text = options.need("query")
    default = options.take("default_field")
    given = options.take("fields") if default is None or default.value == "*" else default
    fields = [] if given is None else [reader.field(path) for path in given.items() if path.value != "*"]
    needs_all = common_options(options, fields or list(reader.fields.fields.values()))
    try:
        return await Classic(reader, text, fields, needs_all).read()
    except classic.Unreadable as error:
        raise unreadable(text, error) from None


@form("simple_query_string")
async def simple_query_string(reader: Reader, part: Part) -> Node:
    """A text in the syntax in which nothing is wrong."""
    options = Options(part, "simple_query_string")
    text = options.need("query")
    fields = reader.named_fields(options, "simple_query_string", part.place)
    how = Matching(common_options(options, fields))
    try:
        tree = simple.Simple(short(text), Operator.AND if how.needs_all else Operator.OR).whole()
    except classic.Unreadable as error:
        raise unreadable(text, error) from None
    node = None if tree is None else await simple_node(reader, tree, (text, fields, how))
    return Never() if node is None else node


def common_options(options: Options, fields: Sequence[Field]) -> bool:
    """Whether the operator between words is `and`; refuses the options that are not served."""
    check_lenient(options, fields)
    kind = options.take("type")
    if kind is not None and kind.value not in ("best_fields", "most_fields"):
        raise not_served(f"type: {kind.value}", kind.place, "each word is looked for in each field")
    least = options.take("minimum_should_match")
    if least is not None:
        raise not_served("minimum_should_match", least.place, "write bool or match to count words")
    needs_all = is_and(options.take("default_operator"))
    options.end()
    return needs_all


def short(text: Part) -> str:
    """The text of a query, which has a bound."""
    if len(text.text()) > MOST_CHARACTERS:
        raise not_served("query", text.place, f"it has over {MOST_CHARACTERS} characters")
    return text.text()


def unreadable(text: Part, error: classic.Unreadable) -> Exception:
    """The refusal of a text that is no query."""
    return bad_query(f"Failed to parse query [{text.value[:200]}] at [{text.place}]: {error}")


async def simple_node(reader: Reader, tree: simple.Tree, where: tuple[Part, Sequence[Field], Matching]) -> Node | None:
    """What a text asks for; None where it has no words."""
    text, fields, how = where
    if isinstance(tree, simple.Not):
        inner = await simple_node(reader, tree.inner, where)
        return None if inner is None else without([inner])
    if isinstance(tree, simple.Text):
        said = text.at("words", tree.text)
        return await in_fields(reader, fields, Asked(tree.form, said, how))
    parts = [node for part in tree.parts if (node := await simple_node(reader, part, where)) is not None]
    if not parts:
        return None
    return both(parts) if tree.operator is Operator.AND else either(parts)


class Asked:
    """A text that is asked for as `words`, as a `phrase`, or as how a word has `begun`."""

    def __init__(self, way: str, text: Part, how: Matching) -> None:
        self.way = way
        self.text = text
        self.how = how

    async def within(self, reader: Reader, field: Field) -> Node | None:
        """It in one field; None where it has no words."""
        if self.way == "phrase":
            return await reader.leaves.phrase(field, self.text)
        if self.way == "begun":
            is_text = field.kind is Kind.TEXT
            return reader.leaves.front(field, self.text.at("front", lowered(self.text.value)) if is_text else self.text)
        return await matched(reader, field, self.text, self.how)


async def in_fields(reader: Reader, fields: Sequence[Field], asked: Asked) -> Node | None:
    """A text in one of the fields; None where it has no words in any."""
    nodes = [node for field in fields if (node := await asked.within(reader, field)) is not None]
    return either(nodes) if nodes else None


class Classic:
    """Gives a text in the classic syntax its meaning: which clauses must hold, by their signs and by `AND` and `OR`.
    `fields` are those that are searched without a name; all where there are none."""

    def __init__(self, reader: Reader, text: Part, fields: Sequence[Field], needs_all: bool) -> None:
        self._reader = reader
        self._text = text
        self._fields = fields
        self._how = Matching(needs_all)
        self._usual = Occur.MUST if needs_all else Occur.SHOULD

    async def read(self) -> Node:
        """The meaning of the whole text."""
        text = short(self._text)
        if not text.strip():
            return Never()
        node = await self._clauses(classic.Parser(text).whole())
        return Never() if node is None else node

    async def _clauses(self, clauses: classic.Clauses) -> Node | None:
        """The meaning of clauses; None where they have no words."""
        found: list[tuple[Occur, Node]] = []
        for clause in clauses.clauses:
            if clause.is_run and isinstance(clause.piece, classic.Words):
                found += [(self._usual, node) for node in await self._run(clause.piece)]
                continue
            self._join(found, clause, await self._piece(clause.piece))
        if not found:
            return None
        must, should, must_not = (tuple(node for occur, node in found if occur is kind)
                                  for kind in (Occur.MUST, Occur.SHOULD, Occur.MUST_NOT))
        return found[0][1] if len(found) == 1 and not must_not else Group(must, () if must else should, must_not)

    def _join(self, found: list[tuple[Occur, Node]], clause: classic.Clause, node: Node | None) -> None:
        """Adds a clause as the classic parser does: `AND` makes also the one before it one that must hold, and `OR`
        makes it one that need not where words must hold without an operator."""
        if found and found[-1][0] is not Occur.MUST_NOT:
            if clause.operator == "AND":
                found[-1] = (Occur.MUST, found[-1][1])
            elif clause.operator == "OR" and self._how.needs_all:
                found[-1] = (Occur.SHOULD, found[-1][1])
        if node is None:
            return
        if clause.sign is classic.Sign.MUST_NOT:
            occur = Occur.MUST_NOT
        elif self._how.needs_all:
            occur = Occur.SHOULD if clause.operator == "OR" else Occur.MUST
        else:
            is_must = clause.sign is classic.Sign.MUST or clause.operator == "AND"
            occur = Occur.MUST if is_must else Occur.SHOULD
        found.append((occur, node))

    async def _run(self, words: classic.Words) -> list[Node]:
        """A run of words: in one field that is a text each word is a clause, else all of them are one."""
        fields = self._searched(words.field)
        text = self._text.at("words", words.text)
        if len(fields) == 1 and fields[0].kind is Kind.TEXT:
            return [Word(fields[0].engine, word) for word in await self._reader.leaves.words(text)]
        node = await in_fields(self._reader, fields, Asked("words", text, self._how))
        return [] if node is None else [node]

    async def _piece(self, piece: classic.Piece) -> Node | None:
        """The meaning of what one clause asks for."""
        if isinstance(piece, classic.Clauses):
            return await self._clauses(piece)
        if isinstance(piece, classic.Anything):
            return self._anything(piece.field)
        if isinstance(piece, classic.Between):
            return either([self._between(field, piece) for field in self._searched(piece.field)])
        if piece.field == _EXISTS and isinstance(piece, classic.Words):
            return self._present([self._reader.field(self._text.at("field", piece.text))])
        if isinstance(piece, classic.Words) and piece.text[:1] in "<>" and len(piece.text) > 1:
            return either([self._above_or_below(field, piece.text) for field in self._searched(piece.field)])
        way = {classic.Words: "words", classic.Quoted: "phrase", classic.Begun: "begun"}[type(piece)]
        asked = Asked(way, self._text.at("words", piece.text), self._how)
        return await in_fields(self._reader, self._searched(piece.field), asked)

    def _searched(self, field: str | None) -> Sequence[Field]:
        """The field that stands before a colon, or those that are searched without one, which are all where none is
        named."""
        if field is not None:
            return [self._reader.field(self._text.at("field", field))]
        return self._fields or self._reader.all_fields("query_string", self._text.place)

    def _anything(self, field: str | None) -> Node:
        """A lone star: each document, or those in which the field has a value."""
        if field == "*" or field is None and not self._fields:
            return All()
        return self._present(self._searched(field))

    def _present(self, fields: Sequence[Field]) -> Node:
        return self._reader.leaves.present([field.path for field in fields])

    def _between(self, field: Field, piece: classic.Between) -> Node:
        """A range in brackets."""
        low, high = (None if text is None else self._bound(field, text, is_included)
                     for text, is_included in ((piece.low, piece.has_low), (piece.high, piece.has_high)))
        return self._reader.leaves.span(field, low, high)

    def _above_or_below(self, field: Field, text: str) -> Node:
        """A range of one end, as `>=5`."""
        is_included = text[1] == "=" and len(text) > 2
        bound = self._bound(field, text[2 if is_included else 1:], is_included)
        return self._reader.leaves.span(field, *((bound, None) if text[0] == ">" else (None, bound)))

    def _bound(self, field: Field, text: str, is_included: bool) -> Bound:
        """An end of a range; of words in lower case."""
        return Bound(self._text.at("range", lowered(text) if field.kind is Kind.TEXT else text), is_included)
