"""Reads a query of the dialect as a tree."""

from __future__ import annotations

from collections.abc import Callable, Iterator
from dataclasses import dataclass, replace
from functools import lru_cache
from pathlib import Path
from typing import Any

from lark import Lark, Token
from lark import Tree as Node
from lark.exceptions import UnexpectedToken
from lark.lexer import Lexer as LarkLexer

from .choices import Blank, Choices
from .lexemes import FieldOf, Kind, Lexeme, Within
from .lexing import MOST_OF, Lexer
from .tree import (TEXT, All, AtLeast, Every, Has, Level, Near, Not, Often, Place, Range, Refused, Remark, Same, Slop,
                   Some, Term, Tree)

_GRAMMAR = Path(__file__).resolve().parent / "dialect.lark"
_OPERATORS = frozenset(("AND", "OR", "NOT", "MUST", "WITHIN", "COMMA", "FIELD", "PLACES", "OF"))


@dataclass(frozen=True)
class Reading:
    """What a query is read as, and what may be meant otherwise."""

    tree: Tree
    remarks: tuple[Remark, ...]


class _Lexemes(LarkLexer):
    """Hands lexemes that are cut already to the parser."""

    def __init__(self, _configuration: object) -> None:
        pass

    def lex(self, data: Any) -> Iterator[Token]:  # type: ignore[override]
        for lexeme in data:
            yield Token(lexeme.kind.value, lexeme, lexeme.place.start, end_pos=lexeme.place.end)


@lru_cache(maxsize=1)
def _parser() -> Lark:
    return Lark(_GRAMMAR.read_text(), parser="lalr", lexer=_Lexemes, start="query")


def read(query: str, choices: Choices, known: frozenset[str]) -> Reading:
    """What a query is read as, with the fields that are known. `Refused` where it can't be said."""
    lexer = Lexer(query, choices, known)
    lexemes = lexer.run()
    if not lexemes:
        raise Refused(Place(0, max(1, len(query))), "empty", "The query is empty.")
    try:
        parsed: Any = _parser().parse(lexemes)  # type: ignore[arg-type]
    except UnexpectedToken as fault:
        raise _fault(query, lexemes, fault) from None
    reader = _Reader(lexer)
    tree = reader.tree(parsed)
    _need_positive(tree, lexer)
    return Reading(tree, tuple(lexer.remarks))


def _fault(query: str, lexemes: list[Lexeme], fault: UnexpectedToken) -> Refused:
    """The refusal of lexemes that are no query, at the first that can't follow those before it."""
    token = fault.token
    if token.type == "$END":
        last = lexemes[-1]
        return Refused(last.place, "end", f"Something is missing behind {last.text}.")
    lexeme: Lexeme = token.value
    index = next(number for number, one in enumerate(lexemes) if one is lexeme)
    before = lexemes[index - 1] if index else None
    if lexeme.kind is Kind.CLOSE and before:
        return Refused(before.place, "end", f"Something is missing behind {before.text}.")
    if before is None or before.kind is Kind.OPEN:
        return Refused(lexeme.place, "operator", f"Nothing stands before {lexeme.text}.")
    if before.kind.value in _OPERATORS and lexeme.kind.value in _OPERATORS:
        place = Place(before.place.start, lexeme.place.end)
        return Refused(place, "operators", f"{before.text} and {lexeme.text} can't stand side by side.")
    return Refused(lexeme.place, "structure", f"{lexeme.text} can't stand behind {before.text}.")


def _need_positive(tree: Tree, lexer: Lexer) -> None:
    """A remark where a query only excludes."""
    if isinstance(tree, Not) or isinstance(tree, All) and all(isinstance(part, Not) for part in tree.parts):
        lexer.remarks.append(Remark(tree.place, Level.WARNING, "only_excludes",
                                    "The query only excludes: it holds of every other article."))


class _Reader:
    """Makes the tree of what was parsed."""

    def __init__(self, lexer: Lexer) -> None:
        self.lexer = lexer
        self.choices = lexer.choices
        self._rules: dict[str, Callable[[list[Any]], Tree]] = {
            "query": self._first, "list": self._list, "either": self._either, "both": self._both,
            "joined": self._first, "without": self._without, "must": self._must, "near": self._near,
            "item": self._item, "group": self._first, "field": self._field, "places": self._places, "of": self._of,
            "part": self._either}

    def tree(self, node: Node[Any]) -> Tree:
        """The tree of a node."""
        return self._rules[node.data](node.children)

    def _first(self, children: list[Any]) -> Tree:
        return self.tree(children[0])

    def _item(self, children: list[Any]) -> Tree:
        load: Tree = children[0].value.load
        return load

    def _remark(self, place: Place, level: Level, rule: str, says: str) -> None:
        if not any(remark.rule == rule for remark in self.lexer.remarks):
            self.lexer.remarks.append(Remark(place, level, rule, says))

    def _list(self, children: list[Any]) -> Tree:
        """Parts with commas between."""
        parts = [self.tree(child) for child in children if isinstance(child, Node)]
        if len(parts) == 1:
            return parts[0]
        comma = next(child.value for child in children if isinstance(child, Token))
        self._remark(comma.place, Level.NOTICE, "comma_is_or", "A comma is OR: any part of the list is enough.")
        return Some(_around(parts), tuple(parts))

    def _either(self, children: list[Any]) -> Tree:
        """Parts with OR between."""
        nodes = [child for child in children if isinstance(child, Node)]
        parts = [self.tree(node) for node in nodes]
        if len(parts) == 1:
            return parts[0]
        for node, part in zip(nodes, parts):
            if node.data == "both" and len(node.children) > 1 and isinstance(part, All):
                self._remark(part.place, Level.NOTICE, "and_before_or",
                             "AND, and a blank, bind closer than OR: parentheses say which belong together.")
        return Some(_around(parts), tuple(parts))

    def _both(self, children: list[Any]) -> Tree:
        """Parts with AND or a blank between."""
        chunks: list[list[Node[Any]]] = []
        is_joined = False
        for child in children:
            if isinstance(child, Token):
                is_joined = True
            elif is_joined and chunks:
                chunks[-1].append(child)
                is_joined = False
            else:
                chunks.append([child])
        if len(chunks) == 1:
            return _all([self.tree(node) for node in chunks[0]])
        return _Blanks(self, chunks).tree()

    def _without(self, children: list[Any]) -> Tree:
        part = self.tree(children[1])
        return Not(Place(children[0].value.place.start, part.place.end), part)

    def _must(self, children: list[Any]) -> Tree:
        return self.tree(children[1])

    def _near(self, children: list[Any]) -> Tree:
        """Parts with nearness between, from the left."""
        tree = self.tree(children[0])
        for operator, node in zip(children[1::2], children[2::2]):
            right = self.tree(node)
            within: Within = operator.value.load
            for side in (tree, right):
                self._need_places(side, operator.value)
            if _fields_of(tree) != _fields_of(right):
                raise Refused(operator.value.place, "near_fields", "What stands near each other is in one field.")
            place = _around([tree, right])
            if within.unit:
                tree = Same(place, tree, right, within.unit, within.ordered, within.unless)
            else:
                tree = Near(place, tree, right, within.words, within.ordered, within.unless)
        return tree

    def _need_places(self, side: Tree, operator: Lexeme) -> None:
        """Refuses what has no places in a text, or more than one field."""
        if isinstance(side, Some):
            for part in side.parts:
                self._need_places(part, operator)
        elif isinstance(side, (Near, Same)) and side.unless or not isinstance(side, (Term, Near, Same, Slop)):
            raise Refused(side.place, "near_what", f"Beside {operator.text} stand words, words in quotes, or a group of"
                                                   " these with OR between.")

    def _field(self, children: list[Any]) -> Tree:
        """An item in a field; a nearer field counts."""
        lexeme: Lexeme = children[0].value
        load = lexeme.load
        assert isinstance(load, FieldOf)
        tree = self.tree(children[1])
        self._tell_next(lexeme, tree)
        if load.exact:
            return _changed(tree, lambda term: replace(term, exact=True))
        name = load.name
        made = _changed(tree, lambda term: replace(term, field=name) if term.field == TEXT else term)
        return replace(made, place=Place(lexeme.place.start, made.place.end))

    def _tell_next(self, lexeme: Lexeme, tree: Tree) -> None:
        """A remark where a field stands before several words and counts for the first alone."""
        after = self.lexer.plain[tree.place.end:tree.place.end + 2]
        if isinstance(tree, Term) and not tree.quoted and after[:1] == " " and (after[1:].isalnum()):
            following = self.lexer.plain[tree.place.end + 1:].split(None, 1)[0]
            if following.upper() not in ("AND", "OR", "NOT", "ANDNOT"):
                self._remark(lexeme.place, Level.NOTICE, "field_of_next",
                             f"{lexeme.text} counts for the next item alone: parentheses around more.")

    def _several(self, node: Node[Any]) -> list[Tree]:
        return [self.tree(child) for child in node.children if isinstance(child, Node)]

    def _places(self, children: list[Any]) -> Tree:
        lexeme: Lexeme = children[0].value
        assert isinstance(lexeme.load, int)
        if isinstance(children[1], Node):
            parts = self._several(children[1])
        else:
            parts = [children[1].value.load]
        part = parts[0] if len(parts) == 1 else Some(_around(parts), tuple(parts))
        self._need_places(part, lexeme)
        self._need_count(lexeme)
        if len(parts) > 1:
            self._remark(lexeme.place, Level.NOTICE, "places",
                         f"{lexeme.text} counts places of any of them: {lexeme.load} of (..) has different ones.")
        return Often(Place(lexeme.place.start, part.place.end), lexeme.load, part)

    def _of(self, children: list[Any]) -> Tree:
        lexeme: Lexeme = children[0].value
        assert isinstance(lexeme.load, int)
        parts = self._several(children[1])
        self._need_count(lexeme)
        if lexeme.load == MOST_OF:
            return _all(parts)
        if lexeme.load > len(parts):
            raise Refused(lexeme.place, "count", f"There are {len(parts)} of which {lexeme.load} have to hold.")
        return AtLeast(Place(lexeme.place.start, parts[-1].place.end), lexeme.load, tuple(parts))

    def _need_count(self, lexeme: Lexeme) -> None:
        if lexeme.load == 0:
            raise Refused(lexeme.place, "count", "At least 1 has to hold.")

    def tell_blank(self, left: Tree, right: Tree, meaning: str) -> None:
        """A remark on the first bare blank."""
        self._remark(Place(left.place.end, max(right.place.start, left.place.end + 1)), Level.NOTICE, "blank", meaning)

    def is_must(self, node: Node[Any]) -> bool:
        """Whether a part has a plus before it."""
        return node.data == "must"


class _Blanks:
    """Parts with bare blanks between, of which each is one or more with AND between."""

    def __init__(self, reader: _Reader, chunks: list[list[Node[Any]]]) -> None:
        self._reader = reader
        self._chunks = chunks
        self._blank = reader.choices.blank

    def tree(self) -> Tree:
        """What they are by the desk's choice."""
        parts = [_all([self._reader.tree(node) for node in chunk]) for chunk in self._chunks]
        if self._blank is Blank.OR:
            return self._any(parts)
        if self._blank is Blank.PHRASE:
            parts = self._names(parts)
        signs = [self._reader.is_must(chunk[0]) for chunk in self._chunks]
        positive = [part for part in parts if not isinstance(part, Not)]
        if len(positive) > 1:
            says = "A blank is AND: both, anywhere in the article; quotes have them in a row."
            if any(signs) and not all(signs):
                says = "A blank is AND: what has no + must be there too."
            self._reader.tell_blank(positive[0], positive[1], says)
        return _all(parts)

    def _any(self, parts: list[Tree]) -> Tree:
        """A blank is OR: what has a sign must hold, or must not; without a plus any of the others."""
        must = [part for part, chunk in zip(parts, self._chunks) if self._reader.is_must(chunk[0])]
        nots: list[Tree] = [part for part in parts if isinstance(part, Not)]
        rest = [part for part in parts if part not in must and part not in nots]
        if len(rest) > 1:
            self._reader.tell_blank(rest[0], rest[1], "A blank is OR: one of the two is enough.")
        if must:
            if rest:
                self._reader.tell_blank(must[0], rest[0], "Beside a + what has none changes nothing.")
            return _all(must + nots)
        if not rest:
            return _all(nots)
        some = rest[0] if len(rest) == 1 else Some(_around(rest), tuple(rest))
        return _all([some, *nots])

    def _names(self, parts: list[Tree]) -> list[Tree]:
        """The parts, of which words in a row that begin with capitals are one name."""
        made: list[Tree] = []
        for part in parts:
            last = made[-1] if made else None
            if isinstance(part, Term) and isinstance(last, Term) and _is_name(part) and _is_name(last):
                text = f"{last.text} {part.text}"
                made[-1] = replace(last, place=Place(last.place.start, part.place.end), text=text)
            else:
                made.append(part)
        return made


def _is_name(term: Term) -> bool:
    return not term.quoted and not term.exact and term.text[:1].isupper()


def _around(parts: list[Tree]) -> Place:
    return Place(min(part.place.start for part in parts), max(part.place.end for part in parts))


def _all(parts: list[Tree]) -> Tree:
    """Parts that all hold, as one: those of parts that are such are among them."""
    flat: list[Tree] = []
    for part in parts:
        flat += part.parts if isinstance(part, All) else [part]
    return flat[0] if len(flat) == 1 else All(_around(flat), tuple(flat))


def _fields_of(tree: Tree) -> frozenset[str]:
    """The fields of what has places."""
    if isinstance(tree, Term):
        return frozenset((tree.field,))
    if isinstance(tree, Slop):
        return frozenset((tree.term.field,))
    if isinstance(tree, (Near, Same)):
        return _fields_of(tree.left) | _fields_of(tree.right)
    return frozenset().union(*(_fields_of(part) for part in tree.parts)) if isinstance(tree, Some) else frozenset()


def _changed(tree: Tree, change: Callable[[Term], Term]) -> Tree:
    """The tree with each of its terms changed."""
    if isinstance(tree, Term):
        return change(tree)
    if isinstance(tree, Slop):
        return replace(tree, term=change(tree.term))
    if isinstance(tree, Range):
        term = change(Term(tree.place, "", field=tree.field))
        return replace(tree, field=term.field)
    if isinstance(tree, (Not, Often)):
        return replace(tree, part=_changed(tree.part, change))
    if isinstance(tree, (Near, Same)):
        return replace(tree, left=_changed(tree.left, change), right=_changed(tree.right, change))
    if isinstance(tree, (Every, Has)):
        return tree
    return replace(tree, parts=tuple(_changed(part, change) for part in tree.parts))
