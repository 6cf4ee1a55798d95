"""The text of a query, in the engine's syntax, from its tree."""

from __future__ import annotations

import re

from .tree import All, End, Front, Group, Never, Node, Phrase, Span, Word

_PLAIN = re.compile(r"[^\W_]+")
_OPEN = "*"


def text_of(node: Node) -> str:
    """The text of a whole query."""
    if isinstance(node, Never):
        return "-*:*"
    if isinstance(node, Group):
        return clauses_of(node)
    return item_of(node)


def item_of(node: Node) -> str:
    """The text of a part, behind which or before which others may stand."""
    if isinstance(node, All):
        return "*:*"
    if isinstance(node, Word):
        return f"{node.field}:{word_of(node.word)}"
    if isinstance(node, Phrase):
        return f"{node.field}:{quoted(' '.join(node.words))}"
    if isinstance(node, Front):
        return f"{node.field}:{escaped(node.front)}*"
    if isinstance(node, Span):
        low, high = end_of(node.low), end_of(node.high)
        opening = "[" if node.low is None or node.low.is_included else "{"
        closing = "]" if node.high is None or node.high.is_included else "}"
        return f"{node.field}:{opening}{low} TO {high}{closing}"
    return f"({text_of(node)})"


def clauses_of(group: Group) -> str:
    """The clauses of a group. One that only excludes holds of nothing, so that `*:*` stands before what it excludes;
    and beside what must hold, clauses without a sign ask for nothing."""
    must = [f"+{item_of(node)}" for node in group.must]
    should = [item_of(node) for node in group.should]
    must_not = [f"-{item_of(node)}" for node in group.must_not]
    if must and should:
        should = ["+" + (should[0] if len(should) == 1 else f"({' '.join(should)})")]
    if not must and not should:
        must = ["*:*"]
    return " ".join([*must, *should, *must_not])


def end_of(end: End | None) -> str:
    """An end of a range."""
    return _OPEN if end is None else word_of(end.text)


def word_of(word: str) -> str:
    """A word, in quotes where it has other characters than letters and digits."""
    return word if _PLAIN.fullmatch(word) else quoted(word)


def quoted(text: str) -> str:
    """A text in quotes."""
    return '"' + text.replace("\\", "\\\\").replace('"', '\\"') + '"'


def escaped(text: str) -> str:
    """A text whose signs stand for themselves."""
    return "".join(f"\\{sign}" if is_sign(sign) else sign for sign in text)


def is_sign(character: str) -> bool:
    """Whether a character may be a sign of the syntax: of ASCII all but letters, digits and `_`, and U+3000."""
    return character == "\u3000" or (character.isascii() and not character.isalnum() and character != "_")
