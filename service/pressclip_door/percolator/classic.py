"""The syntax of `query_string`: what Lucene's classic parser reads, without what has no meaning here."""

from __future__ import annotations

import re
from dataclasses import dataclass
from enum import Enum
from typing import Mapping, Sequence, Union

MOST_OPEN = 60
MOST_TOKENS = 20_000
_ESCAPED = r"\\(?:u[0-9A-Fa-f]{4}|(?!u)[\s\S])"
_START = rf"(?:[^ \t\n\r\u3000+\-!():^\[\]\"{{}}~*?\\/]|{_ESCAPED})"
_TERM = rf"{_START}(?:{_START}|[+\-])*"
_END = r"\"(?:[^\"\\]|\\[\s\S])+\"|[^\s\]}\"]+"
# What may begin with a character; of two tokens of one length the first is taken.
_WORDS = (("AND", r"AND|&&"), ("OR", r"OR|\|\|"), ("NOT", r"NOT"), ("TERM", _TERM), ("PREFIX", rf"{_TERM}\*"),
          ("WILD", rf"(?:{_START}|[*?])(?:{_START}|[+\-*?])*"))
_BARE = ("BARE", r"[+\-!][ \t\n\r\u3000]")
_RANGE = ("RANGE", rf"[\[{{]\s*(?P<low>{_END})\s+TO\s+(?P<high>{_END})\s*[\]}}]")
_BY_FRONT: Mapping[str, Sequence[tuple[str, str]]] = {
    "+": (("+", r"\+"), _BARE), "-": (("-", r"-"), _BARE), "!": (("NOT", r"!"), _BARE), "(": (("(", r"\("),),
    ")": ((")", r"\)"),), ":": ((":", r":"),), "*": (("*", r"\*"), _WORDS[-1]), "^": (("^", r"\^[0-9.]*"),),
    '"': (("QUOTED", rf'"(?:[^"\\]|{_ESCAPED})*"'),), "~": (("~", r"~[0-9.]*"),), "[": (_RANGE,), "{": (_RANGE,),
    "/": (("REGEXP", r"/(?:[^/\\]|\\[\s\S])*/"),)}
_COMPILED = {front: [(name, re.compile(pattern)) for name, pattern in tokens] for front, tokens in _BY_FRONT.items()}
_COMPILED_WORDS = [(name, re.compile(pattern)) for name, pattern in _WORDS]
_WHITE = re.compile(r"[ \t\n\r\u3000]+")
_WHY = {"^": "boosts have no meaning here, nothing is scored",
        "~": "words are compared whole, and phrases have no slop",
        "WILD": "a * stands at the end of a word alone, and ? nowhere", "REGEXP": "regular expressions are not served"}
# What may not follow a word that is read in one piece with the one before it.
_ENDS_RUN = (":", "*", "~", "^", "AND", "OR")


class Unreadable(ValueError):
    """A text is no query, or has a form that is not served."""


class Sign(Enum):
    """What stands before a clause."""

    NONE = ""
    MUST = "+"
    MUST_NOT = "-"


@dataclass(frozen=True)
class Words:
    """Words without quotes, a whole run of them where no operator stands between."""

    field: str | None
    text: str


@dataclass(frozen=True)
class Quoted:
    """A phrase."""

    field: str | None
    text: str


@dataclass(frozen=True)
class Begun:
    """How a word begins."""

    field: str | None
    text: str


@dataclass(frozen=True)
class Between:
    """A range; an end that is None is open."""

    field: str | None
    low: str | None
    high: str | None
    has_low: bool
    has_high: bool


@dataclass(frozen=True)
class Anything:
    """A lone star."""

    field: str | None


@dataclass(frozen=True)
class Clause:
    """A clause: the operator before it, its sign, and what it asks for. A run of words has neither."""

    operator: str
    sign: Sign
    piece: Piece
    is_run: bool = False


@dataclass(frozen=True)
class Clauses:
    """What stands in parentheses, or the whole text."""

    clauses: Sequence[Clause]


Piece = Union[Words, Quoted, Begun, Between, Anything, Clauses]


@dataclass(frozen=True)
class Token:
    """A token and where it stands."""

    kind: str
    text: str
    at: int
    found: re.Match[str] | None = None


def tokens_of(text: str) -> list[Token]:
    """The text in tokens, the longest that fits at each place, and `END`."""
    found: list[Token] = []
    at = 0
    while at < len(text):
        white = _WHITE.match(text, at)
        if white:
            at = white.end()
            continue
        patterns = _COMPILED.get(text[at], _COMPILED_WORDS)
        fits = [(match.end(), name, match) for name, pattern in patterns if (match := pattern.match(text, at))]
        if not fits:
            raise Unreadable(f"character {at} can't be read")
        end = max(length for length, _, _ in fits)
        kind, match = next((name, match) for length, name, match in fits if length == end)
        if kind in _WHY:
            raise Unreadable(f"[{match[0]}] at character {at} is not served: {_WHY[kind]}")
        found.append(Token(kind, match[0], at, match))
        at = end
        if len(found) > MOST_TOKENS:
            raise Unreadable(f"it has over {MOST_TOKENS:,} words and signs")
    return [*found, Token("END", "", at)]


def plain(text: str) -> str:
    """A text with each escaped character as itself."""
    return re.sub(r"\\u([0-9A-Fa-f]{4})|\\([\s\S])",
                  lambda found: chr(int(found[1], 16)) if found[1] else found[2], text)


class Parser:
    """Reads tokens."""

    def __init__(self, text: str) -> None:
        self._tokens = tokens_of(text)
        self._next = 0
        self._open = 0

    def whole(self) -> Clauses:
        """The whole text; `Unreadable` where it is no query."""
        clauses = self._clauses(None)
        if self._peek().kind != "END":
            raise self._unfit()
        return clauses

    def _peek(self, ahead: int = 0) -> Token:
        return self._tokens[min(self._next + ahead, len(self._tokens) - 1)]

    def _take(self, *kinds: str) -> Token | None:
        token = self._peek()
        if token.kind not in kinds:
            return None
        self._next += 1
        return token

    def _unfit(self) -> Unreadable:
        token = self._peek()
        what = f"[{token.text}]" if token.text else "the end"
        return Unreadable(f"{what} at character {token.at} does not fit")

    def _clauses(self, field: str | None) -> Clauses:
        """Clauses, one at least."""
        found = [self._run(field) or self._clause(field, "")]
        while self._peek().kind not in (")", "END"):
            run = self._run(field)
            if run is None:
                operator = self._take("AND", "OR")
                run = self._clause(field, operator.kind if operator else "")
            found.append(run)
        return Clauses(found)

    def _run(self, field: str | None) -> Clause | None:
        """Two words and more without an operator, which are cut as one text; None where no such run begins."""
        if self._peek().kind != "TERM" or not self._goes_on(1):
            return None
        words = [self._peek().text]
        self._next += 1
        while self._goes_on(0):
            words.append(self._peek().text)
            self._next += 1
        return Clause("", Sign.NONE, Words(field, plain(" ".join(words))), True)

    def _goes_on(self, ahead: int) -> bool:
        """Whether a word so far ahead belongs to the run before it."""
        return self._peek(ahead).kind == "TERM" and self._peek(ahead + 1).kind not in _ENDS_RUN

    def _clause(self, field: str | None, operator: str) -> Clause:
        """A clause with its sign and its field."""
        sign = self._take("+", "-", "NOT")
        kind = Sign.NONE if sign is None else Sign.MUST if sign.kind == "+" else Sign.MUST_NOT
        if self._peek().kind in ("TERM", "*") and self._peek(1).kind == ":":
            field = plain(self._peek().text)
            self._next += 2
        return Clause(operator, kind, self._piece(field))

    def _piece(self, field: str | None) -> Piece:
        """What a clause asks for."""
        token = self._take("TERM", "BARE", "QUOTED", "PREFIX", "*", "RANGE", "(")
        if token is None:
            raise self._unfit()
        if token.kind == "(":
            return self._group(field)
        if token.kind == "QUOTED":
            return Quoted(field, plain(token.text[1:-1]))
        if token.kind == "PREFIX":
            return Begun(field, plain(token.text[:-1]))
        if token.kind == "RANGE" and token.found:
            return between(field, token.found)
        if token.kind == "*":
            return Anything(field)
        return Words(field, token.text[0] if token.kind == "BARE" else plain(token.text))

    def _group(self, field: str | None) -> Clauses:
        """What stands in parentheses."""
        self._open += 1
        if self._open > MOST_OPEN:
            raise Unreadable(f"over {MOST_OPEN} parentheses are open at once")
        clauses = self._clauses(field)
        if not self._take(")"):
            raise self._unfit()
        self._open -= 1
        return clauses


def between(field: str | None, found: re.Match[str]) -> Between:
    """The range of a token."""
    low, high = (end_of(found[name]) for name in ("low", "high"))
    return Between(field, low, high, found[0][0] == "[", found[0][-1] == "]")


def end_of(text: str) -> str | None:
    """An end of a range; None where it is open."""
    if text == "*":
        return None
    return plain(text[1:-1] if text[0] == '"' else text)
