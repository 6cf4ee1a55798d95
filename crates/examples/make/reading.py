"""Rows of words, signs, operators, fields and parentheses: drawn, and read by recursive descent.

A row is drawn in any order, or as clauses of which one lexeme may then be
wrong. The reader gives the question that a row asks of an article's words, or
says that it is refused. It is written from docs/PROTOCOL.md and shares no code
with the engine.
"""

from __future__ import annotations

import random
from typing import Callable, Sequence

# The words of an article's fields, in order.
Fields = dict[str, list[str]]
# Whether a query holds of an article.
Question = Callable[[Fields], bool]

# Words as they are written, with the word that each asks for; an operator in small letters or after a backslash is one.
WORDS = {"tea": "tea", "milk": "milk", "mat": "mat", "and": "and", "Or": "or", "\\AND": "and", "\\OR": "or"}
SIGNS = {"+": "+", "-": "-", "!": "-", "NOT": "-"}
OPERATORS = ["AND", "OR", "&&", "||"]
FIELDS = {"title:": "title", "text:": "text"}
# What is drawn, some words more often than others.
ITEMS = [*WORDS, *2 * ["tea", "milk", "mat"]]
LEXEMES = [*ITEMS, *SIGNS, *OPERATORS, *FIELDS, "(", ")"]
# No blank is needed after the first of these, and none before the others.
ENDED, APART = ["+", "-", "!", "(", ")", *FIELDS], ["!", "(", ")"]
DEEPEST = 2


def signs_after(signs: Sequence[str], operators: Sequence[str]) -> list[str]:
    """How clauses count that have these signs, and between each two of them these operators: what stands beside an
    `AND` is required, unless it is excluded."""
    joins = [operator in ("AND", "&&") for operator in operators]
    beside = [before or after for before, after in zip([False, *joins], [*joins, False])]
    return ["+" if sign == "" and joined else sign for sign, joined in zip(signs, beside)]


class Refused(Exception):
    """The lexemes are no query."""


class Reader:
    """Reads lexemes from the left."""

    def __init__(self, lexemes: Sequence[str]) -> None:
        self.rest = [*lexemes, ""]

    def take(self, *wanted: str) -> str:
        """The next lexeme, which is taken where it is one of these, and else the empty text."""
        return self.rest.pop(0) if self.rest[0] in wanted else ""

    def query(self) -> Question:
        """All lexemes as a query."""
        question = self.clauses("text")
        if self.rest != [""]:
            raise Refused
        return question

    def clauses(self, field: str) -> Question:
        """One clause or more, up to the end or to a parenthesis, in a field where no nearer one is written."""
        clauses, operators = [self.clause(field)], []
        while self.rest[0] not in ["", ")"]:
            operators.append(self.take(*OPERATORS))
            clauses.append(self.clause(field))
        signs = signs_after([sign for sign, _ in clauses], operators)
        return group([(sign, question) for sign, (_, question) in zip(signs, clauses)])

    def clause(self, field: str) -> tuple[str, Question]:
        """A sign or none, a field or none, and an item."""
        sign = SIGNS.get(self.take(*SIGNS), "")
        return sign, self.item(FIELDS.get(self.take(*FIELDS), field))

    def item(self, field: str) -> Question:
        """A word, or clauses in parentheses."""
        if self.take("("):
            question = self.clauses(field)
            if not self.take(")"):
                raise Refused
            return question
        written = self.take(*WORDS)
        if not written:
            raise Refused
        return lambda fields: WORDS[written] in fields[field]


def group(clauses: list[tuple[str, Question]]) -> Question:
    """Each required clause, no excluded one, and where none is required at least one other."""

    def holds(fields: Fields) -> bool:
        of = {sign: [question(fields) for its, question in clauses if its == sign] for sign in ["+", "", "-"]}
        return all(of["+"]) and not any(of["-"]) and (bool(of["+"]) or any(of[""]))

    return holds


def question_of(lexemes: Sequence[str]) -> Question | None:
    """The question that the lexemes ask, or none where they are refused."""
    try:
        return Reader(lexemes).query()
    except Refused:
        return None


class Drawing:
    """Draws rows and articles."""

    def __init__(self, dice: random.Random) -> None:
        self.dice = dice

    def row(self) -> tuple[str, Question | None]:
        """A text with its question, as often a query as not."""
        is_query = self.dice.random() < 0.5
        while True:
            lexemes = self.any_order() if self.dice.random() < 0.3 else self.disturbed(self.clauses(0))
            question = question_of(lexemes)
            if (question is not None) == is_query:
                return self.spelled(lexemes), question

    def any_order(self) -> list[str]:
        """One to five lexemes."""
        return self.dice.choices(LEXEMES, k=self.dice.randint(1, 5))

    def disturbed(self, lexemes: list[str]) -> list[str]:
        """The lexemes, or in one place one more, one less or another."""
        at, more, less = self.dice.randrange(len(lexemes)), self.dice.randrange(2), self.dice.randrange(2)
        return lexemes[:at] + self.dice.choices(LEXEMES, k=more) + lexemes[at + less:]

    def clauses(self, depth: int) -> list[str]:
        """One to four clauses, between each two an operator or none."""
        lexemes = self.clause(depth)
        between: list[list[str]] = [[], [], *([operator] for operator in OPERATORS)]
        for _ in range(self.dice.choice([0, 1, 1, 2, 2, 3])):
            lexemes += self.dice.choice(between) + self.clause(depth)
        return lexemes

    def clause(self, depth: int) -> list[str]:
        """A sign or none, a field or none, and a word or clauses in parentheses."""
        sign = [self.dice.choice([*SIGNS])] if self.dice.random() < 0.3 else []
        field = [self.dice.choice([*FIELDS])] if self.dice.random() < 0.15 else []
        if depth < DEEPEST and self.dice.random() < 0.2:
            return sign + field + ["(", *self.clauses(depth + 1), ")"]
        return sign + field + [self.dice.choice(ITEMS)]

    def spelled(self, lexemes: Sequence[str]) -> str:
        """The lexemes with blanks between them, at times left out where none is needed."""
        text = ""
        for before, lexeme in zip(["(", *lexemes], lexemes):
            is_needed = before not in ENDED and lexeme not in APART
            text += (" " if is_needed or self.dice.random() < 0.5 else "") + lexeme
        return text

    def fields(self) -> Fields:
        """The two fields of an article, up to three words each."""
        words = sorted(set(WORDS.values()))
        return {name: self.dice.choices(words, k=self.dice.randrange(4)) for name in ("text", "title")}
