"""What the lexemes of a query are beside each other: operators in small letters, commas, parentheses."""

from __future__ import annotations

from typing import TYPE_CHECKING

from .lexemes import Kind, Lexeme
from .signs import COMPANY_FORMS, ENGLISH, JOINING, LOWER_CASE, NEAR_AS_WORD, NEARNESS, Word
from .tree import Level, Place, Refused, Remark

if TYPE_CHECKING:
    from .lexing import Lexer

MOST_OPEN = 60
_ENDS = frozenset((Kind.ITEM, Kind.CLOSE))
_BEGINS = frozenset((Kind.ITEM, Kind.OPEN, Kind.FIELD, Kind.NOT, Kind.MUST, Kind.PLACES, Kind.OF))


def settled(lexer: Lexer) -> list[Lexeme]:
    """The lexemes as the grammar takes them. `Refused` where parentheses do not match."""
    lexemes = _with_operators(lexer, lexer.lexemes)
    lexemes = _with_commas(lexer, lexemes)
    _need_matching(lexemes)
    return lexemes


def _with_operators(lexer: Lexer, lexemes: list[Lexeme]) -> list[Lexeme]:
    """The lexemes with operators for the words in small letters that are meant as such."""
    made: list[Lexeme] = []
    for index, lexeme in enumerate(lexemes):
        written = lexer.bare.get(lexeme.place.start) if lexeme.kind is Kind.ITEM else None
        is_after = bool(made) and made[-1].kind in _ENDS
        after = lexemes[index + 1] if index + 1 < len(lexemes) else None
        if written is None:
            _tell_other_language(lexer, lexeme)
            made.append(lexeme)
        elif written.lower() == "but" and is_after and after and after.text.lower() == "not":
            continue
        elif (word := LOWER_CASE.get(written.lower())) and lexer.choices.lower_case_operators and (
                is_after or word is Word.NOT and after):
            made += _operators(lexer, lexeme, word)
        else:
            if is_after and after and after.kind in _BEGINS:
                _tell_joining(lexer, lexeme, written)
            made.append(lexeme)
    return made


def _operators(lexer: Lexer, lexeme: Lexeme, word: Word) -> list[Lexeme]:
    """The operator that a word in small letters is, with a remark."""
    says = f"{lexeme.text} is read as the operator {word.value}: quotes make a word of it."
    lexer.remarks.append(Remark(lexeme.place, Level.NOTICE, "lower_case_operator", says))
    kinds = {Word.AND: [Kind.AND], Word.OR: [Kind.OR], Word.NOT: [Kind.NOT], Word.AND_NOT: [Kind.AND, Kind.NOT]}
    return [Lexeme(kind, lexeme.place, lexeme.text) for kind in kinds[word]]


def _tell_other_language(lexer: Lexer, lexeme: Lexeme) -> None:
    """A remark on an operator of another language than English."""
    if lexeme.kind in (Kind.AND, Kind.OR, Kind.NOT) and lexeme.text[:1].isalpha() and lexeme.text not in ENGLISH:
        says = f"{lexeme.text} is read as the operator {lexeme.kind.value}: quotes make a word of it."
        lexer.remarks.append(Remark(lexeme.place, Level.NOTICE, "operator_of_a_language", says))


def _tell_joining(lexer: Lexer, lexeme: Lexeme, written: str) -> None:
    """A remark on a word that joins two others in another language, or that may be meant as nearness."""
    if written.lower() in JOINING:
        says = f"{written} is looked for as a word: AND, OR and NOT in capitals are operators."
        lexer.remarks.append(Remark(lexeme.place, Level.NOTICE, "joining_word", says))
    elif written.lower() in NEARNESS or NEAR_AS_WORD.fullmatch(written):
        says = f"{written} is looked for as a word: NEAR/10 has both within ten words."
        lexer.remarks.append(Remark(lexeme.place, Level.NOTICE, "nearness_word", says))


def _with_commas(lexer: Lexer, lexemes: list[Lexeme]) -> list[Lexeme]:
    """The lexemes without the commas that part nothing."""
    made: list[Lexeme] = []
    for index, lexeme in enumerate(lexemes):
        after = lexemes[index + 1] if index + 1 < len(lexemes) else None
        if lexeme.kind is Kind.COMMA:
            if not made or made[-1].kind not in _ENDS or after is None or after.kind not in _BEGINS:
                continue
            written = lexer.bare.get(after.place.start, "")
            if written.lower().rstrip(".") in COMPANY_FORMS:
                says = "The comma before a company's form parts nothing: quotes make a name of it."
                lexer.remarks.append(Remark(lexeme.place, Level.NOTICE, "comma_of_a_company", says))
                continue
        made.append(lexeme)
    return made


def _need_matching(lexemes: list[Lexeme]) -> None:
    """`Refused` where a parenthesis is not closed, not opened, empty, or one of too many."""
    opened: list[Place] = []
    before: Lexeme | None = None
    for lexeme in lexemes:
        if lexeme.kind is Kind.OPEN:
            opened.append(lexeme.place)
            if len(opened) > MOST_OPEN:
                raise Refused(lexeme.place, "too_deep", f"At most {MOST_OPEN} parentheses are open at once.")
        elif lexeme.kind is Kind.CLOSE:
            if not opened:
                raise Refused(lexeme.place, "parenthesis", "This parenthesis was not opened.")
            if before and before.kind is Kind.OPEN:
                raise Refused(opened[-1], "parenthesis", "Nothing stands between these parentheses.")
            opened.pop()
        before = lexeme
    if opened:
        raise Refused(opened[-1], "parenthesis", "This parenthesis is not closed.")
