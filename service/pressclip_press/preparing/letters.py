"""Which characters the engine joins to words: classes of Unicode's annex 29."""

from __future__ import annotations

from functools import lru_cache

import regex

_CLASSES = ("ALetter", "Hebrew_Letter", "Numeric", "Katakana", "ExtendNumLet", "MidLetter", "MidNum", "MidNumLet",
            "Extend", "Format", "ZWJ", "Double_Quote", "Single_Quote")
_OF_CLASS = tuple((name, regex.compile(rf"\p{{WB={name}}}")) for name in _CLASSES)
_LETTERS = ("ALetter", "Hebrew_Letter")
_JOINED = (*_LETTERS, "Numeric", "ExtendNumLet")
_BETWEEN = ("MidLetter", "MidNumLet", "Single_Quote")
_PASSED_OVER = ("Extend", "Format", "ZWJ")
_MOST_KEPT = 1 << 16


@lru_cache(_MOST_KEPT)
def word_class(char: str) -> str:
    """The character's class in the rules for words, or `Other`."""
    return next((name for name, of_class in _OF_CLASS if of_class.match(char)), "Other")


def is_letter(char: str) -> bool:
    """Whether the character is joined to letters beside it, as those of Han and Hiragana are not."""
    return word_class(char) in _LETTERS


def is_hebrew(char: str) -> bool:
    """Whether the character is a letter of Hebrew."""
    return word_class(char) == "Hebrew_Letter"


def joins_letters(char: str) -> bool:
    """Whether letters on both sides of the character are of one word."""
    return word_class(char) in _LETTERS or word_class(char) in _BETWEEN


def before(text: str, place: int) -> int:
    """The place of the character before this one, accents and the like passed over; -1 where there is none."""
    place -= 1
    while place >= 0 and word_class(text[place]) in _PASSED_OVER:
        place -= 1
    return place


def behind(text: str, place: int) -> int:
    """The first place from this one on where no accent or the like stands; the text's length where there is none."""
    while place < len(text) and word_class(text[place]) in _PASSED_OVER:
        place += 1
    return place


def letter_before(text: str, place: int) -> bool:
    """Whether the character before this place is a letter, accents passed over."""
    at = before(text, place)
    return at >= 0 and is_letter(text[at])


def letter_behind(text: str, place: int) -> bool:
    """Whether the first character from this place on is a letter, accents passed over."""
    at = behind(text, place)
    return at < len(text) and is_letter(text[at])


def starts_word(text: str, place: int) -> bool:
    """Whether the letter at this place is the first of its word."""
    at = before(text, place)
    if at < 0:
        return True
    kind = word_class(text[at])
    return kind not in _JOINED and not (kind in _BETWEEN and letter_before(text, at))


def ends_word(text: str, place: int) -> bool:
    """Whether a word of letters ends before this place."""
    at = behind(text, place)
    if at == len(text):
        return True
    kind = word_class(text[at])
    return kind not in _JOINED and not (kind in _BETWEEN and letter_behind(text, at + 1))
