"""Other spellings of a term that its writer means too, where it is not to be found to the letter."""

from __future__ import annotations

import re
from itertools import product

from .mending import without_apostrophes

_MOST = 8
_APOSTROPHES = "'’‘ʼ´`"
_POSSESSIVE = re.compile(rf"(?<=\w)[{_APOSTROPHES}](?=\w)")
_NAME_IN_S = re.compile(r"[A-Z][A-Za-z]+[a-hj-rt-z]s")
_HYPHEN = re.compile(r"(?<=[^\W_])[-\u2010\u2011](?=[^\W_])")
_UMLAUT = re.compile("[äöüÄÖÜ]")
_UMLAUTS = {"ä": "ae", "ö": "oe", "ü": "ue", "Ä": "Ae", "Ö": "Oe", "Ü": "Ue"}
_FORMULA = re.compile(r"[A-Z][A-Za-z]{0,2}\d{1,2}")
_LOW_DIGITS = str.maketrans("0123456789", "₀₁₂₃₄₅₆₇₈₉")
_COMMON_DIGITS = str.maketrans("₀₁₂₃₄₅₆₇₈₉", "0123456789")
_ARABIC_WORD = re.compile("[\u0621-\u064a]{3,}")
_ARABIC_FRONTS = ("و", "ب", "ل", "ف", "ك", "ال", "وال")
_HEBREW_WORD = re.compile("[\u05d0-\u05ea]{2,}")
_HEBREW_FRONTS = ("ו", "ה", "ב", "ל", "מ", "ש", "כ")


def spellings(text: str, fronts: bool = False) -> tuple[str, ...]:
    """The term itself and then others, at most eight, not yet mended. `fronts`: with the particles that Arabic and
    Hebrew write in front of a word."""
    words = text.split()
    if fronts and len(words) == 1 and (found := _with_fronts(text)):
        return (text, *found)
    made = dict.fromkeys(" ".join(choice) for choice in product(*map(_of_word, words[:_MOST])))
    rest = words[_MOST:]
    return tuple(" ".join((one, *rest)) for one in made)[:_MOST] if words else (text,)


def _with_fronts(word: str) -> tuple[str, ...]:
    if _ARABIC_WORD.fullmatch(word):
        return tuple(front + word for front in _ARABIC_FRONTS)
    if _HEBREW_WORD.fullmatch(without_apostrophes(word)):
        return tuple(front + word for front in _HEBREW_FRONTS)
    return ()


def _of_word(word: str) -> list[str]:
    """The word, and how else it is written: without its apostrophe or hyphen, a name that ends in s with one, umlauts
    as two letters, and the digits of a formula."""
    made = [word]
    if _POSSESSIVE.search(word):
        made.append(_POSSESSIVE.sub("", word))
    elif _NAME_IN_S.fullmatch(word):
        made.append(f"{word[:-1]}'s")
    if _HYPHEN.search(word):
        made.append(_HYPHEN.sub("", word))
    if _UMLAUT.search(word):
        made.append(_UMLAUT.sub(lambda match: _UMLAUTS[match[0]], word))
    if _FORMULA.fullmatch(plain := word.translate(_COMMON_DIGITS)):
        made.append(word.translate(_LOW_DIGITS) if plain == word else plain)
    return made
