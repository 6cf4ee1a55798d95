"""Folding: the steps that change letters within words. No word ends elsewhere, and none comes or goes."""

from __future__ import annotations

import re
import unicodedata
from functools import lru_cache
from .letters import word_class
from .steps import Step, one_of
from .tables import Table

_LETTERS_SPELLED = dict(zip("ßẞøØłŁđĐðÐþÞæÆœŒħĦŧŦıĸ",
                            "ss SS o O l L d D d D th TH ae AE oe OE h H t T i k".split()))
_PAST_DIGITS = 0x20000
_LATIN_AND_GREEK = "A-Za-z\u00c0-\u024f\u0370-\u03ff\u1e00-\u1fff"
_ACCENTS = "".join(char for char in map(chr, range(0x300, 0x10000)) if unicodedata.combining(char))
_ACCENT = re.compile(f"[{_ACCENTS}]")
_AFTER_LETTER = re.compile(f"(?<=[{_LATIN_AND_GREEK}])[{_ACCENTS}]+")
_STRESS = re.compile("(?<=[еЕ])[\u0300\u0301\u0308]+|(?<=[\u0400-\u04ff])[\u0300\u0301]+")
_POINT = re.compile("[\u0591-\u05c7]")
_POINTS = re.compile("(?<=[\u05d0-\u05ea])[\u0591-\u05bd\u05bf\u05c1\u05c2\u05c4\u05c5\u05c7]+")
_VOWEL = re.compile("[\u0640-\u0670]")
_VOWELS = re.compile("(?<=[\u0620-\u064a\u066e\u066f\u0671-\u06d3])[\u0640\u064b-\u065f\u0670]+")
_CYRILLIC = {"ё": "е", "Ё": "Е", "ѐ": "е", "Ѐ": "Е", "ѝ": "и", "Ѝ": "И"}
_ARABIC = {**dict.fromkeys("أإآٱ", "ا"), **dict.fromkeys("ىی", "ي"), "ک": "ك"}


@lru_cache(1)
def _without_accent() -> Table:
    """Each letter of Latin and Greek with an accent, and the one without."""
    latin_or_greek = re.compile(f"[{_LATIN_AND_GREEK}]")
    made: dict[str, str] = {}
    for char in map(chr, (*range(0xC0, 0x250), *range(0x370, 0x400), *range(0x1E00, 0x2000), 0x212A, 0x212B)):
        parts = unicodedata.normalize("NFD", char)
        if len(parts) > 1 and latin_or_greek.match(parts) and all(unicodedata.combining(one) for one in parts[1:]):
            made[char] = parts[0]
    return Table(made)


@lru_cache(1)
def _digits() -> Table:
    """Each decimal digit of another script."""
    return Table({char: str(unicodedata.decimal(char)) for char in map(chr, range(0x660, _PAST_DIGITS))
                      if char.isdecimal() and word_class(char) == "Numeric"})


_SPELLED = Table(_LETTERS_SPELLED)
_RUSSIAN = Table(_CYRILLIC)
_ARABIC_FORMS = Table(_ARABIC)


def without_accents(text: str) -> str:
    """Takes the accents of Latin and Greek off."""
    made = _without_accent().replaced(unicodedata.normalize("NFC", text))
    return _AFTER_LETTER.sub("", made) if _ACCENT.search(made) else made


def with_letters_spelled(text: str) -> str:
    """Spells letters as they are typed where a keyboard lacks them."""
    return _SPELLED.replaced(text)


def without_stress(text: str) -> str:
    """Takes stress and the dots of ё off, in Cyrillic."""
    made = _RUSSIAN.replaced(text)
    if not _ACCENT.search(made):
        return made
    made = _STRESS.sub("", made)
    return made if unicodedata.is_normalized("NFC", made) else without_stress(unicodedata.normalize("NFC", made))


def without_points(text: str) -> str:
    """Takes the points of Hebrew off."""
    return _POINTS.sub("", text) if _POINT.search(text) else text


def in_one_arabic(text: str) -> str:
    """Takes vowels and stretching off, and writes one alef, yeh and kaf, in Arabic and Persian."""
    made = _ARABIC_FORMS.replaced(text)
    return _VOWELS.sub("", made) if _VOWEL.search(made) else made


def in_common_digits(text: str) -> str:
    """Writes digits of all scripts as 0 to 9."""
    return _digits().replaced(text)


def _may_have_accent(char: str) -> bool:
    return char in _without_accent() or _ACCENT.match(char) is not None or not unicodedata.is_normalized("NFC", char)


def _may_be_spelled(char: str) -> bool:
    """Whether the letter, with its accent off, is spelled out."""
    return unicodedata.normalize("NFD", char)[0] in _LETTERS_SPELLED


FOLDING: tuple[Step, ...] = (
    Step("accents", "Accents of Latin and Greek letters are taken off.", without_accents,
         (("Nestlé", "Nestle"), ("TÜRKİYE", "TURKIYE"), ("i\u0307", "i"), ("Όλοι", "Ολοι"), ("Việt", "Viet"),
          ("हिन्दी", "हिन्दी"), ("ガ", "ガ"), (" \u0301", " \u0301")), _may_have_accent),
    Step("spelled", "Letters that keyboards lack are spelled out.", with_letters_spelled,
         (("Straße", "Strasse"), ("Ærø", "AEro"), ("Łódź", "Lódź"), ("ılık", "ilik"), ("ǿ", "ǿ")), _may_be_spelled),
    Step("stress", "Stress and the dots of ё are taken off.", without_stress,
         (("за\u0301мок", "замок"), ("Алёна", "Алена"), ("мой", "мой"), ("и\u0301\u0306", "й"), ("їжак", "їжак")),
         one_of("".join(_CYRILLIC) + "\u0300\u0301\u0308")),
    Step("points", "Points of Hebrew are taken off.", without_points, (("שָׁלוֹם", "שלום"),), one_of("\u0591-\u05c7")),
    Step("arabic", "Vowels and stretching of Arabic are taken off, and alef, yeh and kaf have one form.",
         in_one_arabic,
         (("أرامكو", "ارامكو"), ("مُحَمَّد", "محمد"), ("كتـــاب", "كتاب"), ("ایران", "ايران")),
         one_of("".join(_ARABIC) + "\u0640-\u0670")),
    Step("digits", "Digits of all scripts are 0 to 9.", in_common_digits,
         (("٢٠٢٦", "2026"), ("२०२६", "2026"), ("五", "五")), lambda char: char in _digits()),
)
