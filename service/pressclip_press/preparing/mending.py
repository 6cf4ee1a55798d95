"""Mending: the steps that move the ends of words. Capitals, accents and marks stay.

A query is mended as articles are. So that no word is lost, each step makes of a word that stands in a text what it
makes of the word alone.
"""

from __future__ import annotations

import re
import unicodedata
from functools import lru_cache

from .letters import (before, behind, ends_word, is_hebrew, is_letter, joins_letters, letter_before, letter_behind,
                      starts_word, word_class)
from .steps import Step, one_of
from .tables import Table

_UNSEEN = ("\u034f\u061c\u180b-\u180e\u200c-\u200f\u202a-\u202e\u2060-\u2064\u2066-\u206f\ufe00-\ufe0f\ufeff"
           "\U000e0001-\U000e007f\U000e0100-\U000e01ef")
_INVISIBLE = re.compile(f"[{_UNSEEN}]|(?<!\u00ad)\u00ad++(?![ \t\r]*+\n)")
# Where ligatures, letters in circles, of mathematics, of Arabic's contexts, and full and half widths stand.
_BLOCKS_OF_FORMS = ((0xAA, 0xBB), (0x132, 0x134), (0x149, 0x14A), (0x1C4, 0x1CD), (0x1F1, 0x1F4),
                    (0x2100, 0x2150), (0x2160, 0x2180), (0x24B6, 0x24EA), (0x32D0, 0x3358), (0xFB00, 0xFB18),
                    (0xFB50, 0xFDFC), (0xFE70, 0xFEFD),
                    (0xFF01, 0xFFA0), (0xFFA1, 0xFFE7), (0x1D400, 0x1D800), (0x1F130, 0x1F14A), (0x1F150, 0x1F16A),
                    (0x1F170, 0x1F18A))
_APOSTROPHES = "'’‘‛ʼʻʽ′‵´`＇՚׳"
_APOSTROPHE = re.compile(f"[{_APOSTROPHES}]")
_QUOTE_IN_HEBREW = re.compile("[\"״](?<=[\u0590-\u05ff].)")
_LINE_END = re.compile("(?<![-\u00ad\u2010])[-\u00ad\u2010]++[ \t\r\u00ad]*+\n[ \t]*+(?=\\w)")
_PLAIN_LINE_END = re.compile(r"-(?<!--)-*+[ \t\r]*+\n[ \t]*+(?=\w)")
_SOFT_AT_LINE_END = re.compile("(?<!\u00ad)\u00ad++(?=[ \t\r]*+\n)")
_WORDS_AROUND = 3
_CHARACTERS_AROUND = 120
_STOPS = re.compile(r"\.(?<![\s\d_]\.)[^\W\d_](?:\.[^\W\d_])*(?:\.(?![^\W\d_]))?")
_MIDDLE = ":·․‧﹒﹕"
_INNER = re.compile(f"[{_MIDDLE}](?=[^\\W\\d_])")
_SET_APART = "\u30a1-\u30fa\u30fc-\u30ff\u31f0-\u31ff\uac00-\ud7a3"
_RUN_APART = re.compile(f"[{_SET_APART}]{{2,}}")
_OTHER_OF_WORD = f"[^\\W{_SET_APART}\U00010330\U00010331]"
_MEETING = re.compile(f"[{_SET_APART}](?={_OTHER_OF_WORD})|{_OTHER_OF_WORD}(?=[{_SET_APART}])")
_ACCENTS = "[^\\w\\s\x00-\x7f]++"
_OVER_ACCENTS = re.compile(f"(?<=[{_SET_APART}]){_ACCENTS}(?=\\w)|(?<=\\w){_ACCENTS}(?=[{_SET_APART}])")
_AMPERSAND = re.compile(r"(?<=[^\s&]) & (?=[^\s&])")


def without_invisible(text: str) -> str:
    """Takes out what can't be seen within words."""
    return _INVISIBLE.sub("", text)


@lru_cache(1)
def _forms() -> Table:
    """Each form with its plain letters, where the ends of words stay: not `™`, of which the two letters would join."""
    made: dict[str, str] = {}
    for low, high in _BLOCKS_OF_FORMS:
        for char in map(chr, range(low, high)):
            plain = unicodedata.normalize("NFKC", char)
            if plain != char and all(word_class(one) == word_class(char) for one in plain):
                made[char] = plain
    return Table(made)


def with_plain_letters(text: str) -> str:
    """Writes letters and signs in their usual form."""
    return _forms().replaced(text)


def in_plain_forms(text: str) -> str:
    """Writes letters and signs in their usual form, and an accent with its letter as one character."""
    return unicodedata.normalize("NFC", with_plain_letters(text))


def without_apostrophes(text: str) -> str:
    """Splits words at apostrophes, and takes those of Hebrew out."""
    if text.isascii():
        return text.replace("'", " ").replace("`", " ")
    return _QUOTE_IN_HEBREW.sub(_quote, _APOSTROPHE.sub(_apostrophe, text))


def _apostrophe(match: re.Match[str]) -> str:
    text, place = match.string, match.start()
    at = before(text, place)
    joins = at >= 0 and is_hebrew(text[at]) and joins_letters(match[0]) and letter_behind(text, place + 1)
    return "" if joins else " "


def _quote(match: re.Match[str]) -> str:
    text, place = match.string, match.start()
    first, last = before(text, place), behind(text, place + 1)
    joins = first >= 0 and last < len(text) and is_hebrew(text[first]) and is_hebrew(text[last])
    return "" if joins else match[0]


def with_joined_lines(text: str) -> str:
    """Joins words that a line end cuts, and adds each place as it stood at the end."""
    if "\n" not in text:
        return text
    stood: list[str] = []

    def joined(match: re.Match[str]) -> str:
        hyphens = "".join(char for char in match[0] if char in "-\u2010")
        last = before(text, match.start())
        if len(hyphens) > 1 or last < 0 or not text[last].isalnum():
            return match[0]
        if hyphens and not _is_cut(text, last, match.end()):
            return hyphens
        around = _around(text, match)
        if around is None:
            return hyphens or match[0]
        stood.append(around)
        return ""

    is_plain = "\u00ad" not in text and "\u2010" not in text
    made = (_PLAIN_LINE_END if is_plain else _LINE_END).sub(joined, text)
    if "\u00ad" in made:
        made = _SOFT_AT_LINE_END.sub("", made)
    return "\n\n".join((made, *stood))


def _is_cut(text: str, last: int, first: int) -> bool:
    """Whether a hyphen cuts a word: two letters stand before, and two behind of which the first is small."""
    one_before = before(text, last)
    if not (text[last].isalpha() and one_before >= 0 and text[one_before].isalpha()):
        return False
    second = behind(text, first + 1)
    return text[first].isalpha() and text[first].islower() and text[second:second + 1].isalpha()


def _around(text: str, match: re.Match[str]) -> str | None:
    """The place of a line end with some words on both sides; None where no blank is near."""
    front = text[max(0, match.start() - _CHARACTERS_AROUND):match.start()]
    back = text[match.end():match.end() + _CHARACTERS_AROUND]
    words_before, words_behind = front.split(), back.split()
    if match.start() > _CHARACTERS_AROUND:
        words_before = words_before[1:]
    if match.end() + _CHARACTERS_AROUND < len(text):
        words_behind = words_behind[:-1]
    if not words_before or not words_behind:
        return None
    hyphen = "-" if {"-", "\u2010"} & set(match[0]) else ""
    words = [*words_before[-_WORDS_AROUND - 1:], *words_behind[:_WORDS_AROUND + 1]]
    place = len(words_before[-_WORDS_AROUND - 1:]) - 1
    words[place] += hyphen
    return " ".join(words).replace("\u00ad", "")


def with_parted_stops(text: str) -> str:
    """Sets a blank at stops within words, and takes those of single letters out."""
    if "." in text:
        text = _STOPS.sub(_stops, text)
    return _INNER.sub(_inner, text) if any(sign in text for sign in _MIDDLE) else text


def _stops(match: re.Match[str]) -> str:
    text, start, end = match.string, match.start(), match.end()
    if not letter_before(text, start):
        start += 2
    kept = text[match.start():start]
    letters = text[start:end].replace(".", "")
    last = end - match[0].endswith(".")
    is_whole = start > 0 and starts_word(text, start - 1) and ends_word(text, last) and behind(text, last) == last
    if letters and is_whole and all(map(_is_single, text[start - 1] + letters)):
        return kept + letters + " " * (end - last)
    return kept + "".join(_stop(text, place) if text[place] == "." else text[place] for place in range(start, end))


def _is_single(char: str) -> bool:
    """Whether the character is a letter, and one in small letters too."""
    return is_letter(char) and len(char.casefold()) == 1


def _stop(text: str, place: int) -> str:
    """What stands for a stop: with a blank where it ends a sentence, and a blank alone within a name."""
    if not (letter_before(text, place) and place + 1 < len(text) and is_letter(text[place + 1])):
        return "."
    ends_sentence = text[max(0, place - 2):place].isalpha() and place > 1 and text[place + 1].isupper()
    return ". " if ends_sentence else " "


def _inner(match: re.Match[str]) -> str:
    text, place = match.string, match.start()
    if not (letter_before(text, place) and is_letter(text[place + 1])):
        return match[0]
    if match[0] == "·" and text[place - 1] in "lL" and text[place + 1] in "lL":
        return ""
    return ": " if match[0] in ":﹕" else " "


def with_characters_apart(text: str) -> str:
    """Sets Katakana and Hangul apart, so that each character is a word as those of Han and Hiragana are."""
    made = _RUN_APART.sub(lambda match: " ".join(match[0]), text)
    return _OVER_ACCENTS.sub(_apart_over_accents, _MEETING.sub(r"\g<0> ", made))


def _apart_over_accents(match: re.Match[str]) -> str:
    return match[0] + " " * (behind(match[0], 0) == len(match[0]))


def with_ampersands_said(text: str) -> str:
    """Writes `and` for an ampersand between blanks."""
    return _AMPERSAND.sub(" and ", text) if " & " in text else text


def _needs_form(char: str) -> bool:
    """Whether the character has another form, or may be one with the one before it."""
    return (char in _forms() or unicodedata.category(char).startswith("M") or "\u1100" <= char <= "\u11ff"
            or not unicodedata.is_normalized("NFC", char))


# In the order in which they are taken: a later one makes nothing that an earlier one would change.
MENDING: tuple[Step, ...] = (
    Step("invisible", "Soft hyphens, joiners and marks of direction within words are taken out.", without_invisible,
         (("Über\u00adraschung", "Überraschung"), ("\ufeffTea", "Tea"), ("می\u200cخواهم", "میخواهم"),
          ("a\u200bb", "a\u200bb")), one_of(f"{_UNSEEN}\u00ad")),
    Step("forms", "Full and half widths, ligatures and letters in circles are the letters that they stand for.",
         in_plain_forms, (("Ｓａｍｓｕｎｇ", "Samsung"), ("ｿﾆｰ", "ソニー"), ("ﬁne", "fine"), ("Acme™", "Acme™"),
                          ("e\u0301", "é"), ("m²", "m²"), ("𝗕𝗿𝗲𝗮𝗸", "Break")), _needs_form, makes_more=True),
    Step("apostrophes", "An apostrophe of any kind is a blank, and in words of Hebrew nothing.", without_apostrophes,
         (("l'Oréal", "l Oréal"), ("l’Oréal", "l Oréal"), ("dell'Enel", "dell Enel"), ("McDonald´s", "McDonald s"),
          ("O'Brien", "O Brien"), ("צה\"ל", "צהל"), ("צה״ל", "צהל"), ("ג'ורג'", "גורג "), ("\"tea\"", "\"tea\"")),
         one_of(f"{_APOSTROPHES}״\u05d0-\u05ea")),
    Step("line_ends",
         "A word that a hyphen cuts at a line's end is joined, and the place as it stood follows the text.",
         with_joined_lines, (
          ("die Über-\nraschung kam", "die Überraschung kam\n\ndie Über- raschung kam"),
          ("Jean-\nPaul", "Jean-Paul"), ("e-\nmobility", "e-mobility"), ("COVID-\n19", "COVID-19"),
          ("Über\u00ad\nraschung", "Überraschung\n\nÜber raschung"), ("tea -\nmilk", "tea -\nmilk"),
          ("tea\nmilk", "tea\nmilk")), one_of("\u00ad\u2010-")),
    Step("stops", "A stop, colon or middle dot within a word parts it, and single letters with stops are one word.",
         with_parted_stops,
         (("the end.Then", "the end. Then"), ("E.ON said", "E ON said"), ("www.example.com", "www example com"),
          ("the U.S. Senate", "the US  Senate"), ("3.14", "3.14"), ("Merkel:Wir", "Merkel: Wir"),
          ("col·lecció", "collecció"), ("The end.", "The end."), ("т.е.", "те "), ("v2.0", "v2.0")),
         one_of(f".{_MIDDLE}")),
    Step("characters", "Characters of Katakana and Hangul stand apart.", with_characters_apart,
         (("ソニーグループ", "ソ ニ ー グ ル ー プ"), ("삼성전자", "삼 성 전 자"), ("LG전자", "LG 전 자"), ("日本", "日本"),
          ("삼성\U00010330", "삼 성\U00010330")), one_of(_SET_APART)),
    Step("ampersands", "An ampersand between blanks is read as and.", with_ampersands_said,
         (("Procter & Gamble", "Procter and Gamble"), ("AT&T", "AT&T"), ("a &b", "a &b")), one_of("&")),
)
