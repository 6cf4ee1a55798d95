"""Marks: tokens with signs that no word has, as `#metoo`, `C++`, `AT&T`, `.NET`, `10%` and emoji, coded as words."""

from __future__ import annotations

import re
from dataclasses import dataclass
from functools import lru_cache
from typing import Iterator, NamedTuple

import regex

from .folding import FOLDING
from .mending import with_plain_letters

_CURRENCIES = {"$": "dollar", "€": "euro", "£": "pound", "¥": "yen", "₹": "rupee", "₩": "won", "₽": "ruble"}
_NAMES = {**_CURRENCIES, "#": "hash", "@": "at", "&": "amp", "+": "plus", "%": "pct", "!": "bang", ".": "dot",
          ",": "comma"}
_MONEY = re.escape("".join(_CURRENCIES))
_NUMBER = r"\d+(?:[.,]\d+)*"
_MOST_STOPPED = 12
_MOST_KEPT = 1 << 14
_MOST_CHARACTERS = 100


def _tokens(word: str, letter: str, tagged: str) -> str:
    """The pattern of a token, by what a character of a word is, what a letter is, and what a tag has."""
    one, many = f"[{word}]", f"[{word}]+"
    return (rf"(?P<money>[{_MONEY}] ?{_NUMBER}(?!{one})|(?<![{word}.,]){_NUMBER} ?[{_MONEY}](?!{one}))"
            rf"|(?P<share>(?<![{word}.,]){_NUMBER} ?%)"
            rf"|(?P<tag>(?<![{word}&])[#@$][{tagged}]+)"
            rf"|(?P<joined>(?<!{one}){many}(?:[&+]{many})+)"
            rf"|(?P<ended>(?<!{one}){many}(?:\+{{1,3}}(?![{word}+])|[#!](?!{one})))"
            rf"|(?P<pointed>(?<![{word}.])\.{letter}{many})")


def _stopped(word: str, letter: str) -> str:
    """The pattern of letters with stops between."""
    return rf"(?P<stopped>(?<![{word}.]){letter}[{word}]*(?:\.{letter}[{word}]*)+)"


class _Expressions(NamedTuple):
    """By what marks are found: in ASCII by the standard library, which is quicker, and in other texts by `regex`."""

    tokens: re.Pattern[str] | regex.Pattern[str]
    stopped: re.Pattern[str] | regex.Pattern[str]


# Scripts whose words have no blanks between: a name of another script may stand right beside them.
_UNPARTED = r"[\p{Han}\p{Hiragana}\p{Katakana}\p{Hangul}\p{Thai}\p{Lao}\p{Khmer}\p{Myanmar}ー々〆]"
_WORD, _LETTER = rf"[\w\p{{M}}]--{_UNPARTED}", rf"[\p{{L}}--{_UNPARTED}]"
_OF_ASCII = _Expressions(re.compile(_tokens("A-Za-z0-9_", "[A-Za-z]", "A-Za-z0-9_")),
                         re.compile(_stopped("A-Za-z0-9_", "[A-Za-z]")))
_OF_ALL = _Expressions(regex.compile(_tokens(_WORD, _LETTER, r"\w\p{M}"), regex.V1),
                       regex.compile(_stopped(_WORD, _LETTER), regex.V1))
_FRONT = regex.compile(f"[{_WORD}]+", regex.V1)
_SIGN = re.compile(rf"[#@&+!%.{_MONEY}]")
_OF_TOKEN = re.compile(rf"[\w&+#@%!.,{_MONEY}\u0300-\u036f\u0900-\u0dff]*")
_BESIDE_BLANK = "%" + "".join(_CURRENCIES)
_MAY_BE_EMOJI = re.compile("[\u203c-\u2bff\u3030\u303d\u3297\u3299\U0001f000-\U0001faff]")
_EMOJI = regex.compile(
    "[\U0001f1e6-\U0001f1ff]{2}"
    "|(?![\u00a9\u00ae\u2122])\\p{Extended_Pictographic}[\ufe0f\U0001f3fb-\U0001f3ff]*"
    "(?:\u200d\\p{Extended_Pictographic}[\ufe0f\U0001f3fb-\U0001f3ff]*)*", regex.V1)
_UNSEEN_IN_EMOJI = re.compile("[\ufe0f\u200d\U0001f3fb-\U0001f3ff]")
_PART = re.compile(rf"{_NUMBER}|[^\s&+#@%!.,{_MONEY}]+|[&+#@%!.{_MONEY}]")
_NO_PLAIN_LETTER = re.compile("[^a-z0-9_]")


@dataclass(frozen=True)
class Mark:
    """A token with a sign: where it stands in a text, from and to, and the words that code it."""

    start: int
    end: int
    words: tuple[str, ...]


def marks_of(text: str) -> list[Mark]:
    """The marks of a text, in order; places are of the text in plain forms."""
    if text.isascii():
        return list(_found(text))
    text = with_plain_letters(text)
    made = list(_found(text))
    if _MAY_BE_EMOJI.search(text):
        made += [Mark(match.start(), match.end(), (_emoji(match[0]),)) for match in _EMOJI.finditer(text)]
        made.sort(key=lambda mark: mark.start)
    return made


def mark_word(token: str) -> str | None:
    """The word that codes a token; None where the text is not one token with a sign."""
    text = token if token.isascii() else with_plain_letters(token)
    made = [mark for mark in marks_of(text) if mark.start == 0 and mark.end == len(text)]
    return made[0].words[0] if made else None


def mark_words(text: str) -> str:
    """The words of all marks of a text, with blanks between."""
    return " ".join(word for mark in marks_of(text) for word in mark.words)


def _found(text: str) -> Iterator[Mark]:
    """The marks but emoji: tokens are looked for where a sign is, and nowhere else."""
    done = 0
    for sign in _SIGN.finditer(text):
        if sign.start() < done or not _may_mark(text, sign.start()):
            continue
        start, done = _reach(text, sign.start(), done)
        chunk = text[start:done]
        tokens, stopped = _OF_ASCII if chunk.isascii() else _OF_ALL
        matches: list[re.Match[str] | regex.Match[str]] = list(tokens.finditer(text, start, done))
        if "." in chunk:
            matches += stopped.finditer(text, start, done)
        # What a tag names may be such a token too, as in `@AT&T`.
        inner = [tokens.match(text, match.start() + 1, done) for match in matches if match.lastgroup == "tag"]
        matches += filter(None, inner)
        for match in matches:
            if words := _words(match.lastgroup, match[0]):
                yield Mark(match.start(), match.end(), words)


def _may_mark(text: str, place: int) -> bool:
    """Whether a sign stands beside a word as it does in a token."""
    sign, after, front = text[place], text[place + 1:place + 2], place > 0 and not text[place - 1].isspace()
    if sign == ".":
        return after.isalpha()
    if sign in "@&":
        return (front or sign == "@") and after.isalnum()
    return front if sign in "+!" else True


def _reach(text: str, place: int, least: int) -> tuple[int, int]:
    """From where to where tokens around a sign are looked for."""
    start, end = place, place + 1
    least = max(least, place - _MOST_CHARACTERS)
    if text[place] in _BESIDE_BLANK and text[max(least, place - 1):place] == " ":
        start -= 1
    if text[place] in _CURRENCIES and text[end:end + 1] == " ":
        end += 1
    # A run of characters of tokens has an end in any case, if only the empty one.
    start -= len(_OF_TOKEN.match(text[least:start][::-1])[0])  # type: ignore[index]
    return start, _OF_TOKEN.match(text, end, end + _MOST_CHARACTERS).end()  # type: ignore[union-attr]


@lru_cache(_MOST_KEPT)
def _words(kind: str, token: str) -> tuple[str, ...]:
    """The words that code a token; of a chain as `A&B&C` also those of its neighbours."""
    parts = _PART.findall(token.replace(" ", ""))
    if kind == "stopped" and (len(token) > _MOST_STOPPED or all(len(label) > 1 for label in token.split("."))):
        return ()
    if kind == "tag":
        sign = "cash" if parts[0] == "$" else _NAMES[parts[0]]
        front = _FRONT.match(token, 1)
        named = [token[1:], front[0]] if front and front[0] != token[1:] else [token[1:]]
        return tuple(f"{sign}_{_plain(name)}" for name in named)
    if kind == "money" and parts[-1] in _CURRENCIES:
        return (_coded([parts[-1], *parts[:-1]]),)
    whole = _coded(parts)
    if kind == "joined" and len(parts) > 3:
        return (whole, *(_coded(parts[place:place + 3]) for place in range(0, len(parts) - 2, 2)))
    return (whole,)


def _coded(parts: list[str]) -> str:
    return "_".join(_NAMES.get(part) or _plain(part) for part in parts)


def _plain(word: str) -> str:
    """A word's letters, folded, in the letters of ASCII: others by their numbers."""
    if not word.isascii():
        for step in FOLDING:
            word = step.change(word)
        word = word.casefold()
    named = word.lower().replace(".", "_dot_").replace(",", "_comma_")
    return _NO_PLAIN_LETTER.sub(lambda match: f"u{ord(match[0]):x}", named)


def _emoji(token: str) -> str:
    seen = _UNSEEN_IN_EMOJI.sub("", token)
    return "_".join(("emoji", *(f"{ord(char):x}" for char in seen)))
