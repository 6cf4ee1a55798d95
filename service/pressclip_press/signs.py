"""The signs of the dialect in all scripts, and its words: operators, and names that stand before a parenthesis."""

from __future__ import annotations

import re
import unicodedata
from collections.abc import Mapping
from enum import Enum

QUOTE = '"'
# What opens or closes words in a row; each of them may close what another opened.
QUOTES = "\"“”„‟«»「」『』〝〞〟″＂❝❞"
# What opens a row in single quotes, and what closes it.
SINGLE_QUOTES: Mapping[str, str] = {"'": "'", "‘": "’", "‚": "‘’", "‹": "›", "›": "‹"}
DASHES = "–—−"
_BLANKS = ("\t\n\v\f\r\x1c\x1d\x1e\x1f\x85\xa0\u1680\u2000\u2001\u2002\u2003\u2004\u2005\u2006\u2007\u2008\u2009\u200a"
           "\u2028\u2029\u202f\u205f\u3000")
# Signs of direction and blanks of no width, as they come with what is pasted.
_UNSEEN = "\u200b\u200e\u200f\u202a\u202b\u202c\u202d\u202e\u2060\u2066\u2067\u2068\u2069\ufeff"
_WIDE_SIGNS = "".join(map(chr, range(0xff01, 0xff5f)))
_LIKE: Mapping[str, str] = {"、": ",", "،": ",", "؛": ";", "‐": "-", "\u2011": "-", "﹣": "-", "【": "(", "】": ")"}


def _one_to_one() -> dict[int, str]:
    table = {ord(quote): QUOTE for quote in QUOTES}
    table.update({ord(sign): unicodedata.normalize("NFKC", sign) for sign in _WIDE_SIGNS})
    table.update({ord(sign): like for sign, like in _LIKE.items()})
    table.update({ord(sign): " " for sign in _BLANKS})
    table.update({ord(sign): " " for sign in _UNSEEN})
    return table


_TABLE = _one_to_one()


def with_plain_signs(query: str) -> str:
    """The query with ASCII's signs for those of other scripts, each in its place."""
    return query.translate(_TABLE)


class Word(Enum):
    """What an operator's word means."""

    AND = "AND"
    OR = "OR"
    NOT = "NOT"
    AND_NOT = "AND NOT"


OPERATORS: Mapping[str, Word] = {
    "AND": Word.AND, "&&": Word.AND, "&": Word.AND, "UND": Word.AND, "ET": Word.AND,
    "OR": Word.OR, "||": Word.OR, "|": Word.OR, "ODER": Word.OR, "OU": Word.OR,
    "NOT": Word.NOT, "NICHT": Word.NOT, "SAUF": Word.NOT,
    "ANDNOT": Word.AND_NOT, "AND-NOT": Word.AND_NOT, "BUTNOT": Word.AND_NOT,
}
ENGLISH = frozenset(("AND", "OR", "NOT", "ANDNOT", "AND-NOT", "BUTNOT", "&&", "||", "|", "&"))
LOWER_CASE: Mapping[str, Word] = {"and": Word.AND, "or": Word.OR, "not": Word.NOT, "andnot": Word.AND_NOT}
# Words that join two others in languages whose desks write them in small letters; here they are words.
JOINING = frozenset(("und", "oder", "nicht", "et", "ou", "sauf", "y", "e", "o", "oraz", "lub", "en", "of", "och", "eller"))
# Words of nearness in small letters, without a number, that may be meant as operators.
NEARNESS = frozenset(("near", "within", "adj", "same"))
COMPANY_FORMS = frozenset(("inc", "ltd", "llc", "corp", "co", "plc", "ag", "se", "gmbh", "kg", "sa", "spa", "nv", "bv", "ab",
                           "asa", "oyj", "srl", "sarl", "kgaa", "limited", "incorporated", "corporation", "d.c", "s.a",
                           "s.p.a", "n.v", "b.v", "l.p", "lp", "llp", "pty", "sas", "s.a.s", "s.r.l", "jr", "sr", "phd"))
# Words before a term by which its capitals and accents count.
EXACT = frozenset(("exact", "raw", "case", "casesensitive"))
NEAR_WORD = re.compile(
    r"(?i:(?P<word>ONEAR|NEAR|WITHIN|AROUND|ADJ|PRE|BEFORE|NEXT|W|N|P)?)(?P<mark>[/:]?)(?P<number>\d{1,6})(?P<forward>[fF]?)")
# Words that are nearness in other tools and words here, since companies and roads have such names.
NEAR_AS_WORD = re.compile(r"[NW]\d{1,2}|(?:PRE|AROUND|WITHIN)\d{1,2}")
NEAR_ORDERED = frozenset(("ONEAR", "PRE", "BEFORE", "ADJ", "NEXT", "P"))
NEAR_ALONE = frozenset(("NEAR", "ONEAR", "ADJ"))
SAME_WORD = re.compile(r"(?i:(?P<word>W|PRE|NEAR|IN)?)/(?P<unit>s|p|S|P|sent|para|SENT|PARA|sentence|paragraph)")
SAME_ALONE = frozenset(("SAME",))
SEGMENT_WORD = re.compile(r"(?i:W|PRE)/(?i:seg)")
# Brands that are words of everyday language.
BRANDS_THAT_ARE_WORDS = frozenset("""amazon apple bild boss brother caterpillar chrome coach continental discover dove
    edge express focus free galaxy gap hunter jaguar kraft lush mango mars meta mini monster nature nest next oracle orange
    patagonia puma sage seat shell sky slack smart spiegel sprint square stern stripe subway sun target tide total virgin
    visa welt windows word zeit zoom""".split())
HEBREW = re.compile(r"[\u05d0-\u05ea]")
