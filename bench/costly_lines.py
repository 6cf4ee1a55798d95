"""Cases that could cost an engine much: what is registered, the lines that are timed, and their bounds."""

from __future__ import annotations

from dataclasses import dataclass
from functools import partial
from itertools import islice
from random import Random
from typing import Callable, Iterable, Iterator

from workload import line_of, register_lines

# What a line may take where a case says no less.
MOST_SECONDS, MOST_BYTES = 10.0, 1_000_000_000
MEGABYTE = 1_000_000
# The limits of a line (docs/PROTOCOL.md), less what its JSON takes.
QUERIES_A_LINE, BYTES_A_LINE, ARTICLES_A_LINE = 1_024, 1_000_000, 256

# Texts of queries in order; their ids are numbers.
Queries = Callable[[], Iterable[str]]
Lines = Callable[[], Iterable[bytes]]


@dataclass(frozen=True)
class Case:
    """The lines before are sent first, each within the bounds of any line. Then each of the timed ones is to take at
    most so many seconds, and the process is to grow by at most so many bytes while it does. `hits` says that the engine
    shows hits."""

    about: str
    before: Lines
    timed: Lines
    seconds: float = MOST_SECONDS
    grown: int = MOST_BYTES
    hits: bool = False


# ---- lines


def registers(queries: Iterable[str], id: Callable[[int], str] = "q{:07d}".format) -> Iterator[bytes]:
    """Lines that register the queries, as many a line as fit."""
    held: list[tuple[str, str]] = []
    size = 0
    for number, text in enumerate(queries):
        if len(held) == QUERIES_A_LINE or size + len(text) > BYTES_A_LINE:
            yield from register_lines(held)
            held, size = [], 0
        held.append((id(number), text))
        size += len(text) + 300
    yield from register_lines(held)


def matches(*texts: str) -> Iterator[bytes]:
    """A line that matches articles of these texts."""
    articles = [{"id": f"a{number}", "fields": {"text": text}} for number, text in enumerate(texts)]
    yield line_of({"op": "match", "articles": articles})


def numbered(pattern: str, count: int) -> list[str]:
    """So many texts, with a number in each."""
    return [pattern.format(number) for number in range(count)]


def case(about: str, queries: Queries, texts: Callable[[], Iterable[str]], seconds: float = MOST_SECONDS,
         grown: int = MOST_BYTES, hits: bool = False) -> Case:
    """Queries are registered, and one line of articles is timed."""
    return Case(about, lambda: registers(queries()), lambda: matches(*texts()), seconds, grown, hits)


# ---- phrases


def pairs_apart() -> Iterator[str]:
    """Queries of pairs that the text below has apart."""
    words = numbered("w{:02d}", 90)
    pairs = [f'"{first} {second}"' for first in words for second in words if first < second]
    for _ in range(64):
        yield " ".join(islice(pairs, 4_000))


def falling_words() -> Iterator[str]:
    """Words in falling order again and again, with a stranger after each round."""
    yield " ".join([*reversed(numbered("w{:02d}", 90)), "zz"] * (128_000 // 91))


def any_pairs() -> Iterator[str]:
    """Phrases of two of 2,000 words."""
    dice, words = Random(1), numbered("w{}", 2_000)
    for _ in range(100_000):
        yield f'"{dice.choice(words)} {dice.choice(words)}"'


def any_words() -> Iterator[str]:
    """A text of these words."""
    yield " ".join(Random(2).choices(numbered("w{}", 2_000), k=100_000))


PHRASES = [
    case("a phrase of 32,000 equal words, an article of 500,000", lambda: ['"' + "a " * 32_000 + 'b"'],
         lambda: ["b " + "a " * 500_000], 0.2),
    case("64 queries of 4,000 pairs, an article of 128,000 words that has them apart", pairs_apart, falling_words, 0.5),
    case("100,000 phrases, an article of 100,000 words", any_pairs, any_words, 0.2),
]

# ---- ranges, prefixes, and what every article has

RANGES = partial(numbered, "[m{0} TO m{0}5]", 100_000)
ONE_FRONT = partial(numbered, "abcdefgh{}*", 100_000)
ALL = partial(numbered, "*:*", 100_000)

FRONTS = [
    case("100,000 ranges, an article of 100,000 words", RANGES, lambda: [" ".join(numbered("a{0} z{0}", 50_000))]),
    case("100,000 ranges, 256 articles of two words", RANGES, lambda: ["a z"] * ARTICLES_A_LINE),
    case("100,000 prefixes with one front, an article of 50,000 words with it", ONE_FRONT,
         lambda: [" ".join(f"abcdefgh{number * 7 + 1_000_000}" for number in range(50_000))]),
    case("100,000 prefixes with one front, 256 articles of one word", ONE_FRONT,
         lambda: ["abcdefghx"] * ARTICLES_A_LINE),
    case("100,000 prefixes, an article of 100,000 words", partial(numbered, "f{}*", 100_000),
         lambda: [" ".join(f"f{number * 7 + 1}" for number in range(100_000))]),
]

EVERYTHING = [
    case("100,000 `*:*`, 256 articles", ALL, lambda: ["a"] * ARTICLES_A_LINE, 5.0, 100 * MEGABYTE),
    case("1,000,000 `*:*`, an article", partial(numbered, "*:*", 1_000_000), lambda: ["a"]),
    Case("100,000 `*:*` with ids of 256 bytes, 16 articles",
         lambda: registers(ALL(), ("x" * 249 + "{:07d}").format), lambda: matches(*["a"] * 16)),
]

# ---- large queries


def nests(sign: str) -> Iterator[str]:
    """Queries of 30 groups that are nested 64 deep, each group as such a clause of the query."""
    text = " ".join([sign + "(" * 64 + "a" + ")" * 64] * 30)
    return iter([text] * 4_000)


def alternatives() -> Iterator[str]:
    """Queries of 4,000 words."""
    return (" ".join(numbered(f"w{{:05d}}_{number}", 4_000)) for number in range(256))


def groups_that_hold() -> Iterator[str]:
    """Queries of 1,300 groups that must hold."""
    return ("+" + " +".join([f"(a {'b' * (number % 7 + 1)})"] * 1_300) for number in range(400))


LARGE_QUERIES = [
    case("256 queries of 4,000 alternatives, an article of 4,000 words", alternatives,
         lambda: [" ".join(numbered("w{:05d}_3", 4_000))]),
    case("4,000 queries of 30 groups nested 64 deep, 256 articles", partial(nests, ""),
         lambda: ["b a b"] * ARTICLES_A_LINE, 5.0),
    case("4,000 queries of 30 such groups that must hold, 256 articles", partial(nests, "+"),
         lambda: ["b a b"] * ARTICLES_A_LINE),
    case("400 queries of 1,300 groups that hold, 16 articles", groups_that_hold, lambda: ["a"] * 16),
]

# ---- words and texts


def shuffled() -> Iterator[str]:
    """80,000 words of one lead in any order."""
    words = numbered("abcdefgh{}", 80_000)
    Random(1).shuffle(words)
    yield " ".join(words)


def ordered(place: Callable[[int], int]) -> Iterator[str]:
    """A text of 120,000 words, each by its place."""
    yield " ".join(f"a{place(number):06d}" for number in range(120_000))


ORDERS: dict[str, Callable[[int], int]] = {
    "equal": lambda number: 0,
    "rising": lambda number: number,
    "falling": lambda number: 120_000 - number,
    "rising and falling": lambda number: min(number, 120_000 - number),
    "rising again and again": lambda number: number % 1_000,
}

SCRIPTS = {
    "regional indicators": "\U0001F1E6", "combining marks": "\u0301", "emoji that are joined": "\U0001F468\u200D",
    "sharp s": "ß", "Hangul": "가", "Thai": "ไ", "Katakana": "カ", "a, a colon and a mark": "a:\u0301",
    "a and an apostrophe": "a'", "digits and stops": "1.", "letters and stops": "a.", "underscores": "_",
    "Hebrew and apostrophes": "\u05d0'", "I with a dot": "İ", "a ligature": "ﬃ", "spaces": " ",
}


def repeated(text: str) -> Iterator[str]:
    """A text again and again, up to 900,000 bytes."""
    yield text * (900_000 // len(text.encode()))


TEA: Queries = lambda: ["tea"]
TEXTS = [
    case("100,000 words of one lead, an article of 50,000 of them", partial(numbered, "abcdefgh{}", 100_000),
         lambda: [" ".join(numbered("abcdefgh{}", 50_000))]),
    case("an article of one word of 1,000,000 bytes", lambda: ["tea", "xx*", "[a TO xy]"], lambda: ["x" * 1_000_000]),
    case("80,000 words of one lead in any order", partial(numbered, "abcdefgh{}", 1_000), shuffled),
    case("1,000 words of 1,000 equal bytes", TEA, lambda: [" ".join(numbered("x" * 990 + "{}", 1_000))]),
    *(case(f"120,000 words, {name}", TEA, partial(ordered, place)) for name, place in ORDERS.items()),
    *(case(f"900,000 bytes of {name}", TEA, partial(repeated, text)) for name, text in SCRIPTS.items()),
]

# ---- many lines


def replacing() -> Iterator[bytes]:
    """1,024 ids that get other queries again and again."""
    for turn in range(200):
        yield from registers(numbered(f"+press +w{turn}_{{}}", 1_024))


def deleting() -> Iterator[bytes]:
    """200,000 queries, which are deleted."""
    yield from registers(numbered("+press +w{}", 200_000))
    ids = numbered("q{:07d}", 200_000)
    for at in range(0, len(ids), 1_000):
        yield line_of({"op": "delete", "ids": ids[at:at + 1_000]})


def growing() -> Iterator[bytes]:
    """A million queries, 1,024 a line."""
    return registers(numbered("+press +w{}", 1_000_000))


def one_a_line() -> Iterator[bytes]:
    """A query a line."""
    return (line for number in range(10_000) for line in registers([f"+press +w{number}"], lambda _: f"q{number}"))


PRESS = partial(numbered, "+press +w{}", 100_000)
LINES = [
    Case("204,800 queries replaced, 1,024 a line; a match", replacing, lambda: matches("press w199_5")),
    Case("200,000 queries deleted; a purge, a match", deleting,
         lambda: [line_of({"op": "purge"}), *matches("press w5")]),
    Case("1,024 queries, on the way to a million", lambda: matches("press"), growing, 0.2),
    Case("10,000 queries, one a line; a match", one_a_line, lambda: matches("press w5")),
    case("100,000 queries under one key, 256 articles", partial(numbered, "+pressing +w{}", 100_000),
         lambda: numbered("pressing w{}", ARTICLES_A_LINE)),
    case("100,000 queries, 256 articles of 600 words", PRESS,
         lambda: [" ".join(f"press w{first * 300 + word}" for word in range(300)) for first in range(ARTICLES_A_LINE)]),
]

# ---- hits

LEAD = " ".join(numbered("abcdefgh{}", 4_000))
HITS = [
    case("hits of 100 ranges, an article of 100,000 words", lambda: ["[* TO *]"] * 100, lambda: ["a " * 100_000],
         grown=100 * MEGABYTE, hits=True),
    case("hits of 8 queries of 4,000 words of one lead, an article of 60,000", lambda: [LEAD] * 8,
         lambda: [" ".join(numbered("abcdefgh{}", 60_000))], 1.0, hits=True),
    case("hits of a phrase of 8,000 equal words, an article of 128,000", lambda: ['"' + "a " * 8_000 + '"'],
         lambda: ["a " * 128_000], hits=True),
    case("hits of 1,000 queries at the end of 100,000 words", lambda: ["zz"] * 1_000,
         lambda: ["a " * 100_000 + "zz"], hits=True),
]

CASES = [*PHRASES, *FRONTS, *EVERYTHING, *LARGE_QUERIES, *TEXTS, *LINES, *HITS]
