"""Made-up prose: a vocabulary by Zipf's law, topics with names of their own, and articles.

No word is real, but they look and behave as words do: frequent ones are short,
many share a stem, an article returns to the words and the names of its topics.
"""

from __future__ import annotations

import re
from dataclasses import dataclass
from itertools import accumulate
from random import Random

VOCABULARY = 60_000
TOPICS = 150
WORDS_PER_TOPIC = 350
NAMES_PER_TOPIC = 250
FIRST_TOPICAL_RANK = 120
FIRST_NAME_RANK = 300

ONSETS = ("b c d f g h j k l m n p r s t v w b c d f l m n p r s t "
          "br ch cl cr dr gr pl pr sh st th tr").split() + 5 * [""]
VOWELS = "a a a a e e e e e i i i o o o u u ea ou".split()
CODAS = "n r s t l d m n r s t nd nt rt st ck ng".split() + 30 * [""]
ENDINGS = "s s s ed ed ing ing er ers ly ion ions al ity ment ism".split()
ACCENTS = {"a": "å", "e": "é", "o": "ö", "u": "ü"}

WORD = re.compile(r"[^\W_]+")


def words_of(text: str) -> list[str]:
    """The words of a text of this module's prose, as the engine cuts and folds them."""
    return WORD.findall(text.lower())


def zipf(count: int, exponent: float, shift: float = 2.7) -> list[float]:
    """Cumulative weights of ranks by the law of Zipf and Mandelbrot."""
    return list(accumulate(1.0 / (rank + shift) ** exponent for rank in range(1, count + 1)))


def syllables_at(rank: int, rng: Random) -> int:
    """How many syllables a word of this rank gets: frequent words are short."""
    if rank < 120:
        return 1 if rank < 40 else rng.choice((1, 1, 1, 2))
    if rank < 800:
        return rng.choice((1, 2, 2, 3))
    return rng.choice((1, 2, 3, 3)) if rank < 6_000 else rng.choice((2, 2, 3, 3))


def fresh_word(rank: int, rng: Random) -> str:
    """Syllables for a rank, a few of them with accents."""
    word = "".join(
        rng.choice(ONSETS) + rng.choice(VOWELS) + rng.choice(CODAS) for _ in range(syllables_at(rank, rng))
    )
    if rank > 400 and rng.random() < 0.02:
        word = "".join(ACCENTS.get(letter, letter) for letter in word)
    return word


def vocabulary(rng: Random) -> list[str]:
    """Distinct words by rank, the most frequent first; many are an earlier one with an ending."""
    words: list[str] = []
    stems: list[str] = []
    seen: set[str] = set()
    while len(words) < VOCABULARY:
        is_stem = len(words) < 400 or rng.random() < 0.5
        word = fresh_word(len(words), rng) if is_stem else rng.choice(stems) + rng.choice(ENDINGS)
        if 2 <= len(word) <= 18 and word not in seen:
            seen.add(word)
            words.append(word)
            if is_stem:
                stems.append(word)
    return words


@dataclass(frozen=True, eq=False)
class Topic:
    """What a kind of article writes about: its own frequent words, and names of two or three words."""

    words: list[str]
    names: list[tuple[str, ...]]


@dataclass(frozen=True)
class Article:
    """An article to send: its id, its title and its text."""

    id: str
    title: str
    text: str


class Prose:
    """A source of articles. The same seed gives the same articles."""

    def __init__(self, seed: int) -> None:
        rng = Random(f"prose {seed}")
        self.words = vocabulary(rng)
        self.word_weights = zipf(VOCABULARY, 1.2)
        self.topic_weights = zipf(TOPICS, 0.7)
        self.topical_weights = zipf(WORDS_PER_TOPIC, 1.0)
        self.name_weights = zipf(NAMES_PER_TOPIC, 0.8)
        self.topics = [self._topic(rng) for _ in range(TOPICS)]

    def _topic(self, rng: Random) -> Topic:
        """A topic: some words far beyond their usual share, and names made of rarer words."""
        words = [self._word_from(FIRST_TOPICAL_RANK, rng) for _ in range(WORDS_PER_TOPIC)]
        lengths = rng.choices((2, 3), (75.0, 25.0), k=NAMES_PER_TOPIC)
        names = [tuple(self._word_from(FIRST_NAME_RANK, rng) for _ in range(length)) for length in lengths]
        return Topic(words, names)

    def _word_from(self, rank: int, rng: Random) -> str:
        """A word of this rank or a later one, more often a frequent one."""
        return self.words[rank + int((VOCABULARY - rank) * rng.random() ** 3)]

    def topic(self, rng: Random) -> Topic:
        """A topic, by how often articles are about it."""
        return rng.choices(self.topics, cum_weights=self.topic_weights)[0]

    def tokens(self, rng: Random) -> list[str]:
        """The 300 to 500 words of an article in a row, names with capitals."""
        count = rng.randint(300, 500)
        main, side = self.topic(rng), self.topic(rng)
        common = iter(rng.choices(self.words, cum_weights=self.word_weights, k=count))
        topical = iter(rng.choices(main.words, cum_weights=self.topical_weights, k=count))
        aside = iter(rng.choices(side.words, cum_weights=self.topical_weights, k=count))
        names = iter(rng.choices(main.names, cum_weights=self.name_weights, k=count))
        tokens: list[str] = []
        for kind in rng.choices("ctsny", (78.0, 13.0, 5.0, 3.0, 1.0), k=count):
            if kind == "n":
                tokens += [word.capitalize() for word in next(names)]
            elif kind == "y":
                tokens.append(str(rng.randint(1950, 2030)))
            else:
                tokens.append(next(common if kind == "c" else topical if kind == "t" else aside))
        return tokens[:count]

    def article(self, rng: Random, id: str) -> Article:
        """An article of 300 to 500 words with a title of 5 to 10 words out of its text."""
        tokens = self.tokens(rng)
        start = rng.randrange(len(tokens) - 12)
        title = tokens[start:start + rng.randint(5, 10)]
        return Article(id, capital(" ".join(title)), sentences(rng, tokens))


def capital(text: str) -> str:
    """The text with its first letter as a capital, and no other letter changed."""
    return text[:1].upper() + text[1:]


def sentences(rng: Random, tokens: list[str]) -> str:
    """The words as paragraphs of sentences, with commas, full stops, some quotations and dashes."""
    parts: list[str] = []
    at = 0
    while at < len(tokens):
        words = tokens[at:at + rng.randint(8, 26)]
        at += len(words)
        for place in range(3, len(words) - 2, 7):
            if rng.random() < 0.6:
                words[place] += rng.choice((",", ",", ",", ";", " —"))
        sentence = capital(" ".join(words)) + rng.choice("......?")
        if rng.random() < 0.1:
            sentence = f'"{sentence}"'
        parts.append(sentence)
        parts.append("\n\n" if rng.random() < 0.2 else " ")
    return "".join(parts).rstrip()
