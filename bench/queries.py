"""Standing queries as press clipping writes them: trees, their texts, and a source of them."""

from __future__ import annotations

from collections import Counter
from dataclasses import dataclass
from random import Random
from typing import Callable, Union

from prose import Prose, Topic

DEFAULT_FIELD = "text"


@dataclass(frozen=True)
class Word:
    """The field has the word."""

    word: str
    field: str = DEFAULT_FIELD


@dataclass(frozen=True)
class Phrase:
    """The field has the words next to each other, in this order."""

    words: tuple[str, ...]
    field: str = DEFAULT_FIELD


@dataclass(frozen=True)
class Prefix:
    """A word of the field begins with the front."""

    front: str
    field: str = DEFAULT_FIELD


@dataclass(frozen=True)
class Span:
    """A word of the field lies from `low` to `high`, both let in."""

    low: str
    high: str
    field: str = DEFAULT_FIELD


@dataclass(frozen=True)
class All:
    """Each article."""


@dataclass(frozen=True)
class Group:
    """Clauses with their signs: `+` required, `-` excluded, and the empty sign. Between each two of them stands an
    operator, `AND`, `OR`, `&&` or `||`, or the empty one; without operators there is none anywhere."""

    clauses: tuple[tuple[str, "Query"], ...]
    operators: tuple[str, ...] = ()


Query = Union[Word, Phrase, Prefix, Span, All, Group]


def text_of(query: Query, inner: bool = False) -> str:
    """The query in the syntax that the engine reads."""
    if isinstance(query, Group):
        parts = [sign + text_of(child, True) for sign, child in query.clauses]
        if query.operators:
            parts[1:] = [f"{operator} {part}".lstrip() for operator, part in zip(query.operators, parts[1:])]
        text = " ".join(parts)
        return f"({text})" if inner else text
    if isinstance(query, All):
        return "*:*"
    if isinstance(query, Word):
        item = query.word
    elif isinstance(query, Phrase):
        item = '"' + " ".join(query.words) + '"'
    elif isinstance(query, Prefix):
        item = query.front + "*"
    else:
        item = f"[{query.low} TO {query.high}]"
    return item if query.field == DEFAULT_FIELD else f"{query.field}:{item}"


def required(*children: Query) -> Group:
    """All of them."""
    return Group(tuple(("+", child) for child in children))


def either(*children: Query) -> Group:
    """At least one of them."""
    return Group(tuple(("", child) for child in children))


def without(query: Query, *others: Query) -> Group:
    """The first and none of the others."""
    return Group((("+", query),) + tuple(("-", other) for other in others))


def with_operators(query: Query, conjunction: str, disjunction: str) -> Query:
    """A query that means the same: in its groups the clauses that are required lose their sign and are joined by the
    one operator, and where none is required all are joined by the other."""
    if not isinstance(query, Group):
        return query
    clauses = tuple((sign, with_operators(child, conjunction, disjunction)) for sign, child in query.clauses)
    signs = {sign for sign, _ in clauses}
    if len(clauses) < 2 or {"+", ""} <= signs:
        return Group(clauses, query.operators)
    operator = conjunction if "+" in signs else disjunction
    return Group(tuple((sign.replace("+", ""), child) for sign, child in clauses), (operator,) * (len(clauses) - 1))


class Bands:
    """The words of the prose by how many articles in 100 have them, drawn by that number."""

    LIMITS = (("common", 10.0), ("mid", 1.0), ("low", 0.1), ("rare", 0.0))
    SAMPLE = 4_000

    def __init__(self, prose: Prose, rng: Random) -> None:
        holders: Counter[str] = Counter()
        for _ in range(self.SAMPLE):
            holders.update(list(dict.fromkeys(token.lower() for token in prose.tokens(rng))))
        self.band_of = {word: self._band(count) for word, count in holders.items() if word.isalpha()}
        self._words: dict[str, list[str]] = {name: [] for name, _ in self.LIMITS}
        self._counts: dict[str, list[int]] = {name: [] for name, _ in self.LIMITS}
        for word, band in self.band_of.items():
            self._words[band].append(word)
            self._counts[band].append(holders[word])

    def _band(self, holders: int) -> str:
        """The band of a word that so many articles of the sample have."""
        percent = 100.0 * holders / self.SAMPLE
        return next(name for name, least in self.LIMITS if percent >= least)

    def draws(self, rng: Random, band: str, count: int) -> list[str]:
        """So many words of the band."""
        return rng.choices(self._words[band], self._counts[band], k=count)


class QuerySource:
    """A source of queries about the same topics as the articles. The same seed gives the same queries."""

    STOCK = 20_000
    # The share of groups that are written with operators, by which one query in ten is, and how operators are spelled.
    WITH_OPERATORS = 0.146
    SPELLINGS = 7 * [("AND", "OR")] + [("&&", "||")]

    def __init__(self, prose: Prose, seed: int) -> None:
        self.prose = prose
        self.rng = Random(f"queries {seed}")
        self.spelling = Random(f"spelling {seed}")
        self.bands = Bands(prose, Random(f"bands {seed}"))
        self._stock: dict[str, list[str]] = {name: [] for name, _ in Bands.LIMITS}
        self._near: dict[Topic, dict[str, list[str]]] = {}
        self._kinds = [kind for kind, _, _ in KINDS]
        self._makers: dict[str, Callable[[QuerySource], Query]] = {kind: make for kind, _, make in KINDS}
        self._shares = [share for _, share, _ in KINDS]

    def next(self) -> tuple[str, Query]:
        """The next query, and its kind."""
        kind = self.rng.choices(self._kinds, self._shares)[0]
        return kind, self._spelled(self._makers[kind](self))

    def _spelled(self, query: Query) -> Query:
        """The query as it is or, of some groups, with operators; nothing else that is drawn depends on which."""
        if not isinstance(query, Group) or self.spelling.random() >= self.WITH_OPERATORS:
            return query
        return with_operators(query, *self.spelling.choice(self.SPELLINGS))

    def word(self, *bands: str) -> str:
        """A word of one of the bands."""
        band = self.rng.choice(bands)
        stock = self._stock[band]
        if not stock:
            stock.extend(self.bands.draws(self.rng, band, self.STOCK))
        return stock.pop()

    def near(self, *bands: str) -> list[Word]:
        """A word of each band, all from one topic where it has them."""
        words = self._by_band(self.prose.topic(self.rng))
        return [Word(self.rng.choice(words[band]) if words[band] else self.word(band)) for band in bands]

    def _by_band(self, topic: Topic) -> dict[str, list[str]]:
        """The words of a topic by band."""
        found = self._near.get(topic)
        if found is None:
            found = {name: [] for name, _ in Bands.LIMITS}
            for word in topic.words:
                found[self.bands.band_of.get(word, "rare")].append(word)
            self._near[topic] = found
        return found

    def name(self, field: str = DEFAULT_FIELD) -> Phrase:
        """A name that articles mention."""
        return Phrase(self.rng.choice(self.prose.topic(self.rng).names), field)

    def front(self) -> Prefix:
        """The beginning of a word that few articles have."""
        while True:
            word = self.word("low", "rare")
            if len(word) >= 6:
                return Prefix(word[:self.rng.randint(4, len(word) - 1)])

    def who(self, least: int, most: int) -> Group:
        """One of several names or words, as in a list of companies."""
        count = self.rng.randint(least, most)
        return either(*(self.name_or_word() for _ in range(count)))

    def name_or_word(self) -> Query:
        """One of a list of companies."""
        return self.name() if self.rng.random() < 0.4 else Word(self.word("low", "rare"))


def single(source: QuerySource) -> Query:
    """`word`"""
    return Word(source.word("low", "rare"))


def two_required(source: QuerySource) -> Query:
    """`+word +word`"""
    return required(*source.near("low", "mid"))


def three_required(source: QuerySource) -> Query:
    """`+word +word +word`"""
    return required(*source.near("low", "mid", source.rng.choice(("mid", "common"))))


def phrase(source: QuerySource) -> Query:
    """`"word word"`"""
    return source.name()


def disjunction(source: QuerySource) -> Query:
    """`word word word`, of which one is enough."""
    count = source.rng.randint(2, 6)
    return either(*(Word(source.word("rare", "rare", "low")) for _ in range(count)))


def excluding(source: QuerySource) -> Query:
    """`+"word word" -word`"""
    return without(source.name(), Word(source.word("common", "mid")))


def group(source: QuerySource) -> Query:
    """`+(word "word word") +word`, at times without a word."""
    clauses: tuple[tuple[str, Query], ...] = (
        ("+", source.who(2, 5)), ("+", Word(source.word("mid", "common"))))
    if source.rng.random() < 0.35:
        clauses += (("-", Word(source.word("mid", "low"))),)
    return Group(clauses)


def long(source: QuerySource) -> Query:
    """`+(word "word word" ..) +(word ..) -word`, as a profile of a client."""
    what = either(*(Word(source.word("mid", "low")) for _ in range(source.rng.randint(3, 6))))
    return Group((("+", source.who(6, 12)), ("+", what), ("-", Word(source.word("mid")))))


def in_title(source: QuerySource) -> Query:
    """`title:word`, `title:"word word"` or `+title:word +word`"""
    draw = source.rng.random()
    if draw < 0.4:
        return Word(source.word("low", "mid"), "title")
    if draw < 0.7:
        return source.name("title")
    first, second = source.near("mid", "low")
    return required(Word(first.word, "title"), second)


def with_prefix(source: QuerySource) -> Query:
    """`+word +fron*`"""
    return required(Word(source.word("low", "mid")), source.front())


def with_range(source: QuerySource) -> Query:
    """`+word +[1990 TO 1999]`"""
    low = source.rng.randint(1950, 2025)
    return required(Word(source.word("low")), Span(str(low), str(low + source.rng.randint(1, 12))))


def prefix_alone(source: QuerySource) -> Query:
    """`fron*`, which its first characters find."""
    return source.front()


def all_without(source: QuerySource) -> Query:
    """`*:* -word -word`, which is tried on each article and holds of most."""
    return without(All(), *(Word(word) for word in source.bands.draws(source.rng, "common", 3)))


# Each kind of query: its name, its share in a hundred, and how one is made.
KINDS: tuple[tuple[str, float, Callable[[QuerySource], Query]], ...] = (
    ("single", 5.0, single),
    ("two required", 11.0, two_required),
    ("three required", 7.0, three_required),
    ("phrase", 20.0, phrase),
    ("disjunction", 12.0, disjunction),
    ("phrase without", 10.0, excluding),
    ("group", 17.0, group),
    ("long", 5.0, long),
    ("title", 9.0, in_title),
    ("with prefix", 3.3, with_prefix),
    ("with range", 0.5, with_range),
    ("prefix alone", 0.18, prefix_alone),
    ("all without", 0.02, all_without),
)
