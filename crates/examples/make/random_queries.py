"""Random queries of every form, with the alerts and the hits that each article is to have.

A query is drawn as its text and, beside it, as the plain question that it asks
of an article's words and the places that it names among them. Between two
clauses an operator stands or none. In a second example groups are nested up to
40 deep, so that much of a query is behind what decides it.
"""

from __future__ import annotations

import random
from typing import Callable, Iterator, NamedTuple

from lines import Turn, Value
from reading import Fields, Question, signs_after

# A field, and a position among its words.
Place = tuple[str, int]


class Drawn(NamedTuple):
    """A query's text, whether it holds of an article, and the places of the words that it names there."""

    text: str
    question: Question
    places: Callable[[Fields], set[Place]]


def of_words(text: str, field: str, fits: Callable[[str], bool]) -> Drawn:
    """A query that holds where a word of the field fits, and names each that does."""
    return Drawn(text, lambda fields: any(map(fits, fields[field])),
                 lambda fields: {(field, at) for at, word in enumerate(fields[field]) if fits(word)})


WORDS = ["tea", "teapot", "te", "milk", "mat", "été", "extraordinarily", "extraordinary"]
FRONTS = ["t", "te", "tea", "teapots", "mi", "é", "extraord", "extraordinari", "extraordx"]
OPERATORS = ["", "AND", "OR", "&&", "||"]
QUERIES, ARTICLES = 64, 16
ROUNDS, DEEP_ROUNDS = 16, 6
DEEPEST = 3
# Of nested queries: the deepest group, how many of ten clauses are groups, the fewest groups, and the longest text.
DEEPEST_NEST, GROUPS_OF_TEN, FEWEST_GROUPS, LONGEST_NEST = 40, 4, 8, 1_200


class Drawing:
    """Draws queries and articles."""

    def __init__(self, dice: random.Random) -> None:
        self.dice = dice

    def word(self, field: str) -> Drawn:
        """A word."""
        word = self.dice.choice(WORDS)
        return of_words(word, field, lambda other: other == word)

    def phrase(self, field: str) -> Drawn:
        """One to three words next to each other."""
        words = self.dice.choices(WORDS, k=self.dice.randint(1, 3))
        size = len(words)

        def starts(fields: Fields) -> list[int]:
            of = fields[field]
            return [at for at in range(len(of) - size + 1) if of[at:at + size] == words]

        return Drawn(f'"{" ".join(words)}"', lambda fields: bool(starts(fields)),
                     lambda fields: {(field, at + more) for at in starts(fields) for more in range(size)})

    def prefix(self, field: str) -> Drawn:
        """A word that begins so."""
        front = self.dice.choice(FRONTS)
        return of_words(f"{front}*", field, lambda word: word.startswith(front))

    def span(self, field: str) -> Drawn:
        """A word between two ends, each let in, left out or open."""
        low, high = self.dice.choice([*WORDS, "*"]), self.dice.choice([*WORDS, "*"])
        opens, closes = self.dice.choice("[{"), self.dice.choice("]}")

        def lies(word: str) -> bool:
            at, bottom, top = word.encode(), low.encode(), high.encode()
            above = low == "*" or bottom < at or (opens == "[" and bottom == at)
            return above and (high == "*" or at < top or (closes == "]" and at == top))

        return of_words(f"{opens}{low} TO {high}{closes}", field, lies)

    def leaf(self) -> Drawn:
        """A query that is no group; every other one is a word."""
        if self.dice.randrange(8) == 0:
            return Drawn("*:*", lambda fields: True, lambda fields: set())
        field = self.dice.choice(["text", "title"])
        form = self.dice.choice([self.word, self.word, self.word, self.phrase, self.prefix, self.span])
        drawn = form(field)
        return drawn if field == "text" else drawn._replace(text=f"{field}:{drawn.text}")

    def group(self, depth: int) -> Drawn:
        """One to four clauses, between each two an operator or none; in one group of eight each of them excludes."""
        among = "-" if self.dice.randrange(8) == 0 else ["+", "", "-"]
        signs = self.dice.choices(among, k=self.dice.randint(1, 4))
        clauses = [self.query(depth + 1) for _ in signs]
        operators = self.dice.choices(OPERATORS, k=len(signs) - 1)
        counted = list(zip(signs_after(signs, operators), clauses))

        def holds(fields: Fields) -> bool:
            of = {sign: [child.question(fields) for its, child in counted if its == sign] for sign in ["+", "", "-"]}
            return all(of["+"]) and not any(of["-"]) and (bool(of["+"]) or any(of[""]))

        def places(fields: Fields) -> set[Place]:
            return {place for sign, child in counted if sign != "-" for place in child.places(fields)}

        written = zip(["", *operators], signs, clauses)
        text = " ".join(f"{operator} {sign}{child.text}".lstrip() for operator, sign, child in written)
        return Drawn(f"({text})" if depth else text, holds, places)

    def query(self, depth: int = 0) -> Drawn:
        """A query, less often a group the deeper it stands."""
        return self.leaf() if self.dice.randrange(DEEPEST + 1) < depth + 1 else self.group(depth)

    def fields(self) -> Fields:
        """The two fields of an article, up to fifteen words each."""
        return {name: self.dice.choices(WORDS, k=self.dice.randrange(16)) for name in ("text", "title")}


class Nesting(Drawing):
    """Draws queries of many groups, some nested deep."""

    def nest(self, depth: int) -> Drawn:
        """A group at any depth as often as at another."""
        if depth == DEEPEST_NEST or (depth and self.dice.randrange(10) >= GROUPS_OF_TEN):
            return self.leaf()
        return self.group(depth)

    def query(self, depth: int = 0) -> Drawn:
        """A query of enough groups that is not too long."""
        drawn = self.nest(depth)
        while depth == 0 and (len(drawn.text) > LONGEST_NEST or drawn.text.count("(") < FEWEST_GROUPS):
            drawn = self.nest(depth)
        return drawn


def hits_of(query: Drawn, fields: Fields) -> list[Value]:
    """The places that a query names, by the bytes of the field's name and then by position, as a reply shows them."""
    places = sorted(query.places(fields), key=lambda place: (place[0].encode(), place[1]))
    return [{"field": field, "position": position} for field, position in places]


def played(drawing: Drawing, rounds: int) -> Iterator[Turn]:
    """In each round the queries are replaced by others, and articles are matched. Each line with its reply, without hits
    and with them."""
    for _ in range(rounds):
        queries = {f"q{number}": drawing.query() for number in range(QUERIES)}
        registered: Value = {"registered": QUERIES}
        yield Turn({"op": "register", "queries": [{"id": id, "query": query.text} for id, query in queries.items()]},
                   registered, registered)
        articles: list[Value] = []
        plain: list[Value] = []
        with_hits: list[Value] = []
        for number in range(ARTICLES):
            fields = drawing.fields()
            articles.append({"id": f"a{number}", "fields": {name: " ".join(words) for name, words in fields.items()}})
            due = sorted(id for id, query in queries.items() if query.question(fields))
            alerts: Value = {"article": f"a{number}", "queries": due}
            plain.append(alerts)
            with_hits.append({**alerts, "hits": [hits_of(queries[id], fields) for id in due]})
        yield Turn({"op": "match", "articles": articles}, {"alerts": plain, "notes": []},
                   {"alerts": with_hits, "notes": []})


def turns(seed: int) -> Iterator[Turn]:
    """Queries of every form."""
    return played(Drawing(random.Random(seed)), ROUNDS)


def deep_turns(seed: int) -> Iterator[Turn]:
    """Queries of nested groups."""
    return played(Nesting(random.Random(seed)), DEEP_ROUNDS)
