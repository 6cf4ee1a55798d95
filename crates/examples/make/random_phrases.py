"""Random phrases over texts of few words, with the alerts and the hits that are due.

The texts repeat, so that phrases overlap one another and themselves; most of
them are cut out of a text, and some of these changed in one word, some longer
than any text, some cut over the border of two fields. They are looked for
word by word.
"""

from __future__ import annotations

import random
from typing import Iterator, NamedTuple

from lines import Turn, Value
from reading import Fields

NAMES = ["text", "title"]
WORDS = ["a", "b", "c"]
ROUNDS, QUERIES, ARTICLES = 8, 24, 6
MOST_WORDS, MOST_IN_PHRASE = 48, 20


class Phrase(NamedTuple):
    """Words that are to stand next to each other in a field."""

    field: str
    words: list[str]

    def text(self) -> str:
        """As a query."""
        return f'{self.field}:"{" ".join(self.words)}"'

    def holds(self, fields: Fields) -> bool:
        """Whether they do."""
        return bool(self.positions(fields))

    def positions(self, fields: Fields) -> list[int]:
        """The positions of the words at each place where they do."""
        words, size = fields[self.field], len(self.words)
        starts = [at for at in range(len(words) - size + 1) if words[at:at + size] == self.words]
        return sorted({at + more for at in starts for more in range(size)})

    def hits(self, fields: Fields) -> list[Value]:
        """These, as a reply shows them."""
        return [{"field": self.field, "position": at} for at in self.positions(fields)]


class Drawing:
    """Draws texts and phrases."""

    def __init__(self, dice: random.Random) -> None:
        self.dice = dice

    def words(self) -> list[str]:
        """A text: of words at random, of a few that come again and again, or of both."""
        size = self.dice.randrange(MOST_WORDS)
        few = self.dice.choices(WORDS[:self.dice.randint(1, 3)], k=self.dice.randint(1, 6))
        drawn: list[str] = []
        while len(drawn) < size:
            drawn += few if self.dice.randrange(4) else self.dice.choices(WORDS[:2], k=2)
        return drawn[:size]

    def cut(self, words: list[str]) -> list[str]:
        """Some words of a text that stand side by side, in one case of four with another word in the place of one."""
        start = self.dice.randrange(len(words))
        cut = words[start:start + self.dice.randint(1, MOST_IN_PHRASE)]
        if self.dice.randrange(4) == 0:
            cut[self.dice.randrange(len(cut))] = self.dice.choice(WORDS)
        return cut

    def phrase(self, among: list[Fields]) -> Phrase:
        """A phrase: cut out of a field, or out of both fields as if they were one, or longer than all texts."""
        field = self.dice.choice(NAMES)
        fields = self.dice.choice(among)
        kind = self.dice.randrange(8)
        if kind == 0:
            return Phrase(field, ["a"] * self.dice.randint(1, MOST_WORDS + 2) + ["b"])
        if kind == 1:
            return Phrase(field, self.cut([*fields["title"], *fields["text"], "a"]))
        return Phrase(field, self.cut(fields[field] or WORDS))


def turns(seed: int) -> Iterator[Turn]:
    """In each round the queries are replaced by others, and articles are matched. Each line with its reply, without hits
    and with them."""
    drawing = Drawing(random.Random(seed))
    for _ in range(ROUNDS):
        articles = [{name: drawing.words() for name in NAMES} for _ in range(ARTICLES)]
        queries = {f"q{number}": drawing.phrase(articles) for number in range(QUERIES)}
        registered: Value = {"registered": QUERIES}
        yield Turn({"op": "register", "queries": [{"id": id, "query": query.text()} for id, query in queries.items()]},
                   registered, registered)
        plain: list[Value] = []
        with_hits: list[Value] = []
        for number, fields in enumerate(articles):
            due = sorted(id for id, query in queries.items() if query.holds(fields))
            alerts: Value = {"article": f"a{number}", "queries": due}
            places = [queries[id].hits(fields) for id in due]
            plain.append(alerts)
            with_hits.append({**alerts, "hits": places})
        asked = [{"id": f"a{number}", "fields": {name: " ".join(words) for name, words in fields.items()}}
                 for number, fields in enumerate(articles)]
        yield Turn({"op": "match", "articles": asked}, {"alerts": plain, "notes": []},
                   {"alerts": with_hits, "notes": []})
