"""Random queries of Elasticsearch and documents, from a seed."""

from __future__ import annotations

from random import Random
from typing import Any, Callable

from .elasticsearch_judge import TEXTS, has_phrase, joined, words

Json = dict[str, Any]
Judge = Callable[[Json], bool]
WORDS = ["tea", "coffee", "green", "price", "prices", "rise", "wi-fi", "can't", "7", "Milk", "TEA", "pri"]
TAGS = ["red", "Red", "dark red", "", "re", "rød", "blue"]
PRICES = [-2.5, -1, 0, 0.1, 1, 2.5, 3, 1e9]
COUNTS = [-3, 0, 1, 2, 10, 2_000_000_000]
LEASTS: list[int | str] = [0, 1, 2, 3, "1", "-1", "50%", "-30%", "75%", "2<-1", "1<2 3<75%"]
DAYS: list[int | str] = ["2020", "2020-02", "2020-02-29", "2020-02-29T12", "2020-02-29T12:30:45", "1969-12-31",
                         1582934400000]


class Source:
    """Queries and documents from a seed."""

    def __init__(self, seed: int) -> None:
        self.dice = Random(f"elasticsearch {seed}")
        self._forms = [self.match, self.match, self.phrase, self.term, self.terms, self.prefix, self.range, self.exists,
                       self.many, self.begun, self.all_or_none]

    def text(self, most: int) -> str:
        """Words, with blanks and other signs between."""
        count = self.dice.randint(0, most)
        return "".join(self.dice.choice(WORDS) + self.dice.choice([" ", " ", ", ", "; "]) for _ in range(count))

    def document(self) -> Json:
        """A document, some of its fields left out, null, or a list."""
        kinds: dict[str, Callable[[], Any]] = {
            "title": lambda: self.text(4), "text": lambda: self.text(9), "tag": lambda: self.dice.choice(TAGS),
            "price": lambda: self.dice.choice(PRICES), "count": lambda: self.dice.choice(COUNTS),
            "day": lambda: self.dice.choice(DAYS), "flag": lambda: self.dice.choice([True, False]),
            "by": lambda: {"name": self.text(2)}}
        found: Json = {"other": "tea"}
        for name, kind in kinds.items():
            turn = self.dice.random()
            if turn < 0.7:
                found[name] = kind()
            elif turn < 0.85:
                found[name] = [kind() for _ in range(self.dice.randint(0, 3))]
            elif turn < 0.9:
                found[name] = None
        return found

    def query(self, depth: int = 3) -> Json:
        """A query, with others in it."""
        turn = self.dice.random()
        if depth == 0 or turn < 0.4:
            return self.dice.choice(self._forms)()
        if turn < 0.45:
            return {"constant_score": {"filter": self.query(depth - 1)}}
        if turn < 0.5:
            return {"dis_max": {"queries": [self.query(depth - 1) for _ in range(self.dice.randint(1, 3))]}}
        return {"bool": self.boolean(depth)}

    def boolean(self, depth: int) -> Json:
        """Clauses of each kind, or of some."""
        found: Json = {}
        for name, most in (("must", 2), ("filter", 1), ("should", 4), ("must_not", 2)):
            if self.dice.random() < 0.45:
                clauses = [self.query(depth - 1) for _ in range(self.dice.randint(1, most))]
                found[name] = clauses[0] if len(clauses) == 1 and self.dice.random() < 0.5 else clauses
        if "should" in found and self.dice.random() < 0.5:
            found["minimum_should_match"] = self.least()
        return found

    def least(self) -> int | str:
        """How many."""
        return self.dice.choice(LEASTS)

    def field(self) -> str:
        """A text."""
        return self.dice.choice(TEXTS)

    def match(self) -> Json:
        """A match in a field of any type."""
        dice = self.dice
        if dice.random() < 0.2:
            return {"match": dice.choice([{"tag": dice.choice(TAGS)}, {"count": dice.choice(COUNTS)},
                                          {"flag": dice.choice([True, "false"])}, {"price": dice.choice(PRICES)}])}
        about: Json = {"query": self.text(4)}
        if dice.random() < 0.3:
            about["operator"] = dice.choice(["and", "or", "AND"])
        elif dice.random() < 0.3:
            about["minimum_should_match"] = self.least()
        if dice.random() < 0.2:
            about["zero_terms_query"] = dice.choice(["all", "none"])
        return {"match": {self.field(): about if len(about) > 1 or dice.random() < 0.5 else about["query"]}}

    def phrase(self) -> Json:
        """A phrase."""
        return {"match_phrase": {self.field(): self.text(2)}}

    def begun(self) -> Json:
        """Words, the last of which may go on."""
        about = {"query": self.text(3), "operator": self.dice.choice(["or", "and"])}
        return {"match_bool_prefix": {self.field(): about}}

    def many(self) -> Json:
        """A match in several fields."""
        about: Json = {"query": self.text(3), "fields": self.dice.sample(TEXTS, self.dice.randint(1, 3))}
        about["type"] = self.dice.choice(["best_fields", "most_fields", "cross_fields", "phrase", "bool_prefix"])
        if about["type"] != "phrase":
            about["operator"] = self.dice.choice(["or", "and"])
        return {"multi_match": about}

    def term(self) -> Json:
        """A term of any field."""
        path, value = self.dice.choice([(self.field(), self.dice.choice([*WORDS, "tea green", ""])),
                                        ("tag", self.dice.choice(TAGS)), ("count", self.dice.choice([*COUNTS, 1.5])),
                                        ("price", self.dice.choice(PRICES)), ("flag", self.dice.choice([True, "true"])),
                                        ("day", "2020-02-29")])
        return {"term": {path: {"value": value} if self.dice.random() < 0.3 else value}}

    def terms(self) -> Json:
        """Some terms."""
        return {"terms": self.dice.choice([{"tag": self.dice.sample(TAGS, 2)}, {"text": self.dice.sample(WORDS, 3)},
                                           {"count": self.dice.sample(COUNTS, 2)}, {"title": []}])}

    def prefix(self) -> Json:
        """How a word or a value begins."""
        return {"prefix": self.dice.choice([{self.field(): self.dice.choice(["pri", "te", "Te", "wi-", "can'", ""])},
                                            {"tag": {"value": self.dice.choice(["re", "R", "", "dark r"])}}])}

    def range(self) -> Json:
        """A range of one end or two."""
        fields: list[tuple[str, list[Any]]] = [
            ("price", [*PRICES]), ("count", [*COUNTS, 1.5, -0.5]), ("day", [*DAYS]), ("tag", [*TAGS]),
            (self.field(), ["coffee", "pri", "prices", "te", "", "zz"])]
        path, ends = self.dice.choice(fields)
        about: Json = {}
        if self.dice.random() < 0.8:
            about[self.dice.choice(["gt", "gte"])] = self.dice.choice(ends)
        if not about or self.dice.random() < 0.6:
            about[self.dice.choice(["lt", "lte"])] = self.dice.choice(ends)
        return {"range": {path: about}}

    def exists(self) -> Json:
        """Whether a field has a value."""
        return {"exists": {"field": self.dice.choice([*TEXTS, "tag", "price", "day", "flag", "by"])}}

    def all_or_none(self) -> Json:
        """All or none."""
        return {self.dice.choice(["match_all", "match_none"]): {}}

    def item(self, path: str, needs_all: bool) -> tuple[str, Judge]:
        """A part of a text of operators, and what it means."""
        turn, word = self.dice.random(), self.dice.choice(WORDS)
        if turn < 0.15:
            return f'"{word} rise"', lambda document: has_phrase(document, path, words(word + " rise"))
        there = words(word)
        if turn < 0.3 and len(there) == 1 and "'" not in word:
            return word + "*", lambda document: any(one.startswith(there[0]) for one in found(document, path))
        put = all if needs_all else any
        return word, lambda document: put(one in found(document, path) for one in there)

    def classic(self, path: str, needs_all: bool, depth: int = 2) -> tuple[str, Judge]:
        """A text of the classic syntax, and what it means."""
        parts: list[tuple[str, str, str, Judge]] = []
        for number in range(self.dice.randint(1, 4)):
            operator = self.dice.choice(["", "", "AND", "OR", "&&"]) if number else ""
            sign = self.dice.choice(["", "", "", "+", "-", "NOT "])
            if depth and self.dice.random() < 0.25:
                text, judge = self.classic(path, needs_all, depth - 1)
                parts.append((operator, sign, f"({text})", judge))
            else:
                parts.append((operator, sign, *self.item(path, needs_all)))
        text = " ".join(" ".join(one for one in (operator, sign + item) if one) for operator, sign, item, _ in parts)
        told = [(operator.replace("&&", "AND"), sign.replace("NOT ", "-"), judge) for operator, sign, _, judge in parts]
        return text, lambda document: joined([(one, sign, judge(document)) for one, sign, judge in told], needs_all)

    def simple(self, path: str, depth: int = 3) -> tuple[str, Judge]:
        """A text of the simple syntax with all its parentheses, and what it means."""
        if depth == 0 or self.dice.random() < 0.3:
            return self.item(path, False)
        (left, one), (right, other) = self.simple(path, depth - 1), self.simple(path, depth - 1)
        turn = self.dice.choice(["+", "|", "-"])
        if turn == "-":
            return f"-({left})", lambda document: not one(document)
        put = all if turn == "+" else any
        return f"(({left}) {turn} ({right}))", lambda document: put((one(document), other(document)))


def found(document: Json, path: str) -> set[str]:
    """The words of a text of a document."""
    value = document.get(path)
    texts = value if isinstance(value, list) else [value]
    return {word for text in texts if isinstance(text, str) for word in words(text)}
