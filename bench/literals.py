"""Hyperscan under measurement: `bench/literals.c`, which has it find the words of queries in articles.

It finds them wherever their letters stand, and does nothing else: it reads no JSON, looks for no bounds of words and no
phrases, judges no query and writes no alert. So what it takes is a bound from below for an engine that has Hyperscan
find these words. Texts are folded as the engine folds them, by full case folding, before the time is taken.
"""

from __future__ import annotations

import json
import shutil
import struct
import subprocess
from dataclasses import dataclass
from functools import cache
from typing import Any, Callable, Iterable, Iterator, Optional, Sequence

from embedded import TOP, text_of
from engine import Engine, EngineFailed, Exchange
from meaning import Key, extract
from prose import words_of
from queries import DEFAULT_FIELD, Group, Phrase, Prefix, Query, Word
from workload import line_of

SOURCE = TOP / "bench" / "literals.c"
DRIVER = TOP / "bench" / "out" / "literals"
NAME = "Hyperscan, words alone"
BOUND = """no engine: it finds the words of the queries in folded articles, wherever their letters stand, and does nothing
    else, so an engine that has it find them takes longer"""
FIELDS = (DEFAULT_FIELD, "title")
STATUS_MISSING = 3
MISSING = """Hyperscan can't be measured: its library, or gcc, is missing. Debian has both:

    apt-get install -y gcc libc6-dev libhyperscan-dev"""


@cache
def missing() -> str:
    """What to say where the scanner can't be compiled; nothing where it now is."""
    if shutil.which("gcc") is None:
        return MISSING
    DRIVER.parent.mkdir(exist_ok=True)
    words = ["gcc", "-std=c11", "-Wall", "-Wextra", "-Wfatal-errors", "-O2", str(SOURCE), "-o", str(DRIVER), "-lhs"]
    done = subprocess.run(words, capture_output=True, text=True, check=False)
    return "" if done.returncode == 0 else f"{MISSING}\n\n{done.stderr}"


def words_asked(query: Query) -> Iterator[Key]:
    """The words and fronts that a query names, also those that it excludes. A range names none."""
    if isinstance(query, Group):
        for _, child in query.clauses:
            yield from words_asked(child)
    elif isinstance(query, Word):
        yield Key("word", query.field, query.word)
    elif isinstance(query, Phrase):
        yield from (Key("word", query.field, word) for word in query.words)
    elif isinstance(query, Prefix):
        yield Key("front", query.field, query.front)


def keys_of(query: Query) -> Iterator[Key]:
    """The words and fronts by which the engine finds a query."""
    return (key for key in extract(query)[1] if key.text)


def between_blanks(key: Key) -> str:
    """A word between blanks, or a front behind one."""
    return f" {key.text} " if key.kind == "word" else f" {key.text}"


def in_blanks(text: str) -> str:
    """The words of a text with a blank before and behind each."""
    return " ".join(["", *words_of(text), ""])


@dataclass(frozen=True)
class Form:
    """Which words of a query are looked for, as which literals, and what a text is made to before it is read."""

    asked: Callable[[Query], Iterable[Key]]
    literal: Callable[[Key], str]
    prepared: Callable[[str], str]


FORMS = {
    "words": Form(words_asked, lambda key: key.text.casefold(), str.casefold),
    "keys": Form(keys_of, lambda key: key.text.casefold(), str.casefold),
    "blanks": Form(words_asked, lambda key: between_blanks(key).casefold(), lambda text: in_blanks(text).casefold()),
}


def literals_of(queries: Iterable[Query], form: Form) -> list[list[str]]:
    """The literals of each field, each once."""
    found: dict[str, set[str]] = {field: set() for field in FIELDS}
    for query in queries:
        for key in form.asked(query):
            found[key.field].add(form.literal(key))
    return [sorted(found[field]) for field in FIELDS]


def occurrences(text: str, literals: Iterable[str]) -> int:
    """How often a literal stands in a text, counted a second time in Python."""
    held = frozenset(literals)
    sizes = {len(literal) for literal in held}
    return sum(text[at:at + size] in held for size in sizes for at in range(len(text) - size + 1))


def number_of(number: int) -> bytes:
    """A number of a block."""
    return struct.pack("=Q", number)


def reply_to(asked: dict[str, Any], count: int) -> bytes:
    """A reply in the form of an engine's, by which no query holds of any article."""
    if asked["op"] == "match":
        return line_of({"alerts": [{"article": article["id"], "queries": []} for article in asked["articles"]]})
    return line_of({"registered": len(asked["queries"])} if asked["op"] == "register" else {"count": count})


class Literals(Engine):
    """The scanner, which takes lines as an engine does: the first that registers has it compile the words of all
    queries, and articles that come together are read in a row. What it finds in the first of them is checked."""

    def __init__(self, queries: Sequence[Query], form: Form = FORMS["words"]) -> None:
        super().__init__(NAME, f"'{DRIVER}'")
        self.literals = literals_of(queries, form)
        self.compiled_bytes = 0
        self.compiled_seconds = 0.0
        self.found = 0
        self._checked = False
        self._count = len(queries)
        self._prepared = form.prepared

    def exchange(self, lines: Sequence[bytes], replies: Optional[int] = None) -> Exchange:
        """Hands the words or the articles over; the times are those of Hyperscan."""
        asked = [json.loads(line) for line in lines]
        articles = [article["fields"] for line in asked for article in line.get("articles", ())]
        seconds = cpu_seconds = 0.0
        if articles:
            self._check(articles[0])
            seconds, cpu_seconds, found = self._call(b"a" + self._texts(articles))
            self.found += found
        elif "queries" in asked[0] and not self.compiled_bytes:
            seconds, cpu_seconds, self.compiled_bytes = self._call(b"w" + self._words())
            self.compiled_seconds = seconds
        return Exchange([reply_to(line, self._count) for line in asked], seconds, cpu_seconds)

    def _check(self, article: dict[str, str]) -> None:
        """Sees, once, that just the words of an article are found that Python finds."""
        if self._checked:
            return
        self._checked = True
        due = sum(occurrences(self._prepared(article.get(field, "")), literals)
                  for field, literals in zip(FIELDS, self.literals))
        _, _, found = self._call(b"a" + self._texts([article]))
        if found != due:
            raise EngineFailed(f"{self.name} finds {found} words in an article, and not {due}")

    def _texts(self, articles: Sequence[dict[str, str]]) -> bytes:
        """The articles of a block."""
        return number_of(len(articles)) + b"".join(
            text_of(self._prepared(fields.get(field, ""))) for fields in articles for field in FIELDS)

    def _words(self) -> bytes:
        """The words of a block."""
        return number_of(len(FIELDS)) + b"".join(
            number_of(len(words)) + b"".join(map(text_of, words)) for words in self.literals)

    def _call(self, block: bytes) -> tuple[float, float, int]:
        """Sends a block; the seconds by the clock and of processor time, and the number that is told."""
        self.send(memoryview(number_of(len(block)) + block))
        answer = self.receive()
        while not answer.endswith(b"\n"):
            answer += self.receive()
        clock, cpu, told = (int(number) for number in answer.split())
        return clock / 1e9, cpu / 1e9, told
