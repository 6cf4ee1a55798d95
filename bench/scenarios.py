"""What is measured: each scenario makes the lines of one row of the table.

To add a row, write a function that takes a workload and a size and gives a
`Scenario`, and name it in `SCENARIOS`. `bench/run --scenario NAME` runs it.
"""

from __future__ import annotations

from dataclasses import dataclass, replace
from functools import partial
from itertools import cycle
from random import Random
from typing import Callable, Iterable

from prose import Article, words_of
from queries import Word, either, text_of
from workload import Workload, line_of, match_lines, register_lines

PASSES = 10

# Of how many articles each long one is made, and how many long ones are timed.
JOINED, LONG_ONES = (1, 16, 64, 256, 380), 3

# How many words a query of alternatives has, of how many one is a word of articles, and how many are registered a line.
ALTERNATIVES, ONE_IN, LONG_A_LINE = 1_000, 10, 64


@dataclass(frozen=True)
class Size:
    """How many queries are registered, and how many articles are sent to warm up and then timed."""

    queries: int
    warm: int
    timed: int

    @property
    def articles(self) -> int:
        """All articles of a row."""
        return self.warm + self.timed


@dataclass(frozen=True)
class Scenario:
    """The lines of a row, in passes. Where two engines are compared, they take the passes in turn.

    `articles` are those that are timed. `judged` says that Python can judge them
    by the registered queries: the timed lines leave these as they are, and no
    article is long. `in_lock_step` says that each timed line is sent once the
    one before it is answered. `label` names the row where its scenario has
    several. `workload` has the queries, where these are not those of the run.
    """

    size: Size
    register: list[list[bytes]]
    warm: list[bytes]
    timed: list[list[bytes]]
    articles: list[Article]
    judged: bool = True
    in_lock_step: bool = False
    label: str = ""
    workload: Workload | None = None


# Makes a row.
Maker = Callable[[Workload, Size], Scenario]


def cut(lines: list[bytes], passes: int) -> list[list[bytes]]:
    """The lines in as many runs of about one length, none of them empty."""
    count = max(1, min(passes, len(lines)))
    ends = [len(lines) * k // count for k in range(count + 1)]
    return [lines[start:end] for start, end in zip(ends, ends[1:])]


def articles_of(workload: Workload, size: Size) -> tuple[list[Article], list[Article]]:
    """The articles to warm up with, and those to time."""
    return workload.articles[:size.warm], workload.articles[size.warm:size.articles]


def scenario_of(workload: Workload, size: Size, per_register: int, per_match: int) -> Scenario:
    """Registers all, then matches all."""
    warm, timed = articles_of(workload, size)
    return Scenario(
        size,
        cut(register_lines(workload.named[:size.queries], per_register), PASSES),
        match_lines(warm, per_match),
        cut(match_lines(timed, per_match), PASSES),
        timed,
    )


def full_lines(workload: Workload, size: Size) -> Scenario:
    """Queries in lines of 1,024, then one article a line."""
    return scenario_of(workload, size, 1_024, 1)


def batches(workload: Workload, size: Size) -> Scenario:
    """Queries in lines of 1,024, then 16 articles a line."""
    return scenario_of(workload, size, 1_024, 16)


def lock_step(workload: Workload, size: Size) -> Scenario:
    """Queries in lines of 1,024, then one article a line, each once the one before it is answered."""
    return replace(full_lines(workload, size), in_lock_step=True)


def one_a_line(workload: Workload, size: Size) -> Scenario:
    """One query a line, then one article a line."""
    return scenario_of(workload, size, 1, 1)


def churn(workload: Workload, size: Size) -> Scenario:
    """Eight queries that are there get other texts, then four articles come one a line, again and again."""
    base = full_lines(workload, size)
    _, timed = articles_of(workload, size)
    named = workload.named[:size.queries]
    lines: list[bytes] = []
    for turn, at in enumerate(range(0, len(timed), 4)):
        places = [(turn * 8 + k) % len(named) for k in range(8)]
        changed = [(named[place][0], named[place - len(named) // 2][1]) for place in places]
        lines += register_lines(changed) + match_lines(timed[at:at + 4])
    return replace(base, timed=cut(lines, PASSES), judged=False)


def changes(workload: Workload, size: Size) -> Scenario:
    """Before each article one query that is new is registered and one is deleted, each by a line of its own."""
    base = full_lines(workload, size)
    _, timed = articles_of(workload, size)
    named = workload.named[:size.queries]
    lines: list[bytes] = []
    for turn, article in enumerate(timed):
        place = turn * 7_919 % len(named)
        lines += register_lines([(f"n{turn:07d}", named[place - len(named) // 2][1])])
        lines += [line_of({"op": "delete", "ids": [named[place][0]]})] + match_lines([article])
    return replace(base, timed=cut(lines, PASSES), judged=False)


def long_article(joined: int, workload: Workload, size: Size) -> Scenario:
    """Queries in lines of 1,024, then an article that is made of so many, again and again."""
    first = workload.articles[0]
    text = " ".join(article.text for article in workload.articles[:joined])
    articles = [Article(f"n{number}", first.title, text) for number in range(1 + LONG_ONES)]
    return Scenario(
        Size(size.queries, 1, LONG_ONES),
        cut(register_lines(workload.named[:size.queries]), PASSES),
        match_lines(articles[:1]),
        cut(match_lines(articles[1:]), LONG_ONES),
        articles[1:],
        judged=False,
        label=f"{len(text.split()):,} words",
    )


def one_word(workload: Workload, size: Size) -> Scenario:
    """Queries in lines of 1,024, then articles of one word, one a line."""
    short = [replace(article, title="", text=article.text.split()[0]) for article in workload.articles[:size.articles]]
    return replace(full_lines(replace(workload, articles=short), size), label="one word")


def mixed_lines(label: str, sizes: Iterable[int], workload: Workload, size: Size) -> Scenario:
    """Queries in lines of these sizes, again and again, then one article a line."""
    lines: list[bytes] = []
    at = 0
    for queries in cycle(sizes):
        if at >= size.queries:
            break
        lines += register_lines(workload.named[at:min(at + queries, size.queries)])
        at += queries
    return replace(full_lines(workload, size), register=cut(lines, PASSES), label=label)


def alternatives(workload: Workload, size: Size) -> Scenario:
    """Queries of 1,000 words, of which one is enough, then one article a line."""
    said = sorted({word for article in workload.articles for word in words_of(article.text)})
    words = said + [f"x{number:06d}" for number in range((ONE_IN - 1) * len(said))]
    rng = Random(ALTERNATIVES)
    queries = [either(*map(Word, rng.sample(words, ALTERNATIVES))) for _ in range(size.queries)]
    named = [(name, text_of(query)) for (name, _), query in zip(workload.named, queries)]
    own = replace(workload, queries=list(queries), named=named)
    return replace(full_lines(own, size), register=cut(register_lines(named, LONG_A_LINE), PASSES), workload=own)


def drawn(most: int) -> list[int]:
    """Numbers from 1 to the most one, in any order."""
    return Random(most).choices(range(1, most + 1), k=10_000)


def labelled(label: str, make: Maker, workload: Workload, size: Size) -> Scenario:
    """The row under another name."""
    return replace(make(workload, size), label=label)


WORKED = (partial(labelled, "1 a line", full_lines), one_word, partial(labelled, "16 a line", batches))

# By name, what makes each row.
SCENARIOS: dict[str, tuple[Maker, ...]] = {
    "full-lines": (full_lines,),
    "with-hits": (full_lines,),
    "batches": (batches,),
    "lock-step": (lock_step,),
    "one-a-line": (one_a_line,),
    "embedded": (one_a_line,),
    "churn": (churn,),
    "changes": (changes,),
    "long-articles": tuple(partial(long_article, joined) for joined in JOINED),
    "mixed-lines": (
        partial(mixed_lines, "lines of 3", [3]),
        partial(mixed_lines, "of 1 and 5", [1, 5]),
        partial(mixed_lines, "of 1 to 6", drawn(6)),
        partial(mixed_lines, "of 1 to 100", drawn(100)),
    ),
    "alternatives": (alternatives,),
    "quiet": WORKED,
    "busy": WORKED,
}
