"""The laws of the press dialect by random cases. A query that is translated, run by the engine and filtered holds of
just the articles of which the judge says that the tree holds from which it was written. And it finds each word that the
plain query finds in the article as it was given. Rows by hand beside them."""

from __future__ import annotations

import json
import os
from collections import Counter
from collections.abc import Callable, Iterator, Mapping, Sequence
from concurrent.futures import ProcessPoolExecutor
from dataclasses import dataclass, fields, is_dataclass
from random import Random

from pressclip_press.lines import fields_of
from pressclip_press.preparing import Preparer
from pressclip_press.profile import Profile
from pressclip_press.translating import Translated, translate
from pressclip_press.tree import (All, AtLeast, Has, Near, Not, Often, Place, Range, Same, Slop, Some, Term, Tree)
from pressclip_press.words import spans_of

from .explain_tests import told_of
from .judge import need, replies_of_engine
from .press_inputs import Maker
from .press_judge import Judge, Span
from .press_preparing_tests import APOSTROPHES, random_text, words_of
from .press_runs import asked, explained, rows_of

CASES = 100_000
CHUNKS = 20
QUERIES, ARTICLES = 50, 10
BATCHES = CASES // CHUNKS // QUERIES // ARTICLES
LEVELS = 2
TEXTS_OF_WORDS = 150
LEAST_OF_KIND = 200
LEAST_DECIDED = 1_000
KINDS = (All, AtLeast, Has, Near, Not, Often, Range, Same, Slop, Some, Term)


@dataclass(frozen=True)
class Batch:
    """Queries, each with its tree, and articles."""

    trees: list[Tree]
    texts: list[str]
    translated: list[Translated]
    articles: list[dict[str, str]]


def batch_of(maker: Maker, preparer: Preparer) -> Batch:
    """A batch of a maker's queries and articles."""
    trees = [maker.tree(LEVELS) for _ in range(QUERIES)]
    texts = [maker.written(tree)[0] for tree in trees]
    articles = [maker.article() for _ in range(ARTICLES)]
    return Batch(trees, texts, [translate(text, preparer) for text in texts], articles)


def alerts_of(batches: Sequence[Batch], preparer: Preparer) -> list[list[set[int]]]:
    """For each batch and each of its articles the numbers of the queries that the engine alerts."""
    lines: list[dict[str, object]] = []
    for batch in batches:
        queries = [{"id": str(number), "query": one.query} for number, one in enumerate(batch.translated)]
        prepared = [fields_of(preparer.prepared(given), None) for given in batch.articles]
        articles = [{"id": str(number), "fields": made} for number, made in enumerate(prepared)]
        lines += [{"op": "register", "queries": queries}, {"op": "match", "articles": articles}, {"op": "clear"}]
    replies = replies_of_engine(b"".join(json.dumps(line).encode() + b"\n" for line in lines)).splitlines()
    need(len(replies) == len(lines) and not any(b'"refused"' in reply for reply in replies), "a line is refused")
    matched = [json.loads(reply)["alerts"] for reply in replies[1::3]]
    return [[set(map(int, alert["queries"])) for alert in alerts] for alerts in matched]


def cutter(texts: Sequence[str]) -> Callable[[str], Sequence[Span]]:
    """What gives the words of these texts, in characters, as `pressclip-explain` cuts them."""
    known = list(dict.fromkeys(texts))
    places: dict[str, list[Span]] = {}
    for text, told in zip(known, told_of([{"text": text} for text in known])):
        at: dict[int, int] = {}
        size = 0
        for place, char in enumerate(text):
            at[size] = place
            size += len(char.encode())
        at[size] = len(text)
        places[text] = [(at[word["start"]], at[word["end"]]) for word in told["words"]]
    return places.__getitem__


def terms_in(tree: object) -> Iterator[Term]:
    """The terms of a tree."""
    if isinstance(tree, Term):
        yield tree
    elif isinstance(tree, tuple):
        for part in tree:
            yield from terms_in(part)
    elif is_dataclass(tree) and not isinstance(tree, Place):
        for field in fields(tree):
            yield from terms_in(getattr(tree, field.name))


def kinds_in(tree: object) -> set[type]:
    """The kinds of a tree's parts."""
    found: set[type] = {type(tree)} if isinstance(tree, KINDS) else set()
    if isinstance(tree, tuple):
        for part in tree:
            found |= kinds_in(part)
    elif is_dataclass(tree) and not isinstance(tree, (Place, type)):
        for field in fields(tree):
            found |= kinds_in(getattr(tree, field.name))
    return found


def judge_of(batches: Sequence[Batch], preparer: Preparer) -> Judge:
    """A judge who knows the words of all that is in the batches."""
    blank = Judge(preparer, lambda text: ())
    texts: list[str] = []
    for batch in batches:
        for given in batch.articles:
            texts += blank.article(given).texts()
        for term in terms_in(tuple(batch.trees)):
            texts += [*blank.terms(term), blank.mended(term.text)]
    return Judge(preparer, cutter(texts))


def tried(chunk: int) -> tuple[list[str], Mapping[tuple[str, bool], int], int]:
    """The cases of a chunk that differ, how often each kind of part is in a case that holds or does not, and how many
    alerts of the engine the filter ruled out."""
    preparer = Preparer(Profile.load(None))
    maker = Maker(f"press laws {chunk}")
    batches = [batch_of(maker, preparer) for _ in range(BATCHES)]
    judge = judge_of(batches, preparer)
    differ: list[str] = []
    counts: Counter[tuple[str, bool]] = Counter()
    ruled_out = 0
    for batch, alerts in zip(batches, alerts_of(batches, preparer)):
        kinds = [kinds_in(tree) for tree in batch.trees]
        for given, alerted in zip(batch.articles, alerts):
            hearing, article = judge.article(given), preparer.prepared(given)
            for number, tree in enumerate(batch.trees):
                asks = batch.translated[number].filter
                holds = number in alerted and (asks is None or asks.holds(article))
                ruled_out += number in alerted and not holds
                due = hearing.holds(tree)
                counts.update((kind.__name__, due) for kind in kinds[number])
                if holds != due:
                    missed = "" if number in alerted else ", and the engine does not alert"
                    differ.append(f"{batch.texts[number]!r} {'holds' if due else 'does not hold'} of {given}{missed}: "
                                  f"{batch.translated[number].query}")
    return differ, counts, ruled_out


def lost(chunk: int) -> tuple[list[str], int]:
    """The words of random texts that a query in quotes does not find, and how many were looked for."""
    preparer = Preparer(Profile.load(None))
    dice = Random(f"press words {chunk}")
    texts = cut_alike([random_text(dice) for _ in range(TEXTS_OF_WORDS)], preparer)
    batches: list[Batch] = []
    words: list[list[str]] = []
    for text, found in zip(texts, words_of(texts)):
        asked = {one for pair in found for one in pair if one[0].isalnum() and one[0] not in APOSTROPHES}
        words.append(sorted(one for one in asked if not set(one) & set('"\\') and has_word(preparer, one)))
        translated = [translate(f'"{word}"', preparer) for word in words[-1]]
        batches.append(Batch([], [], translated, [{"text": text}]))
    missed: list[str] = []
    for batch, asked_of, (alerted,) in zip(batches, words, alerts_of(batches, preparer)):
        article = preparer.prepared(batch.articles[0])
        for number, word in enumerate(asked_of):
            asks = batch.translated[number].filter
            if number not in alerted or asks is not None and not asks.holds(article):
                missed.append(f"{word!r} of {batch.articles[0]}, by {batch.translated[number].query}")
    return missed, sum(map(len, words))


def cut_alike(texts: Sequence[str], preparer: Preparer) -> list[str]:
    """The texts that the filter cuts into words as the engine does. Where the library isn't built it has an expression,
    which cuts some texts with accents behind stops in another way."""
    mended = [preparer.mend(text) for text in texts]
    cut = cutter(mended)
    alike = [text for text, one in zip(texts, mended) if [(start, end) for start, end in spans_of(one)] == cut(one)]
    need(len(alike) > 0.8 * len(texts), f"{len(alike)} of {len(texts)} texts are cut alike")
    return alike


def has_word(preparer: Preparer, text: str) -> bool:
    """Whether something is left of a text when it is prepared."""
    return any(map(str.isalnum, preparer.plain(text)))


def no_word_is_lost_by_translating() -> None:
    """Each word of random texts in many scripts is found in its article, as it is written and in small letters."""
    tried_in_all = 0
    with ProcessPoolExecutor(os.cpu_count()) as pool:
        for missed, count in pool.map(lost, range(CHUNKS)):
            need(not missed, f"{len(missed)} words are lost, as {missed[:1]}")
            tried_in_all += count
    need(tried_in_all > CHUNKS * TEXTS_OF_WORDS, f"{tried_in_all} words were looked for")


def a_translated_query_means_what_the_judge_says() -> None:
    """In 100,000 random cases, of which enough hold and enough do not, with each kind of part."""
    counts: Counter[tuple[str, bool]] = Counter()
    decided = 0
    with ProcessPoolExecutor(os.cpu_count()) as pool:
        for differ, counted, ruled_out in pool.map(tried, range(CHUNKS)):
            need(not differ, f"{len(differ)} cases differ, as {differ[:1]}")
            counts.update(counted)
            decided += ruled_out
    for kind in KINDS:
        for due in (True, False):
            count = counts[kind.__name__, due]
            need(count >= LEAST_OF_KIND, f"{kind.__name__} is in {count} cases")
    need(decided >= LEAST_DECIDED, f"the filter decided {decided} cases")


def each_more_row_of_press_desks() -> None:
    """It holds of the articles that it should hold of, and of no other; or it is refused, or told, where the row says
    no more."""
    rows = rows_of("more_queries_of_press_desks.jsonl")
    need(len(rows) > 100, f"there are {len(rows)} rows")
    found = asked([(row["query"], [article["fields"] for article in row["articles"]]) for row in rows])
    for row, told, held in zip(rows, explained([row["query"] for row in rows]), found):
        due = [article["holds"] for article in row["articles"]]
        if None in due:
            need("fault" in told or not row.get("refused") and told["remarks"] != [], f"{row['query']} is {told}")
        else:
            need(held == due, f"{row['query']} holds {held} of {row['articles']}: {told}")


TESTS: tuple[Callable[[], None], ...] = (
    a_translated_query_means_what_the_judge_says, no_word_is_lost_by_translating, each_more_row_of_press_desks)
