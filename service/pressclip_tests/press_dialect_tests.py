"""Tests of the dialect: rows of queries as desks write them, with articles of which they hold and of which not."""

from __future__ import annotations

import re
from collections.abc import Callable, Mapping
from itertools import product
from pathlib import Path
from random import Random
from typing import Any

from pressclip_press.choices import Choices
from pressclip_press.door import Desk
from pressclip_press.filtering import NearEach, Pages
from pressclip_press.near import Gaps, Span, away, near_holds, near_spans, proved_near, slop_spans
from pressclip_press.preparing import Preparer
from pressclip_press.profile import Profile
from pressclip_press.reading import read
from pressclip_press.sources import Source, source_in, with_source
from pressclip_press.translating import part_of
from pressclip_press.tree import (All, AtLeast, Has, Near, Not, Often, Place, Range, Refused, Same, Slop, Some, Term,
                                  Tree, Unit)
from pressclip_press.words import folded_words, spans_of

from .explain_tests import told_of
from .judge import need
from .press_runs import asked, explained, rows_of

# Of the rows of press desks: those that can't be said, with the byte, and those whose other sense is told, by the rule.
REFUSED: Mapping[str, int] = {"wind AND OR solar": 5, "roam~": 0, "wind – solar": 5, "(tea OR coffee": 0, "tea OR": 4}
TOLD: Mapping[str, str] = {"Orange": "capitals", "Umwelt": "whole_words"}
PAGE = Path(__file__).resolve().parents[2] / "docs" / "QUERIES.md"
PIECES = ["tea", "Title", "wi-fi", "é", "日本", " ", " ", " ", "+", "-", "!", "(", ")", "\"", "*", "*:*", "title:", ":",
          "AND", "OR", "NOT", "&&", "||", "&", "|", "[", "]", "{", "}", "[a TO b]", "\\", "~", "^2", "NEAR/3", "w/5",
          "/s", "/", "?", ".", "'", "\t", "\u3000", "“", "„", "«", ",", ";", "atleast2(", "2 of (", "exact:", "date:2026",
          "#", "C++", "❤", "–", "has:author", "site:", "near", "and", "or", "not", "\u200f", "<", ">", "=", "\ud83d"]
RANDOM_QUERIES = 6_000
COMMON = [*"abcXYZ1290_.,:;'\" -\n#&@", "é", "ß", "Ø", "ö", "Я", "ё", "Ω", "ς", "—", "“", "…", "€", "ỹ", "İ", "ŉ"]
RANDOM_SPANS = 4_000
RANDOM_TEXTS = 2_000
KNOWN = frozenset(("text", "title", "body", "author", "date", "reach", "url", "host", "language", "country", "source"))


def each_row_of_press_desks() -> None:
    """As it is meant, but for those that are refused at their place, and two whose other sense is told."""
    rows = rows_of("queries_of_press_desks.jsonl")
    found = asked([(row["query"], [article["fields"] for article in row["articles"]]) for row in rows])
    for row, told, held in zip(rows, explained([row["query"] for row in rows]), found):
        query = row["query"]
        need((held is None) == (query in REFUSED) == ("fault" in told), f"{query} is {told}")
        if held is None:
            need(told["at"] == REFUSED[query], f"{query} is refused at {told['at']}")
            continue
        due = [article["holds"] for article in row["articles"]]
        if query in TOLD:
            need(any(remark["rule"] == TOLD[query] and remark["at"] == 0 for remark in told["remarks"]),
                 f"{query} is not told: {told['remarks']}")
            continue
        need(held == due, f"{query} holds {held} of {row['articles']}: {told}")


def each_row_of_media_tools() -> None:
    """Queries in the habits of tools: articles of which they hold and of which not, refusals and notices at places."""
    rows = rows_of("queries_of_media_tools.jsonl")
    found = asked([(row["query"], [*row.get("holds", []), *row.get("not", [])]) for row in rows])
    for row, told, held in zip(rows, explained([row["query"] for row in rows]), found):
        query = row["query"]
        if "refused" in row:
            first, last = (len(query[:end].encode()) for end in row["refused"])
            need("fault" in told and first <= told["at"] < max(last, first + 1), f"{query} is {told}")
            continue
        need(held == [True] * len(row.get("holds", [])) + [False] * len(row.get("not", [])),
             f"{query} holds {held} of {row}: {told}")
        spoken = {remark["at"] for remark in told["remarks"] if remark["level"] != "hint"}
        places = {len(query[:place].encode()) for place in row.get("told", [])}
        need(places <= spoken, f"{query}: told at {sorted(spoken)}, and {sorted(places)} is due")


def each_row_of_the_page() -> None:
    """The first query of each row of docs/QUERIES.md holds of the text beside it, and not of what it passes over."""
    rows: list[tuple[str, list[dict[str, str]]]] = []
    for line in PAGE.read_text().splitlines():
        row = [re.findall(r"`([^`]+)`", cell) for cell in re.split(r"(?<!\\)\|", line.strip().strip("|"))]
        if line.startswith("| ") and len(row) in (3, 4) and row[len(row) - 3] and row[len(row) - 2 + (len(row) == 3)]:
            articles = [{"text": cell[0]} for cell in row[2:] if cell]
            rows.append((row[len(row) - 3][0].replace("\\|", "|"), articles))
    need(len(rows) >= 35, f"the page has {len(rows)} rows")
    for (query, articles), held in zip(rows, asked(rows)):
        need(held == [True, False][:len(articles)], f"{query} holds {held} of {articles}")


def word(text: str, start: int, **more: Any) -> Term:
    """A word where it stands."""
    return Term(Place(start, start + len(text)), text, **more)


TREES: tuple[tuple[str, Tree], ...] = (
    ("a OR b AND c", Some(Place(0, 12), (word("a", 0), All(Place(5, 12), (word("b", 5), word("c", 11)))))),
    ("a NOT b", All(Place(0, 7), (word("a", 0), Not(Place(2, 7), word("b", 6))))),
    ("a w/5 b", Near(Place(0, 7), word("a", 0), word("b", 6), 5)),
    ("a pre/5 b", Near(Place(0, 9), word("a", 0), word("b", 8), 5, ordered=True)),
    ("a NOT NEAR/5 b", Near(Place(0, 14), word("a", 0), word("b", 13), 5, unless=True)),
    ("a /s b", Same(Place(0, 6), word("a", 0), word("b", 5), Unit.SENTENCE)),
    ("a /p b", Same(Place(0, 6), word("a", 0), word("b", 5), Unit.PARAGRAPH)),
    ("2 of (a, b)", AtLeast(Place(0, 10), 2, (word("a", 6), word("b", 9)))),
    ("atleast3(a)", Often(Place(0, 10), 3, word("a", 9))),
    ('"a b"~4', Slop(Place(0, 7), Term(Place(0, 5), "a b", quoted=True), 4)),
    ("has:author", Has(Place(0, 10), "author")),
    ("reach:>5", Range(Place(0, 8), "reach", "5", None, False, False)),
    ("date:[2026-01-01 TO *]", Range(Place(5, 22), "date", "2026-01-01", None, True, True)),
    ("headline:a", Term(Place(0, 10), "a", field="title")),
)


def each_form_is_its_tree() -> None:
    """Forms of the grammar, each with the tree that it is, by hand."""
    for query, due in TREES:
        tree = read(query, Choices(), KNOWN).tree
        need(tree == due, f"{query} is {tree}")


def blanks_are_as_the_profile_says() -> None:
    """A bare blank is AND, OR, or joins names of capitals."""
    for blank, due in (("and", All), ("or", Some), ("phrase", Term)):
        tree = read("Siemens Energy", Choices.of({"blank": blank}), KNOWN).tree
        need(type(tree) is due, f"with {blank} it is {tree}")
    tree = read("Siemens Energy wins", Choices.of({"blank": "phrase"}), KNOWN).tree
    need(isinstance(tree, All) and tree.parts[0] == Term(Place(0, 14), "Siemens Energy"), f"the name is {tree}")


def any_text_is_read_or_refused() -> None:
    """A text of random pieces is read, or refused at a place within it; nothing else comes."""
    dice = Random("press")
    texts = ["".join(dice.choices(PIECES, k=dice.randint(1, 9))) for _ in range(RANDOM_QUERIES)]
    refused = 0
    for text in texts:
        try:
            read(text, Choices(), KNOWN)
        except Refused as why:
            refused += 1
            need(0 <= why.place.start < why.place.end <= max(len(text), 1), f"{text!r} is refused at {why.place}")
            need(len(why.says.split()) > 3, f"{text!r} is refused without a sentence")
    need(RANDOM_QUERIES // 10 < refused < RANDOM_QUERIES, f"{refused} are refused")


def a_source_is_in_its_query() -> None:
    """What a desk wrote comes back from the engine's query, whatever it was."""
    for text in ("tea", "z zz zzz", "\"x\" press:nab", "日本 (Nestlé)", "\u0000\U0010ffff\\", ""):
        for heard in (True, False):
            source = Source(text, heard)
            need(source_in(with_source("(+a +b)", source)) == source, f"{text!r} comes back as another")
    for query in ("tea", "+tea press:q", "+tea press:nz", "tea press:nab", "+tea press:nz4", "+tea press:nzff"):
        need(source_in(query) is None, f"{query} has no source")


def pair_is_near(one: Span, other: Span, within: int, ordered: bool, sentences: list[int]) -> bool:
    """Whether two spans are near, by the definition."""
    def gap(earlier: Span, later: Span) -> int:
        return later[0] + sentences[later[0]] - earlier[1] - sentences[earlier[1]]

    return 1 <= gap(one, other) <= within or not ordered and 1 <= gap(other, one) <= within


def nearness_is_its_definition() -> None:
    """Which spans are near, and which have none near, of random ones, pair by pair; and slop by each choice of places."""
    dice = Random("near")
    for _ in range(RANDOM_SPANS):
        count = dice.randint(2, 14)
        sentences = sorted(dice.randint(0, 2) for _ in range(count))
        left, right = (sorted({(start, min(count - 1, start + dice.randint(0, 2)))
                               for start in dice.choices(range(count), k=dice.randint(0, 4))}) for _ in range(2))
        within, ordered = dice.randint(1, 5), dice.random() < 0.5
        near = [(one, other) for one in left for other in right
                if pair_is_near(one, other, within, ordered, sentences)]
        gaps = Gaps(sentences)
        need(near_holds(left, right, within, ordered, gaps) == bool(near), f"{left} {right} {within} {ordered}")
        hulls = sorted({(min(one[0], other[0]), max(one[1], other[1])) for one, other in near})
        need(near_spans(left, right, within, ordered, gaps) == hulls, f"{left} {right} {within} {ordered}")
        alone = [one for one in left if one not in [first for first, _ in near]]
        need(away(left, right, within, ordered, gaps) == alone, f"{left} {right} {within} {ordered}")
        places = [sorted(set(dice.choices(range(9), k=dice.randint(1, 4)))) for _ in range(dice.randint(1, 3))]
        chosen = [held for held in product(*places) if len(set(held)) == len(held)]
        moves = [[place - number for number, place in enumerate(held)] for held in chosen]
        is_near = any(max(moved) - min(moved) <= within for moved in moves)
        need(bool(slop_spans(places, within)) == is_near, f"{places} with {within} moves")


def a_desk_explains_and_tries() -> None:
    """What the door asks: how a query is read, with bytes for places, and whether it holds of an article."""
    desk = Desk()
    need(desk.explain("é AND") == {"at": 3, "fault": "end", "says": "Something is missing behind AND."}, "the fault")
    told = desk.explain("日本 NEAR tea")
    need((told["query"], told["filtered"]) == ('(+"日 本" +tea)', True), f"it is {told}")
    need([(one["at"], one["rule"]) for one in told["remarks"] if one["level"] == "notice"] == [(7, "near_without_number")],
         f"told is {told['remarks']}")
    need(desk.holds("日本 NEAR/2 tea", {"title": "日本 tea"}) and not desk.holds("exact:Tea", {"text": "tea"}), "tried")


def nearness_is_the_librarys() -> None:
    """What the library proves of two words or beginnings is what is judged by places."""
    dice = Random("library")
    assert proved_near is not None
    sides = ["tea", "milk", '"green tea"', "te*", "green"]
    preparer = Preparer(Profile.load(None))
    for _ in range(RANDOM_TEXTS):
        text = "".join(word + dice.choice([" ", " ", " ", ". ", ", ", "\n\n"])
                       for word in dice.choices(["tea", "Tea", "milk", "green", "ten", "A"], k=dice.randint(0, 12)))
        left, right = dice.choice(sides), dice.choice(sides)
        operator = dice.choice(["NEAR/1", "NEAR/3", "ONEAR/2"])
        part = part_of(f"{left} {operator} {right}", preparer)
        assert isinstance(part, NearEach)
        by_library = part.holds(Pages(preparer.prepared({"text": text})))
        need(bool(part.spans(Pages(preparer.prepared({"text": text})))) == by_library, f"{left} {operator} {right}: {text!r}")


def words_are_the_engines() -> None:
    """Texts of common scripts are cut as the engine cuts them."""
    dice = Random("words")
    texts = ["".join(dice.choices(COMMON, k=dice.randint(1, 12))) for _ in range(RANDOM_TEXTS)]
    for text, told in zip(texts, told_of([{"text": text} for text in texts])):
        due = [(len(text.encode()[:one["start"]].decode()), len(text.encode()[:one["end"]].decode()))
               for one in told["words"]]
        need(list(spans_of(text)) == due, f"{text!r} is cut at {spans_of(text)}, and {due} are due")
        need(list(folded_words(text)) == [one["word"] for one in told["words"]], f"{text!r} is {folded_words(text)}")


# Where the library isn't built, nothing is judged by it.
OF_THE_LIBRARY = (nearness_is_the_librarys,) if proved_near else ()
TESTS: tuple[Callable[[], None], ...] = (
    each_form_is_its_tree, blanks_are_as_the_profile_says, a_source_is_in_its_query, any_text_is_read_or_refused,
    a_desk_explains_and_tries, words_are_the_engines, nearness_is_its_definition, *OF_THE_LIBRARY,
    each_row_of_press_desks, each_row_of_media_tools, each_row_of_the_page)
