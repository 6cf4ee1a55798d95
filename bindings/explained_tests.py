"""Tests of what the library explains: queries, lines, and where words stand.

What is due is worked by hand, or told by `pressclip-explain` side by side.
"""

from __future__ import annotations

import ctypes
import json
import pickle
import re
from contextlib import contextmanager
from random import Random
from typing import Any, Callable, Iterator, TypeVar

from pressclip_tests.explain_tests import PIECES, explained, quoted
from pressclip_tests.inputs import Source
from pressclip_tests.texts_in_scripts import TEXTS

Watching = TypeVar("Watching")
RANDOM_QUERIES = 2_000
RANDOM_LINES = 400
# A text, its fault's word, and the character at which that is; where they differ the byte would be a later one.
FAULTS: tuple[tuple[str, str, int], ...] = (
    ("é [a TO b", "Lexical", 2),
    ("thé ?milk", "LeftOut", 4),
    ("日本 tea AND", "Structure", 10),
    ("é OR \"🍵\"", "NoWords", 5),
    ("日" * 30_000, "TooLong", 21_845))
# A query, and the fields of an article in which just the words in brackets are its hits.
MARKED: tuple[tuple[str, dict[str, str]], ...] = (
    ("+tea pric*", {"text": "[Tea] [prices] rise"}),
    ("\"grüner tee\"", {"text": "Grün: [Grüner] [Tee], grüner Kaffee, Tee"}),
    ("日 naïve", {"text": "🍵 [日]本語 [naïve] 🍵[日]"}),
    ("can't [wi TO wi]", {"text": "[Can't] stop 3.14 [Wi]-Fi"}),
    ("title:straße tea", {"title": "Die [Straße], die [STRASSE]", "text": "é [tea]", "author": "tea é"}))
# A line of the protocol, and what it is refused for: the word, and the member or the byte that is wrong.
LINES: tuple[tuple[bytes, str, str | None, int | None], ...] = (
    (b'{"op":"count"', "json", None, 13),
    ('{"é":1'.encode(), "json", None, 7),
    (b"\xff", "json", None, 0),
    (b'{"op":"\xff"}', "json", None, 7),
    (b'{7:"\xff"}', "json", None, 1),
    (b"x" * 1_048_577, "long", None, 1_048_576),
    (b'{"op":"counts"}', "shape", "op", None),
    (b'{"op":"delete","ids":["a",""]}', "limit", "ids[1]", None),
    (b'{"op":"register","queries":[{"id":"q1","query":"tea AND"}]}', "query", "queries[0].query", None))


# A text, two queries, the most words between them, and whether they are near in this order, and in any.
NEAR_TEXT = "The press-office of the Tea Board, Colombo: 🍵 TEA prices"
NEAR: tuple[tuple[str, str, int, bool, bool], ...] = (
    ("press", "office", 0, True, True),
    ("office", "(press)", 0, False, True),
    ("press", "board", 4, True, True),
    ("press", "board", 3, False, False),
    ("\"press office\"", "\"tea board\"", 2, True, True),
    ("\"press office\"", "\"tea board\"", 1, False, False),
    ("\"press office\"", "\"office of\"", 99, False, False),
    ("tea", "TEA", 2, True, True),
    ("tea", "tea", 1, False, False),
    ("pri*", "colom*", 1, False, True),
    ("press", "title:office", 99, False, False),
    ("title:press", "title:office", 0, False, False),
    ("pri*", "milk", 2 ** 80, False, False))
# Queries that are no word, phrase or prefix.
NO_PLACES = ("*:*", "-tea", "tea board", "[a TO b]", "+tea +board", "tea AND", "")


class Noted:
    """The library, with the texts noted whose words are asked for."""

    def __init__(self, library: Any) -> None:
        self.library = library
        self.texts: list[str] = []

    def __getattr__(self, name: str) -> Any:
        """Another call."""
        return getattr(self.library, name)

    def pressclip_words(self, text: bytes, *others: Any) -> Any:
        """Notes the text."""
        self.texts.append(text.decode())
        return self.library.pressclip_words(text, *others)


@contextmanager
def library_as(kind: Callable[[Any], Watching]) -> Iterator[Watching]:
    """What the package calls in the place of the library, which it is made of, for a while."""
    from pressclip import _calls

    library = _calls.LIBRARY
    watching = kind(library)
    setattr(_calls, "LIBRARY", watching)
    try:
        yield watching
    finally:
        setattr(_calls, "LIBRARY", library)


def texts_noted_in(work: Callable[[], object]) -> list[str]:
    """The texts whose words the package asks for in some work."""
    with library_as(Noted) as noted:
        work()
    return noted.texts


def by_explainer(member: str, texts: list[str]) -> list[bytes]:
    """What the program replies to each text, as this member."""
    asked = b"".join(json.dumps({member: text}).encode() + b"\n" for text in texts)
    replies = explained([], asked).stdout.split(b"\n")
    assert replies.pop() == b"" and len(replies) == len(texts), (len(replies), len(texts))
    return replies


def by_library(call: str, text: bytes) -> bytes:
    """What a call of the library hands out."""
    from pressclip import _calls

    return _calls.answer_of(getattr(_calls.LIBRARY, call), text, len(text))


def is_utf8(line: bytes) -> bool:
    """Whether a line is UTF-8."""
    try:
        line.decode()
    except UnicodeDecodeError:
        return False
    return True


def raised(kind: type[Exception], call: Callable[[], object]) -> Any:
    """What the call raises, which is of this kind and of no other."""
    try:
        call()
    except Exception as error:
        assert type(error) is kind, error
        return error
    raise AssertionError(f"not raised: {kind}")


def spans_in_brackets(marked: str) -> tuple[str, list[tuple[int, int]]]:
    """A text without its brackets, and where the words in them stand."""
    spans, taken = [], 0
    for found in re.finditer(r"\[(.*?)\]", marked):
        start = found.start() - taken
        spans.append((start, start + len(found[1])))
        taken += 2
    return re.sub(r"[\[\]]", "", marked), spans


def queries_are_explained_as_by_the_program() -> None:
    """Random texts, and texts in many scripts, byte for byte."""
    dice = Random("library explains")
    texts = ["".join(dice.choices(PIECES, k=dice.randint(0, 9))) for _ in range(RANDOM_QUERIES)]
    texts += ["+tea -(coffee milk*)", "🍵 " * 500, *TEXTS.values(), *(query for query, _, _ in FAULTS)]
    for text, reply in zip(texts, by_explainer("query", texts)):
        got = by_library("pressclip_explain", text.encode())
        assert got == reply, (text, got, reply)


def lines_are_explained_as_by_the_program() -> None:
    """Random lines, whole and cut, byte for byte; the program is asked in JSON, so only lines in UTF-8."""
    dice = Random("library explains lines")
    lines = [line for seed in range(20) for line in Source(seed, 12).lines(RANDOM_LINES // 20) if len(line) < 100_000]
    lines += [line[:dice.randint(0, len(line))] for line in lines]
    texts = [line.decode() for line in lines if is_utf8(line)]
    assert len(texts) > RANDOM_LINES
    for text, reply in zip(texts, by_explainer("line", texts)):
        got = by_library("pressclip_explain_line", text.encode())
        assert got == reply, (text, got, reply)


def words_stand_where_the_program_says() -> None:
    """In each script, by bytes and by characters, and each word folds to the program's."""
    from pressclip import _calls, word_spans

    for text, reply in zip(TEXTS.values(), by_explainer("text", list(TEXTS.values()))):
        words = json.loads(reply)["words"]
        encoded = text.encode()
        answer = _calls.answer_of(_calls.LIBRARY.pressclip_words, encoded, len(encoded), size=16)
        assert memoryview(answer).cast("Q").tolist() == [word[of] for word in words for of in ("start", "end")], text
        folded = [text[start:end].casefold() for start, end in word_spans(text)]
        assert folded == [word["word"] for word in words] and len(folded) > 3, (text, folded)


def words_stand_where_hand_says() -> None:
    """In characters, whatever stands between the words; text without words has none."""
    from pressclip import word_spans

    for marked in ("[Can't] [stop] [3.14] [Wi]-[Fi], [Straße]", "🍵 [日][本][語], [naïve]🍵🍵[a]", "", "🍵 -- "):
        text, spans = spans_in_brackets(marked)
        assert word_spans(text) == spans, (marked, word_spans(text))


def queries_are_near_as_hand_says() -> None:
    """As far as their words stand apart, in one field; a phrase from its end and to its start."""
    from pressclip import LimitError, Monitor, Refused, near_holds

    fields = {"text": NEAR_TEXT, "title": "Office press"}
    for first, second, between, in_order, in_any in NEAR:
        row = first, second, between
        assert near_holds(first, second, between, True, {"text": NEAR_TEXT, "title": ""}) == in_order, row
        assert near_holds(first, second, between, False, {"text": NEAR_TEXT, "title": ""}) == in_any, row
        with Monitor() as monitor:
            monitor.register("both", f"+({first}) +({second})")
            assert monitor.match({"id": "a", "fields": fields}) or not in_any, row
    assert near_holds("title:press", "title:office", 0, False, fields) and not near_holds("a", "a", 0, False, {})
    for query in NO_PLACES:
        for pair in ((query, "tea"), ("tea", query)):
            assert raised(Refused, lambda: near_holds(*pair, 0, False, fields)).word == "query", pair
    assert raised(LimitError, lambda: near_holds("a", "b", 0, False, {"no name": ""})).word == "limit"
    raised(ValueError, lambda: near_holds("a", "b", -1, False, fields))


def hits_are_the_words_in_brackets() -> None:
    """By field and position, each where it stands in its text."""
    from pressclip import Monitor

    for query, marked in MARKED:
        fields = {name: spans_in_brackets(text) for name, text in marked.items()}
        due = [(name, *span) for name in sorted(fields) for span in fields[name][1]]
        with Monitor(True) as monitor:
            monitor.register("q", query)
            (found,) = monitor.match({"id": "a", "fields": {name: text for name, (text, _) in fields.items()}})
        assert [(hit.field, hit.start, hit.end) for hit in found.hits] == due, (query, found)


def a_hit_has_the_position_of_its_word() -> None:
    """In each script, of a query for each word."""
    from pressclip import Monitor, word_spans

    for text in TEXTS.values():
        spans = word_spans(text)
        with Monitor(True) as monitor:
            for number, (start, end) in enumerate(spans):
                monitor.register(str(number), quoted(text[start:end]))
            found = monitor.match({"id": "a", "fields": {"text": text}})
        assert len(found) == len(spans), text
        hits = [(hit.position, (hit.start, hit.end)) for one in found for hit in one.hits]
        assert hits and all(spans[position] == span for position, span in hits), (text, hits)


def words_are_looked_up_once_for_a_field_with_hits() -> None:
    """However many queries have hits there, and never in a monitor that shows none."""
    from pressclip import Monitor

    article = {"id": "a", "fields": {"text": "tea milk tea", "title": "green tea", "author": "nobody"}}
    for hits, due in ((True, ["green tea", "tea milk tea"]), (False, [])):
        with Monitor(hits) as monitor:
            for query in ("tea", "milk", "title:tea", "title:green tea", "*:*"):
                monitor.register(query, query)
            texts = texts_noted_in(lambda: monitor.match(article))
        assert sorted(texts) == due, texts


def an_explanation_has_its_members() -> None:
    """As they are worked out by hand, and the remark on a blank at its character."""
    from pressclip import explain

    told = explain('Tea AND (title:"green house" pric* [a TO b}) -*:*')
    assert told.says.startswith("No article can hold"), told.says
    clauses: list[Any] = [
        {"occur": "must", "tree": {"term": {"field": "text", "word": "tea"}}},
        {"occur": "must", "tree": [
            {"occur": "should", "tree": {"phrase": {"field": "title", "words": ["green", "house"]}}},
            {"occur": "should", "tree": {"prefix": {"field": "text", "front": "pric"}}},
            {"occur": "should", "tree": {"range": {"field": "text", "low": {"included": True, "text": "a"},
                                                   "high": {"included": False, "text": "b"}}}}]},
        {"occur": "must_not", "tree": "all"}]
    assert told.tree == clauses, told.tree
    assert told.reads == '+text:tea +(title:"green house" text:pric* text:["a" TO "b"}) -*:*', told.reads
    assert told.words == ["tea", "green", "house", "pric"] and told.keys == [{"field": "text", "word": "tea"}], told
    assert (told.weight, told.nodes) == (3, 7), told
    assert (told.never, told.always, told.tried_on_all) == (True, False, False), told
    blanks = [remark for remark in explain("+té -(coffee milk*)").remarks if remark.rule == "blank_is_or"]
    assert [(remark.at, remark.level) for remark in blanks] == [(13, "hint")] and blanks[0].says, blanks


def a_fault_is_told_at_its_character() -> None:
    """By `explain` and by a register, which changes nothing; it can be copied."""
    from pressclip import Monitor, QueryError, Refused, explain

    assert issubclass(QueryError, Refused)
    with Monitor() as monitor:
        for query, fault, at in FAULTS:
            calls: tuple[Callable[[], object], ...] = (lambda: explain(query), lambda: monitor.register("q", query))
            for call in calls:
                error = raised(QueryError, call)
                assert (error.word, error.which, error.fault, error.at) == ("query", 0, fault, at), (query[:40], error)
                assert len(error.message.split()) > 5 and str(error).endswith(error.message), error
                again = pickle.loads(pickle.dumps(error))
                assert type(again) is QueryError and vars(again) == vars(error), again
        assert monitor.count() == 0


def a_line_has_its_fault() -> None:
    """The word, a sentence, and the member or the byte; none where the line would be taken, or is blank."""
    from pressclip import LineFault, Refused, explain_line

    for line, word, member, at in LINES:
        fault = explain_line(line)
        assert fault is not None and fault.says and fault == LineFault(word, fault.says, member, at), (line, fault)
    for line in (b'{"op":"count"}', b"", b" \t\r"):
        assert explain_line(line) is None, line
    assert raised(Refused, lambda: explain_line(b'{"op":"count"}\n')).word == "feed"


def half_of_a_surrogate_pair_is_no_text() -> None:
    """No call takes it, and nothing changes."""
    from pressclip import Monitor, explain, near_holds, word_spans

    with Monitor(True) as monitor:
        for call in (lambda: explain("tea \ud800"), lambda: word_spans("tea \ud800"),
                     lambda: near_holds("tea \ud800", "tea", 0, False, {}),
                     lambda: near_holds("tea", "tea", 0, False, {"text": "tea \ud800"}),
                     lambda: monitor.register("q", "tea \ud800"), lambda: monitor.register("\ud800", "tea"),
                     lambda: monitor.match({"id": "a", "fields": {"text": "tea \ud800"}})):
            raised(UnicodeEncodeError, call)
        assert monitor.count() == 0


def pointers_and_texts_are_looked_at() -> None:
    """What only a caller in C can do, each with its status, and nothing written."""
    from pressclip import _calls

    library = _calls.LIBRARY
    answer, count = ctypes.c_void_p(), ctypes.c_size_t(7)
    to_answer, to_count = ctypes.byref(answer), ctypes.byref(count)
    for call in (library.pressclip_explain, library.pressclip_explain_line, library.pressclip_words):
        cases: list[tuple[str, tuple[Any, ...]]] = [
            ("null", (None, 0, to_answer, to_count)), ("null", (b"tea", 3, None, to_count)),
            ("null", (b"tea", 3, to_answer, None)), ("size", (b"tea", 2 ** 63, to_answer, to_count)),
            ("feed", (b"tea\n", 4, to_answer, to_count)) if call is library.pressclip_explain_line
            else ("utf8", (b"tea\xff", 4, to_answer, to_count))]
        for word, arguments in cases:
            status = call(*arguments)
            assert library.pressclip_word(ctypes.c_int(status)).decode() == word, (call, arguments, status)
            assert (answer.value, count.value) == (None, 7), (call, arguments)


def pairs_are_looked_at() -> None:
    """What only a caller in C can do with a pair and its fields, each with its status, and nothing written."""
    from pressclip import _calls

    near, field = ctypes.c_bool(True), _calls.fields_of([(b"text", b"milk")])
    to_near, tea = ctypes.byref(near), _calls.Pair(b"tea", 3, b"tea", 3, 0, False)
    cases: list[tuple[str, tuple[Any, ...]]] = [
        ("null", (field, 1, None, to_near)), ("null", (field, 1, ctypes.byref(tea), None)),
        ("null", (None, 1, ctypes.byref(tea), to_near)), ("size", (field, 1_000_001, ctypes.byref(tea), to_near))]
    for word, pair in (("null", (None, 0, b"tea", 3)), ("null", (b"tea", 3, None, 0)),
                       ("size", (b"tea", 2 ** 63, b"tea", 3)), ("size", (b"tea", 3, b"tea", 2 ** 63)),
                       ("utf8", (b"tea\xff", 4, b"tea", 3)), ("utf8", (b"tea", 3, b"tea\xff", 4))):
        cases.append((word, (field, 1, ctypes.byref(_calls.Pair(*pair, 0, False)), to_near)))
    for word, arguments in cases:
        status = _calls.LIBRARY.pressclip_near(*arguments)
        assert _calls.LIBRARY.pressclip_word(ctypes.c_int(status)).decode() == word, (arguments, status)
        assert near.value, arguments
    assert _calls.LIBRARY.pressclip_near(field, 1, ctypes.byref(tea), to_near) == 0 and not near.value


TESTS: tuple[Callable[[], None], ...] = (
    queries_are_explained_as_by_the_program, lines_are_explained_as_by_the_program, words_stand_where_the_program_says,
    words_stand_where_hand_says, queries_are_near_as_hand_says, hits_are_the_words_in_brackets,
    a_hit_has_the_position_of_its_word, words_are_looked_up_once_for_a_field_with_hits, an_explanation_has_its_members,
    a_fault_is_told_at_its_character, a_line_has_its_fault, half_of_a_surrogate_pair_is_no_text,
    pointers_and_texts_are_looked_at, pairs_are_looked_at)
