"""Tests of `pressclip-explain` by rows that are worked out by hand."""

from __future__ import annotations

from typing import Callable

from .explain_rows import FAULTS, HINTS, LINES, QUERIES, REMARKS, TAKEN, WORDS
from .explain_tests import told_of
from .judge import need


def each_query_has_its_parts() -> None:
    """Its spelling, nodes, weight, and what is sure of it; and so has the query of its spelling."""
    texts = [row[0] for row in QUERIES] + [row[1] for row in QUERIES]
    for row, told in zip([*QUERIES, *QUERIES], told_of([{"query": text} for text in texts])):
        sure = {"all": told["tried_on_all"], "never": told["never"], "always": told["always"]}
        found = (told["reads"], told["nodes"], told["weight"], {word for word, is_so in sure.items() if is_so})
        need(found == row[1:], f"{row[0]!r} is {found}")


def each_fault_has_its_place() -> None:
    """The word of the fault, and the byte."""
    for (text, word, at), told in zip(FAULTS, told_of([{"query": text} for text, _, _ in FAULTS])):
        need((told["fault"], told["at"]) == (word, at), f"{text[:40]!r} is {told}")


def each_word_has_its_place() -> None:
    """The first byte and the end of each."""
    for (text, due), told in zip(WORDS, told_of([{"text": text} for text, _ in WORDS])):
        need([(word["start"], word["end"]) for word in told["words"]] == due, f"{text!r} is {told}")


def each_query_has_its_remarks() -> None:
    """Those that are no hints, and of some texts all of them; a text that is no query has none."""
    for rows, levels in ((REMARKS, {"notice", "warning"}), (HINTS, {"hint", "notice", "warning"})):
        for (text, due), told in zip(rows, told_of([{"query": text} for text, _ in rows])):
            found = [(it["at"], it["rule"]) for it in told.get("remarks", []) if it["level"] in levels]
            need(found == due, f"{text!r} has {found}")


def each_rule_has_its_level() -> None:
    """A warning, a notice and a hint, and the sentence of one of them."""
    blank, capitals, field = (told["remarks"] for told in told_of(
        [{"query": "Siemens Energy"}, {"query": "tea AND WHO"}, {"query": "headline:tea*"}]))
    says = "A blank is read as OR: write AND between the two, or quotes around them."
    need(("bare_blank", "warning", says) in [(it["rule"], it["level"], it["says"]) for it in blank], f"{blank}")
    need(("capitals", "notice") in [(it["rule"], it["level"]) for it in capitals], f"{capitals}")
    need([(it["rule"], it["level"]) for it in field] == [("other_field", "hint")], f"{field}")


def each_line_has_its_cause() -> None:
    """The word, the byte or the member, and what is said of it; none where nothing in it is refused."""
    for (line, word, place, says), told in zip(LINES, told_of([{"line": line} for line, *_ in LINES])):
        due = {"refused": word, "at" if isinstance(place, int) else "member": place, "says": says}
        need(told == due, f"{line[:80]} is {told}")
    for line, told in zip(TAKEN, told_of([{"line": line} for line in TAKEN])):
        need(told == {"refused": None}, f"{line[:80]} is {told}")


TESTS: tuple[Callable[[], None], ...] = (
    each_query_has_its_parts, each_fault_has_its_place, each_word_has_its_place, each_query_has_its_remarks,
    each_rule_has_its_level, each_line_has_its_cause)
