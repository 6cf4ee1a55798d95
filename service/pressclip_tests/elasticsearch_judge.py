"""What queries of Elasticsearch mean, judged plainly: one document and one query at a time, over the fields of FIELDS.

Texts are made of letters, digits, blanks, hyphens and apostrophes, so that their words are easily told. It is written
from Elasticsearch's description of its queries alone.
"""

from __future__ import annotations

import re
from datetime import datetime, timedelta, timezone
from operator import ge, gt, le, lt
from typing import Any, Callable

Json = dict[str, Any]
FIELDS: Json = {"title": {"type": "text"}, "text": {"type": "text"}, "tag": {"type": "keyword"},
                "price": {"type": "double"}, "count": {"type": "integer"}, "day": {"type": "date"},
                "flag": {"type": "boolean"}, "by": {"properties": {"name": {"type": "text"}}}}
TEXTS = ("title", "text", "by.name")
_EPOCH = datetime(1970, 1, 1, tzinfo=timezone.utc)
_TESTS: dict[str, Callable[[Any, Any], bool]] = {"gt": gt, "gte": ge, "lt": lt, "lte": le}
_UNITS = {4: "year", 7: "month", 10: "day", 13: "hour", 16: "minute", 19: "second"}


def words(text: str) -> list[str]:
    """The words of a text, in lower case."""
    return re.findall(r"[a-z0-9]+(?:'[a-z0-9]+)*", text.lower())


def values(document: Json, path: str) -> list[Any]:
    """The values of a field."""
    found: list[Any] = [document]
    for name in path.split("."):
        found = [inner for outer in found if isinstance(outer, dict) and outer.get(name) is not None
                 for inner in (outer[name] if isinstance(outer[name], list) else [outer[name]]) if inner is not None]
    return found


def runs(document: Json, path: str) -> list[list[str]]:
    """The words of each value of a text."""
    return [words(text) for text in values(document, path)]


def all_words(document: Json, path: str) -> set[str]:
    """All words of a text."""
    return {word for run in runs(document, path) for word in run}


def has_phrase(document: Json, path: str, phrase: list[str]) -> bool:
    """Whether the words stand next to each other in one value."""
    return any(run[at:at + len(phrase)] == phrase for run in runs(document, path) for at in range(len(run)))


def span_of(day: str) -> tuple[int, int]:
    """The first and the last millisecond of a date whose parts may be left out."""
    if re.fullmatch(r"-?\d{5,}", day):
        return int(day), int(day)
    full = day + "0000-01-01T00:00:00"[len(day):]
    start = datetime.fromisoformat(full).replace(tzinfo=timezone.utc)
    unit = _UNITS[len(day)]
    if unit == "year":
        end = start.replace(year=start.year + 1)
    elif unit == "month":
        end = (start + timedelta(days=32)).replace(day=1)
    else:
        end = start + timedelta(**{unit + "s": 1})
    return (start - _EPOCH) // timedelta(milliseconds=1), (end - _EPOCH) // timedelta(milliseconds=1) - 1


def compared(path: str, value: Any) -> Any:
    """A value of a field that is no text, as it is compared."""
    if path == "day":
        return span_of(str(value))[0]
    if path == "flag":
        return value in (True, "true")
    return str(value) if path == "tag" else value


def in_range(document: Json, path: str, ends: Json) -> bool:
    """Whether one of the values lies between the ends."""
    found = all_words(document, path) if path in TEXTS else {compared(path, value) for value in values(document, path)}
    for name, end in ends.items():
        if path == "day":
            first, last = span_of(str(end))
            limit: Any = last if name in ("gt", "lte") else first
        else:
            limit = str(end) if path == "tag" else end
        found = {value for value in found if _TESTS[name](value, limit)}
    return bool(found)


def needed(spec: Any, count: int) -> int:
    """How many of so many clauses `minimum_should_match` asks for."""
    text = str(spec).strip()
    if "<" in text:
        result = count
        for condition in text.split():
            above, then = condition.split("<")
            if count <= int(above):
                return result
            result = needed(then, count)
        return result
    number = int(text.rstrip("%"))
    if text.endswith("%"):
        number = int(number * count / 100)
    return max(0, count + number if text.startswith("-") else number)


def has_term(document: Json, path: str, value: Any) -> bool:
    """Whether a field has a value, or a text has a word that is written so."""
    if path in TEXTS:
        return str(value) in all_words(document, path)
    if path == "day":
        return in_range(document, path, {"gte": value, "lte": value})
    return compared(path, value) in [compared(path, one) for one in values(document, path)]


def begins(document: Json, path: str, front: str) -> bool:
    """Whether a word of a text, or a value that is compared whole, begins so."""
    found = all_words(document, path) if path in TEXTS else values(document, path)
    return any(str(value).startswith(front) for value in found)


def matches(document: Json, path: str, about: Any) -> bool | None:
    """`match` in one field; None where its text has no words."""
    about = about if isinstance(about, dict) else {"query": about}
    if path not in TEXTS:
        return has_term(document, path, about["query"])
    asked = words(about["query"])
    if not asked:
        return None
    there = [word in all_words(document, path) for word in asked]
    if about.get("operator", "or").lower() == "and":
        return all(there)
    least = needed(about["minimum_should_match"], len(asked)) if "minimum_should_match" in about else 1
    return sum(there) >= (1 if len(asked) == 1 else max(1, least))


def of_empty(result: bool | None, about: Any) -> bool:
    """A result, or what a text without words means."""
    if result is not None:
        return result
    return isinstance(about, dict) and about.get("zero_terms_query", "none") == "all"


def phrase_in(document: Json, path: str, about: Any) -> bool | None:
    """`match_phrase` in one field."""
    asked = words(about["query"] if isinstance(about, dict) else about)
    return has_phrase(document, path, asked) if asked else None


def begun_in(document: Json, path: str, about: Json) -> bool | None:
    """`match_bool_prefix` in one field."""
    asked = words(about["query"])
    if not asked:
        return None
    there = [*(word in all_words(document, path) for word in asked[:-1]), begins(document, path, asked[-1])]
    return all(there) if about.get("operator", "or") == "and" else any(there)


def in_many(document: Json, about: Json) -> bool:
    """`multi_match`."""
    kind = about.get("type", "best_fields")
    if kind == "cross_fields":
        there = [any(word in all_words(document, path) for path in about["fields"]) for word in words(about["query"])]
        return bool(there) and (all(there) if about.get("operator", "or") == "and" else any(there))
    way = {"phrase": phrase_in, "bool_prefix": begun_in}.get(kind, matches)
    results = [way(document, path, about) for path in about["fields"]]
    told = [result for result in results if result is not None]
    return any(told) if told else of_empty(None, about)


def clauses(about: Json, name: str) -> list[Json]:
    """The clauses of one kind of a `bool`."""
    found = about.get(name, [])
    return found if isinstance(found, list) else [found]


def in_bool(document: Json, about: Json) -> bool:
    """`bool`."""
    must = [*clauses(about, "must"), *clauses(about, "filter")]
    should, must_not = clauses(about, "should"), clauses(about, "must_not")
    least = needed(about["minimum_should_match"], len(should)) if "minimum_should_match" in about else 0
    if should and not must:
        least = max(1, least)
    return (all(holds(document, query) for query in must) and not any(holds(document, query) for query in must_not)
            and sum(holds(document, query) for query in should) >= least)


def is_there(document: Json, path: str) -> bool:
    """Whether a field has a value."""
    return any(not isinstance(value, dict) or any(is_there(value, name) for name in value)
               for value in values(document, path))


def holds(document: Json, query: Json) -> bool:
    """Whether a query holds of a document."""
    (form, about), = query.items()
    if form in ("match_all", "match_none"):
        return form == "match_all"
    if form == "bool":
        return in_bool(document, about)
    if form == "constant_score":
        return holds(document, about["filter"])
    if form == "dis_max":
        return any(holds(document, one) for one in about["queries"])
    if form == "exists":
        return is_there(document, about["field"])
    if form == "multi_match":
        return in_many(document, about)
    (path, value), = about.items()
    return in_field(document, form, path, value)


def in_field(document: Json, form: str, path: str, value: Any) -> bool:
    """Whether a query of one field holds of a document."""
    if form == "term":
        return has_term(document, path, value["value"] if isinstance(value, dict) else value)
    if form == "terms":
        return any(has_term(document, path, one) for one in value)
    if form == "prefix":
        return begins(document, path, value["value"] if isinstance(value, dict) else value)
    if form == "range":
        return in_range(document, path, value)
    way = {"match": matches, "match_phrase": phrase_in, "match_bool_prefix": begun_in}[form]
    return of_empty(way(document, path, value), value)


def joined(clauses_of_text: list[tuple[str, str, bool]], needs_all: bool) -> bool:
    """Whether clauses of a text hold by their operators (AND, OR or none) and signs (+, - or none): AND makes the
    clause on either side of it one that must hold, but for one that must not; where a blank is AND, OR makes both
    optional, the one behind it last."""
    kinds: list[str] = []
    for operator, sign, _ in clauses_of_text:
        if kinds and kinds[-1] != "-" and (operator == "AND" or operator == "OR" and needs_all):
            kinds[-1] = "+" if operator == "AND" else ""
        is_must = operator != "OR" if needs_all else operator == "AND" or sign == "+"
        kinds.append("-" if sign == "-" else "+" if is_must else "")
    results = [result for _, _, result in clauses_of_text]
    told = list(zip(kinds, results))
    if any(result for kind, result in told if kind == "-") or not all(result for kind, result in told if kind == "+"):
        return False
    return "+" in kinds or "" not in kinds or any(result for kind, result in told if kind == "")

