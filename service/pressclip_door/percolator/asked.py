"""What a search asks for: which documents are percolated, which queries beside that are filtered, and what is shown."""

from __future__ import annotations

from dataclasses import dataclass, field
from fnmatch import fnmatchcase
from typing import Any, Sequence

from .mapping import FieldMap
from .part import Options, Part
from .trouble import Trouble, malformed, not_served

Json = dict[str, Any]
PERCOLATE = "percolate"
SLOT = "_percolator_document_slot"
USUAL_SIZE = 10
MOST_SHOWN = 10_000
MOST_DOCUMENTS = 1_024
_LEFT_OUT = {
    **dict.fromkeys(("aggs", "aggregations", "suggest", "rescore", "collapse", "knn", "script_fields", "post_filter",
                     "runtime_mappings", "indices_boost", "explain", "profile", "min_score", "slice"),
                    "a search here asks which queries hold, and no more"),
    **dict.fromkeys(("search_after", "pit", "scroll"), "write from and size"),
    **dict.fromkeys(("fields", "docvalue_fields", "stored_fields"), "write _source")}
_PASSED_OVER = ("track_total_hits", "track_scores", "timeout", "stats", "terminate_after", "version",
                "seq_no_primary_term", "ext")


@dataclass(frozen=True)
class Percolating:
    """Documents, and under which name the slots of those that a query holds of are shown."""

    documents: Sequence[Part]
    slots: str = SLOT


@dataclass
class Found:
    """What a query asks for: documents, if any, what else has to hold of what is kept, and the score of each hit."""

    percolating: Percolating | None = None
    filters: list[Part] = field(default_factory=list)
    score: float = 1.0


def asked_of(part: Part | None, fields: FieldMap) -> Found:
    """What the query of a search asks for."""
    found = Found()
    if part is not None:
        _take(found, part, fields)
    return found


def _take(found: Found, part: Part, fields: FieldMap) -> None:
    """Takes a query apart at its `percolate`, which stands in `constant_score` and in the clauses of `bool` that must
    hold, or nowhere."""
    name, below = part.only()
    if name == PERCOLATE:
        if found.percolating is not None:
            raise not_served(PERCOLATE, below.place, "a search has one")
        found.percolating = percolating_of(below, fields)
    elif not has_percolate(part.value):
        found.filters.append(part)
    elif name == "constant_score":
        options = Options(below, name)
        _take(found, options.need("filter"), fields)
        options.end()
        found.score = 1.0
    elif name == "bool":
        _take_clauses(found, below, fields)
    else:
        raise not_served(PERCOLATE, below.place, "it stands in [bool.must], [bool.filter] and [constant_score.filter]")


def _take_clauses(found: Found, part: Part, fields: FieldMap) -> None:
    """Takes the clauses of a `bool` apart that has a `percolate`."""
    rest: Json = {}
    is_scored = False
    for name, clauses in part.members().items():
        if name in ("must", "filter"):
            for clause in clauses.items():
                is_scored = is_scored or name == "must" and has_percolate(clause.value)
                _take(found, clause, fields)
        elif has_percolate(clauses.value):
            raise not_served(PERCOLATE, clauses.place, "it stands in [bool.must], [bool.filter] and"
                                                       " [constant_score.filter]")
        else:
            rest[name] = clauses.value
    found.score = 1.0 if is_scored else 0.0
    if rest:
        found.filters.append(Part({"bool": {"filter": [{"match_all": {}}], **rest}}, part.place))


def has_percolate(value: Any) -> bool:
    """Whether `percolate` stands in a query."""
    if isinstance(value, dict):
        return PERCOLATE in value or any(has_percolate(one) for one in value.values())
    return isinstance(value, list) and any(has_percolate(one) for one in value)


def percolating_of(part: Part, fields: FieldMap) -> Percolating:
    """The documents of a `percolate`."""
    options = Options(part, PERCOLATE)
    path = options.need("field")
    if path.text() != fields.query:
        raise Trouble("query_shard_exception", f"field [{path.value}] does not exist, or is not of type [percolator]")
    one, many, kept, name = (options.take(word) for word in ("document", "documents", "index", "name"))
    if kept is not None:
        raise not_served("index", kept.place, "documents are not kept here: send them in [document] or [documents]")
    options.end()
    if (one is None) == (many is None):
        raise malformed(part.place, "[document] or [documents] is asked for")
    documents = [one] if one is not None else many.items() if many is not None else []
    if len(documents) > MOST_DOCUMENTS:
        raise malformed(part.place, f"{MOST_DOCUMENTS} documents are percolated at once at most")
    return Percolating(documents, SLOT if name is None else f"{SLOT}_{name.text()}")


@dataclass(frozen=True)
class Source:
    """Which parts of a source are shown: those that fit one of `included`, if any, and none of `excluded`."""

    is_shown: bool = True
    included: tuple[str, ...] = ()
    excluded: tuple[str, ...] = ()

    def of(self, source: Json, before: str = "") -> Json:
        """What is shown of a source."""
        shown: Json = {}
        for name, value in source.items():
            path = before + name
            if any(fits(path, pattern) for pattern in self.excluded):
                continue
            if not self.included or any(fits(path, pattern) for pattern in self.included):
                inner = Source(True, (), self.excluded)
                shown[name] = inner.of(value, path + ".") if isinstance(value, dict) and self.excluded else value
            elif isinstance(value, dict) and (below := self.of(value, path + ".")):
                shown[name] = below
        return shown


def fits(path: str, pattern: str) -> bool:
    """Whether a path is one that a pattern names, or below it."""
    return fnmatchcase(path, pattern) or fnmatchcase(path, pattern + ".*")


def source_of(part: Part | None) -> Source:
    """What `_source` asks for."""
    if part is None or part.value in (True, "true"):
        return Source()
    if part.value in (False, "false"):
        return Source(False)
    if isinstance(part.value, dict):
        options = Options(part, "_source")
        included, excluded = options.take("includes", "include"), options.take("excludes", "exclude")
        options.end()
        return Source(True, texts_of(included), texts_of(excluded))
    return Source(True, texts_of(part))


def texts_of(part: Part | None) -> tuple[str, ...]:
    """The texts of a list, or none."""
    return () if part is None else tuple(one.text() for one in part.items())


@dataclass(frozen=True)
class Search:
    """A search as it is asked for."""

    query: Part | None
    source: Source
    highlight: Part | None
    first: int
    size: int
    is_sorted: bool


def search_of(body: Part, first: Part | None, size: Part | None, source: Part | None) -> Search:
    """The search of a body and of what the address says beside it."""
    options = Options(body, "search")
    query, highlight = options.take("query"), options.take("highlight")
    first, size = first or options.take("from"), size or options.take("size")
    source = source or options.take("_source")
    is_sorted = takes_order(options.take("sort"))
    for name in _PASSED_OVER:
        options.take(name)
    for name, part in options.rest():
        if name in _LEFT_OUT:
            raise not_served(name, part.place, _LEFT_OUT[name])
        raise malformed(part.place, f"unknown key [{name}]")
    at = 0 if first is None else first.number(0, MOST_SHOWN)
    count = USUAL_SIZE if size is None else size.number(0, MOST_SHOWN)
    if at + count > MOST_SHOWN:
        raise Trouble("illegal_argument_exception", "Result window is too large, from + size must be less than or equal"
                                                    f" to: [{MOST_SHOWN}] but was [{at + count}]")
    return Search(query, source_of(source), highlight, at, count, is_sorted)


def takes_order(part: Part | None) -> bool:
    """Whether an order is asked for, which has to be that in which documents were kept, or by the score."""
    if part is None:
        return False
    for one in part.items():
        name = next(iter(one.value), None) if isinstance(one.value, dict) else one.value
        if name not in ("_doc", "_score"):
            raise not_served("sort", one.place, "hits come in the order in which their documents were kept: [_doc]")
    return True
