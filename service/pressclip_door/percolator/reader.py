"""Reads a query in Elasticsearch's JSON into the tree of what it means."""

from __future__ import annotations

from typing import Awaitable, Callable, Mapping

from .leaves import Leaves
from .mapping import Field, FieldMap, Kind
from .part import Options, Part
from .tree import Node, size
from .trouble import Trouble, bad_query, malformed, not_served
from .words import Cutter

MOST_NESTING = 30
# As many as a query of the engine has; those of a part count again for each query that it stands in.
MOST_PARTS = 4_096
MOST_QUERIES = 4 * MOST_PARTS
_SCORES = "nothing is scored here, a query holds or does not"
_PARENTS = "a document is one, and has no parts that are searched by themselves"
_PLACES = "words have no other places than next to each other: write match_phrase, or must"
_LETTERS = "words are compared whole: write match, or prefix for how they begin"
_SHAPES = "no field has shapes or places on a map"
# Forms of query that have no meaning here, and why.
_NOT_SERVED: Mapping[str, str] = {
    **dict.fromkeys(("fuzzy", "regexp", "wildcard"), _LETTERS),
    **dict.fromkeys(("boosting", "function_score", "script_score", "distance_feature", "rank_feature", "pinned"),
                    _SCORES),
    **dict.fromkeys(("nested", "has_child", "has_parent", "parent_id"), _PARENTS),
    **dict.fromkeys(("intervals", "span_term", "span_near", "span_first", "span_or", "span_not", "span_containing",
                     "span_within", "span_multi", "span_field_masking", "common"), _PLACES),
    **dict.fromkeys(("geo_bounding_box", "geo_distance", "geo_polygon", "geo_shape", "shape"), _SHAPES),
    "script": "no program is run for a query", "terms_set": "how many of its terms have to be there depends on a field",
    "more_like_this": "it depends on other documents", "percolate": "it stands in a search, and in no stored query",
    "ids": "a document that is percolated has no id", "type": "a document that is percolated has no type",
    "wrapper": "send the query as JSON", "combined_fields": "write multi_match of the type cross_fields"}

Form = Callable[["Reader", Part], Awaitable[Node]]
_FORMS: dict[str, Form] = {}


def form(name: str) -> Callable[[Form], Form]:
    """Has a function read the queries of a form."""

    def take(read: Form) -> Form:
        _FORMS[name] = read
        return read

    return take


def too_large(name: str, part: Part) -> Trouble:
    """That a query is larger than the engine takes."""
    return not_served(name, part.place, f"the whole query has over {MOST_PARTS:,} parts")


class Reader:
    """Reads queries over one mapping."""

    def __init__(self, fields: FieldMap, cutter: Cutter) -> None:
        self.fields = fields
        self.leaves = Leaves(cutter)
        self._depth = 0
        self._parts = 0
        self._queries = 0

    async def read(self, part: Part) -> Node:
        """The meaning of a query; `Trouble` names the place that is not served."""
        name, below = part.only()
        if name in _NOT_SERVED:
            raise not_served(name, below.place, _NOT_SERVED[name])
        read = _FORMS.get(name)
        if read is None:
            raise malformed(below.place, f"unknown query [{name}]")
        if self._depth == MOST_NESTING:
            raise not_served(name, below.place, f"queries stand in each other {MOST_NESTING} deep at most")
        self._depth += 1
        self._queries += 1
        if self._queries > MOST_QUERIES:
            raise too_large(name, below)
        try:
            node = await read(self, below)
        finally:
            self._depth -= 1
        self._parts += size(node)
        if self._parts > MOST_NESTING * MOST_PARTS:
            raise too_large(name, below)
        return node

    def field(self, path: Part) -> Field:
        """The field that is named; a boost or a pattern is refused."""
        name = path.text()
        if "^" in name:
            raise not_served("^", path.place, _SCORES)
        if "*" in name:
            raise not_served("*", path.place, "name each field")
        return self.fields.named(name)

    def all_fields(self, form_name: str, place: str) -> list[Field]:
        """The fields that are searched where none is named: all, which have to be texts or keywords."""
        for field in self.fields.fields.values():
            if field.kind not in (Kind.TEXT, Kind.WHOLE):
                raise not_served(form_name, place, f"it names no fields, and [{field.path}] is of type [{field.type}]:"
                                                   " name those that are searched")
        if not self.fields.fields:
            raise bad_query(f"[{form_name}] at [{place}]: the mapping has no field")
        return list(self.fields.fields.values())

    def named_fields(self, options: Options, form_name: str, place: str) -> list[Field]:
        """The fields of `fields`, or all."""
        named = options.take("fields")
        if named is None:
            return self.all_fields(form_name, place)
        fields = [self.field(path) for path in named.items() if path.value != "*"]
        return fields or self.all_fields(form_name, place)

    def of_field(self, part: Part, form_name: str, value_name: str) -> tuple[Field, Part, Options]:
        """The one field of a form, the value that it is asked for, and its other options."""
        path, below = part.only()
        field = self.field(part.at(path, path))
        if not isinstance(below.value, dict):
            return field, below, Options(Part({}, below.place), form_name)
        options = Options(below, form_name)
        return field, options.need(value_name), options
