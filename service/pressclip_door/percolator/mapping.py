"""The mapping of an index: its fields, their types, and how the engine names them."""

from __future__ import annotations

import re
from dataclasses import dataclass, field
from enum import Enum
from typing import Any, Iterator, Mapping

from .dates import USUAL_FORMAT, known_format
from .part import Part, is_same
from .trouble import Trouble, bad_query
from .values import BITS

Json = dict[str, Any]
PERCOLATOR = "percolator"
# The engine's field of the names of fields that a document has.
PRESENT = "_present"
MOST_NAME_BYTES = 64
MOST_FIELDS = 1_000
_USUAL_OPTIONS: Mapping[str, tuple[object, ...]] = {
    "index": (True,), "coerce": (True,), "ignore_malformed": (False,), "analyzer": ("standard",),
    "search_analyzer": ("standard",), "search_quote_analyzer": ("standard",), "null_value": (None,), "copy_to": (),
    "position_increment_gap": (100,),
    "split_queries_on_whitespace": (False,), "index_options": ("positions", "offsets"), "normalizer": ()}
# Options that change nothing of what a query finds.
_FREE_OPTIONS = {"store", "doc_values", "norms", "eager_global_ordinals", "fielddata", "fielddata_frequency_filter",
                 "index_prefixes", "index_phrases", "term_vector", "similarity", "meta"}


class Kind(Enum):
    """How the values of a field are compared."""

    TEXT = "text"
    WHOLE = "keyword"
    INTEGER = "integer"
    FLOATING = "double"
    DATE = "date"
    TRUTH = "boolean"


_KINDS = {"text": Kind.TEXT, "keyword": Kind.WHOLE, **dict.fromkeys(BITS, Kind.INTEGER), "double": Kind.FLOATING,
          "float": Kind.FLOATING, "date": Kind.DATE, "boolean": Kind.TRUTH}


@dataclass(frozen=True)
class Field:
    """A field: its path, the path of the value that it takes, its type, and the engine's name for it."""

    path: str
    source: str
    type: str
    kind: Kind
    engine: str
    format: str = USUAL_FORMAT
    most_characters: int | None = None


def engine_name(path: str) -> str:
    """The engine's name of a field, of which no two share one. What is no letter, digit or `_` is written by its bytes,
    as is a digit or `_` at the front, and a `_` before an `x`."""
    written = re.sub(rb"[^A-Za-z0-9_]|^[0-9_]|_(?=x)", lambda found: b"_x%02x" % found[0][0],
                     path.encode(errors="surrogatepass"))
    return written.decode()


@dataclass
class FieldMap:
    """The fields of an index."""

    query: str = ""
    fields: dict[str, Field] = field(default_factory=dict)
    objects: set[str] = field(default_factory=set)
    by_source: dict[str, list[Field]] = field(default_factory=dict)

    def named(self, path: str) -> Field:
        """The field under a path; `Trouble` where there is none."""
        found = self.fields.get(path)
        if found is None:
            raise bad_query(f"No field mapping can be found for the field with name [{path}]")
        return found

    def add(self, one: Field) -> None:
        """Takes a field."""
        self.fields[one.path] = one
        self.by_source.setdefault(one.source, []).append(one)


def field_map(properties: Json, place: str) -> FieldMap:
    """The fields that `properties` describe; `Trouble` names what is not served."""
    found = FieldMap()
    for path, part in _flat(Part(properties, place), "", found):
        kind = part.value.get("type")
        if kind == PERCOLATOR:
            if found.query or "." in path:
                raise mapper(f"[{path}] at [{part.place}] is not served: one field of type [percolator], at the top")
            found.query = path
            continue
        found.objects.update(above(path))
        _add(found, path, path, part)
        for name, inner in part.at("fields", part.value.get("fields") or {}).members().items():
            _add(found, f"{path}.{name}", path, inner)
    if not found.query:
        raise mapper(f"[{place}] needs a field of type [percolator], which is what an index is for here")
    for path in found.objects & found.fields.keys():
        raise mapper(f"[{path}] at [{place}] is a field, and has fields")
    if len(found.fields) > MOST_FIELDS:
        raise mapper(f"Limit of total fields [{MOST_FIELDS}] has been exceeded")
    return found


def above(path: str) -> list[str]:
    """The paths of the objects that a field stands in."""
    names = path.split(".")
    return [".".join(names[:end]) for end in range(1, len(names))]


def _flat(part: Part, before: str, found: FieldMap) -> Iterator[tuple[str, Part]]:
    """Each field below, with its path."""
    for name, one in part.members().items():
        path = before + name
        described = one.members()
        if "properties" in described:
            if described.get("type", Part("object", "")).value != "object":
                raise mapper(f"[{path}] of type [{one.value['type']}] is not served")
            for option in described.keys() - {"type", "properties", "dynamic"}:
                raise mapper(f"[{option}] of [{path}] at [{one.place}] is not served")
            found.objects.add(path)
            yield from _flat(described["properties"], f"{path}.", found)
        else:
            yield path, one


def _add(found: FieldMap, path: str, source: str, part: Part) -> None:
    """Adds the field that a part of a mapping describes."""
    options = dict(part.members())
    kind = options.pop("type", Part(None, part.place))
    if not isinstance(kind.value, str) or kind.value not in _KINDS:
        raise mapper(f"No handler for type [{kind.value}] declared on field [{path}] at [{part.place}]: served are "
                     + ", ".join(_KINDS))
    engine = engine_name(path)
    if len(engine) > MOST_NAME_BYTES:
        raise mapper(f"[{path}]: the engine would call it [{engine}], and a name has {MOST_NAME_BYTES} bytes at most")
    form = options.pop("format", Part(USUAL_FORMAT, "")).value
    if kind.value != "date" and form != USUAL_FORMAT or not isinstance(form, str) or not known_format(form):
        raise mapper(f"[format] of [{path}] is not served: [{form}]")
    most = options.pop("ignore_above", None)
    for name, option in options.items():
        if name != "fields" and name not in _FREE_OPTIONS:
            _refuse_unusual(path, name, option)
    found.add(Field(path, source, kind.value, _KINDS[kind.value], engine, form,
                    None if most is None else most.number(0, 1 << 30)))


def _refuse_unusual(path: str, name: str, option: Part) -> None:
    """Refuses an option of a field that is not served as it is."""
    usual = _USUAL_OPTIONS.get(name)
    if usual is None:
        raise mapper(f"unknown parameter [{name}] on mapper [{path}] at [{option.place}]")
    if not any(is_same(option.value, one) for one in usual):
        why = "words are those of [standard]" if "analyzer" in name else "only its usual value is"
        raise mapper(f"[{name}: {option.value}] of [{path}] at [{option.place}] is not served: {why}")


def merged(old: Json, new: Part) -> Json:
    """The properties of an index with more fields, of which none may change."""
    result = dict(old)
    for name, part in new.members().items():
        there, one = result.get(name), part.members()
        if there is None:
            result[name] = part.value
        elif "properties" in there and "properties" in one:
            result[name] = {**there, "properties": merged(there["properties"], one["properties"])}
        elif "properties" in there or there.get("type") != part.value.get("type"):
            raise Trouble("illegal_argument_exception", f"mapper [{name}] at [{part.place}] cannot be changed")
        else:
            fields = {**(there.get("fields") or {}), **part.at("fields", part.value.get("fields") or {}).members()}
            inner = {path: field.value if isinstance(field, Part) else field for path, field in fields.items()}
            result[name] = {**part.value, **({"fields": inner} if inner else {})}
    return result


def mapper(reason: str) -> Trouble:
    """That a mapping is not served."""
    return Trouble("mapper_parsing_exception", reason)
