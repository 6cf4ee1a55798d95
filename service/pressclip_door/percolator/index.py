"""An index: its mapping, and the documents of its queries."""

from __future__ import annotations

import re
from collections import Counter
from dataclasses import dataclass, field
from typing import Any, Iterable, Iterator, Mapping

from ..catalog import Catalog, Listing
from .mapping import FieldMap, field_map, mapper
from .store import IndexRow, Row
from .trouble import Trouble

Json = dict[str, Any]
MOST_ENGINE_FIELDS = 16
MOST_ID_BYTES = 256
_BAD_NAME = re.compile(r'[\\/*?"<>| ,#:A-Z]')
_FREE_OPTIONS = {"dynamic": ("true", "false", True, False), "date_detection": (True, False),
                 "numeric_detection": (True, False)}


@dataclass(frozen=True)
class Held:
    """A document whose query is registered: how it is kept, and the listing that the door has of it."""

    row: Row
    listing: Listing


@dataclass
class Index:
    """An index. `held` has its documents by their ids."""

    row: IndexRow
    body: Json
    fields: FieldMap
    held: dict[str, Held] = field(default_factory=dict)
    looked_at: Counter[str] = field(default_factory=Counter)

    @property
    def name(self) -> str:
        """Its name."""
        return self.row.name

    def engine_id(self, name: str) -> str:
        """The id of a document's query in the engine."""
        return f"{self.name}/{name}"

    def current(self, catalog: Catalog, name: str) -> Held | None:
        """The document under an id, where its query is registered as it was; another address may have changed it."""
        held = self.held.get(name)
        if held is None:
            return None
        now = catalog.get(held.row.engine)
        return held if now is held.listing or now is not None and now.query == held.listing.query else None

    def all_current(self, catalog: Catalog) -> Iterator[tuple[str, Held]]:
        """All documents, in the order in which they were kept."""
        for name in self.held:
            held = self.current(catalog, name)
            if held is not None:
                yield name, held

    def hold(self, name: str, held: Held) -> int | None:
        """Takes a document in, as the last; gives the number of the one that it replaces."""
        before = self.let_go(name)
        self.held[name] = held
        self.looked_at.update(held.row.fields)
        return before

    def let_go(self, name: str) -> int | None:
        """Lets a document go, and gives its number."""
        held = self.held.pop(name, None)
        if held is None:
            return None
        self.looked_at.subtract(held.row.fields)
        self.looked_at = +self.looked_at
        return held.row.seq

    def room_for(self, fields: Iterable[str]) -> None:
        """`Trouble` where queries would look at more of the engine's fields than an article has."""
        looked_at = {*self.looked_at, *fields}
        if len(looked_at) > MOST_ENGINE_FIELDS:
            raise Trouble("illegal_argument_exception",
                          f"the queries of an index look at {MOST_ENGINE_FIELDS} fields at most, and here they are"
                          f" {', '.join(sorted(looked_at))}")

    def described(self) -> Json:
        """It as it is shown."""
        settings = flat_settings(self.body.get("settings", {}))
        shown: Json = {"creation_date": str(self.row.made), "number_of_shards": "1", "number_of_replicas": "0",
                       "uuid": self.row.uuid, "version": {"created": "7170699"}, "provided_name": self.name, **settings}
        return {"aliases": {}, "mappings": self.body["mappings"], "settings": {"index": shown}}


def checked_name(name: str) -> str:
    """The name of an index, which has to be one; `Trouble` else."""
    if not name or _BAD_NAME.search(name) or name[0] in "-_+." or len(name.encode(errors="replace")) > 200:
        raise Trouble("invalid_index_name_exception",
                      f"Invalid index name [{name}], must be lowercase, without \\, /, *, ?, \", <, >, |, space, comma,"
                      " # and :, begin with none of -, _, + and ., and have 200 bytes at most", index=name)
    return name


def checked_body(body: Json) -> tuple[Json, FieldMap]:
    """The body of an index with all its parts, and its fields."""
    for name in body:
        if name not in ("mappings", "settings"):
            raise Trouble("parse_exception", f"unknown key [{name}] for create index: [mappings] and [settings] are"
                                             " served")
    mappings, settings = body.get("mappings"), body.get("settings", {})
    if not isinstance(mappings, dict) or not isinstance(mappings.get("properties"), dict):
        raise mapper("[mappings.properties] is asked for, with a field of type [percolator]")
    for name, value in mappings.items():
        if name not in ("properties", "_meta") and value not in _FREE_OPTIONS.get(name, ()):
            raise mapper(f"[{name}: {value}] at [mappings.{name}] is not served")
    if not isinstance(settings, dict):
        raise Trouble("parse_exception", "[settings] is an object")
    for name, value in flat_settings(settings).items():
        if name.startswith("analysis") or name.startswith("percolator.") and value not in (False, "false"):
            raise Trouble("illegal_argument_exception", f"[{name}] at [settings] is not served: words are cut as by the"
                                                        " analyzer [standard], and queries name mapped fields alone")
    return {"mappings": mappings, "settings": settings}, field_map(mappings["properties"], "mappings.properties")


def flat_settings(settings: Mapping[str, Any], before: str = "") -> Json:
    """Settings by their dotted names, without `index` in front."""
    found: Json = {}
    for name, value in settings.items():
        path = f"{before}{name}".removeprefix("index.")
        if isinstance(value, dict):
            found.update(flat_settings(value, "" if path == "index" else f"{path}."))
        else:
            found[path] = value
    return found
