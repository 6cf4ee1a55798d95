"""What the door asks for `dialect=press`: a desk's queries explained, and tried on an article, without an engine."""

from __future__ import annotations

import json
import sys
from collections.abc import Iterator, Mapping
from pathlib import Path
from typing import Any

from pressclip_service.errors import write_all
from pressclip_service.live import text_of
from pressclip_service.streams import OUTPUT

from .filtering import Pages
from .preparing import Preparer
from .preparing.preparer import HOST
from .profile import Profile
from .showing import explained
from .sources import Source, with_source
from .translating import part_of, translate, tree_of
from .tree import BODY, TEXT, Has, Range, Refused, Term, Tree, parts_of

_GIVEN_AS = {BODY: TEXT, HOST: "url"}


class Desk:
    """The dialect by a profile. `ProfileFault` where the profile can't be used."""

    def __init__(self, profile: Path | None = None) -> None:
        self._preparer = Preparer(Profile.load(profile))

    def explain(self, query: str) -> dict[str, Any]:
        """What a query is read as: `query` for the engine, whether it is `filtered`, `remarks`, and the `fields` of
        articles that it names; or its `fault`, with `at`, the byte, and `says`."""
        told = explained(query, self._preparer)
        if "fault" in told:
            return told
        return {**told, "fields": sorted(set(_named_in(tree_of(query, self._preparer))))}

    def registered(self, query: str) -> str | None:
        """The engine's query with the desk's in it, as it is registered; None where it can't be said."""
        try:
            return with_source(translate(query, self._preparer).query, Source(query, has_listener=False))
        except Refused:
            return None

    def holds(self, query: str, fields: Mapping[str, str]) -> bool:
        """Whether a query holds of an article. `Refused` where it can't be said."""
        return part_of(query, self._preparer).holds(Pages(self._preparer.prepared(fields)))


def serve(desk: Desk) -> None:
    """Answers lines of JSON until they end: `{"query":S}` with what it is read as, and beside it how it is `registered`;
    `{"query":S,"fields":{..}}` with whether it `holds`, or with its fault."""
    for line in sys.stdin.buffer:
        write_all(OUTPUT, text_of(_answered(desk, json.loads(line))) + b"\n")


def _answered(desk: Desk, asked: dict[str, Any]) -> dict[str, Any]:
    query = asked["query"]
    if "fields" not in asked:
        registered = desk.registered(query)
        return {**desk.explain(query), **({} if registered is None else {"registered": registered})}
    try:
        return {"holds": desk.holds(query, asked["fields"])}
    except Refused:
        return desk.explain(query)


def _named_in(tree: Tree) -> Iterator[str]:
    """The fields of an article as it comes that a part is about."""
    if isinstance(tree, (Term, Has, Range)):
        yield _GIVEN_AS.get(tree.field, tree.field)
    for part in parts_of(tree):
        yield from _named_in(part)
