"""`_bulk`: many documents in one request."""

from __future__ import annotations

import asyncio
from base64 import urlsafe_b64encode
from dataclasses import dataclass
from secrets import token_bytes
from typing import Any, Sequence

from ..problems import Problem
from .answers import trouble_of, value_of
from .indices import Done, Indices, Wanted
from .part import Part
from .store import Row
from .trouble import Trouble

Json = dict[str, Any]
_ACTIONS = ("index", "create", "delete", "update")
_MEMBERS = ("_index", "_id", "_type", "require_alias", "routing")
MOST_TOGETHER = 512
SHARDS: Json = {"total": 1, "successful": 1, "failed": 0}


@dataclass(frozen=True)
class Action:
    """One of the things to do: to `index` a document, to `create` it where none is there, or to `delete` it."""

    name: str
    index: str
    id: str
    source: Part | None


def new_id() -> str:
    """An id that no other document has."""
    return urlsafe_b64encode(token_bytes(15)).decode()


def written(row: Row, result: str) -> Json:
    """What is told of a document that was changed."""
    name, _, document = row.engine.partition("/")
    return {"_index": name, "_type": "_doc", "_id": document, "_version": row.version, "result": result,
            "_shards": SHARDS, "_seq_no": row.seq, "_primary_term": 1}


def actions_of(text: bytes, usual_index: str | None) -> list[Action]:
    """The actions of a body; `Trouble` where it is not of the form."""
    if not text.endswith(b"\n"):
        raise Trouble("illegal_argument_exception", "The bulk request must be terminated by a newline [\\n]")
    lines = [(number, line) for number, line in enumerate(text.split(b"\n"), 1) if line.strip()]
    found: list[Action] = []
    at = 0
    while at < len(lines):
        number, line = lines[at]
        at += 1
        action = action_of(Part(value_of(line, f"line {number}"), f"line {number}"), usual_index)
        if action.name != "delete":
            if at == len(lines):
                raise Trouble("illegal_argument_exception", f"line {number}: a line with the document is asked for")
            number, line = lines[at]
            at += 1
            source = Part(value_of(line, f"line {number}"), f"line {number}")
            action = Action(action.name, action.index, action.id, source)
        found.append(action)
    return found


def action_of(part: Part, usual_index: str | None) -> Action:
    """The action of a line."""
    name, about = part.only()
    if name not in _ACTIONS:
        raise Trouble("illegal_argument_exception", f"Malformed action/metadata line at [{part.place}]: [{name}] is"
                                                    f" none of {', '.join(_ACTIONS)}")
    members = about.members()
    for member, one in members.items():
        if member not in _MEMBERS:
            raise Trouble("illegal_argument_exception", f"[{member}] at [{one.place}] is not served")
    index, document = members.get("_index"), members.get("_id")
    if index is None and usual_index is None:
        raise Trouble("action_request_validation_exception", f"[{part.place}]: index is missing")
    if document is None and name in ("delete", "update"):
        raise Trouble("action_request_validation_exception", f"[{part.place}]: id is missing")
    return Action(name, usual_index or "" if index is None else index.text(),
                  new_id() if document is None else document.text() if isinstance(document.value, str) else
                  str(document.number(0, 1 << 62)), None)


class Bulk:
    """Does actions in their order; neighbours that do the same to one index are done together."""

    def __init__(self, indices: Indices) -> None:
        self._indices = indices

    async def run(self, actions: Sequence[Action]) -> list[Json]:
        """What became of each action."""
        items: list[Json] = []
        at = 0
        while at < len(actions):
            end = at + 1
            ids = {actions[at].id}
            while end < len(actions) and end - at < MOST_TOGETHER and is_alike(actions[at], actions[end], ids):
                ids.add(actions[end].id)
                end += 1
            items += await self._together(actions[at:end])
            at = end
        return items

    async def _together(self, actions: Sequence[Action]) -> list[Json]:
        """What became of actions that do the same to one index."""
        first = actions[0]
        try:
            index = self._indices.get(first.index)
            if first.name == "update":
                raise Trouble("illegal_argument_exception", "[update] is not served: index the whole document")
            if first.name == "delete":
                rows = await self._indices.delete(index, [action.id for action in actions])
                return [deleted(action, row) for action, row in zip(actions, rows)]
            read = await asyncio.gather(*(self._read(action) for action in actions))
            wanted = [one for one in read if isinstance(one, Wanted)]
            done = dict(zip((one.id for one in wanted),
                            await self._indices.put(index, wanted, only_new=first.name == "create")))
            return [item(action, one if isinstance(one, Trouble) else done[action.id])
                    for action, one in zip(actions, read)]
        except (Trouble, Problem) as error:
            trouble = trouble_of(error)
            assert trouble is not None
            return [item(action, trouble) for action in actions]

    async def _read(self, action: Action) -> Wanted | Trouble:
        """The document of an action, its query read, or why it can't be."""
        assert action.source is not None
        try:
            return await self._indices.wanted(self._indices.get(action.index), action.id, action.source)
        except Trouble as trouble:
            return trouble


def is_alike(one: Action, other: Action, ids: set[str]) -> bool:
    """Whether an action does the same as another to its index, and to none of the documents of some ids."""
    return one.name == other.name and one.index == other.index and other.id not in ids


def item(action: Action, done: Done | Trouble) -> Json:
    """What is told of a document that was to be kept."""
    if isinstance(done, Trouble):
        return {action.name: {"_index": action.index, "_type": "_doc", "_id": action.id, "status": done.status,
                              "error": done.cause()}}
    result = "created" if done.is_new else "updated"
    return {action.name: {**written(done.row, result), "status": 201 if done.is_new else 200}}


def deleted(action: Action, row: Row | None) -> Json:
    """What is told of a document that was to be dropped."""
    if row is None:
        return {"delete": {"_index": action.index, "_type": "_doc", "_id": action.id, "_version": 1,
                           "result": "not_found", "_shards": SHARDS, "status": 404}}
    return {"delete": {**written(row, "deleted"), "status": 200}}
