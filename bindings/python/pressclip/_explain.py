"""How a query is read, or why it is none, and why a line is refused; docs/EXPLAIN.md says what each member is."""

from __future__ import annotations

import json
from typing import Any, Dict, List, Literal, NamedTuple, TypedDict, Union

from . import _calls
from ._calls import encoded
from ._refusals import QueryError
from ._words import characters_at


class Clause(TypedDict):
    """A clause of a group."""

    occur: Literal["must", "should", "must_not"]
    tree: Tree


# A group is the list of its clauses, and a term, a phrase, a prefix or a range an object named by its kind.
Tree = Union[Literal["all"], List[Clause], Dict[str, Dict[str, Any]]]
# A word of a field, or the beginning of words of a field.
Key = Union[Literal["any"], Dict[str, str]]


class Remark(NamedTuple):
    """What a query may mean otherwise than you think, and at which character of its text, as slices count them."""

    at: int
    level: Literal["hint", "notice", "warning"]
    rule: str
    says: str


class Explanation(NamedTuple):
    """How a text is read as a query."""

    reads: str
    says: str
    tree: Tree
    words: list[str]
    keys: list[Key]
    weight: int
    tried_on_all: bool
    never: bool
    always: bool
    nodes: int
    remarks: list[Remark]


class LineFault(NamedTuple):
    """Why a line is refused: by which word, and a sentence; the path of the member that is wrong, or else the byte."""

    refused: str
    says: str
    member: str | None
    at: int | None


def explain(query: str) -> Explanation:
    """How a text is read as a query. `QueryError` where it is none.

    The places of remarks count the characters of the `str`, and not the bytes of UTF-8 as the engine does. `NoMemory`;
    `TypeError` where the query is no `str`, and `UnicodeEncodeError` where it has half of a surrogate pair.

    >>> explain("tea AND coffee").reads
    '+text:tea +text:coffee'
    """
    text = encoded(query, "a query")
    told = json.loads(_calls.answer_of(_calls.LIBRARY.pressclip_explain, text, len(text)))
    if "fault" in told:
        raise QueryError(0, told["fault"], characters_at(text, [told["at"]])[0], told["says"])
    characters = characters_at(text, [remark["at"] for remark in told["remarks"]])
    told["remarks"] = [Remark(**remark)._replace(at=at) for remark, at in zip(told["remarks"], characters)]
    return Explanation(**told)


def explain_line(line: bytes) -> LineFault | None:
    """What a line of the protocol, without its line feed, would be refused for whatever is registered, if anything.

    `at` counts bytes, as the line is bytes. `Refused` with `feed`, `NoMemory`; `TypeError` where it is no `bytes`.

    >>> explain_line(b'{"op":"delete","ids":["a",""]}')
    LineFault(refused='limit', says='an id has at least 1 byte', member='ids[1]', at=None)
    """
    if not isinstance(line, bytes):
        raise TypeError(f"a line is bytes, and not {type(line).__name__}")
    told = json.loads(_calls.answer_of(_calls.LIBRARY.pressclip_explain_line, line, len(line)))
    if told["refused"] is None:
        return None
    return LineFault(told["refused"], told["says"], told.get("member"), told.get("at"))
