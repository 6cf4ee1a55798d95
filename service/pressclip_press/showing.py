"""What a query is read as, for people and for programs."""

from __future__ import annotations

import json
import select
import unicodedata
from collections.abc import Iterator, Sequence
from typing import Any

from pressclip_service.errors import read_block, write_all
from pressclip_service.lines import BLOCK_BYTES, LineCutter
from pressclip_service.streams import INPUT, OUTPUT

from .preparing import Preparer
from .translating import translate
from .tree import Level, Refused

STATUS_REFUSED = 3
_WIDE = ("W", "F")


def explained(query: str, preparer: Preparer) -> dict[str, Any]:
    """What a query is read as, in the form of pressclip-explain: its translation and remarks, or its fault. Places are
    bytes of the query in UTF-8."""
    try:
        translated = translate(query, preparer)
    except Refused as refused:
        return {"at": _byte(query, refused.place.start), "fault": refused.rule, "says": refused.says}
    remarks = [{"at": _byte(query, remark.place.start), "level": remark.level.value, "rule": remark.rule,
                "says": remark.says} for remark in translated.remarks]
    return {"dialect": "press", "filtered": translated.filter is not None, "query": translated.query, "remarks": remarks}


def _byte(query: str, character: int) -> int:
    return len(query[:character].encode(errors="surrogatepass"))


def show(preparer: Preparer, queries: Sequence[str], as_json: bool) -> int:
    """Shows each query, or each line of the input; the status says whether one can't be said."""
    is_refused = False
    for query in queries or _lines():
        told = explained(query, preparer)
        is_refused = is_refused or "fault" in told
        if as_json:
            text = json.dumps(told, ensure_ascii=False, separators=(",", ":"))
        else:
            text = "\n".join([*_plain(query, told), ""])
        write_all(OUTPUT, f"{text}\n".encode(errors="backslashreplace"))
    return STATUS_REFUSED if is_refused else 0


def _lines() -> Iterator[str]:
    """The lines of standard input that are not blank."""
    cutter = LineCutter()
    while (block := read_block(INPUT, BLOCK_BYTES)) != b"":
        if block is None:
            select.select([INPUT], [], [])
            continue
        yield from _texts(cutter.feed(block))
    yield from _texts(cutter.end())


def _texts(lines: Sequence[bytes]) -> Iterator[str]:
    return (line.decode(errors="replace") for line in lines if line.strip())


def _plain(query: str, told: dict[str, Any]) -> Iterator[str]:
    """A query with a caret under each place that is spoken of, and what the engine is asked."""
    yield query
    if "fault" in told:
        yield f"{_under(query, told['at'])}^ {told['says']}"
        return
    for remark in told["remarks"]:
        if remark["level"] != Level.HINT.value:
            yield f"{_under(query, remark['at'])}^ {remark['level']}: {remark['says']}"
    yield f"asks: {told['query']}"
    if told["filtered"]:
        yield "then: a filter decides on each article that this gives"


def _under(query: str, byte: int) -> str:
    """As many blanks as what stands before a byte is wide."""
    before = query.encode(errors="surrogatepass")[:byte].decode(errors="surrogatepass")
    return " " * sum(2 if unicodedata.east_asian_width(char) in _WIDE else 0 if unicodedata.combining(char) else 1
                     for char in before)
