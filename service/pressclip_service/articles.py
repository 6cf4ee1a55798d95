"""`service/articles`: the objects of a log as `match` lines, each by a mapping."""

from __future__ import annotations

import json
import re
import select
from collections import Counter
from dataclasses import dataclass
from enum import Enum
from typing import Sequence

from .errors import NoReader, read_block, tell, write_all
from .lines import BLOCK_BYTES, LineCutter, is_blank
from .place import command_name
from .streams import INPUT, OUTPUT, can_write

NAME = command_name("articles")
MOST_LINE_BYTES = 16 << 20
MOST_FIELDS = 16
_PART = re.compile(r"([A-Za-z_][A-Za-z0-9_]{0,63})=((?:\.[^.]+)+)")


class Treatment(Enum):
    """What is done with a null or a list where a text is wanted."""

    LEAVE_OUT = "leave-out"
    JOIN = "join"
    REFUSE = "refuse"


class NoArticle(Exception):
    """A line is no article, and why."""


class BadMapping(Exception):
    """Words are no mapping, and why."""


@dataclass(frozen=True)
class Part:
    """A part of an article, the id or a field, and the members of an object that lead to its text."""

    name: str
    path: tuple[str, ...]

    @property
    def dotted(self) -> str:
        """The path as it is written."""
        return "".join(f".{step}" for step in self.path)

    def value(self, given: object) -> object:
        """What stands there in an object; None where nothing does, and `NoArticle` where the path leads into a text."""
        for step in self.path:
            if isinstance(given, dict):
                given = given.get(step)
            elif isinstance(given, list) and step.isdecimal():
                given = given[int(step)] if int(step) < len(given) else None
            elif given is not None:
                raise NoArticle(f"{self.dotted} leads into {kind_of(given)}")
        return given


def kind_of(value: object) -> str:
    """The word for what a value is."""
    if value is None:
        return "null"
    return "a list" if isinstance(value, list) else "an object" if isinstance(value, dict) else "a text"


def parts_of(words: Sequence[str]) -> list[Part]:
    """A mapping from its words, as `title=.headline`; `BadMapping` where they are none."""
    found: dict[str, Part] = {}
    for word in words:
        part = _PART.fullmatch(word)
        if not part:
            raise BadMapping(f"{word} is no part of a mapping: NAME=.path, with NAME a field's name or id")
        if part[1] in found:
            raise BadMapping(f"{part[1]} stands twice")
        found[part[1]] = Part(part[1], tuple(part[2][1:].split(".")))
    if "id" not in found:
        raise BadMapping("id=.path is missing: an article has an id")
    if len(found) > MOST_FIELDS + 1:
        raise BadMapping(f"an article has at most {MOST_FIELDS} fields")
    return list(found.values())


def value_of(line: bytes) -> object:
    """The value of a line. A number is the text that it is written as; `NoArticle` where the line is no JSON."""
    if len(line) > MOST_LINE_BYTES:
        raise NoArticle(f"it has over {MOST_LINE_BYTES:,} bytes")
    try:
        return json.loads(line.decode(), parse_int=str, parse_float=str, parse_constant=_no_constant)
    except (ValueError, RecursionError):
        raise NoArticle("it is no JSON") from None


def _no_constant(word: str) -> None:
    raise ValueError(word)


class Mapper:
    """Makes `match` lines of objects, and counts what was left out, joined and refused."""

    def __init__(self, parts: Sequence[Part], nulls: Treatment, lists: Treatment) -> None:
        self.parts, self.nulls, self.lists = parts, nulls, lists
        self.number = self.made = self.refused = 0
        self.treated: Counter[str] = Counter()

    def line(self, line: bytes) -> bytes:
        """The line that takes the place of a log's line. Of one that is no article it is a line that the engine refuses
        by `shape`, so that replies have the numbers of the log's lines; of a blank one it is blank."""
        self.number += 1
        if is_blank(line):
            return b""
        try:
            made = self._match(value_of(line))
        except NoArticle as why:
            self.refused += 1
            tell(NAME, f"line {self.number} is refused: {why}")
            return json.dumps({"refused": f"{NAME}: {why}"}).encode()
        self.made += 1
        return made

    def _match(self, value: object) -> bytes:
        """The `match` line of an object."""
        if not isinstance(value, dict):
            raise NoArticle("it is no object")
        texts = {part.name: text for part in self.parts if (text := self._text(part, value)) is not None}
        id = texts.pop("id")
        line = {"op": "match", "articles": [{"id": id, "fields": texts}]}
        try:
            return json.dumps(line, ensure_ascii=False, separators=(",", ":")).encode()
        except UnicodeEncodeError:
            raise NoArticle("it has half of a surrogate pair") from None

    def _text(self, part: Part, given: object) -> str | None:
        """The text of a part, or None where it is left out."""
        value = part.value(given)
        is_id = part.name == "id"
        if isinstance(value, list) and self.lists is Treatment.JOIN and not is_id:
            self._tell_once(part, "a list, whose items are joined by line feeds")
            texts = [self._single(part, item) for item in value]
            return "\n".join(text for text in texts if text is not None)
        if is_id and (value is None or isinstance(value, list)):
            raise NoArticle(f"{part.dotted} is {kind_of(value)}, and an id is a text")
        return self._single(part, value)

    def _single(self, part: Part, value: object) -> str | None:
        """The text of a value that is no list, or None where it is a null that is left out."""
        if isinstance(value, bool):
            return "true" if value else "false"
        if isinstance(value, str):
            return value
        if value is None and self.nulls is Treatment.LEAVE_OUT:
            self._tell_once(part, "null or missing, and left out")
            return None
        raise NoArticle(f"{part.dotted} is {kind_of(value)}, or has one")

    def _tell_once(self, part: Part, what: str) -> None:
        """Counts a treatment, and tells of it where it is the first of its kind in a part."""
        key = f"{part.name}: {part.dotted} is {what}"
        self.treated[key] += 1
        if self.treated[key] == 1:
            tell(NAME, f"line {self.number}: {key}, here and wherever it is so")

    def tell_counts(self) -> None:
        """Tells how many of each there were."""
        tell(NAME, f"{self.made} articles, {self.refused} lines refused")
        for key, count in sorted(self.treated.items()):
            tell(NAME, f"{count} times {key}")


def serve(mapper: Mapper) -> None:
    """Maps standard input to standard output, to its end; what came whole is handed on before more is awaited."""
    if not can_write(OUTPUT):
        raise NoReader("nobody reads the lines: standard output is closed")
    cutter = LineCutter(MOST_LINE_BYTES)
    while (block := read_block(INPUT, BLOCK_BYTES)) != b"":
        if block is None:
            select.select([INPUT], [], [])
            continue
        write_all(OUTPUT, b"".join(mapper.line(line) + b"\n" for line in cutter.feed(block)))
    write_all(OUTPUT, b"".join(mapper.line(line) + b"\n" for line in cutter.end()))
    mapper.tell_counts()
