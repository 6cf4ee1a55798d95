"""`press prepare`: articles in, the fields of their match lines out, line by line."""

from __future__ import annotations

import argparse
import json
import select
from pathlib import Path
from typing import TYPE_CHECKING

from pressclip_service.errors import NoReader, read_block, tell, write_all
from pressclip_service.lines import BLOCK_BYTES, LineCutter, is_blank
from pressclip_service.place import command_name
from pressclip_service.streams import INPUT, OUTPUT, can_write

from .preparer import Preparer

if TYPE_CHECKING:
    from ..profile import Profile

NAME = command_name("press")
MOST_LINE_BYTES = 16 << 20


class NoArticle(Exception):
    """A line is no article, and why."""


def add_arguments(parser: argparse.ArgumentParser) -> None:
    """The words of the command; the parser's own are the profile's alone."""
    parser.description = (
        "Each line of the input is an article, a JSON object of named texts, {\"title\":\"..\",\"text\":\"..\"}. The "
        "line in its place has the fields that the engine gets of it. One that is none is told on standard error and "
        "refused in its place.")


def main(options: argparse.Namespace) -> int:
    """Prepares standard input to standard output."""
    from ..choices import ProfileFault
    from ..profile import Profile

    path: Path | None = options.profile
    try:
        profile = Profile.load(path)
    except ProfileFault as fault:
        tell(NAME, str(fault))
        return 2
    if not can_write(OUTPUT):
        raise NoReader("nobody reads the lines: standard output is closed")
    serve(LinePreparer(profile))
    return 0


class LinePreparer:
    """Makes the lines of prepared articles, and tells what is none."""

    def __init__(self, profile: Profile) -> None:
        self.preparer = Preparer(profile)
        self.number = 0
        self._told: set[str] = set()

    def line(self, line: bytes) -> bytes:
        """The line that takes the place of an article's; of a blank one it is blank."""
        self.number += 1
        if is_blank(line):
            return b""
        try:
            given = fields_of(line)
            if made_too := self.preparer.made_too(given):
                raise NoArticle(f"{made_too[0]} is a field that is made, and an article can't have it")
            article = self.preparer.prepared(given)
            made = article.fields()
        except NoArticle as why:
            tell(NAME, f"line {self.number} is refused: {why}")
            return json.dumps({"refused": str(why)}).encode()
        for field in article.unread():
            self._tell_once(field)
        return json.dumps(made, ensure_ascii=False, separators=(",", ":")).encode()

    def _tell_once(self, field: str) -> None:
        if field not in self._told:
            self._told.add(field)
            kind = self.preparer.profile.kind(field).value
            tell(NAME, f"line {self.number}: {field} is no {kind}, and left out, here and wherever it is so")


def fields_of(line: bytes) -> dict[str, str]:
    """The fields of an article's line; `NoArticle` where it is none."""
    if len(line) > MOST_LINE_BYTES:
        raise NoArticle(f"it has over {MOST_LINE_BYTES:,} bytes")
    try:
        value = json.loads(line.decode())
    except (ValueError, RecursionError):
        raise NoArticle("it is no JSON") from None
    if not isinstance(value, dict):
        raise NoArticle("it is no object")
    for name, text in value.items():
        if not isinstance(text, str):
            raise NoArticle(f"{name} is no text")
        if not (name + text).isprintable() and _has_half_pair(name + text):
            raise NoArticle(f"{name} has half of a surrogate pair")
    return value


def _has_half_pair(text: str) -> bool:
    return any("\ud800" <= char <= "\udfff" for char in text)


def serve(lines: LinePreparer) -> None:
    """Prepares standard input to its end; what came whole is handed on before more is awaited."""
    cutter = LineCutter(MOST_LINE_BYTES)
    while (block := read_block(INPUT, BLOCK_BYTES)) != b"":
        if block is None:
            select.select([INPUT], [], [])
            continue
        write_all(OUTPUT, b"".join(lines.line(line) + b"\n" for line in cutter.feed(block)))
    write_all(OUTPUT, b"".join(lines.line(line) + b"\n" for line in cutter.end()))
