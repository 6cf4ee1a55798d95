"""Refusals of the door: problem documents (RFC 9457) with a word that names each."""

from __future__ import annotations

import json
from typing import Any, Mapping

from aiohttp import web

Json = dict[str, Any]
TYPE = "application/problem+json"

# Each word with its status and what it says in general.
WORDS: Mapping[str, tuple[int, str]] = {
    # The engine's own refusals.
    "long": (413, "a line of the protocol has at most 1,048,576 bytes"),
    "json": (400, "this is no JSON"),
    "shape": (400, "this is not of the form that is asked for"),
    "limit": (422, "something is beyond its limit"),
    "query": (422, "the query can't be read"),
    "listener": (422, "there is no such listener"),
    "full": (507, "no more queries can be registered"),
    # Those of the door.
    "missing": (404, "there is nothing under this name"),
    "path": (404, "there is no such address"),
    "method": (405, "this address does not take this method"),
    "body": (413, "the body is too large"),
    "type": (415, "the body is not of a type that is taken here"),
    "token": (401, "a token is needed"),
    "role": (403, "the token may not do this"),
    "origin": (403, "a page of another origin may not do this"),
    "host": (421, "this is not a name of this service"),
    "request": (400, "this is no well-formed request"),
    "headers": (431, "the header is too large"),
    "encoding": (415, "a body in another encoding is not taken"),
    "slow": (408, "the request did not come in time"),
    "rate": (429, "too many requests"),
    "behind": (429, "the engine is behind"),
    "connections": (503, "too many connections are open"),
    "streams": (429, "too many streams are open"),
    "ended": (503, "the engine ended before it answered"),
    "spool": (503, "alerts can't be kept for their delivery now"),
    "draining": (503, "the service ends now"),
    "dialect": (409, "this dialect can't be had here"),
    "large": (422, "the answer would be too large"),
    "hits": (409, "the engine shows no hits"),
    "fault": (500, "something went wrong here"),
}


class Problem(Exception):
    """A refusal: its word, a sentence on this case, further members, and headers."""

    def __init__(self, word: str, detail: str = "", headers: Mapping[str, str] | None = None, **members: object) -> None:
        super().__init__(word)
        self.word = word
        self.detail = detail
        self.headers = dict(headers or {})
        self.members = members

    @property
    def status(self) -> int:
        """Its status."""
        return WORDS[self.word][0]

    def document(self) -> Json:
        """What is said of it."""
        title = WORDS[self.word][1]
        said: Json = {"type": "about:blank", "title": title, "status": self.status, "refused": self.word}
        if self.detail:
            said["detail"] = self.detail
        return {**said, **self.members}

    def response(self) -> web.Response:
        """The answer."""
        text = json.dumps(self.document(), ensure_ascii=False) + "\n"
        return web.Response(text=text, status=self.status, content_type=TYPE, headers=self.headers)
