"""The page at `/`: files that are read once, and CodeMirror of Debian's package `libjs-codemirror`."""

from __future__ import annotations

import gzip
from dataclasses import dataclass
from hashlib import sha256
from pathlib import Path
from typing import Mapping

from aiohttp import web

from ..door import Door
from ..guard import needs
from ..problems import Problem
from ..tokens import Role

FIRST = "index.html"
_OWN = Path(__file__).resolve().parent / "files"
_CODEMIRROR = Path("/usr/share/javascript/codemirror")
_CODEMIRROR_FILES = {
    "codemirror/codemirror.js": "lib/codemirror.js",
    "codemirror/codemirror.css": "lib/codemirror.css",
    "codemirror/placeholder.js": "addon/display/placeholder.js",
}
_TYPES = {
    ".html": "text/html; charset=utf-8",
    ".css": "text/css; charset=utf-8",
    ".js": "text/javascript; charset=utf-8",
    ".svg": "image/svg+xml",
}
# Nothing but the files of the page and the calls of its own host, and no text is taken as HTML.
_HEADERS = {
    "Content-Security-Policy": "default-src 'none'; script-src 'self'; style-src 'self'; img-src 'self';"
                               " connect-src 'self'; base-uri 'none'; form-action 'none'; frame-ancestors 'none';"
                               " require-trusted-types-for 'script'",
    # A browser asks at each load whether its copy is still right, which costs no body where it is.
    "Cache-Control": "no-cache",
    "Vary": "Accept-Encoding",
}


@dataclass(frozen=True)
class File:
    """A file as it is served."""

    type: str
    whole: bytes
    packed: bytes
    tag: str

    def response(self, request: web.Request) -> web.Response:
        """The answer: the file, packed where that is taken, or that the browser's copy is right."""
        headers = {**_HEADERS, "ETag": f'"{self.tag}"'}
        tags = request.if_none_match or ()
        if any(tag.value in (self.tag, "*") for tag in tags):
            return web.Response(status=304, headers=headers)
        headers["Content-Type"] = self.type
        if "gzip" in request.headers.get("Accept-Encoding", ""):
            return web.Response(body=self.packed, headers={**headers, "Content-Encoding": "gzip"})
        return web.Response(body=self.whole, headers=headers)


def file_of(path: Path) -> File:
    """Reads a file; `OSError` where it can't be read."""
    whole = path.read_bytes()
    return File(_TYPES[path.suffix], whole, gzip.compress(whole, mtime=0), sha256(whole).hexdigest()[:32])


def files(door: Door) -> Mapping[str, File]:
    """All files by their names. What Debian's package has is left out where it is not installed, which is logged."""
    found = {path.name: file_of(path) for path in _OWN.iterdir() if path.suffix in _TYPES}
    for name, place in _CODEMIRROR_FILES.items():
        try:
            found[name] = file_of(_CODEMIRROR / place)
        except OSError as error:
            door.log.event("page", missing=str(error.filename), package="libjs-codemirror")
    return found


class Page:
    """The handlers, which need no token: the page asks for one itself."""

    def __init__(self, found: Mapping[str, File]) -> None:
        self._files = found

    @needs(Role.OPEN)
    async def first(self, request: web.Request) -> web.Response:
        """The page."""
        return self._files[FIRST].response(request)

    @needs(Role.OPEN)
    async def file(self, request: web.Request) -> web.Response:
        """A file of the page."""
        found = self._files.get(request.match_info["file"])
        if found is None:
            raise Problem("path")
        return found.response(request)


def routes(door: Door) -> list[web.RouteDef]:
    """The routes of the page."""
    page = Page(files(door))
    return [web.get("/", page.first), web.get("/page/{file:.+}", page.file)]
