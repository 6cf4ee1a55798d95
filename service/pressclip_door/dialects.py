"""In which dialect a request has its query: the one that its address names, or the door's own."""

from __future__ import annotations

from aiohttp import web

from .door import Door
from .problems import Problem
from .settings import CLASSIC, DIALECTS, MISSING, PRESS


def dialects_of(door: Door) -> list[str]:
    """The dialects in which queries are explained and tried, the door's own first. Queries are registered in that."""
    if door.settings.dialect == PRESS:
        return [PRESS]
    return [CLASSIC] if MISSING else [CLASSIC, PRESS]


def dialect_of(door: Door, request: web.Request) -> str:
    """The dialect of a request; `Problem` where it is unknown, or lacks packages."""
    name = request.query.get("dialect", door.settings.dialect)
    if name not in DIALECTS:
        raise Problem("shape", f"dialect is {CLASSIC} or {PRESS}", member="dialect")
    if name == PRESS and MISSING:
        raise Problem("dialect", f"the service lacks {' and '.join(MISSING)}", member="dialect")
    return name


def need_own(door: Door, request: web.Request) -> None:
    """`Problem` where a query that is to be registered is of another dialect than those that the engine reads."""
    own = door.settings.dialect
    if dialect_of(door, request) != own:
        raise Problem("dialect", f"queries are registered in the dialect {own} alone here", member="dialect")
