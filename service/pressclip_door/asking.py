"""Asking the engine on behalf of a request, and refusing as it does."""

from __future__ import annotations

import json
from typing import Any

from pressclip_service.errors import EngineFailed

from .door import Door
from .pipe import Behind, Ended, Question
from .problems import WORDS, Problem
from .settings import PRESS
from .trial import line_of

Json = dict[str, Any]


async def ask(door: Door, value: Json, is_quiet: bool = False) -> Json:
    """The engine's reply to a request of the protocol, without its line's number; of a quiet one nobody else hears the
    alerts. `Problem` where it is refused, with the reason and the place; where the engine is behind; and where it
    ended."""
    return await ask_line(door, line_of(value), is_quiet)


async def ask_line(door: Door, line: bytes, is_quiet: bool = False) -> Json:
    """The engine's reply to a line of the protocol, and `Problem`, as `ask` has them."""
    try:
        reply: Json = json.loads(await (asked_quietly(door, line) if is_quiet else door.engine.ask(line)))
    except Behind:
        raise Problem("behind", headers={"Retry-After": "1"}) from None
    except Ended as error:
        raise Problem("ended", str(error), {"Retry-After": "1"}) from None
    reply.pop("line", None)
    if "refused" in reply:
        raise await refusal(door, line, reply)
    return reply


async def asked_quietly(door: Door, line: bytes) -> bytes:
    """The reply to a line that is only a question. `Behind` and `Ended` as of an engine."""
    if not door.engine.has_room():
        raise Behind()
    question = Question()
    door.engine.send(line, question)
    return await question.reply()


async def refusal(door: Door, line: bytes, reply: Json) -> Problem:
    """The problem that a refusal of the engine is, explained."""
    word = reply["refused"] if reply["refused"] in WORDS else "fault"
    members: Json = {"which": reply["which"]} if "which" in reply else {}
    try:
        if word == "query" and door.settings.dialect == PRESS:
            return await by_desk(door, json.loads(line)["queries"][reply["which"]]["query"], reply["which"])
        told = await door.explainer.line(line.decode(errors="replace"))
        if told.get("refused") != reply["refused"]:
            return Problem(word, **members)
        members.update({name: told[name] for name in ("member", "at") if name in told})
        if word == "query":
            query = json.loads(line)["queries"][reply["which"]]["query"]
            read = await door.explainer.explain(query)
            members.update({name: read[name] for name in ("fault", "at") if name in read})
    except (Behind, Ended, EngineFailed, Problem):
        return Problem(word, **members)
    return Problem(word, told.get("says", ""), **members)


async def by_desk(door: Door, query: str, which: int) -> Problem:
    """The problem that a query of a register line can't be said in the press dialect."""
    read = await door.desk.explain(query)
    told = {name: read[name] for name in ("fault", "at") if name in read}
    return Problem("query", read["says"] if "fault" in read else "", which=which, member=f"queries[{which}].query", **told)
