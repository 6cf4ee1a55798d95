"""Queries of press desks, explained and tried beside the engine."""

from __future__ import annotations

import asyncio
from pathlib import Path
from typing import Any, Mapping

from .explaining import Explainer
from .problems import Problem

Json = dict[str, Any]
MOST_SECONDS = 10.0
FILTERED = "Of these, those are kept of which the query holds as it is written."
TOO_LARGE: Json = {"at": 0, "fault": "too_large", "says": "For the engine the query is too long, or has too many parts."}
_SERVICE = Path(__file__).resolve().parents[1]


def desk_command(profile: Path | None) -> list[str]:
    """The command that answers by a profile, or the usual one."""
    return [str(_SERVICE / "press"), "desk", *([] if profile is None else ["--profile", str(profile)])]


class PressDesk:
    """What `dialect=press` is answered by: `service/press desk`, which is started where it is asked first."""

    def __init__(self, profile: Path | None, explainer: Explainer) -> None:
        self._explainer = explainer
        self._desk = Explainer(desk_command(profile))

    async def explain(self, query: str) -> Json:
        """How a query is read, in the form of `pressclip-explain`: a sentence on what the engine is asked, remarks, the
        query of the engine and the fields of articles that are named; or its fault. Places are bytes of the query.
        `Problem` where it takes too long; `Behind`, `Ended` and `EngineFailed` as of explaining programs."""
        read = await self._ask({"query": query})
        if "fault" in read:
            return read
        registered = await self._explainer.explain(read.pop("registered"))
        asked = await self._explainer.explain(read["query"])
        if "tree" not in registered or "tree" not in asked:
            return TOO_LARGE
        says = f"{asked['says']} {FILTERED}" if read["filtered"] else asked["says"]
        return {**read, "says": says}

    async def holds(self, query: str, fields: Mapping[str, str]) -> bool:
        """Whether a query that was explained without a fault holds of an article. Raises as `explain`."""
        return bool((await self._ask({"query": query, "fields": fields}))["holds"])

    async def _ask(self, value: Json) -> Json:
        """What the desk answers; it is ended where that takes too long."""
        try:
            return await asyncio.wait_for(self._desk.ask(value), MOST_SECONDS)
        except TimeoutError:
            self._desk.kill()
            raise Problem("limit", f"the query takes over {MOST_SECONDS:.0f} s here", member="query") from None

    async def stop(self) -> None:
        """Ends its program."""
        await self._desk.stop()
