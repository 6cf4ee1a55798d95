"""The log: JSON lines on standard error."""

from __future__ import annotations

import asyncio
import json
from datetime import datetime, timezone

from pressclip_service.streams import ERRORS, write_waiting


FLUSHED_SECONDS = 0.1
MOST_HELD = 200
_WRITER = json.JSONEncoder(ensure_ascii=False, default=str)


class Log:
    """Writes events, each a line of JSON with its time and its name. A log that nobody reads any more is passed over."""

    def __init__(self) -> None:
        self._held: list[str] = []

    def event(self, name: str, **members: object) -> None:
        """Writes one at once, behind those that are held."""
        self._hold(name, members)
        self.flush()

    def soon(self, name: str, **members: object) -> None:
        """Writes one within a tenth of a second, together with others. For a task."""
        if not self._held:
            asyncio.get_running_loop().call_later(FLUSHED_SECONDS, self.flush)
        self._hold(name, members)
        if len(self._held) >= MOST_HELD:
            self.flush()

    def _hold(self, name: str, members: dict[str, object]) -> None:
        now = datetime.now(timezone.utc).isoformat(timespec="milliseconds")
        self._held.append(_WRITER.encode({"at": now, "event": name, **members}))

    def flush(self) -> None:
        """Writes what is held."""
        held, self._held = self._held, []
        try:
            if held:
                write_waiting(ERRORS, "\n".join([*held, ""]).encode(errors="backslashreplace"))
        except OSError:
            pass
