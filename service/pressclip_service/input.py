"""Standard input as numbered lines."""

from __future__ import annotations

from .errors import InputFailed, read_block
from .lines import BLOCK_BYTES, LineCutter, is_blank
from .streams import INPUT


class Input:
    """What is read line by line. `failure` says why it can't be read further, where that is why it ended."""

    def __init__(self) -> None:
        self.has_ended = False
        self.failure: InputFailed | None = None
        self._cutter = LineCutter()
        self._number = 0

    def take(self) -> list[tuple[int, bytes]]:
        """The lines of one read with their numbers, of which blank ones only count."""
        try:
            block = read_block(INPUT, BLOCK_BYTES)
        except InputFailed as failure:
            self.failure = failure
            self.end()
            return []
        if block is None:
            return []
        self.has_ended = not block
        lines = self._cutter.feed(block) if block else self._cutter.end()
        first = self._number + 1
        self._number += len(lines)
        return [(number, line) for number, line in enumerate(lines, first) if not is_blank(line)]

    def end(self) -> None:
        """Reads no more. A line of which only a part was read is none."""
        self.has_ended = True
