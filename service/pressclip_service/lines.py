"""Lines as the engine cuts them: in bounded memory, with no byte changed."""

from __future__ import annotations

MOST_LINE_BYTES = 1_048_576
BLOCK_BYTES = 1 << 20
_BLANK_BYTES = b" \t\r"


def is_blank(line: bytes) -> bool:
    """Whether a line has no reply: it holds only spaces, tabs and carriage returns, and is not too long."""
    return len(line) <= MOST_LINE_BYTES and not line.strip(_BLANK_BYTES)


class LineCutter:
    """Cuts blocks of bytes into lines. Of a line that is too long only so much is kept as shows that it is."""

    def __init__(self, most: int | None = MOST_LINE_BYTES) -> None:
        self._room = None if most is None else most + 1
        self._rest = bytearray()

    def feed(self, block: bytes) -> list[bytes]:
        """The lines that end in the block, without their line feeds."""
        parts = block.split(b"\n")
        self._hold(parts[0])
        if len(parts) == 1:
            return []
        lines = [bytes(self._rest)]
        lines += parts[1:-1] if self._room is None else [part[:self._room] for part in parts[1:-1]]
        self._rest.clear()
        self._hold(parts[-1])
        return lines

    def end(self) -> list[bytes]:
        """The last line, where it lacks its line feed."""
        lines = [bytes(self._rest)] if self._rest else []
        self._rest.clear()
        return lines

    def _hold(self, part: bytes) -> None:
        if self._room is None:
            self._rest += part
        else:
            self._rest += part[:self._room - len(self._rest)]
