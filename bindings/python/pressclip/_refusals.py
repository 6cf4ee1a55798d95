"""What calls are refused for."""

from __future__ import annotations


class Refused(Exception):
    """A call was refused, and changed nothing. `word` says why, as `listener`: pressclip.h has all of them.

    `which` is the place, from 0, of what was refused among what was handed in; it is 0 where that was one thing.
    """

    __module__ = "pressclip"

    def __init__(self, word: str, which: int = 0) -> None:
        super().__init__(word, which)
        self.word, self.which = word, which

    def __str__(self) -> str:
        return self.word


class LimitError(Refused):
    """A limit was passed.

    Its word is `limit` for what is too long, too short or too many, `full` where no query or no change has room any
    more, `lines` after the last line that can be counted, and `size` for what C can't be told.
    """

    __module__ = "pressclip"


class Closed(Refused):
    """A monitor or a snapshot is closed. Its word is `closed`."""

    __module__ = "pressclip"


class NoMemory(Refused, MemoryError):
    """An allocation failed, so this is a `MemoryError` too. Its word is `memory`."""

    __module__ = "pressclip"


class QueryError(Refused):
    """A text is no query: its word is `query`. `fault` is the fault's word, and `message` a sentence.

    `at` is the character at which the fault is. It counts the characters of the `str`, as slices do, and is its length
    where something is missing at the end.
    """

    __module__ = "pressclip"

    def __init__(self, which: int, fault: str, at: int, message: str) -> None:
        super().__init__("query", which)
        self.fault, self.at, self.message = fault, at, message

    def __str__(self) -> str:
        return f"{self.fault} at {self.at}: {self.message}"

    def __reduce__(self) -> tuple[type[QueryError], tuple[int, str, int, str]]:
        """What `pickle` and `copy` make it of."""
        return QueryError, (self.which, self.fault, self.at, self.message)


_KINDS: dict[str, type[Refused]] = {"limit": LimitError, "full": LimitError, "lines": LimitError, "size": LimitError,
                                    "closed": Closed, "memory": NoMemory}


def refusal(word: str, which: int = 0) -> Refused:
    """The exception for a word of the library."""
    return _KINDS.get(word, Refused)(word, which)
