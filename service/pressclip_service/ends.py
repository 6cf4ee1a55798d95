"""How often an engine may end before what is done with it ends too."""

from __future__ import annotations

from .errors import EngineFailed

MOST_ENDS_IN_A_ROW = 6


class Ends:
    """The ends of engines in a row, with no reply between them. What an engine is given to begin with, such as a
    journal, brings no reply that counts, and it doesn't matter how long that takes."""

    def __init__(self) -> None:
        self.count = 0

    def replied(self) -> None:
        """Begins anew, since something that was owed was answered."""
        self.count = 0

    def ended(self, why: str) -> None:
        """Counts an end; `EngineFailed` where it is the sixth in a row."""
        self.count += 1
        if self.count >= MOST_ENDS_IN_A_ROW:
            raise EngineFailed(f"{why}, and has ended {self.count} times in a row with no reply between; what was"
                               " answered is kept")
