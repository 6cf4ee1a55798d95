"""Keepers under test: `service/keep`, and a client of any that goes on where one was ended."""

from __future__ import annotations

import subprocess
from pathlib import Path
from random import Random
from typing import Callable, Sequence

from pressclip_service.engine import command_of
from pressclip_service.taking_over import has_journal

from .judge import KEEP, Due, need
from .processes import ENDED, PATIENCE_SECONDS, Spoken


def command(journal: Path, *options: str, engine: Sequence[str] = ()) -> list[str]:
    """The command of `keep`, with an engine without threads where no other one is named."""
    return [str(KEEP), "--journal", str(journal), *options, "--", *(engine or command_of([], workers=0))]


def run_keep(journal: Path, text: bytes, *options: str, engine: Sequence[str] = (),
             before: Callable[[], None] | None = None) -> tuple[int, bytes, str]:
    """Status, replies and what was told, of a run over a whole input."""
    done = subprocess.run(command(journal, *options, engine=engine), input=text, stdout=subprocess.PIPE,
                          stderr=subprocess.PIPE, preexec_fn=before, timeout=PATIENCE_SECONDS, check=False)
    return done.returncode, done.stdout, done.stderr.decode()


def dump_of(journal: Path, word: str = "--dump") -> bytes:
    """What `keep` prints of a journal."""
    return subprocess.run([str(KEEP), "--journal", str(journal), word], stdout=subprocess.PIPE, check=True).stdout


def changes_in(journal: Path) -> int:
    """How many changes a journal has."""
    return int(dump_of(journal, "--changes")) if has_journal(journal) else 0


class Keep(Spoken):
    """A process of `keep`."""

    def __init__(self, journal: Path, *options: str, engine: Sequence[str] = (),
                 before: Callable[[], None] | None = None) -> None:
        super().__init__(command(journal, *options, engine=engine), before)


class Client:
    """Sends the lines of an input to one keeper after another, each ended at some place, and judges each reply."""

    def __init__(self, due: Due, journal: Path, dice: Random, keeper: Callable[[], Spoken], name: str) -> None:
        self.due = due
        self.journal = journal
        self.dice = dice
        self.keeper = keeper
        self.name = name
        self.at = 0
        self.kills = 0

    def run(self, kills: int) -> None:
        """Goes through the whole input, with so many ends on the way."""
        places = sorted(self.dice.sample(range(1, len(self.due.lines)), kills))
        for place in places:
            self._run_to(max(place, self.at + 1))
        self._run_to(None)

    def _run_to(self, place: int | None) -> None:
        """Serves from where things stand; ends the keeper once lines up to a place, if any, are on their way."""
        keep = self.keeper()
        start = at = self.at
        window = self.dice.choice([1, 1, 4, 60])
        stop = len(self.due.lines) if place is None else min(place, len(self.due.lines))
        answered = start
        while answered < stop:
            while at < stop and at - answered < window:
                keep.send(self.due.lines[at])
                at += 1
            answered = self._judge([], start, answered, at)
            if place is not None and at == stop:
                break
            if at > answered:
                replies = keep.wait_for_replies()
                need(bool(replies), f"it ended: {keep.told()}")
                answered = self._judge(replies, start, answered, at)
        if place is None:
            keep.close()
            need(keep.status == 0, keep.last_words)
            self.at = answered
            return
        for _ in range(self.dice.randint(0, 3)):
            keep.turn(self.dice.choice([0, 0.001, 0.01]))
        keep.kill()
        self.kills += 1
        ENDED.append(self.name)
        answered = self._judge(keep.replies(), start, answered, at)
        self.at = self.due.kept_up_to(changes_in(self.journal), answered, at)

    def _judge(self, replies: list[bytes], start: int, answered: int, sent: int) -> int:
        """The place behind the last answered line, where each reply that came is the one that is due."""
        for reply in replies:
            while answered < sent and self.due.replies[answered] is None:
                answered += 1
            due = self.due.numbered_from(start, answered)
            need(answered < sent and reply == due, f"line {answered + 1}: got {reply[:300]!r}, due {due!r:.300}")
            answered += 1
        while answered < sent and self.due.replies[answered] is None:
            answered += 1
        return answered
