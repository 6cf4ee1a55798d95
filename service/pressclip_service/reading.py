"""A journal of before as it is read, and what it leaves live."""

from __future__ import annotations

import mmap
import os
from pathlib import Path
from typing import Iterator

from .errors import BrokenJournal
from .folders import storage
from .frames import (CHANGES, FIRST_LINK, FORM, HEAD, LIVE, MAGIC_FRONT, BadFrame, Form, Frame, Head, form_of,
                     link_after)
from .live import LiveQueries
from .place import command_name


class Reading:
    """A journal as it is read: its records in order, and then where the last whole one ends."""

    def __init__(self, path: Path) -> None:
        self.path = path
        self.form = FORM
        # Until it is read: a head was synced before its file took its place, so none is torn.
        self.head = Head(0, 0, 1, FIRST_LINK)
        self.changes = 0
        self.records = 0
        self.end = 0
        self.size = 0
        self.link = FIRST_LINK
        self._last = HEAD

    @property
    def torn(self) -> int:
        """How many bytes stand behind the last whole record."""
        return self.size - self.end

    def frames(self) -> Iterator[Frame]:
        """The records behind the head; `BrokenJournal` where the file is not what was written. What is torn at the end
        is left out: `torn` is not 0 then."""
        with storage(f"read {self.path}"), open(self.path, "rb") as file:
            self.size = os.fstat(file.fileno()).st_size
            if self.size == 0:
                raise BrokenJournal(f"{self.path} is empty: it has no head")
            with mmap.mmap(file.fileno(), self.size, access=mmap.ACCESS_READ) as data:
                yield from self._judged(data)

    def _judged(self, data: mmap.mmap) -> Iterator[Frame]:
        self.form = self._form(data)
        try:
            for frame in self.form.frames(data):
                if frame.start == 0:
                    self._begin(frame)
                    continue
                self._judge(frame)
                self._last = frame.kind
                self.changes += len(frame.lines()) if frame.kind == CHANGES else 0
                self.end = frame.end
                yield frame
        except BadFrame as bad:
            if bad.followed or bad.start < self.head.end or self._was_synced_whole(data, bad.start):
                raise self._broken(bad.start, "no whole record with the right checksum stands there, and it is not one"
                                              " that a crash can have torn") from None
        if self.end < self.head.end:
            raise self._broken(self.end, f"it ends there, and was synced up to byte {self.head.end}")

    def _was_synced_whole(self, data: mmap.mmap, start: int) -> bool:
        """Whether a record of live queries began there: those are synced before their file takes its place."""
        front = self.form.magic + bytes([LIVE])
        return data[start:start + len(front)] == front

    def _form(self, data: mmap.mmap) -> Form:
        """The form of the file; `BrokenJournal` where it is none that is known."""
        form = form_of(data)
        if form:
            return form
        if data[:len(MAGIC_FRONT)] == MAGIC_FRONT:
            raise self._broken(0, f"it has a form that this {command_name('keep')} doesn't know, maybe of a later one")
        raise self._broken(0, "a journal's head doesn't stand there")

    def _begin(self, frame: Frame) -> None:
        """Takes the head. That of form 1 says only how many changes were accepted before."""
        if self.form is FORM:
            head = Head.of(frame)
        else:
            head = Head(frame.number, 0, frame.end, FIRST_LINK) if frame.kind == HEAD else None
        if head is None:
            raise self._broken(0, "a journal's head doesn't stand there")
        self.head, self.changes, self.end = head, head.changes, frame.end

    def _judge(self, frame: Frame) -> None:
        """Whether the record may stand behind the last one."""
        if frame.kind not in (LIVE, CHANGES) or (frame.kind == LIVE and self._last == CHANGES):
            raise self._broken(frame.start, "a record that can't stand there")
        if frame.number != self.changes:
            raise self._broken(frame.start, f"it goes on behind change {frame.number} where {self.changes} stand"
                                            " before it")
        if self.form is not FORM:
            return
        self.link = link_after(self.link, frame.kind, frame.number, frame.payload)
        if frame.link != self.link:
            raise self._broken(frame.start, "the record doesn't belong behind the one before it: one is missing,"
                                            " doubled or in another's place")
        self.records += 1
        if frame.start < self.head.end <= frame.end and self.head != Head(self.head.changes, self.records, frame.end,
                                                                          self.link):
            raise self._broken(frame.start, f"the head says that {self.head.records} records end at byte"
                                            f" {self.head.end}, and it is not so")

    def _broken(self, place: int, why: str) -> BrokenJournal:
        return BrokenJournal(f"{self.path} is broken at byte {place}: {why}; nothing was changed")


def live_queries(reading: Reading) -> LiveQueries:
    """The queries that the journal leaves."""
    live = LiveQueries()
    for frame in reading.frames():
        for line in frame.lines():
            live.take(line)
    return live
