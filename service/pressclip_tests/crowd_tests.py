"""Tests of ends with three clients at once, and with a way to Redis that drops, delays and delivers late: each client
has the replies that one process gives to all lines in the order in which they entered."""

from __future__ import annotations

import time
from pathlib import Path
from random import Random
from typing import Sequence

from pressclip_service.lines import is_blank
from pressclip_service.replies import Kind, kind_of, renumbered

from .grid_runs import Chaos, Grid
from .inputs import Source, joined
from .judge import Due, folder, need, replies_of_engine, same
from .leaky import BAD_DAY
from .turns_tests import wait_until

PREFIX = "pressclip:grid:"
# Where the replies of a stream stand, and the numbers of their lines.
PLACES = ("local found = {} for _, entry in ipairs(redis.call('XRANGE', KEYS[1], '-', '+')) do"
          " found[#found + 1] = string.gsub(entry[1], '-', ' ') .. ' ' .. entry[2][2] end return found")
WINDOW = 40
PATIENCE_SECONDS = 120.0


class Crowd:
    """Several clients, each with an input under a name, and processes that are ended meanwhile."""

    def __init__(self, grid: Grid, inputs: Sequence[list[bytes]], dice: Random) -> None:
        self.grid = grid
        self.dice = dice
        self.desks = [Chaos(grid, unknown(lines), dice, f"desk{number}") for number, lines in enumerate(inputs)]

    def run(self, places: Sequence[int]) -> None:
        """Has all inputs answered, and ends a process whenever so many replies came."""
        left, moved = sorted(places), time.monotonic()
        while not all(desk.is_done for desk in self.desks):
            before = self.answered
            if left and before >= left[0]:
                left.pop(0)
                self.dice.choice([desk for desk in self.desks if not desk.is_done]).end_one()
            for desk in self.desks:
                desk.feed(WINDOW)
                desk.client.turn(0.01)
                desk.count(desk.client.replies())
            moved = moved if self.answered == before else time.monotonic()
            need(time.monotonic() - moved < PATIENCE_SECONDS, self.told())
        for desk in self.desks:
            desk.client.close()
            need(desk.client.status == 0, desk.client.last_words)

    @property
    def answered(self) -> int:
        """How many lines are answered."""
        return sum(desk.answered for desk in self.desks)

    @property
    def ended(self) -> list[str]:
        """What was ended."""
        return [kind for desk in self.desks for kind in desk.ended]

    def told(self) -> str:
        """What the clients that go on and all else told."""
        clients = [desk.client.told() for desk in self.desks if desk.client.status is None]
        return "\n".join([*clients, self.grid.told()])

    def order(self) -> list[tuple[Chaos, int]]:
        """The lines that entered, in their order, by client and number: as their replies are kept, all of them."""
        asked = self.grid.redis.asked
        wait_until(lambda: asked("HGET", PREFIX + "kept", "number") == asked("GET", PREFIX + "number"), self.told)
        found = []
        for desk in self.desks:
            for line in asked("EVAL", PLACES, "1", f"{PREFIX}replies:{desk.name}").splitlines():
                milliseconds, sequence, number = map(int, line.split(" "))
                found.append((milliseconds, sequence, desk, number))
        found.sort(key=lambda each: each[:2])
        need(len(found) == int(asked("GET", PREFIX + "number")), "a request without a reply that is kept, or with two")
        return [(desk, number) for _, _, desk, number in found]

    def judge(self) -> None:
        """`Failed` where a client has other replies than are due, or not each line entered once."""
        order = self.order()
        replies = replies_of_engine(joined([desk.due.lines[number - 1] for desk, number in order])).splitlines()
        due = {desk.name: dict(enumerate(Due.of(desk.due.lines).replies, 1)) for desk in self.desks}
        for desk in self.desks:
            entered = [number for number, reply in due[desk.name].items()
                       if reply is not None and kind_of(reply) is not Kind.REFUSED]
            need([number for other, number in order if other is desk] == entered,
                 f"not each line of {desk.name} entered once")
        for (desk, number), reply in zip(order, replies):
            due[desk.name][number] = renumbered(reply, number)
        for desk in self.desks:
            same(desk.text(), joined([reply for reply in due[desk.name].values() if reply is not None]), desk.name)


def unknown(lines: list[bytes]) -> Due:
    """What is due to an input among others: to each line that is not blank something."""
    return Due(lines, [None if is_blank(line) else b"" for line in lines], [False] * len(lines))


def with_processes_ended(shards: int, replicas: int, lines: int, kills: int, is_bad_day: bool) -> None:
    """Three inputs at once, with processes of all kinds ended by SIGKILL at random places."""
    inputs = [Source(160 + number).lines(lines) for number in range(3)]
    dice = Random(shards)
    with folder() as name, Grid(Path(name), shards, replicas, faults=BAD_DAY if is_bad_day else None) as grid:
        crowd = Crowd(grid, inputs, dice)
        crowd.run(dice.sample(range(1, 3 * lines - 60), kills))
        crowd.judge()
        need(len(crowd.ended) >= kills - 3, f"only {len(crowd.ended)} processes were ended")
        ended = ", ".join(f"{crowd.ended.count(kind)} {kind}" for kind in sorted(set(crowd.ended)))
        broken = f"; {grid.way.dropped} dropped, {grid.way.delayed} delayed, {grid.way.late} late" if grid.way else ""
        print(f"    {shards} shards, {replicas} replicas; ended: {ended}{broken}", flush=True)
        grid.needs_all()


def three_clients_with_processes_ended() -> None:
    """Over a way to Redis that does what it is to."""
    with_processes_ended(2, 2, 500, 24, is_bad_day=False)


def three_clients_on_a_bad_day() -> None:
    """Over a way to Redis that drops, delays and delivers late."""
    with_processes_ended(2, 2, 200, 8, is_bad_day=True)


def three_clients_on_a_long_bad_day() -> None:
    """The same for longer, in a grid with more shards."""
    with_processes_ended(3, 2, 900, 36, is_bad_day=True)


TESTS = (three_clients_with_processes_ended, three_clients_on_a_bad_day)
LONG_TESTS = (three_clients_on_a_long_bad_day,)
