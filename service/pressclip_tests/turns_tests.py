"""Tests of who is away: what a client waits for is told, `grid status` says who is where, and the requests of a replica
that gives no sign are answered by another."""

from __future__ import annotations

import json
import os
import signal
import subprocess
import time
from pathlib import Path
from typing import Callable

from pressclip_service.place import VERSION
from pressclip_service.turns import Sign, State, Turns

from .grid_runs import Chaos, Grid, Role, end
from .inputs import Source, joined
from .judge import Due, Failed, folder, need, same
from .processes import Spoken, children_of, engine_of

PREFIX = "pressclip:grid:"
PATIENCE_SECONDS = 40.0
COUNT = b'{"op":"count"}'


def wait_until(holds: Callable[[], bool], what: Callable[[], str]) -> float:
    """After how many seconds it holds; `Failed` where that is too long."""
    start = time.monotonic()
    while not holds():
        if time.monotonic() - start > PATIENCE_SECONDS:
            raise Failed(what())
        time.sleep(0.1)
    return time.monotonic() - start


def is_told(client: Spoken, words: str) -> None:
    """`Failed` where a client doesn't tell it after five seconds, or once it has waited twice as long."""
    seconds = wait_until(lambda: words in client.told(), lambda: f"{words!r} is not told: {client.told()}")
    need(4 < seconds < 14, f"told after {seconds:.1f} s: {client.told()}")


def answers(client: Spoken, line: bytes, due: bytes) -> None:
    """`Failed` where the reply to a line is another."""
    client.send(line)
    same(joined(client.wait_for_replies()), due + b"\n", client.told())


def what_a_client_waits_for_is_told() -> None:
    """A worker that was ended, an engine that hangs, a probe that hangs and a Redis that is gone, each by its name; and
    all goes on once it is back."""
    with folder() as name, Grid(Path(name), 2, 1) as grid:
        client = grid.client()
        answers(client, COUNT, b'{"count":0,"line":1}')
        end(grid.workers[1])
        client.send(COUNT)
        client.turn(1)
        is_told(client, "waiting for the reply to line 2: worker 1:0 (no sign of it for ")
        grid.workers[1].start()
        same(joined(client.wait_for_replies()), b'{"count":0,"line":2}\n', client.told())
        worker = grid.workers[0].process
        engine = engine_of(worker.pid) if worker else None
        need(engine is not None, "no engine runs")
        stopped(engine or 0, client, "line 3: worker 0:0 (its engine owes a reply behind request 2)", 3)
        need("the engine owes a reply for 5 s, behind request 2" in grid.told(), grid.told())
        [probe] = children_of(client.process.pid)
        stopped(probe, client, "the engine that judges lines before they enter, which owes a reply", 4)
        grid.redis.kill()
        client.send(COUNT)
        client.turn(1)
        wait_until(lambda: "waiting for Redis" in client.told(), client.told)
        grid.redis.start()
        same(joined(client.wait_for_replies()), b'{"count":0,"line":5}\n', client.told())
        client.close()
        grid.needs_all()


def stopped(process: int, client: Spoken, words: str, number: int) -> None:
    """Stops a process until a client tells that it waits for it."""
    os.kill(process, signal.SIGSTOP)
    try:
        client.send(COUNT)
        client.turn(1)
        is_told(client, words)
    finally:
        os.kill(process, signal.SIGCONT)
    same(joined(client.wait_for_replies()), b'{"count":0,"line":%d}\n' % number, client.told())


def a_reader_that_stops_is_told() -> None:
    """Who doesn't read the replies is what a client waits for."""
    with folder() as name, Grid(Path(name), 1, 1) as grid:
        articles = b",".join([b'{"id":"%b","fields":{}}' % (b"a" * 250)] * 200)
        lines, told = Path(name) / "lines", Path(name) / "client.told"
        lines.write_bytes(b'{"op":"match","articles":[%b]}\n' % articles * 8)
        with open(lines, "rb") as source, open(told, "wb") as words:
            client = subprocess.Popen([*grid.command("submit"), "--", *grid.engine], stdin=source, stderr=words,
                                      stdout=subprocess.PIPE)
        wait_until(lambda: "waiting for whoever reads the replies" in told.read_text(), grid.told)
        printed, _ = client.communicate(timeout=PATIENCE_SECONDS)
        need(client.returncode == 0 and printed.count(b"\n") == 8, f"{client.returncode} {printed[-200:]!r}")


def a_grid_that_was_never_made_is_told() -> None:
    """All that need a grid end with status 1 and say how it is made; one that is made meanwhile is waited for."""
    with folder() as name, Grid(Path(name), 1, 1) as grid:
        needy = (["submit"], ["status"], ["dump"], ["worker", "--shard", "0", "--replica", "0"], ["gather"], ["tidy"])
        running = [Spoken([*grid.command("--grid", "other", *words), "--", *grid.engine]) for words in needy]
        for words, role in zip(needy, running):
            role.close()
            need(role.status == 1 and "make it with 'grid init" in role.last_words, f"{words}: {role.last_words}")
        client = Spoken([*grid.command("--grid", "third", "submit"), "--", *grid.engine])
        wait_until(lambda: "waiting for the grid third to be made" in client.told(), client.told)
        grid.run("--grid", "third", "init", "--shards", "1")
        grid.workers.append(Role(grid, "--grid", "third", "worker", "--shard", "0", "--replica", "0"))
        answers(client, COUNT, b'{"count":0,"line":1}')
        client.close()


def standings(grid: Grid) -> dict[str, dict[str, object]]:
    """What `grid status` says of each role."""
    first, *roles = map(json.loads, grid.run("status").splitlines())
    return {"grid": first, **{role["role"]: role for role in roles}}


def the_status_says_who_is_where() -> None:
    """By hand: five requests, and a worker that was ended after two of them."""
    with folder() as name, Grid(Path(name), 2, 1) as grid:
        grid.run("submit", text=joined([COUNT] * 2))
        wait_until(lambda: standings(grid)["worker 1:0"]["request"] == 2, lambda: str(standings(grid)))
        end(grid.workers[1])
        client = grid.client()
        for _ in range(3):
            client.send(COUNT)
        client.turn(1)
        wait_until(lambda: standings(grid)["worker 0:0"]["request"] == 5, lambda: str(standings(grid)))
        time.sleep(2)
        found = standings(grid)
        need(found["grid"] == {"grid": "grid", "shards": 2, "replicas": 1, "limit": 1_000_000, "requests": 5,
                               "version": VERSION},
             str(found["grid"]))
        for role, request, behind, state in (("worker 0:0", 5, 0, "ready"), ("worker 1:0", 2, 3, "ready"),
                                             ("gather", 2, 3, "ready"), ("tidy", 0, 5, "ready")):
            seconds = found[role].pop("seconds")
            need(isinstance(seconds, float) and (seconds > 1.8 if role == "worker 1:0" else seconds < 1.8),
                 f"{role}: {seconds}")
            need(found[role] == {"role": role, "request": request, "behind": behind, "state": state}, str(found[role]))
        grid.workers[1].start()
        need(len(client.wait_for_replies()) > 0, client.told())
        client.kill()


def kept_once(grid: Grid, due: Due) -> None:
    """`Failed` where not each reply of an input is kept once, after a while."""
    count = sum(1 for reply in due.replies if reply is not None and b'"refused":' not in reply[:40])
    wait_until(lambda: grid.redis.asked("HGET", PREFIX + "kept", "number") == str(count),
               lambda: grid.redis.asked("HGETALL", PREFIX + "kept"))
    need(grid.redis.asked("XLEN", PREFIX + "replies:desk") == str(count), "not each reply is kept once")


def turns_are_counted_in_signs() -> None:
    """Whose requests the replica 2 of 4 answers, by the signs of 0, 1 and 3 at each of its own; worked out by hand."""
    turns, place = Turns(4, 2), iter(range(100))

    def see(times: int, *states: State | None) -> frozenset[int]:
        for _ in range(times):
            number = next(place)
            turns.see([Sign(number, number, state) if state else None for state in states])
        return turns.mine

    loading, ready, stuck = State.LOADING, State.READY, State.STUCK
    for times, states, due in ((3, (ready, ready, ready), {2}), (4, (ready, None, ready), {2}),
                               (1, (ready, None, ready), {1, 2}), (4, (stuck, None, ready), {1, 2}),
                               (1, (stuck, None, ready), {0, 1, 2}), (9, (loading, None, ready), {0, 1, 2}),
                               (1, (ready, None, ready), {1, 2}), (5, (ready, None, None), {1, 2}),
                               (5, (None, None, None), {0, 1, 2, 3}), (1, (None, None, ready), {0, 1, 2}),
                               (1, (None, ready, ready), {2})):
        found = see(times, *states)
        need(found == due, f"{states} {times} times: {sorted(found)}, and {sorted(due)} are due")


def one_of_two_replicas_is_enough() -> None:
    """A replica of each of two shards is ended in the middle of an input, and later started again while the other one
    is ended: replies go on each time, with the bytes of one engine."""
    source = Source(140)
    due = Due.of(source.lines(900))
    with folder() as name, Grid(Path(name), 2, 2) as grid:
        chaos = Chaos(grid, due, source.dice, "desk")
        chaos.goes_on_to(200)
        for away, other in ((1, 0), (0, 1)):
            for shard in (0, 1):
                end(grid.workers[2 * shard + away])
            start = time.monotonic()
            chaos.goes_on_to(chaos.answered + 150)
            need(time.monotonic() - start < 30, f"{time.monotonic() - start:.1f} s without a replica\n{grid.told()}")
            for shard in (0, 1):
                role = grid.workers[2 * shard + away]
                role.start()
                wait_until(lambda: f"{shard}:{away} is back" in told_by(grid.workers[2 * shard + other]), grid.told)
        same(chaos.run([]), due.text(), "with replicas away")
        kept_once(grid, due)
        grid.needs_all()


def told_by(role: Role) -> str:
    """What a role told so far."""
    return Path(role.told.name).read_text()


def a_replica_that_hangs_loses_its_turns() -> None:
    """The engine of one of two replicas is stopped: replies go on. Once it goes on what it gives is not taken twice."""
    source = Source(141)
    due = Due.of([line for line in source.lines(700) if not line.startswith(b'{"op":"p')])
    with folder() as name, Grid(Path(name), 1, 2) as grid:
        chaos = Chaos(grid, due, source.dice, "desk")
        chaos.goes_on_to(200)
        worker = grid.workers[1].process
        engine = engine_of(worker.pid) if worker else None
        need(engine is not None, "no engine runs")
        os.kill(engine or 0, signal.SIGSTOP)
        try:
            chaos.goes_on_to(400)
            need("answers for 0:1, which is away" in grid.told(), grid.told())
        finally:
            os.kill(engine or 0, signal.SIGCONT)
        wait_until(lambda: "0:1 is back" in grid.told(), grid.told)
        same(chaos.run([]), due.text(), "with an engine that hung")
        kept_once(grid, due)
        grid.needs_all()


def turns_are_taken_in_place() -> None:
    """Where no change came behind the requests of a replica that is away, the other one answers them as it stands, and
    builds no engine anew."""
    register = b'{"op":"register","queries":[{"id":"q1","query":"tea"}]}'
    match = b'{"op":"match","articles":[{"id":"a","fields":{"text":"tea"}}]}'
    due = [b'{"alerts":[{"article":"a","queries":["q1"]}],"line":%d,"notes":[]}' % number for number in range(2, 42)]
    with folder() as name, Grid(Path(name), 1, 2) as grid:
        client = grid.client()
        answers(client, register, b'{"line":1,"registered":1}')
        end(grid.workers[0])
        for _ in due:
            client.send(match)
        got: list[bytes] = []
        while len(got) < len(due):
            got += client.wait_for_replies() or [b""]
        same(joined(got), joined(due), "matches while a replica is away")
        need("begins anew" not in grid.told(), grid.told())
        client.close()


def a_change_is_not_done_twice() -> None:
    """A delete is the first request of a replica that is away: the other one, which has done it already, says that one
    query went, and not none."""
    register = b'{"op":"register","queries":[{"id":"q1","query":"tea"}]}'
    with folder() as name, Grid(Path(name), 1, 2) as grid:
        client = grid.client()
        answers(client, register, b'{"line":1,"registered":1}')
        end(grid.workers[0])
        answers(client, b'{"op":"delete","ids":["q1"]}', b'{"deleted":1,"line":2}')
        answers(client, COUNT, b'{"count":0,"line":3}')
        client.close()


def a_replica_that_never_was_is_replaced() -> None:
    """A grid of three replicas of which two are never started, and one of which is: it answers all."""
    with folder() as name, Grid(Path(name), 1, 3) as grid:
        for role in grid.workers:
            role.kill()
        grid.redis.asked("FLUSHALL")
        grid.run("init", "--shards", "1", "--replicas", "3")
        grid.workers[1].start()
        for role in grid.others:
            role.kill()
            role.start()
        source = Source(142)
        lines = source.lines(60)
        same(grid.run("submit", text=joined(lines)), Due.of(lines).text(), "one replica of three")


# An engine that takes a second to begin, and ends at one line.
FRAGILE = """#!/usr/bin/python3
import os, subprocess, sys, time
time.sleep(1.1)
engine = subprocess.Popen(sys.argv[1:], stdin=subprocess.PIPE)
for line in sys.stdin.buffer:
    if b"poison" in line:
        engine.kill()
        os._exit(3)
    engine.stdin.write(line)
    engine.stdin.flush()
"""


def a_worker_ends_where_its_engine_always_does() -> None:
    """An engine that ends at one line each time is built six times, however long that takes, and no more."""
    with folder() as name, Grid(Path(name), 1, 1) as grid:
        fragile = Path(name) / "fragile"
        fragile.write_text(FRAGILE)
        fragile.chmod(0o755)
        end(grid.workers[0])
        grid.workers[0].command[-len(grid.engine):] = [str(fragile), *grid.engine]
        grid.workers[0].start()
        client = grid.client()
        answers(client, COUNT, b'{"count":0,"line":1}')
        client.send(b'{"op":"match","articles":[{"id":"poison","fields":{}}]}')
        client.turn(1)
        worker = grid.workers[0].process
        wait_until(lambda: worker is not None and worker.poll() == 1, grid.told)
        told = told_by(grid.workers[0])
        need(told.count("another one is built") == 5 and "has ended 6 times in a row" in told, told)
        client.kill()


TESTS = (a_worker_ends_where_its_engine_always_does, what_a_client_waits_for_is_told, a_reader_that_stops_is_told,
         turns_are_counted_in_signs, a_grid_that_was_never_made_is_told, the_status_says_who_is_where,
         one_of_two_replicas_is_enough, a_replica_that_hangs_loses_its_turns, turns_are_taken_in_place,
         a_change_is_not_done_twice, a_replica_that_never_was_is_replaced)
