"""Tests of `service/grid`."""

from __future__ import annotations

import os
import signal
import subprocess
import time
from pathlib import Path
from random import Random

from pressclip_service.engine import command_of
from pressclip_service.replies import Kind, kind_of, renumbered

from .grid_runs import Chaos, Grid
from .inputs import Source, joined, with_long_lines
from .judge import Due, folder, need, replies_of_engine, same
from .keep_runs import dump_of, run_keep
from .leaky import LEAKS
from .processes import children_of, engine_of

SHAPES = ((1, 1), (2, 1), (3, 2), (8, 1))
LINES = 1_500
# How many processes are ended in a grid of each shape.
KILLS = 36


def a_large_register() -> bytes:
    """A line with as many queries as it may have."""
    items = b",".join(b'{"id":"large%d","query":"w%d"}' % (number, number % 30) for number in range(1_024))
    return b'{"op":"register","queries":[' + items + b"]}"


def the_grid_answers_as_the_engine() -> None:
    """Whole inputs through grids of several shapes, and a last line without its line feed."""
    for shards, replicas in SHAPES:
        source = Source(20 + shards)
        lines = with_long_lines(source.lines(LINES), source.dice)
        lines[700] = a_large_register()
        text = joined(lines) + b'{"op":"count"}'
        with folder() as name, Grid(Path(name), shards, replicas) as grid:
            replies = grid.run("submit", text=text)
            same(replies, replies_of_engine(text), f"{shards} shards, {replicas} replicas")
            grid.needs_all()


def the_grid_with_processes_ended(shards: int, replicas: int) -> None:
    """An input with processes of all kinds ended by SIGKILL at random places."""
    source = Source(30 + shards)
    due = Due.of(source.lines(LINES))
    places = source.dice.sample(range(1, LINES - 1), KILLS)
    with folder() as name, Grid(Path(name), shards, replicas) as grid:
        chaos = Chaos(grid, due, source.dice, "desk")
        same(chaos.run(places), due.text(), f"{shards} shards, {replicas} replicas, ended: {chaos.ended}")
        need(len(chaos.ended) >= KILLS - 3, f"only {len(chaos.ended)} processes were ended")
        ended = ", ".join(f"{chaos.ended.count(kind)} {kind}" for kind in sorted(set(chaos.ended)))
        print(f"    {shards} shards, {replicas} replicas; ended: {ended}", flush=True)


def processes_ended_1_1() -> None:
    """One shard."""
    the_grid_with_processes_ended(1, 1)


def processes_ended_2_1() -> None:
    """Two shards."""
    the_grid_with_processes_ended(2, 1)


def processes_ended_3_2() -> None:
    """Three shards, two engines each."""
    the_grid_with_processes_ended(3, 2)


def processes_ended_8_1() -> None:
    """Eight shards."""
    the_grid_with_processes_ended(8, 1)


def answers_of_redis_are_lost() -> None:
    """Connections that break between what Redis did and its answer: all is done once, whoever asks again."""
    source = Source(90)
    due = Due.of(source.lines(800))
    with folder() as name, Grid(Path(name), 2, 2, after=1_000_000, faults=LEAKS) as grid:
        chaos = Chaos(grid, due, source.dice, "desk")
        same(chaos.run([]), due.text(), "with answers of Redis lost")
        entered = [place + 1 for place, reply in enumerate(due.replies)
                   if reply is not None and kind_of(reply) is not Kind.REFUSED]
        need([request.line_number for request in grid.requests()] == entered, "not each line entered once")
        need(grid.way is not None and grid.way.dropped > 50, "too few answers were lost")
        grid.needs_all()


def redis_gone_for_ten_seconds() -> None:
    """All wait, and go on."""
    source = Source(40)
    due = Due.of(source.lines(400))
    with folder() as name, Grid(Path(name), 2, 1) as grid:
        chaos = Chaos(grid, due, source.dice, "desk")
        chaos.goes_on_to(200)
        grid.redis.kill()
        chaos.feed(60)
        end = time.monotonic() + 10
        while time.monotonic() < end:
            chaos.client.turn(0.5)
        grid.redis.start()
        same(chaos.run([]), due.text(), "after ten seconds without Redis")
        need("waiting for Redis" in grid.told(), "nobody told that Redis was away")
        grid.needs_all()


def a_full_grid_changes_no_shard() -> None:
    """A grid of five queries at most; the replies are worked out by hand."""
    def register(*names: str) -> bytes:
        items = ",".join(f'{{"id":"{name}","query":"tea"}}' for name in names)
        return f'{{"op":"register","queries":[{items}]}}'.encode()

    match = b'{"op":"match","articles":[{"id":"a","fields":{"text":"tea"}}]}'
    lines = [register("a", "b", "c"), register("d", "e", "f"), match, register("d", "e", "a"), register("f"), match,
             register("a", "a", "e"), b'{"op":"delete","ids":["a","a","x"]}', register("f", "f"), register("a"),
             b'{"op":"count"}', b'{"op":"clear"}', register("1", "2", "3", "4", "5"), register("6"), b'{"op":"count"}']
    due = [b'{"line":1,"registered":3}', b'{"line":2,"refused":"full"}',
           b'{"alerts":[{"article":"a","queries":["a","b","c"]}],"line":3,"notes":[]}', b'{"line":4,"registered":3}',
           b'{"line":5,"refused":"full"}',
           b'{"alerts":[{"article":"a","queries":["a","b","c","d","e"]}],"line":6,"notes":[]}',
           b'{"line":7,"registered":2}', b'{"deleted":1,"line":8}', b'{"line":9,"registered":1}',
           b'{"line":10,"refused":"full"}', b'{"count":5,"line":11}', b'{"cleared":5,"line":12}',
           b'{"line":13,"registered":5}', b'{"line":14,"refused":"full"}', b'{"count":5,"line":15}']
    with folder() as name, Grid(Path(name), 3, 1, limit=5) as grid:
        same(grid.run("submit", text=joined(lines)), joined(due), "a full grid")


def moves_from_one_process_to_the_grid_and_back() -> None:
    """What `keep` dumps goes into a grid, and what the grid dumps into a `keep`: both answer as the engine."""
    source = Source(50)
    lines = source.lines(600)
    asked = [b'{"op":"count"}', *(source.show() for _ in range(50)), *(source.match() for _ in range(50))]
    due = replies_of_engine(joined(lines + asked)).splitlines()[-len(asked):]
    with folder() as name, Grid(Path(name), 3, 1) as grid:
        journal = Path(name) / "journal-of-keep"
        need(run_keep(journal, joined(lines))[0] == 0, "keep ended badly")
        grid.run("submit", text=dump_of(journal))
        need_same_but_numbers(grid.run("submit", text=joined(asked)).splitlines(), due)
        again = Path(name) / "journal-of-another"
        dumped = grid.run("dump")
        need(run_keep(again, dumped)[0] == 0, "keep ended badly")
        need_same_but_numbers(run_keep(again, joined(asked))[1].splitlines(), due)


def need_same_but_numbers(got: list[bytes], due: list[bytes]) -> None:
    """`Failed` where replies differ, in more than the numbers of their lines."""
    same(joined([renumbered(reply, 0) for reply in got]), joined([renumbered(reply, 0) for reply in due]), "moved")


def an_input_goes_on_under_its_name() -> None:
    """A named client that is started again: with the whole input it repeats its replies, with `--go-on` the input goes
    on, and another line under a number that entered is an error."""
    source = Source(60, ids=20)
    lines = [line for line in source.lines(200) if line.startswith(b'{"op":"')]
    due = Due.of(lines)
    first, second = lines[:120], lines[120:]
    with folder() as name, Grid(Path(name), 2, 1) as grid:
        front = b"".join(reply + b"\n" for reply in due.replies[:120] if reply)
        same(grid.run("submit", "--name", "desk", text=joined(first)), front, "the first part")
        same(grid.run("submit", "--name", "desk", text=joined(first)), front, "the first part again")
        last = max(place for place in range(120) if b"refused" not in (due.replies[place] or b"refused"))
        other = joined(first[:last]) + b'{"op":"purge" }\n'
        done = subprocess.run(grid.command("submit", "--name", "desk"), input=other, stdout=subprocess.PIPE,
                              stderr=subprocess.PIPE, check=False)
        need(done.returncode == 1 and b"is another than" in done.stderr, f"{done.returncode} {done.stderr.decode()}")
        whole = joined(lines)
        same(grid.run("submit", "--name", "desk", "--from", "121", text=whole),
             b"".join(reply + b"\n" for reply in due.replies[120:] if reply), "the second part")
        got = grid.run("submit", "--name", "desk", "--go-on", text=b'{"op":"count"}\n')
        number = int(got[got.index(b'"line":') + 7:-2])
        need(number <= len(lines) + 1 and number > 120, f"another number: {got!r}")


def tidying_drops_what_is_passed() -> None:
    """The stream stays short, and a worker that is started again begins with a snapshot."""
    source = Source(70)
    due = Due.of(source.lines(1_200))
    dice = Random(1)
    with folder() as name, Grid(Path(name), 2, 2, after=100) as grid:
        chaos = Chaos(grid, due, dice, "desk")
        same(chaos.run([]), due.text(), "with tidying")
        deadline = time.monotonic() + 30
        while "requests dropped" not in grid.told() and time.monotonic() < deadline:
            time.sleep(0.2)
        grid.run("tidy", "--once")
        for role in grid.workers:
            role.kill()
            role.start()
        count = grid.run("submit", text=b'{"op":"count"}\n')
        same(count, replies_of_engine(joined(due.lines) + b'{"op":"count"}\n').splitlines()[-1].replace(
            b'"line":1201', b'"line":1') + b"\n", "the count after a start from snapshots")
        deadline = time.monotonic() + 30
        while not all(begin_with_a_snapshot(name)) and time.monotonic() < deadline:
            time.sleep(0.2)
        need(all(begin_with_a_snapshot(name)), grid.told())


def begin_with_a_snapshot(name: str) -> list[bool]:
    """Of each worker whether it began with nothing first, and with a snapshot the last time."""
    told = [path.read_text() for path in Path(name).glob("worker*.told")]
    return ["has the snapshot of 0-0" in text and text.rstrip().splitlines()[-1].find(" 0-0 ") < 0 for text in told]


def clients_at_once() -> None:
    """Three clients at once: each has the replies that one process gives to all lines in the order of the stream."""
    inputs = {f"desk{number}": Source(80 + number).lines(400) for number in range(3)}
    with folder() as name, Grid(Path(name), 2, 2, after=1_000_000) as grid:
        running = {}
        for client, lines in inputs.items():
            source = Path(name) / client
            source.write_bytes(joined(lines))
            with open(source, "rb") as file, open(f"{source}.out", "wb") as out:
                running[client] = subprocess.Popen(grid.command("submit", "--name", client), stdin=file, stdout=out)
        need(all(process.wait(120) == 0 for process in running.values()), grid.told())
        order = grid.requests()
        replies = replies_of_engine(joined([request.line for request in order])).splitlines()
        due: dict[str, list[bytes]] = {client: [] for client in inputs}
        for request, reply in zip(order, replies):
            due[request.client].append(renumbered(reply, request.line_number))
        for client in inputs:
            got = Path(name, f"{client}.out").read_bytes().splitlines()
            same(joined([reply for reply in got if b'"refused":' not in reply[:40]]), joined(due[client]), client)


def one_command_keeps_a_grid_up() -> None:
    """`grid up` starts all of a grid, starts again what ends, and ends all of it when it is ended."""
    with folder() as name, Grid(Path(name), 2, 1) as grid:
        for role in (*grid.workers, *grid.others):
            role.kill()
        with open(Path(name) / "up.told", "ab") as told:
            whole = subprocess.Popen(grid.command("up", "--shards", "2", "--", *command_of([], workers=0)),
                                     stdin=subprocess.DEVNULL, stderr=told)
        try:
            due = b'{"line":1,"registered":1}\n{"count":1,"line":2}\n'
            text = b'{"op":"register","queries":[{"id":"q1","query":"tea"}]}\n{"op":"count"}\n'
            same(grid.run("submit", text=text), due, "the grid that is up")
            worker = engine_of(whole.pid)
            need(worker is not None, "no worker runs")
            os.kill(worker or 0, signal.SIGKILL)
            same(grid.run("submit", text=text), due, "the grid after an end")
            parts = children_of(whole.pid)
        finally:
            whole.terminate()
            whole.wait(30)
        need(len(parts) == 4 and not any(Path(f"/proc/{part}").exists() for part in parts), grid.told())


TESTS = (one_command_keeps_a_grid_up, the_grid_answers_as_the_engine, clients_at_once, processes_ended_1_1,
         processes_ended_2_1, processes_ended_3_2, processes_ended_8_1, redis_gone_for_ten_seconds,
         answers_of_redis_are_lost, a_full_grid_changes_no_shard, moves_from_one_process_to_the_grid_and_back,
         an_input_goes_on_under_its_name, tidying_drops_what_is_passed)
