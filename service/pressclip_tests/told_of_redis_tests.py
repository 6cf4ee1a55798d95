"""Tests of what Redis may be found to be: half made, with strange entries, full, a replica, emptied, or older; and of
hits through a grid."""

from __future__ import annotations

import json
import os
import shutil
import signal
import subprocess
from pathlib import Path

from pressclip_service.engine import program
from pressclip_service.names import MATCH
from pressclip_service.parts import Heard, match_answer, reply_of
from pressclip_service.place import VERSION

from .grid_runs import Grid, Role, end
from .inputs import Source, joined
from .judge import Due, folder, need, replies_of_engine, same
from .processes import engine_of
from .turns_tests import standings, wait_until

PREFIX = "pressclip:grid:"
DATA = Path(__file__).resolve().parents[2] / "crates" / "examples" / "data"
REGISTER = b'{"op":"register","queries":[{"id":"q1","query":"tea"}]}'
COUNT = b'{"op":"count"}'


def settings_are_written_at_once() -> None:
    """A grid of which one setting stands alone, as an `init` of before leaves it where it ends in its middle: who needs
    a grid waits and says that it was not made, and `init` makes the rest."""
    with folder() as name, Grid(Path(name), 1, 1) as grid:
        grid.redis.asked("HSET", "pressclip:half:settings", "shards", "2")
        half = Role(grid, "--grid", "half", "worker", "--shard", "1", "--replica", "0")
        wait_until(lambda: "waiting for the grid half to be made" in Path(half.told.name).read_text(), grid.told)
        need(grid.ended("--grid", "half", "init", "--shards", "3").returncode == 1, "made with another setting")
        grid.run("--grid", "half", "init", "--shards", "2")
        found = grid.redis.asked("HMGET", "pressclip:half:settings", "shards", "replicas", "limit")
        need(found == "2\n1\n1000000", found)
        wait_until(lambda: "has the snapshot of 0-0" in Path(half.told.name).read_text(), grid.told)
        half.kill()
        half.told.close()


def a_grid_names_the_version_that_made_it() -> None:
    """The version stands beside the settings, which whoever made the grid before it did reads by their names. A grid
    that lacks it, as one of before, is used as it is, and stays without."""
    with folder() as name, Grid(Path(name), 1, 1) as grid:
        need(grid.redis.asked("HGET", f"{PREFIX}settings", "version") == VERSION, "another version")
        need(grid.redis.asked("HMGET", f"{PREFIX}settings", "shards", "replicas", "limit") == "1\n1\n1000000", "others")
        grid.redis.asked("HSET", "pressclip:old:settings", "shards", "1", "replicas", "1", "limit", "9", "mark", "aa")
        grid.run("--grid", "old", "init", "--shards", "1", "--limit", "9")
        told = json.loads(grid.run("--grid", "old", "status").splitlines()[0])
        need((told["limit"], told["version"]) == (9, None), str(told))


def strange_entries_are_passed_over() -> None:
    """Entries of the stream that are none of the grid's own: each worker tells of them and goes on, and so do those who
    tidy and dump; and those among a client's replies, and on its channel."""
    source = Source(150)
    due = Due.of(source.lines(120))
    with folder() as name, Grid(Path(name), 2, 1) as grid:
        strange = (["x", "1"], ["c", "desk", "n", "1", "m", "none", "k", "m", "l", "{}"],
                   ["c", "desk", "n", "1", "m", "2", "k", "?", "l", "{}"])
        front = due.lines[:60]
        same(grid.run("submit", "--name", "desk", text=joined(front)), Due.of(front).text(), "before strange entries")
        wait_until(lambda: grid.redis.asked("HGET", PREFIX + "kept", "number") ==
                   grid.redis.asked("GET", PREFIX + "number"), grid.told)
        for words in strange:
            grid.redis.asked("XADD", PREFIX + "requests", "*", *words)
            grid.redis.asked("XADD", PREFIX + "replies:desk", "*", *words)
            grid.redis.asked("XADD", PREFIX + "lines:desk", "*", *words)
        client = grid.client("--name", "desk")
        got: list[bytes] = []
        for line, reply in zip(due.lines, due.replies):
            client.send(line)
            replies = client.wait_for_replies() if reply else []
            need(bool(replies) or not reply, f"{client.told()}\n{grid.told()}")
            got += replies
            for text in ("strange", "1-1 0 m", "1-1 none m\n[]"):
                grid.redis.asked("PUBLISH", PREFIX + "told:desk", text)
        same(joined(got), due.text(), "among strange entries")
        client.close()
        for role in grid.workers:
            need(Path(role.told.name).read_text().count("which is no request of a grid") == 3, grid.told())
        need(len(grid.run("dump")) > 0, "no dump")
        grid.run("tidy", "--once")
        grid.needs_all()


def hits_are_put_together() -> None:
    """Alerts with hits of two shards, put together by hand, among them of no query and of one without a hit."""
    heard = Heard()
    first = match_answer(b'{"alerts":[{"article":"x","hits":[[{"field":"t","position":0},{"field":"t","position":2}],'
                         b'[]],"queries":["b","d\\""]},{"article":"y","hits":[],"queries":[]}],"line":1,"notes":[]}',
                         heard)
    second = match_answer(b'{"alerts":[{"article":"x","hits":[[{"field":"u","position":7}]],"queries":["c"]},'
                          b'{"article":"y","hits":[[]],"queries":["],["]}],"line":1,"notes":[]}', heard)
    same(reply_of(MATCH, 5, [first, second]),
         b'{"alerts":[{"article":"x","hits":[[{"field":"t","position":0},{"field":"t","position":2}],'
         b'[{"field":"u","position":7}],[]],"queries":["b","c","d\\""]},{"article":"y","hits":[[]],"queries":["],["]}],'
         b'"line":5,"notes":[]}', "two shards with hits")


class GridWithHits(Grid):
    """A grid whose engines show hits."""

    words = ("hits",)


def hits_go_through_a_grid() -> None:
    """A grid whose engines show hits answers as one of them: on the example, and on a random input with articles that
    have no fields."""
    source = Source(151)
    nothing = b'{"op":"match","articles":[{"id":"a","fields":{}},{"id":"b","fields":{}}]}'
    lines = [line if number % 40 else nothing for number, line in enumerate(source.lines(500))]
    due = subprocess.run([program(), "run", "0", "hits"], input=joined(lines), stdout=subprocess.PIPE, check=True)
    with folder() as name, GridWithHits(Path(name), 3, 1) as grid:
        example = (DATA / "hits.jsonl").read_bytes()
        same(grid.run("submit", text=example), (DATA / "hits.hits").read_bytes(), "the example with hits")
        grid.run("submit", text=b'{"op":"clear"}\n')
        same(grid.run("submit", text=joined(lines)), due.stdout, "a random input with hits")
        grid.needs_all()


def a_replica_is_told_and_waited_for() -> None:
    """A Redis that follows another takes no writes: who writes says so and waits, and goes on once it leads again."""
    with folder() as name, Grid(Path(name), 1, 1) as grid:
        client = grid.client()
        client.send(REGISTER)
        need(client.wait_for_replies() == [b'{"line":1,"registered":1}'], "no reply")
        grid.redis.asked("REPLICAOF", "127.0.0.1", "1")
        client.send(COUNT)
        client.turn(1)
        wait_until(lambda: "waiting for Redis: it is a replica and takes no writes" in client.told(), client.told)
        grid.redis.asked("REPLICAOF", "NO", "ONE")
        need(client.wait_for_replies() == [b'{"count":1,"line":2}'], client.told())
        need("Redis is back" in client.told(), client.told())
        client.close()
        grid.needs_all()


def need_ended(role: Role, words: str) -> None:
    """`Failed` where a role doesn't end with status 1 and these words, after a while."""
    told = Path(role.told.name)
    wait_until(lambda: role.status() is not None, lambda: f"{role.words} goes on: {told.read_text()}")
    need(role.status() == 1 and words in told.read_text(), f"{role.status()} {told.read_text()}")


def an_emptied_redis_is_told() -> None:
    """After FLUSHALL all roles that have given a sign end with status 1 and say what happened, and so do a client that
    waits for a reply and one that submits on."""
    words = "the grid grid is gone from Redis, as after FLUSHALL"
    with folder() as name, Grid(Path(name), 2, 1) as grid:
        waiting, idle = grid.client(), grid.client("--name", "desk")
        for client in (waiting, idle):
            client.send(REGISTER)
            need(client.wait_for_replies() == [b'{"line":1,"registered":1}'], "no reply")
        worker = grid.workers[0].process
        engine = engine_of(worker.pid) if worker else None
        need(engine is not None, "no engine runs")
        os.kill(engine or 0, signal.SIGSTOP)
        waiting.send(COUNT)
        waiting.turn(1)
        wait_until(lambda: grid.redis.asked("XLEN", PREFIX + "requests") == "3", waiting.told)
        wait_until(lambda: all(role.get("seconds", 0) is not None for role in standings(grid).values()), grid.told)
        grid.redis.asked("FLUSHALL")
        idle.send(COUNT)
        for role in (*grid.workers, *grid.others):
            need_ended(role, words)
        for client, told in ((waiting, words), (idle, "the grid does not know the name desk any more")):
            need(client.wait_for_replies() == [], "a reply without a grid")
            client.close()
            need(client.status == 1 and told in client.last_words, f"{client.status} {client.last_words}")


def an_older_file_is_told() -> None:
    """Redis is started with a copy of its file that was made earlier: workers and a client that know of more say so and
    end with status 1."""
    with folder() as name, Grid(Path(name), 2, 1) as grid:
        client = grid.client("--name", "desk")
        client.send(REGISTER)
        need(client.wait_for_replies() == [b'{"line":1,"registered":1}'], "no reply")
        parts = grid.redis.folder / "appendonlydir"
        end(grid.redis)
        shutil.copytree(parts, grid.redis.folder / "copy")
        grid.redis.start()
        client.send(COUNT)
        need(client.wait_for_replies() == [b'{"count":1,"line":2}'], client.told())
        end(grid.redis)
        shutil.rmtree(parts)
        (grid.redis.folder / "copy").rename(parts)
        grid.redis.start()
        client.send(COUNT)
        need(client.wait_for_replies() == [], "a reply over an older file")
        client.close()
        need(client.status == 1 and "its file is an older one" in client.last_words, client.last_words)
        for role in grid.workers:
            need_ended(role, "its file is an older one")


def what_frees_memory_goes_on() -> None:
    """Redis has reached its `maxmemory`: lines wait and say for what, while workers that are started anew, the gatherer
    and what tidies go on; these free memory, and the lines enter."""
    article = b'{"id":"a","fields":{"text":"%b"}}' % (b"tea milk " * 1_000)
    matches = [b'{"op":"match","articles":[%b]}' % article] * 600
    with folder() as name, Grid(Path(name), 1, 1, after=1_000_000) as grid:
        for role in grid.others:
            role.kill()
        grid.run("submit", "--name", "desk", text=joined([REGISTER, *matches]))
        used = int(grid.redis.asked("INFO", "memory").split("used_memory:")[1].split()[0])
        grid.redis.asked("CONFIG", "SET", "maxmemory", str(used - (1 << 20)))
        client = grid.client("--name", "other")
        client.send(COUNT)
        client.turn(1)
        wait_until(lambda: "waiting for Redis: it has no memory left" in client.told(), client.told)
        end(grid.workers[0])
        grid.workers[0].start()
        grid.others[0].start()
        wait_until(lambda: grid.redis.asked("HGET", PREFIX + "kept", "number") == "601", grid.told)
        need("waiting for Redis" not in grid.told(), grid.told())
        wait_until(lambda: b"state\": \"ready" in grid.run("status").splitlines()[1], grid.told)
        grid.run("tidy", "--once")
        need(client.wait_for_replies() == [b'{"count":1,"line":1}'], f"{client.told()}\n{grid.told()}")
        client.close()


TESTS = (settings_are_written_at_once, a_grid_names_the_version_that_made_it, strange_entries_are_passed_over,
         hits_are_put_together, hits_go_through_a_grid, a_replica_is_told_and_waited_for, an_emptied_redis_is_told, an_older_file_is_told,
         what_frees_memory_goes_on)
