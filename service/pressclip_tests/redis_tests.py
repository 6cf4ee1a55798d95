"""Tests of Redis's file where a write to it was torn, and of what is told of Redis's settings."""

from __future__ import annotations

import subprocess
import time
from pathlib import Path
from typing import Sequence

from pressclip_service.errors import STATUS_BROKEN, STATUS_ENGINE, STATUS_LOCKED
from pressclip_service.torn import is_torn, last_part

from .grid_runs import Grid, Redis, end, free_port
from .judge import GRID, REDIS, folder, need, same
from .processes import Spoken

PATIENCE_SECONDS = 30.0
# One of the grid's scripts in small: a number, an entry under it, and who made it.
ENTER = ("redis.call('INCR', 'number') redis.call('XADD', 'entries', '*', 'm', redis.call('GET', 'number'))"
         " redis.call('HSET', 'clients', ARGV[1], 1) return redis.call('GET', 'number')")
MULTI, EXEC = b"*1\r\n$5\r\nMULTI\r\n", b"*1\r\n$4\r\nEXEC\r\n"
SET = b"*3\r\n$3\r\nSET\r\n$1\r\na\r\n$2\r\nxy\r\n"


def fronts_of_commands_are_torn() -> None:
    """Each front of a command or of a transaction, and nothing else."""
    for whole in (SET, MULTI + SET + EXEC, MULTI + EXEC, MULTI + SET + SET + EXEC):
        for end in range(len(whole)):
            need(is_torn(whole[:end]), f"{whole[:end]!r} is not torn")
            need(is_torn(whole[:end] + bytes(7)), f"{whole[:end]!r} with zeros behind it is not torn")
        need(not is_torn(whole), f"{whole!r} is torn")
        need(not is_torn(whole + SET[:9]), f"what begins with {whole!r} is torn")
    for text in (b"hello", b"*x\r\n", b"$3\r\nSET\r\n", b"*1\r\n*1\r\n", b"*1\r\n$5\r\nMULTI__*1", b"*1\r\n\0\0$5",
                 MULTI + b"rubbish", MULTI + SET[:-2] + b"zz" + EXEC[:4]):
        need(not is_torn(text), f"{text!r} is torn")


def file_with(redis: Redis, *clients: str) -> Path:
    """Its file after an entry of each of the clients, and its end."""
    for client in clients:
        redis.asked("EVAL", ENTER, "0", client)
    end(redis)
    file = last_part(redis.folder)
    assert file
    return file


def what_is_torn_is_never_done() -> None:
    """The second of two transactions is cut at places in each of its commands; a third follows, and Redis is started
    once more. By hand: two entries, numbered 1 and 2, and nothing of the one that was torn."""
    with folder() as name:
        redis = Redis(Path(name))
        file = file_with(redis, "first", "torn")
        whole = file.read_bytes()
        second = whole.rindex(MULTI)
        places = [whole.index(word, second) + 3 for word in (b"MULTI", b"INCR", b"XADD", b"HSET", b"EXEC")]
        ends = [whole.index(word, second) - 8 for word in (b"INCR", b"XADD", b"HSET", b"EXEC")]
        for text in (*(whole[:place] for place in (*places, *ends)), whole[:places[2]] + bytes(100)):
            file.write_bytes(text)
            redis.start()
            need(redis.asked("EVAL", ENTER, "0", "third") == "2", f"another number after {text[second:]!r}")
            end(redis)
            redis.start()
            need(redis.asked("GET", "number") == "2" and redis.asked("XLEN", "entries") == "2",
                 f"{redis.asked('XRANGE', 'entries', '-', '+')} after {text[second:]!r}")
            need(redis.asked("HKEYS", "clients") == "first\nthird", f"other clients after {text[second:]!r}")
            end(redis)


def mended(redis: Redis) -> tuple[int, str]:
    """The status with which a Redis's file is mended, and what is told."""
    done = subprocess.run([str(REDIS), "--dir", str(redis.folder), "--mend"], stdout=subprocess.PIPE,
                          stderr=subprocess.PIPE, text=True, check=False)
    return done.returncode, done.stderr


def what_is_broken_elsewhere_is_left() -> None:
    """A wrong byte before the last transaction, rubbish behind it, a half that Redis left before it, and a torn file
    that a process has open: each is told and left as it is."""
    with folder() as name:
        redis = Redis(Path(name))
        file = file_with(redis, "first", "second")
        whole = file.read_bytes()
        middle = whole.index(b"XADD") - 4
        second = whole.rindex(MULTI)
        for text in (whole[:middle] + b"!" + whole[middle + 1:], whole + b"rubbish",
                     whole[:second] + MULTI + SET + whole[second:]):
            file.write_bytes(text)
            status, told = mended(redis)
            need(status == STATUS_BROKEN and "is broken behind byte" in told, f"{status} {told}")
            need(file.read_bytes() == text, "a broken file was changed")
        file.write_bytes(whole[:-9])
        with open(file, "ab"):
            status, told = mended(redis)
            need(status == STATUS_LOCKED and "another process may have" in told, f"{status} {told}")
            need(file.read_bytes() == whole[:-9], "a file that is open was changed")
        status, told = mended(redis)
        need(status == 0 and "are cut off" in told and file.read_bytes() == whole[:whole.rindex(MULTI)], told)
        need(mended(redis) == (0, ""), "a whole file was mended")


def numbers_with_a_gap_are_told() -> None:
    """A number that no request has, as where Redis did a half of what belongs together: it ends a worker and a dump,
    and is not passed over."""
    with folder() as name, Grid(Path(name), 1, 1) as grid:
        same(grid.run("submit", text=b'{"op":"count"}\n'), b'{"count":0,"line":1}\n', "before the gap")
        grid.redis.asked("INCR", "pressclip:grid:number")
        client = Spoken(grid.command("submit"))
        client.send(b'{"op":"count"}')
        worker = grid.workers[0].process
        assert worker
        deadline = time.monotonic() + PATIENCE_SECONDS
        while worker.poll() is None and time.monotonic() < deadline:
            client.turn(0.05)
        client.kill()
        need(worker.poll() == STATUS_ENGINE and "request 2 is not there" in grid.told(), grid.told())
        dumped = subprocess.run(grid.command("dump"), stdout=subprocess.PIPE, stderr=subprocess.PIPE, check=False)
        need(dumped.returncode == STATUS_ENGINE and b"request 2 is not there" in dumped.stderr, f"{dumped}")


def told_of(*settings: str) -> bytes:
    """What `grid init` tells of a Redis that is started by hand with these settings."""
    port = free_port()
    with folder() as name:
        redis = subprocess.Popen(["redis-server", "--port", str(port), "--bind", "127.0.0.1", "--dir", name, *settings],
                                 stdin=subprocess.DEVNULL, stdout=subprocess.DEVNULL)
        try:
            words = [str(GRID), "--redis", f"redis://127.0.0.1:{port}/0", "init", "--shards", "1"]
            return subprocess.run(words, stderr=subprocess.PIPE, check=True).stderr
        finally:
            redis.kill()
            redis.wait()


def settings_that_lose_something_are_told() -> None:
    """Each one by its name, and none where all are as they are to be."""
    told = told_of("--maxmemory-policy", "allkeys-lru", "--appendfsync", "no")
    for text in (b"appendonly no,", b"appendfsync no,", b"aof-load-truncated yes,", b"maxmemory-policy allkeys-lru,"):
        need(b"Redis has " + text in told, f"{text!r} is not told: {told!r}")
    told = told_of("--appendonly", "yes", "--appendfsync", "everysec", "--aof-load-truncated", "no")
    need(b"Redis has" not in told, f"told {told!r}")


def options_of_ones_own_hold() -> None:
    """What `service/redis` sets, and what its options set anew."""
    with folder() as name:
        redis = Redis(Path(name))
        names: Sequence[str] = ("appendonly", "appendfsync", "aof-load-truncated", "maxmemory-policy", "save")
        found = [redis.asked("CONFIG", "GET", setting).partition("\n")[2] for setting in names]
        need(found == ["yes", "always", "no", "noeviction", ""], f"set {found}")
        end(redis)
        redis.start("--appendfsync", "everysec")
        need(redis.asked("CONFIG", "GET", "appendfsync") == "appendfsync\neverysec", "options do not hold")
        end(redis)


TESTS = (fronts_of_commands_are_torn, what_is_torn_is_never_done, what_is_broken_elsewhere_is_left,
         numbers_with_a_gap_are_told, settings_that_lose_something_are_told, options_of_ones_own_hold)
