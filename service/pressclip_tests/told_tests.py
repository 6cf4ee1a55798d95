"""Tests of what is told before it is kept: answers in memory alone, told again where they were lost, and how their
bytes are put together."""

from __future__ import annotations

import subprocess
import time
from pathlib import Path
from typing import Callable, Sequence

from pressclip_service import gathering
from pressclip_service import teller as telling
from pressclip_service.errors import EngineFailed
from pressclip_service.names import COUNT, MATCH, Id, Names
from pressclip_service.parts import Heard, match_answer, merged, reply_of
from pressclip_service.replies import Kind, kind_of
from pressclip_service.teller import Answer, NotHeld, Teller

from .grid_runs import DEBIAN_PYTHON, Chaos, Grid, end
from .inputs import Source, joined
from .judge import SERVICE, Due, folder, need, same

PREFIX = "pressclip:grid:"
KEPT_SECONDS = 30.0


def lists_are_merged_in_byte_order() -> None:
    """Ids where a quotation mark, an escape or a character of several bytes could mislead, by the library where it is
    built, and without it; the order is worked out by hand."""
    with_the_library_and_without(merge_lists)


def with_the_library_and_without(test: Callable[[], None]) -> None:
    """Runs a test by the library, where it is built, and without it."""
    test()
    library = gathering.library
    try:
        setattr(gathering, "library", lambda: None)
        test()
    finally:
        setattr(gathering, "library", library)


def merge_lists() -> None:
    """Merges lists of ids."""
    for lists, due in (
            ([b'"a","b"', b'"a b","a!","a#"'], b'"a","a b","a!","a#","b"'),
            ([b'"a","a\\"b"', b'"a b","a!","a#"'], b'"a","a b","a!","a\\"b","a#"'),
            ([b'"\\u0001"," "', b'"\\n","\\\\"', b'"!","a"'], b'"\\u0001","\\n"," ","!","\\\\","a"'),
            (['"é","\uffff"'.encode(), '"z","ﬀ","\U0001f375"'.encode()],
             '"z","é","ﬀ","\uffff","\U0001f375"'.encode()),
            ([b'"]}","x,y"', b'"[","{"'], b'"[","]}","x,y","{"'),
            ([b"", b'"a"', b""], b'"a"'), ([b'"b"', b"", b'"a"'], b'"a","b"'), ([b"", b""], b"")):
        same(merged(lists), due, f"merged {lists}")


def replies_are_cut_by_their_bytes() -> None:
    """Engines' replies with texts that look like members, put together by hand."""
    none, heard = Heard(), Heard()
    heard.register([{"id": "m", "query": "tea", "listener": "mail"}])
    first = match_answer(rb'{"alerts":[{"article":"],\"line\":","queries":["]},{","m"]},{"article":"b","queries":[]}],'
                         rb'"line":9,"notes":["mail: m in ],\"line\":"]}', heard)
    second = match_answer(rb'{"alerts":[{"article":"],\"line\":","queries":["a,\"queries\":["]},'
                          rb'{"article":"b","queries":["c"]}],"line":4,"notes":[]}', none)
    same(reply_of(MATCH, 7, [first, second]),
         rb'{"alerts":[{"article":"],\"line\":","queries":["]},{","a,\"queries\":[","m"]},'
         rb'{"article":"b","queries":["c"]}],"line":7,"notes":["mail: m in ],\"line\":"]}', "two shards")
    empty = match_answer(b'{"alerts":[],"line":1,"notes":[]}', none)
    same(reply_of(MATCH, 8, [empty, empty]), b'{"alerts":[],"line":8,"notes":[]}', "no articles")


def notes_are_merged_by_their_queries() -> None:
    """Notes of two shards and two articles, in the order of the ids that they are of; worked out by hand."""
    with_the_library_and_without(merge_notes)


def a_shard_out_of_order_is_refused() -> None:
    """By the library, where it is built: a list in which an id is above the next."""
    if gathering.library() is None:
        return
    try:
        merged([b'"b","a"', b'"c"'])
    except EngineFailed as error:
        same(str(error).encode(), b"what the shards found can't be put together: order", "the error")
        return
    raise AssertionError("a list out of order was merged")


def merge_notes() -> None:
    """Merges notes."""
    parts = []
    for names, in_a, in_b in (("ac", "ac", "c"), ("bd", "d", "bd")):
        heard = Heard()
        heard.register([{"id": name, "query": "tea", "listener": "feed"} for name in names])
        alerts = ",".join('{"article":"%s","queries":[%s]}' % (article, ",".join(f'"{name}"' for name in found))
                          for article, found in (("x", in_a), ("y", in_b)))
        notes = ",".join(f'"feed {name}/{article}"' for article, found in (("x", in_a), ("y", in_b)) for name in found)
        parts.append(match_answer(f'{{"alerts":[{alerts}],"line":3,"notes":[{notes}]}}'.encode(), heard))
    same(reply_of(MATCH, 1, parts),
         b'{"alerts":[{"article":"x","queries":["a","c","d"]},{"article":"y","queries":["b","c","d"]}],"line":1,'
         b'"notes":["feed a/x","feed c/x","feed d/x","feed b/y","feed c/y","feed d/y"]}', "notes")


# A program of the grid whose other thread has read a request by the time that Redis says its last one.
BUSY_PROGRAM = """
from pressclip_service.names import Id
from pressclip_service.store import RequestsLost, Store, Unreachable


class Busy(Store):
    def last_id(self, client):
        self.last_read = Id(7, 0)
        return Id(6, 0)


def after_an_end_of_redis(read):
    store, ends = Busy("redis://127.0.0.1:1/0", "grid", "busy"), [Unreachable("closed")]
    store.last_read = Id(read, 0)

    def call(_):
        if ends:
            raise ends.pop()
        return "answered"
    try:
        return store.do(call)
    except RequestsLost:
        return "lost"


print(after_an_end_of_redis(5), after_an_end_of_redis(6), after_an_end_of_redis(7))
"""


def requests_that_are_read_meanwhile_are_not_lost() -> None:
    """A Redis that comes back and says 6 as its last request has lost none of those up to 5 or 6 that were read, also
    where 7 is read while it says so, and has lost one where 7 was read before."""
    done = subprocess.run([DEBIAN_PYTHON, "-c", BUSY_PROGRAM], cwd=SERVICE, stdout=subprocess.PIPE,
                          stderr=subprocess.PIPE, check=True)
    same(done.stdout, b"answered answered lost\n", "what came back")


class Memory:
    """What the script that tells answers has in Redis, for one worker: the answers by their places."""

    def __init__(self) -> None:
        self.names = Names("grid")
        self.answers: list[str] = []
        self.told = self.kept = b"0-0"

    def forget(self) -> None:
        """Loses what was only told."""
        self.answers, self.told = [], b"0-0"

    def scripted(self, _: str, calls: Sequence[tuple[Sequence[str], Sequence[object]]]) -> list[list[bytes]]:
        """Tells answers behind the place that is named, where that is the last one."""
        _, _, before, after, *told = map(str, calls[0][1])
        if before == self.told.decode():
            need(all(Id.of(place.encode()) > Id.of(self.told) for place in told[::6]), f"told twice: {told}")
            self.answers += told[::6]
            self.told = after.encode()
        return [[self.told, self.kept]]


def answers(*places: int) -> list[Answer]:
    """Answers to requests at these places."""
    return [Answer(Id(place, 0), b"desk", b"1", b"1", COUNT, b"1234") for place in places]


def what_was_forgotten_is_told_again() -> None:
    """What a worker tells a Redis that forgets: what is not kept, once, in order, and an error where it can't."""
    memory = Memory()
    teller = Teller(memory, 0, 0, Id(1, 0))
    teller.tell(answers(2, 3))
    memory.kept = b"2-0"
    teller.tell(answers(4))
    need(memory.answers == ["2-0", "3-0", "4-0"], f"told {memory.answers}")
    memory.forget()
    at_once, telling.TOLD_AT_ONCE = telling.TOLD_AT_ONCE, 2
    teller.tell(answers(5))
    need(memory.answers == ["3-0", "4-0", "5-0"], f"told again {memory.answers}")
    telling.TOLD_AT_ONCE = at_once
    memory.kept = b"5-0"
    teller.tell()
    need(not teller.is_holding, "answers that are kept are held")
    memory.forget()
    teller.tell(answers(6))
    need(memory.answers == ["6-0"], f"told behind what is kept {memory.answers}")
    teller.tell(answers(7, 8))
    again = Teller(memory, 0, 0, Id(5, 0))
    for place in (6, 7, 8, 9):
        again.tell(answers(place))
    need(memory.answers == ["6-0", "7-0", "8-0", "9-0"], f"told by a second life {memory.answers}")
    memory.forget()
    again.tell(answers(10))
    need(memory.answers == ["6-0", "7-0", "8-0", "9-0", "10-0"], f"told again by a second life {memory.answers}")
    most, telling.MOST_BYTES_HELD = telling.MOST_BYTES_HELD, 4
    try:
        again.tell(answers(11))
        memory.forget()
        again.tell(answers(12))
        raise AssertionError("answers that were let go were passed over")
    except NotHeld:
        need(memory.answers == [], f"told {memory.answers}")
    finally:
        telling.MOST_BYTES_HELD = most


def wait_until_kept(grid: Grid, count: int) -> None:
    """`Failed` where so many requests are not kept after a while."""
    deadline = time.monotonic() + KEPT_SECONDS
    while grid.redis.asked("HGET", PREFIX + "kept", "number") != str(count):
        need(time.monotonic() < deadline, f"kept: {grid.redis.asked('HGETALL', PREFIX + 'kept')}\n{grid.told()}")
        time.sleep(0.1)


def entered(due: Due) -> int:
    """How many lines enter: those that are not refused."""
    return sum(1 for reply in due.replies if reply is not None and kind_of(reply) is not Kind.REFUSED)


def told_without_a_gatherer(grid: Grid, due: Due) -> None:
    """Has an input answered while nobody keeps anything."""
    end(grid.others[0])
    same(grid.run("submit", "--name", "desk", text=joined(due.lines)), due.text(), "told")
    need(grid.redis.asked("EXISTS", PREFIX + "kept", PREFIX + "replies:desk") == "0", "something is kept")


def kept_once(grid: Grid, due: Due) -> None:
    """The gatherer is back: all replies are kept, once each, and a client that asks again has the same bytes."""
    grid.others[0].start()
    count = entered(due)
    wait_until_kept(grid, count)
    need(grid.redis.asked("XLEN", PREFIX + "replies:desk") == str(count), "not each reply is kept once")
    same(grid.run("submit", "--name", "desk", text=joined(due.lines)), due.text(), "asked again")
    need(grid.redis.asked("HGET", PREFIX + "kept", "number") == str(count), "a line entered twice")


def redis_ends_between_told_and_kept() -> None:
    """Redis is ended when all is told and nothing kept. The workers that hold the answers tell them again."""
    source = Source(110)
    due = Due.of(source.lines(400))
    with folder() as name, Grid(Path(name), 3, 2) as grid:
        told_without_a_gatherer(grid, due)
        end(grid.redis)
        grid.redis.start()
        kept_once(grid, due)
        grid.needs_all()
        need("begins anew" not in grid.told(), "a worker was built anew")


def all_end_between_told_and_kept() -> None:
    """Redis and all workers are ended when all is told and nothing kept. What was told stood in memory alone, and is
    found again from the requests."""
    source = Source(111)
    due = Due.of(source.lines(400))
    with folder() as name, Grid(Path(name), 2, 2) as grid:
        told_without_a_gatherer(grid, due)
        for role in grid.workers:
            end(role)
        end(grid.redis)
        grid.redis.start()
        answers_told = [f"{PREFIX}answers:{s}:{r}" for s in "01" for r in "01"]
        left = grid.redis.asked("EXISTS", PREFIX + "answered", *answers_told)
        need(left == "0", f"{left} keys of what was only told stand in Redis's file")
        need(grid.redis.asked("XLEN", PREFIX + "requests") == str(entered(due)), "requests are lost")
        for role in grid.workers:
            role.start()
        kept_once(grid, due)


def a_worker_ends_between_told_and_kept() -> None:
    """A worker is ended, and then Redis forgets what that one told: it is found again, and told once."""
    source = Source(112)
    due = Due.of(source.lines(400))
    with folder() as name, Grid(Path(name), 2, 1) as grid:
        told_without_a_gatherer(grid, due)
        end(grid.workers[1])
        grid.workers[1].start()
        end(grid.redis)
        grid.redis.start()
        kept_once(grid, due)


def a_file_is_rewritten_between_told_and_kept() -> None:
    """Redis rewrites its file when a part is told, so that old answers stand in it, and is ended when all is told."""
    source = Source(113)
    due = Due.of(source.lines(400))
    front = Due(due.lines[:250], due.replies[:250], due.changes[:250])
    with folder() as name, Grid(Path(name), 2, 2) as grid:
        told_without_a_gatherer(grid, front)
        grid.redis.asked("BGREWRITEAOF")
        while "aof_rewrite_in_progress:0" not in grid.redis.asked("INFO", "persistence"):
            time.sleep(0.05)
        back = b"".join(reply + b"\n" for reply in due.replies[250:] if reply)
        same(grid.run("submit", "--name", "desk", "--from", "251", text=joined(due.lines)), back, "the rest told")
        end(grid.redis)
        grid.redis.start()
        kept_once(grid, due)


def what_a_client_missed_is_kept_for_it() -> None:
    """The connection on which a client hears its answers is broken again and again."""
    source = Source(115)
    due = Due.of(source.lines(600))
    with folder() as name, Grid(Path(name), 2, 1) as grid:
        chaos = Chaos(grid, due, source.dice, "desk")
        broken = 0
        while chaos.answered < 500:
            chaos.feed(40)
            chaos.client.turn(0.02)
            broken += int(grid.redis.asked("CLIENT", "KILL", "TYPE", "pubsub"))
            chaos.take(chaos.client.wait_for_replies())
        same(chaos.run([]), due.text(), f"with {broken} connections broken")
        need(broken >= 10, f"only {broken} connections were broken")
        grid.needs_all()


def replies_to_a_forgotten_client_are_not_kept() -> None:
    """A client without a name leaves nothing behind."""
    source = Source(114)
    due = Due.of(source.lines(200))
    with folder() as name, Grid(Path(name), 2, 1) as grid:
        same(grid.run("submit", text=joined(due.lines)), due.text(), "a client without a name")
        wait_until_kept(grid, entered(due))
        need(grid.redis.asked("KEYS", PREFIX + "replies:*") == "", "replies to it are kept")


TESTS = (lists_are_merged_in_byte_order, replies_are_cut_by_their_bytes, notes_are_merged_by_their_queries,
         a_shard_out_of_order_is_refused,
         what_was_forgotten_is_told_again, requests_that_are_read_meanwhile_are_not_lost,
         redis_ends_between_told_and_kept, all_end_between_told_and_kept, a_worker_ends_between_told_and_kept,
         a_file_is_rewritten_between_told_and_kept, what_a_client_missed_is_kept_for_it,
         replies_to_a_forgotten_client_are_not_kept)
