"""Tests of standard streams that are closed, can't be read or don't block, and of signals."""

from __future__ import annotations

import errno
import fcntl
import os
import signal
import subprocess
import time
from pathlib import Path
from typing import Callable, Sequence
from unittest import mock

from pressclip_service.errors import JournalLocked, StorageFailed
from pressclip_service.taking_over import prepare

from .grid_runs import Grid
from .inputs import joined
from .judge import KEEP, REDIS, Due, folder, need, same
from .keep_runs import Keep, changes_in, command, dump_of, run_keep
from .processes import PATIENCE_SECONDS, children_of

REGISTER = b'{"op":"register","queries":[{"id":"q1","query":"tea"}]}'
DUMPED = REGISTER + b"\n"
REGISTERED = b'{"line":1,"registered":1}\n'
UNREAD = 0.3


def closing(*descriptors: int) -> Callable[[], None]:
    """What closes descriptors of a process before it begins."""
    def close() -> None:
        for descriptor in descriptors:
            os.close(descriptor)
    return close


def run_closed(words: Sequence[str], *closed: int) -> tuple[int, bytes, bytes]:
    """Status, and what stands on standard output and error, of a command that finds some of its streams closed."""
    done = subprocess.run(words, input=b"", stdout=subprocess.PIPE, stderr=subprocess.PIPE, preexec_fn=closing(*closed),
                          timeout=PATIENCE_SECONDS, check=False)
    return done.returncode, done.stdout, done.stderr


def a_closed_output_is_no_reader() -> None:
    """Without standard output: status 6, no journal is made, and no reply stands in one of its files."""
    with folder() as name:
        journal = Path(name) / "j"
        for closed in ((1,), (1, 2), (0, 1, 2)):
            status, _, told = run_keep(journal, DUMPED, before=closing(*closed))
            need(status == 6 and (2 in closed or "is not open for writing" in told), f"{closed}: {status} {told}")
            need(not journal.exists(), f"{closed}: a journal was made")
        need(run_keep(journal, DUMPED)[1] == REGISTERED, "no reply")
        for word in ("--dump", "--changes", "--version"):
            status, _, _ = run_closed([str(KEEP), "--journal", str(journal), word], 1)
            need(status == 6, f"{word}: status {status}")
        need((journal / "lock").read_bytes() == b"", "replies in the lock")
        same(dump_of(journal), DUMPED, "the dump")


def a_closed_standard_error_is_silent() -> None:
    """Without standard error the messages stand nowhere, neither between the replies nor in a dump."""
    with folder() as name:
        journal = Path(name) / "j"
        status, replies, _ = run_keep(journal, DUMPED, before=closing(2))
        need((status, replies) == (0, REGISTERED), f"{status} {replies!r}")
        with open(journal / "changes", "r+b") as file:
            file.seek(0, os.SEEK_END)
            file.write((journal / "changes").read_bytes()[:30])
        status, dumped, _ = run_closed([str(KEEP), "--journal", str(journal), "--dump"], 2)
        need((status, dumped) == (0, DUMPED), f"{status} {dumped!r}")
        status, replies, _ = run_keep(journal, DUMPED, before=closing(2))
        need((status, replies) == (0, REGISTERED), f"{status} {replies!r}")


def a_closed_input_cannot_be_read() -> None:
    """Without standard input: status 4, and no journal is made."""
    with folder() as name:
        journal = Path(name) / "j"
        status, replies, told = run_keep(journal, b"", before=closing(0))
        need((status, replies) == (4, b"") and "standard input can't be read" in told, f"{status} {told}")
        need(not journal.exists(), "a journal was made")


def a_grid_without_its_streams() -> None:
    """A dump of a grid without standard output: status 6; without standard error it is the dump alone. A client
    without standard input: status 4. Redis begins with standard streams that are none of its files."""
    with folder() as name:
        grid = Grid(Path(name), 1, 1)
        need(grid.run("submit", text=DUMPED) == REGISTERED, "no reply")
        status, _, told = run_closed(grid.command("dump"), 1)
        need(status == 6 and b"can't be written" in told, f"dump: {status} {told!r}")
        need(run_closed(grid.command("dump"), 2)[:2] == (0, DUMPED), "another dump")
        status, _, told = run_closed(grid.command("submit"), 0)
        need(status == 4 and b"standard input can't be read" in told, f"submit: {status} {told!r}")
        grid.close()
        words = [str(REDIS), "--dir", name, "--", "--port", str(grid.redis.port), "--bind", "127.0.0.1"]
        process = subprocess.Popen(words, preexec_fn=closing(0, 1, 2))
        grid.redis.asked("PING")
        held = [os.readlink(f"/proc/{process.pid}/fd/{number}") for number in range(3)]
        process.kill()
        process.wait()
        need(held == [os.devnull] * 3, f"Redis has {held}")


def an_unreadable_input_is_told() -> None:
    """A standard input whose read fails, as that of the memory at place 0 does: status 4, with a message."""
    with folder() as name, open("/proc/self/mem", "rb") as memory:
        done = subprocess.run(command(Path(name) / "j"), stdin=memory, stdout=subprocess.PIPE, stderr=subprocess.PIPE,
                              check=False)
        told = done.stderr.decode()
        need(done.returncode == 4 and "standard input can't be read: Input/output error" in told, told)
        need("Traceback" not in told, told)


def a_lock_that_fails_is_told() -> None:
    """A file system without locks is no other process: status 4, with a message; and the lock's file is let go."""
    with folder() as name, mock.patch.object(fcntl, "flock", side_effect=OSError(errno.ENOLCK, "No locks available")):
        held = os.listdir("/proc/self/fd")
        try:
            prepare("keep", Path(name), lambda fresh: [])
        except StorageFailed as error:
            need(error.status == 4 and "can't open" in str(error) and "No locks available" in str(error), str(error))
        else:
            need(False, "a journal without its lock")
        need(os.listdir("/proc/self/fd") == held, "the lock's file is held")
    with folder() as name, mock.patch.object(fcntl, "flock", side_effect=BlockingIOError(errno.EAGAIN, "")):
        try:
            prepare("keep", Path(name), lambda fresh: [])
        except JournalLocked as error:
            need(error.status == 5, str(error))
        else:
            need(False, "a journal that another process has")


def an_output_that_does_not_block_is_waited_for() -> None:
    """Replies of more bytes than a pipe holds, into one that does not block and is read late: all of them, status 0."""
    due = Due.of([REGISTER, *[b'{"op":"show","id":"q1"}'] * 9_000])
    need(len(due.text()) > 200_000, "too few bytes")
    with folder() as name, open(Path(name) / "input", "w+b") as file, open(Path(name) / "told", "w+b") as told:
        file.write(joined(due.lines))
        file.seek(0)
        reading, writing = os.pipe()
        os.set_blocking(writing, False)
        process = subprocess.Popen(command(Path(name) / "j"), stdin=file, stdout=writing, stderr=told)
        os.close(writing)
        time.sleep(1.0)
        with open(reading, "rb") as replies:
            same(replies.read(), due.text(), "replies")
        told.seek(0)
        need(process.wait(PATIENCE_SECONDS) == 0, told.read().decode())


def a_reader_that_is_gone_is_told() -> None:
    """Status 6, and what was kept is there."""
    with folder() as name:
        reading, writing = os.pipe()
        os.close(reading)
        done = subprocess.run(command(Path(name) / "j"), input=DUMPED, stdout=writing, stderr=subprocess.PIPE,
                              check=False)
        os.close(writing)
        need(done.returncode == 6 and b"nobody reads the replies" in done.stderr, f"{done}")
        need(changes_in(Path(name) / "j") == 1, "the change is not kept")


def an_end_that_is_asked_for_is_drained() -> None:
    """SIGTERM to `keep` and to its program, as a service manager sends it: each line that was read whole is answered and
    kept, what comes later is not read, of a line that was read in part nothing is, and the status is 0."""
    line = b'{"op":"register","queries":[%b]}' % b",".join(
        b'{"id":"q%d","query":"tea w%d pric*"}' % (number, number) for number in range(1_000))
    with folder() as name:
        kept = Keep(Path(name))
        for _ in range(40):
            kept.send(line)
        kept.unsent += b'{"op":"clear"'
        while kept.unsent:
            kept.turn(1)
        time.sleep(UNREAD)
        for process in (*children_of(kept.process.pid), kept.process.pid):
            os.kill(process, signal.SIGTERM)
        time.sleep(UNREAD)
        kept.unsent += b"}\n"
        got: list[bytes] = []
        while replies := kept.wait_for_replies():
            got += replies
        need(kept.process.wait(PATIENCE_SECONDS) == 0, f"status {kept.process.returncode}: {kept.told()}")
        same(joined(got), b"".join(b'{"line":%d,"registered":1000}\n' % number for number in range(1, len(got) + 1)),
             "replies")
        need(0 < changes_in(Path(name)) == len(got), f"{changes_in(Path(name))} kept, and {len(got)} answered")
        kept.close()


def an_end_is_asked_for_while_nothing_is_owed() -> None:
    """SIGTERM where all is answered, and in the middle of a replay: status 0 at once."""
    line = b'{"op":"register","queries":[%b]}' % b",".join(
        b'{"id":"q%d","query":"tea w%d pric*"}' % (number, number) for number in range(1_000))
    with folder() as name:
        kept = Keep(Path(name))
        for _ in range(200):
            kept.send(line)
        kept.so_many_replies(200)
        kept.process.terminate()
        need(kept.process.wait(PATIENCE_SECONDS) == 0, kept.told())
        kept.close()
        again = Keep(Path(name))
        while "200 changes are kept" not in again.told():
            need(again.process.poll() is None, again.told())
            time.sleep(0.01)
        start = time.monotonic()
        again.process.terminate()
        status = again.process.wait(PATIENCE_SECONDS)
        need(status == 0 and time.monotonic() - start < 1.0, f"{status} after {time.monotonic() - start} s")
        again.close()
        need(changes_in(Path(name)) == 200, "another count of changes")


def a_hang_up_is_no_end() -> None:
    """SIGHUP to `keep` and to its program changes nothing."""
    with folder() as name:
        kept = Keep(Path(name))
        kept.send(REGISTER)
        got = kept.wait_for_replies()
        for process in (*children_of(kept.process.pid), kept.process.pid):
            os.kill(process, signal.SIGHUP)
        time.sleep(UNREAD)
        kept.send(b'{"op":"count"}')
        got += kept.wait_for_replies()
        kept.close()
        need((kept.status, joined(got)) == (0, REGISTERED + b'{"count":1,"line":2}\n'), f"{kept.status} {got}")


TESTS = (a_closed_output_is_no_reader, a_closed_standard_error_is_silent, a_closed_input_cannot_be_read,
         a_grid_without_its_streams, an_unreadable_input_is_told, a_lock_that_fails_is_told,
         an_output_that_does_not_block_is_waited_for, a_reader_that_is_gone_is_told,
         an_end_that_is_asked_for_is_drained,
         an_end_is_asked_for_while_nothing_is_owed, a_hang_up_is_no_end)
