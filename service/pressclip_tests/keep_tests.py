"""Tests of `service/keep`: what it adds to `pressclip-keep`, and that nothing is lost on the way to that."""

from __future__ import annotations

import os
import resource
import shutil
import signal
import subprocess
from pathlib import Path
from typing import Callable
from unittest import mock

from pressclip_service.engine import command_of
from pressclip_service.folders import make_folder
from pressclip_service.keeper import keeper

from .inputs import Source, joined, with_long_lines
from .judge import KEEP, SERVICE, Due, folder, need, replies_of_engine, same
from .keep_runs import Client, Keep, changes_in, dump_of, run_keep
from .processes import PATIENCE_SECONDS, children_of

KEEP_KILLS = 100
VERSION = (SERVICE.parent / "VERSION").read_text().strip()
COUNT = b'{"op":"count"}\n'


def answers_as_the_engine() -> None:
    """A whole input at once, with lines that are too long and a last line without its line feed."""
    for seed, engine in ((1, command_of([], workers=0)), (2, [*command_of([], workers=2), "hits"]),
                         (3, ["pressclip", "run"])):
        source = Source(seed)
        text = joined(with_long_lines(source.lines(1_500), source.dice)) + COUNT.strip()
        with folder() as name:
            status, replies, told = run_keep(Path(name) / "j", text, engine=engine)
            need(status == 0, told)
            same(replies, replies_of_engine(text, [word for word in engine if word == "hits"]), f"seed {seed}")


def goes_on_after_its_end() -> None:
    """An input in parts, each by a `keep` of its own on one journal."""
    source = Source(3)
    due = Due.of(source.lines(1_200))
    with folder() as name:
        start = 0
        for end in (*sorted(source.dice.sample(range(1, 1_200), 6)), 1_200):
            status, replies, told = run_keep(Path(name), joined(due.lines[start:end]))
            need(status == 0, told)
            wanted = [due.numbered_from(start, place) for place in range(start, end)]
            same(replies, b"".join(reply + b"\n" for reply in wanted if reply is not None), f"lines {start} to {end}")
            start = end
        need(changes_in(Path(name)) == sum(due.changes), "not each change is kept once")


def ended_at_random_places() -> None:
    """`keep` ended by SIGKILL: the program answers what it was given, and the next one goes on."""
    source = Source(4)
    due = Due.of(source.lines(2_000))
    with folder() as name:
        client = Client(due, Path(name), source.dice, lambda: Keep(Path(name)), "keep")
        client.run(KEEP_KILLS)
        need(client.kills == KEEP_KILLS, "too few ends")
        need(changes_in(Path(name)) == sum(due.changes), "not each change is kept once")


def its_program_ended() -> None:
    """The program ended by a signal: told, and status 1; all that was answered is kept."""
    with folder() as name:
        kept = Keep(Path(name))
        for number in range(20):
            kept.send(replacing(number))
        kept.so_many_replies(20)
        [program] = children_of(kept.process.pid)
        os.kill(program, signal.SIGKILL)
        need(kept.wait_for_replies() == [], "a reply")
        kept.close()
        need(kept.status == 1 and "was ended by signal 9" in kept.last_words, f"{kept.status} {kept.last_words}")
        need(changes_in(Path(name)) == 20, "not each change is kept")


def a_second_one_is_refused() -> None:
    """The lock of a journal is free again once its holder is ended, however that was."""
    with folder() as name:
        first = Keep(Path(name))
        first.send(COUNT.strip())
        need(bool(first.wait_for_replies()), "no reply")
        status, replies, told = run_keep(Path(name), COUNT)
        need((status, replies) == (5, b"") and "another process has the journal" in told, told)
        first.kill()
        need(run_keep(Path(name), b"")[0] == 0, "the lock is not free")


def words_are_those_of_the_program() -> None:
    """Its own form of arguments does the same as by the program, and other engines are refused by name, with status 2
    and nothing made."""
    with folder() as name:
        journal, text = Path(name) / "j", replacing(1) + b"\n" + COUNT
        for words in ((str(journal), "0", "hits"), (str(journal),), ("--journal", str(journal), "2"),
                      ("--journal", str(journal), "--", "pressclip", "run", "64", "hits"),
                      ("--rewrite-above", "5", "--journal", str(journal))):
            done = subprocess.run([str(KEEP), *words], input=text, capture_output=True, check=False)
            need((done.returncode, done.stdout) == (0, b'{"line":1,"registered":1}\n{"count":1,"line":2}\n'), f"{done}")
            need(("passed over" in done.stderr.decode()) == ("--rewrite-above" in words), f"{done}")
        for word in ("--check", "--stats", "--dump"):
            told = [subprocess.run(one, stdout=subprocess.PIPE, check=True).stdout for one in (
                keeper(journal, word), [str(KEEP), str(journal), word], [str(KEEP), word, "--journal", str(journal)])]
            need(told[0] == told[1] == told[2] != b"", f"{told}")
        need(dump_of(journal, "--changes") == b"5\n", "another count of changes")
        other = Path(name) / "other"
        for words in ((), ("--changes",), (str(other), "--", "cat"), (str(other), "0", "--", "pressclip", "run"),
                      ("--journal", str(other), "--", "pressclip", "trace"), ("--journal", str(other), "0", "hit")):
            done = subprocess.run([str(KEEP), *words], input=text, capture_output=True, check=False)
            need((done.returncode, done.stdout) == (2, b"") and b"usage: " in done.stderr, f"{words}: {done}")
            need(not (other / "changes").exists(), f"{words}: a journal was made")


def another_engine_is_told() -> None:
    """One that is named by another path is not started."""
    with folder() as name:
        status, replies, told = run_keep(Path(name) / "j", COUNT, engine=["/nowhere/pressclip", "run", "0"])
        need((status, replies) == (0, b'{"count":0,"line":1}\n') and "/nowhere/pressclip is not started" in told, told)
        for engine in (command_of([], workers=0), ["pressclip", "run"]):
            told = run_keep(Path(name) / "j", COUNT, engine=engine)[2]
            need("is not started" not in told, told)


def replacing(number: int) -> bytes:
    """A line that registers one of ten queries, in the place of what it was."""
    return b'{"op":"register","queries":[{"id":"q%d","query":"w%d","listener":"mail"}]}' % (number % 10, number % 7)


def a_full_disk_ends_it() -> None:
    """Where the journal has no room: a clear error, no reply to what was not kept, nothing lost that was answered."""
    source = Source(9)
    due = Due.of(source.lines(1_000))

    def little_room() -> None:
        signal.signal(signal.SIGXFSZ, signal.SIG_IGN)
        resource.setrlimit(resource.RLIMIT_FSIZE, (30_000, 30_000))

    with folder() as name:
        judge_full_disk(Path(name), due, little_room)
    if os.geteuid() == 0:
        with folder() as name:
            mounted = subprocess.run(["mount", "-t", "tmpfs", "-o", "size=40k", "tmpfs", name], check=False,
                                     stderr=subprocess.DEVNULL)
            if mounted.returncode == 0:
                try:
                    judge_full_disk(Path(name), due, None)
                finally:
                    subprocess.run(["umount", name], check=True)


def judge_full_disk(journal: Path, due: Due, before: Callable[[], None] | None) -> None:
    """A run with too little room, and what is left after it."""
    kept = Keep(journal, before=before)
    got: list[bytes] = []
    sent = 0
    for number, line in enumerate(due.lines):
        kept.send(line)
        sent += due.replies[number] is not None
        while sent - len(got) > 20 and (replies := kept.wait_for_replies()):
            got += replies
    while replies := kept.wait_for_replies():
        got += replies
    kept.close()
    need(kept.status == 4 and "can't be written" in kept.last_words, f"{kept.status} {kept.last_words}")
    need(due.text().startswith(b"".join(reply + b"\n" for reply in got)), "not a front of the replies that are due")
    answered = [number for number, reply in enumerate(due.replies) if reply is not None][:len(got)]
    least = sum(due.changes[number] for number in answered)
    need(changes_in(journal) >= least > 0, f"{changes_in(journal)} kept, {least} answered")


def a_failing_sync_ends_it() -> None:
    """Where a sync fails: as with a full disk, and nothing is answered after it."""
    with folder() as made:
        library = Path(made) / "fail_sync.so"
        subprocess.run(["cc", "-shared", "-fPIC", "-o", library, SERVICE.parent / "stress" / "fail_sync.c"], check=True)
        for number in ("12", "23", "40"):
            source = Source(10)

            def failing(which: str = number) -> None:
                os.environ.update(LD_PRELOAD=str(library), FAIL_SYNC=which)

            with folder() as name:
                judge_full_disk(Path(name), Due.of(source.lines(1_000)), failing)


def a_journal_that_cannot_be_written() -> None:
    """A folder that can't be made, and a journal that is a folder."""
    status, replies, told = run_keep(Path("/dev/null/j"), COUNT)
    need((status, replies) == (4, b"") and "can't open" in told, told)
    with folder() as name:
        for file in ("changes", "journal"):
            (Path(name) / file / file).mkdir(parents=True)
            status, replies, told = run_keep(Path(name) / file, COUNT)
            need((status, replies) == (4, b""), told)


def a_program_that_is_not_there() -> None:
    """Status 1, which one it is, and no journal; in a checkout where nothing is built yet also what to do."""
    with folder() as name:
        top, environment = Path(name), {**os.environ, "PRESSCLIP_KEEP": "/nowhere/pressclip-keep"}
        shutil.copytree(SERVICE, top / "service", ignore=shutil.ignore_patterns("__pycache__", "*_tests"))
        shutil.copy(SERVICE.parent / "VERSION", top)
        (top / "crates").mkdir()
        for variables, due in ((environment, "/nowhere/pressclip-keep can't be started"),
                               ({**environment, "PRESSCLIP_KEEP": ""}, "run ./build")):
            done = subprocess.run([str(top / "service" / "keep"), "--journal", str(top / "j")], env=variables,
                                  stdin=subprocess.DEVNULL, capture_output=True, text=True, check=False)
            need(done.returncode == 1 and due in done.stderr, done.stderr)
            need(not (top / "j").exists(), "a journal was made")


def mask_nothing() -> None:
    """Has files made with just the mode that is asked for."""
    os.umask(0)


def files_are_for_their_owner_alone() -> None:
    """Folders are made with mode 0700 and files with 0600, also what was torn."""
    with folder() as name:
        journal = Path(name) / "a" / "b" / "c"
        text = joined([replacing(number) for number in range(300)])
        status, _, told = run_keep(journal, text, before=mask_nothing)
        need(status == 0, told)
        with open(journal / "changes", "r+b") as file:
            file.truncate((journal / "changes").stat().st_size - 1)
        status, _, told = run_keep(journal, b"", before=mask_nothing)
        need(status == 0, told)
        modes = {str(path.relative_to(name)): oct(path.stat().st_mode & 0o777) for path in Path(name).rglob("*")}
        files = {f"a/b/c/{word}": "0o600" for word in ("changes", "lock", "changes.torn.1")}
        need(modes == {"a": "0o700", "a/b": "0o700", "a/b/c": "0o700", **files}, f"{modes}")


def each_new_folder_is_synced_in_its_parent() -> None:
    """What holds a new folder's name is synced, for each one that is made."""
    synced = []
    sync = os.fsync

    def noted_sync(descriptor: int) -> None:
        sync(descriptor)
        synced.append(os.readlink(f"/proc/self/fd/{descriptor}"))

    with folder() as name, mock.patch.object(os, "fsync", noted_sync):
        top = Path(name).resolve()
        make_folder(top / "a" / "b" / "c")
        need(synced == [str(top), str(top / "a"), str(top / "a" / "b")], f"synced are {synced}")


def versions_are_told() -> None:
    """`--version` says what the service is, which form its journal has, and which program it finds; the other commands
    name themselves and the version that the file VERSION has."""
    [program] = keeper(Path())[:1]
    digest = subprocess.run(["sha256sum", program], stdout=subprocess.PIPE, check=True).stdout.split()[0].decode()
    done = subprocess.run([str(KEEP), "--version"], stdout=subprocess.PIPE, check=True)
    told = done.stdout.decode().splitlines()
    need(len(told) == 3 and told[0] == f"service/keep {VERSION}", f"{told}")
    need(told[1].startswith("journal form 3;") and told[2] == f"program {program} (SHA-256 {digest})", f"{told}")
    for name in ("door", "articles", "connect", "grid", "press", "redis"):
        done = subprocess.run([str(SERVICE / name), "--version"], stdout=subprocess.PIPE, check=True)
        need(done.stdout.decode() == f"service/{name} {VERSION}\n", f"{name}: {done.stdout.decode()}")


def lines_come_to_the_program_whole() -> None:
    """By one byte, by some, and by all that a pipe holds; and of what stands behind the last line feed nothing before
    it ends, so that it is a line only where the input ends."""
    source = Source(12)
    due = Due.of(source.lines(120))
    with folder() as name:
        for most in (1, 7, 100_000):
            kept, text = Keep(Path(name) / str(most)), joined(due.lines) + COUNT.strip()
            while text:
                kept.unsent += text[:most]
                text = text[most:]
                while kept.unsent:
                    kept.turn(0)
            assert kept.process.stdin
            kept.process.stdin.close()
            while kept.turn(PATIENCE_SECONDS):
                pass
            kept.close()
            need(kept.status == 0, kept.last_words)
            count = replies_of_engine(joined(due.lines) + COUNT).splitlines(True)[-1]
            same(bytes(kept.got), due.text() + count, f"by {most}")


TESTS = (answers_as_the_engine, goes_on_after_its_end, ended_at_random_places, its_program_ended,
         a_second_one_is_refused, words_are_those_of_the_program, another_engine_is_told, a_full_disk_ends_it,
         a_failing_sync_ends_it, a_journal_that_cannot_be_written, a_program_that_is_not_there,
         files_are_for_their_owner_alone, each_new_folder_is_synced_in_its_parent, versions_are_told, lines_come_to_the_program_whole)
