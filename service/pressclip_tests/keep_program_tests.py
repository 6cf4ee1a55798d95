"""Tests of the program `pressclip-keep`: the engine itself is the judge."""

from __future__ import annotations

import json
import re
import subprocess
from pathlib import Path
from random import Random
from typing import Callable

from pressclip_service.keeper import keeper

from .inputs import Source, joined, with_long_lines
from .judge import Due, folder, need, replies_of_engine, same
from .keep_runs import Client
from .old_journals import of_form_1
from .processes import ENDED, PATIENCE_SECONDS, Spoken
from .streams_tests import closing

KILLS = 100
# The bytes of an entry beside what it says, and those of a journal that keeps nothing.
ENTRY_BYTES, EMPTY_BYTES = 80, 96


def run(journal: Path, text: bytes, *words: str,
        before: Callable[[], None] | None = None) -> tuple[int, bytes, str]:
    """Status, what was printed and what was told, of a run over a whole input."""
    done = subprocess.run(keeper(journal, *words), input=text, stdout=subprocess.PIPE, stderr=subprocess.PIPE,
                          preexec_fn=before, timeout=PATIENCE_SECONDS, check=False)
    return done.returncode, done.stdout, done.stderr.decode()


def changes_in(journal: Path) -> int:
    """How many changes a journal has."""
    if not (journal / "changes").exists():
        return 0
    status, told, why = run(journal, b"", "--check")
    found = re.fullmatch(rb"(\d+) changes are kept\n", told)
    if status or not found:
        raise AssertionError(f"status {status}, {told!r}, {why}")
    return int(found[1])


def entries(text: bytes) -> list[tuple[int, int]]:
    """Where the entries of a journal begin and end."""
    found, start = [], 0
    while start < len(text):
        end = start + ENTRY_BYTES + int.from_bytes(text[start + 8:start + 16], "big")
        found.append((start, end))
        start = end
    return found


def answers_as_the_engine() -> None:
    """A whole input at once, with lines that are too long and a last line without its line feed, by each form."""
    for seed, words in ((1, ()), (2, ("0",)), (3, ("2", "hits")), (4, ("hits",))):
        source = Source(seed)
        text = joined(with_long_lines(source.lines(1_500), source.dice)) + b'{"op":"count"}'
        with folder() as name:
            status, replies, told = run(Path(name) / "j", text, *words)
            need(status == 0, told)
            same(replies, replies_of_engine(text, [word for word in words if word == "hits"]), f"seed {seed}")


def goes_on_after_its_end() -> None:
    """An input in parts, each by a run of its own on one journal."""
    source = Source(3)
    due = Due.of(source.lines(1_200))
    with folder() as name:
        start = 0
        for end in (*sorted(source.dice.sample(range(1, 1_200), 6)), 1_200):
            status, replies, told = run(Path(name), joined(due.lines[start:end]))
            need(status == 0, told)
            wanted = [due.numbered_from(start, place) for place in range(start, end)]
            same(replies, b"".join(reply + b"\n" for reply in wanted if reply is not None), f"lines {start} to {end}")
            start = end
        need(changes_in(Path(name)) == sum(due.changes), "not each change is kept once")


def ended_at_random_places() -> None:
    """Ended by SIGKILL between lines, and within them."""
    source = Source(4)
    due = Due.of(source.lines(2_000))
    with folder() as name:
        journal = Path(name) / "j"
        client = Client(due, journal, source.dice, lambda: Spoken(keeper(journal, source.dice.choice(["0", "2"]))),
                        "pressclip-keep")
        client.run(KILLS)
        need(changes_in(journal) == sum(due.changes), "not each change is kept once")


def a_journal(name: str) -> tuple[Path, bytes]:
    """A journal of several entries, and the bytes of its file."""
    journal = Path(name) / "j"
    status, _, told = run(journal, joined(Source(6).lines(60)))
    need(status == 0, told)
    return journal, (journal / "changes").read_bytes()


def a_torn_end_is_left_out() -> None:
    """The last entry cut anywhere is told, left out, and kept in a file beside the journal."""
    with folder() as name:
        journal, whole = a_journal(name)
        start, end = entries(whole)[-1]
        kept = changes_in(journal) - 1
        dice = Random(7)
        for number, cut in enumerate([start + 1, end - 1, *(dice.randrange(start + 1, end) for _ in range(8))], 1):
            (journal / "changes").write_bytes(whole[:cut])
            need(changes_in(journal) == kept, "a torn entry counts")
            status, replies, told = run(journal, b'{"op":"count"}\n')
            need(status == 0 and f"{cut - start} torn bytes" in told and f"{kept} changes are kept" in told, told)
            need((journal / "changes").read_bytes() == whole[:start], "the torn entry is not cut off")
            same((journal / f"changes.torn.{number}").read_bytes(), whole[start:cut], "what was torn")
            again = run(journal, b'{"op":"count"}\n')
            need(again[:2] == (0, replies) and "torn" not in again[2], again[2])


def a_broken_middle_ends_it() -> None:
    """A wrong byte anywhere, an entry too few or twice: status 3, the byte's place, and nothing changed."""
    with folder() as name:
        journal, whole = a_journal(name)
        places = entries(whole)
        dice = Random(8)
        broken = []
        for place in (dice.randrange(len(whole)) for _ in range(30)):
            text = whole[:place] + bytes([whole[place] ^ (1 << dice.randrange(8))]) + whole[place + 1:]
            broken.append((text, max(start for start, _ in places if start <= place)))
        (start, end), (last, _) = places[3], places[-1]
        broken += [(whole[:start] + whole[end:], start), (whole[:end] + whole[start:], end), (whole[end:], 0),
                   (whole + whole, len(whole)), (b"journal", 0)]
        need(last > end, "too few entries")
        for text, place in broken:
            (journal / "changes").write_bytes(text)
            for words in ((), ("--check",), ("--dump",), ("--stats",)):
                status, replies, told = run(journal, b'{"op":"count"}\n', *words)
                need((status, replies) == (3, b"") and f"broken at byte {place};" in told, f"{words}: {status} {told}")
            need((journal / "changes").read_bytes() == text, "the broken journal was changed")


def files_of(journal: Path) -> dict[str, bytes]:
    """The files of a folder."""
    return {path.name: path.read_bytes() for path in journal.iterdir()}


def asking(source: Source) -> bytes:
    """Lines that ask what is registered: a count, each query's text, and some articles."""
    shows = [json.dumps({"op": "show", "id": query}).encode() for query in source.ids]
    return joined([b'{"op":"count"}', *shows, *(source.match() for _ in range(60))])


def a_journal_of_before_is_refused() -> None:
    """It is named, and nothing is changed."""
    with folder() as name:
        old = Path(name)
        (old / "journal").write_bytes(of_form_1(Source(9).lines(5), 0))
        before = files_of(old)
        for words in ((), ("--check",), ("--dump",)):
            status, replies, told = run(old, b'{"op":"count"}\n', *words)
            need((status, replies) == (3, b"") and "service/keep --journal" in told, f"{status} {told}")
        need(files_of(old) == before, "the folder was changed")


def a_dump_registers_the_same_queries() -> None:
    """In the engine itself, by one line for each query that is live."""
    source = Source(10)
    text = joined(source.lines(900))
    asked = asking(source)
    with folder() as name:
        journal = Path(name)
        need(run(journal, text)[0] == 0, "no journal")
        status, dump, told = run(journal, b"", "--dump")
        need(status == 0, told)
        lines = dump.count(b"\n")
        due = replies_of_engine(text + asked).splitlines()[-len(asked.splitlines()):]
        got = replies_of_engine(dump + asked).splitlines()[lines:]
        need([without_line(reply) for reply in got] == [without_line(reply) for reply in due], "other queries")
        need(json.loads(got[0])["count"] == lines, "not one line for each query")
        again = Path(name) / "again"
        need(run(again, dump)[0] == 0 and run(again, b"", "--dump")[1] == dump, "another dump of what was dumped")


def without_line(reply: bytes) -> dict[str, object]:
    """A reply but for its line's number."""
    return {name: value for name, value in json.loads(reply).items() if name != "line"}


def long_input(source: Source) -> bytes:
    """Lines that ask for over 1,000 changes, and leave few queries."""
    return joined([source.register() for _ in range(1_100)] + [source.delete() for _ in range(200)])


def begin_where_none_is_written_anew(journal: Path) -> None:
    """A journal whose file can't be written anew: another thing has the name of the file beside it."""
    need(run(journal, b"")[0] == 0, "no journal")
    (journal / "changes.new").mkdir()


def a_long_journal_is_written_anew() -> None:
    """At the start, where it has over 1,000 changes and more than twice the queries of its last writing: here since it
    could not be written anew before, which was told once."""
    source = Source(11)
    text, asked = long_input(source), asking(source)
    with folder() as name:
        journal = Path(name)
        begin_where_none_is_written_anew(journal)
        status, replies, told = run(journal, text)
        need(status == 0 and told.count("could not be written anew") == 1, told)
        same(replies, replies_of_engine(text), "replies")
        (journal / "changes.new").rmdir()
        before = json.loads(run(journal, b"", "--stats")[1])
        dump = run(journal, b"", "--dump")[1]
        status, replies, told = run(journal, asked)
        need(status == 0 and f"{before['changes']} changes are kept" in told, told)
        stats = json.loads(run(journal, b"", "--stats")[1])
        need(list(stats) == ["bytes", "changes", "live", "since", "torn"], f"{stats}")
        need(stats == {"bytes": EMPTY_BYTES + len(dump) + (ENTRY_BYTES - 1) * dump.count(b"\n"),
                       "changes": before["changes"], "live": dump.count(b"\n"), "since": 0, "torn": 0}, f"{stats}")
        need(before["since"] == before["changes"] > 1_000 and stats["bytes"] < before["bytes"], f"{before}")
        same(run(journal, b"", "--dump")[1], dump, "the dump")
        due = replies_of_engine(text + asked).splitlines()[-len(asked.splitlines()):]
        need([without_line(reply) for reply in replies.splitlines()] == [without_line(reply) for reply in due],
             "other queries")


def a_long_journal_is_written_anew_while_it_runs() -> None:
    """Its replies are those of the engine, and its queries those of a journal that was not written anew."""
    text = long_input(Source(11))
    with folder() as name, folder() as other:
        begin_where_none_is_written_anew(Path(other))
        need(run(Path(other), text)[0] == 0, "the run ended")
        status, replies, told = run(Path(name), text)
        need(status == 0 and "is being written anew" in told and "could not" not in told, told)
        same(replies, replies_of_engine(text), "replies")
        stats, whole = (json.loads(run(Path(one), b"", "--stats")[1]) for one in (name, other))
        need(stats["changes"] == whole["changes"] and stats["since"] < whole["since"], f"{stats} {whole}")
        need(stats["bytes"] < whole["bytes"], f"{stats} {whole}")
        same(run(Path(name), b"", "--dump")[1], run(Path(other), b"", "--dump")[1], "the dump")


def a_second_one_is_refused() -> None:
    """The lock of a journal is free again once its holder is ended, however that was."""
    with folder() as name:
        first = Spoken(keeper(Path(name)))
        first.send(b'{"op":"register","queries":[{"id":"q1","query":"tea"}]}')
        need(bool(first.wait_for_replies()), "no reply")
        status, replies, told = run(Path(name), b'{"op":"count"}\n')
        need((status, replies) == (5, b"") and "another process has the journal" in told, f"{status} {told}")
        need(changes_in(Path(name)) == 1, "a journal that is open can't be looked at")
        first.kill()
        ENDED.append("pressclip-keep")
        status, replies, told = run(Path(name), b'{"op":"count"}\n')
        need((status, replies) == (0, b'{"count":1,"line":1}\n'), told)


def other_words_are_refused() -> None:
    """With what there is on standard error and status 2, and nothing is made."""
    with folder() as name:
        journal = str(Path(name) / "j")
        others: list[list[str]] = [
            [], [""], ["--help"], [journal, "65"], [journal, "hits", "4"], [journal, "run"],
            [journal, "--dump", "--check"], [journal, "4", "--dump"], [journal, "--version"]]
        for words in others:
            done = subprocess.run([keeper(Path())[0], *words], input=b"", capture_output=True, check=False)
            need(done.returncode == 2 and done.stderr.startswith(b"usage: pressclip-keep "), f"{words}: {done}")
            need(not done.stdout and not Path(journal).exists(), f"{words}: something was made")


def what_can_not_be_used_is_told() -> None:
    """A folder that can't be made, a journal that is not there, an input or an output that is closed."""
    with folder() as name:
        line = b'{"op":"register","queries":[{"id":"q1","query":"tea"}]}\n'
        for words in ((), ("--check",)):
            status, _, told = run(Path(name) / "none" / "j", line, *words)
            need(status == 4 and "can't be opened" in told, f"{words}: {status} {told}")
        journal = Path(name) / "j"
        for closed, due in (((0,), (0, 4)), ((1,), (6,)), ((0, 1), (0, 4, 6))):
            status, _, told = run(journal, line, before=closing(*closed))
            need(status in due, f"{closed}: {status} {told}")
        with open("/dev/full", "wb") as full:
            done = subprocess.run(keeper(Path(journal)), input=line, stdout=full, stderr=subprocess.PIPE,
                                  check=False)
        need(done.returncode == 6 and b"nobody reads the replies" in done.stderr, f"{done}")
        need((journal / "lock").read_bytes() == b"", "replies in the lock")
        need(run(journal, b'{"op":"count"}\n')[:2] == (0, b'{"count":1,"line":1}\n'), "what was kept is not there")


TESTS: tuple[Callable[[], None], ...] = (
    answers_as_the_engine, goes_on_after_its_end, ended_at_random_places, a_torn_end_is_left_out,
    a_broken_middle_ends_it, a_journal_of_before_is_refused, a_dump_registers_the_same_queries,
    a_long_journal_is_written_anew, a_long_journal_is_written_anew_while_it_runs, a_second_one_is_refused,
    other_words_are_refused, what_can_not_be_used_is_told)
