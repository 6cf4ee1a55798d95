"""Tests of journals of before: what is seen of records that are not as they were written, and what is taken over."""

from __future__ import annotations

import re
from pathlib import Path
from random import Random
from typing import Sequence

from pressclip_service.errors import BrokenJournal
from pressclip_service.reading import Reading

from .inputs import Source, joined
from .judge import Due, folder, need, replies_of_engine, same
from .keep_runs import Keep, changes_in, dump_of, run_keep
from .old_journals import CHANGES, frame_of_form_1, frames_of_form_2, of_form_1
from .press_runs import register as of_press
from .press_runs import dumped, match, run_command
from .processes import ENDED, Spoken

COUNT = b'{"op":"count"}\n'
QUERIES = 5_000
TAKEN_OVER = 12
MUTATED = 3_000
SHOWN = b"".join(b'{"op":"show","id":"q%d"}\n' % number for number in (0, 1_023, 1_024, 2_500, QUERIES - 1))


def registering(start: int, count: int) -> bytes:
    """A line that registers so many queries."""
    listed = b",".join(b'{"id":"q%d","query":"tea w%d"}' % (number, number % 97)
                       for number in range(start, start + count))
    return b'{"op":"register","queries":[%b]}' % listed


def files_of(journal: Path) -> dict[str, bytes]:
    """The files of a folder."""
    return {path.name: path.read_bytes() for path in journal.iterdir()}


def is_refused(journal: Path, text: bytes, what: str) -> None:
    """`Failed` where a journal of these bytes is taken, or changed."""
    journal.mkdir(exist_ok=True)
    (journal / "journal").write_bytes(text)
    status, replies, told = run_keep(journal, COUNT)
    need((status, replies) == (3, b"") and "is broken at byte" in told, f"{what}: status {status}, {told}")
    need(files_of(journal) == {"journal": text, "lock": b""}, f"{what}: the journal was changed")


def unnumbered(replies: Sequence[bytes]) -> bytes:
    """The replies without the numbers of their lines."""
    return re.sub(rb'"line":\d+', b"", b"\n".join(replies))


def one_bit_else(text: bytes, place: int) -> bytes:
    """The bytes with a bit changed in one of them."""
    return text[:place] + bytes([text[place] ^ 4]) + text[place + 1:]


def what_is_not_as_it_was_written_is_refused() -> None:
    """Records that are missing, doubled, swapped, of another journal, cut off behind, or with one wrong bit, also in the
    last of those that were there when the file took its place: status 3, and nothing changed."""
    with folder() as name:
        journal, dice = Path(name) / "j", Random(31)
        changes = [[registering(start, 3)] for start in range(3)]
        live = [registering(start, 100) for start in range(0, 400, 100)]
        head, *records = frames_of_form_2(changes, live, before=40, synced=1)
        synced, later = records[:5], records[5:]
        for place in range(5):
            less = synced[:place] + synced[place + 1:]
            is_refused(journal, b"".join([head, *less, *later]), f"without record {place}")
            is_refused(journal, b"".join([head, *less]), f"without record {place} and what came later")
            is_refused(journal, b"".join([head, *synced[:place + 1], *synced[place:], *later]), f"record {place} twice")
            is_refused(journal, b"".join([head, *synced[:place]]), f"cut off before record {place}")
            is_refused(journal, b"".join([head, *synced[:place + 1]])[:-7], f"cut off in record {place}")
            at = len(b"".join([head, *synced[:place]])) + dice.randrange(len(synced[place]))
            is_refused(journal, one_bit_else(b"".join([head, *synced]), at), f"a wrong bit in byte {at}")
        is_refused(journal, b"".join([head, synced[0], synced[2], synced[1], *synced[3:]]), "two records swapped")
        others = frames_of_form_2([[registering(start, 2)] for start in range(3)], live, before=40, synced=1)
        is_refused(journal, b"".join([head, *synced, others[6], *later[1:]]), "a record of another journal")
        is_refused(journal, b"\xffPJ9 of another time", "a later form")


def mutated(whole: bytes, dice: Random) -> bytes:
    """The bytes with one bit changed, or a range of them dropped, doubled, zeroed, moved or cut off."""
    start, end = sorted(dice.sample(range(len(whole) + 1), 2))
    part = whole[start:end]
    place = dice.randrange(len(whole))
    half = len(part) // 2
    return dice.choice([whole[:place] + bytes([whole[place] ^ (1 << dice.randrange(8))]) + whole[place + 1:],
                        whole[:start] + whole[end:], whole[:end] + whole[start:],
                        whole[:start] + bytes(len(part)) + whole[end:],
                        whole[:start] + part[half:] + part[:half] + whole[end:], whole[:end]])


def other_bytes_are_refused_or_a_front() -> None:
    """What is read of a file with other bytes is a front of what was written, with all that was there when it took its
    place, or nothing; where one bit is changed before the last record, nothing."""
    with folder() as name:
        file, dice = Path(name) / "journal", Random(34)
        later = [[registering(number, 2), b'{"op":"delete","ids":["q%d"]}' % number] for number in range(6)]
        frames = frames_of_form_2(later, [registering(0, 24)], before=8)
        whole, synced = b"".join(frames), len(frames[0]) + len(frames[1])
        last = len(whole) - len(frames[-1])
        fronts = 0
        for _ in range(MUTATED):
            text = mutated(whole, dice)
            file.write_bytes(text)
            reading = Reading(file)
            try:
                read = sum(1 for _ in reading.frames())
            except BrokenJournal:
                continue
            fronts += 1
            need(text[:reading.end] == whole[:reading.end] and reading.end >= synced and read > 0, "no front")
            differs = [place for place, (one, other) in enumerate(zip(text, whole)) if one != other]
            need(len(text) != len(whole) or len(differs) != 1 or differs[0] >= last, "one bit, and it is taken")
        need(MUTATED // 20 < fronts < MUTATED // 2, f"{fronts} of {MUTATED} are fronts")


def journals_of_before_are_taken_over() -> None:
    """Of both forms: dumped as they are, and taken over by the first start, with the same queries and count of changes;
    as they were they stay beside."""
    lines = [registering(start, 1_024) for start in range(0, QUERIES, 1_024)] + [b'{"op":"delete","ids":["q2500"]}']
    due = replies_of_engine(joined(lines) + SHOWN).splitlines()[len(lines):]
    journals = {1: of_form_1(lines, 40), 2: b"".join(frames_of_form_2([lines[2:4], lines[4:]], lines[:2], before=40))}
    for form, text in journals.items():
        with folder() as name:
            journal = Path(name)
            (journal / "journal").write_bytes(text)
            (journal / "version").write_bytes(b"pressclip 1.0.0, journal form 2\n")
            before, dump, changes = files_of(journal), dump_of(journal), changes_in(journal)
            need(changes == 40 + len(lines) - 2 and files_of(journal) == before, f"{changes} changes")
            status, replies, told = run_keep(journal, SHOWN)
            need(status == 0 and f"{changes} changes of form {form}, is taken over" in told
                 and f"pressclip-keep: {changes} changes are kept" in told, told)
            same(unnumbered(replies.splitlines()), unnumbered(due), "replies")
            found = files_of(journal)
            need(found.pop("journal.old.1") == text and found.keys() == {"changes", "lock"}, f"{found.keys()}")
            same(listed_in(dump_of(journal)), listed_in(dump), "what is dumped")
            need(changes_in(journal) == changes, "another count of changes")
            status, again, told = run_keep(journal, SHOWN)
            need((status, again) == (0, replies) and "taken over" not in told, told)


def listed_in(dump: bytes) -> bytes:
    """The queries that a dump registers, each in a line."""
    return b"\n".join(re.findall(rb'\{"id":[^}]*\}', dump))


def what_is_torn_is_left_out() -> None:
    """A torn end stays in the old file alone, and all else that is broken is status 3."""
    lines = [registering(start, 3) for start in range(0, 30, 3)]
    for whole in (of_form_1(lines, 0), b"".join(frames_of_form_2([[line] for line in lines]))):
        with folder() as name:
            journal = Path(name)
            for place in (3, 30, len(whole) // 2):
                is_refused(journal, one_bit_else(whole, place), f"byte {place}")
            (journal / "journal").write_bytes(whole[:-5])
            kept = changes_in(journal)
            status, replies, told = run_keep(journal, COUNT)
            need((status, replies) == (0, b'{"count":27,"line":1}\n') and "bytes at its end are torn" in told, told)
            need(changes_in(journal) == kept, "another count of changes")
            same((journal / "journal.old.1").read_bytes(), whole[:-5], "the old one")


def ended_while_it_is_taken_over() -> None:
    """`keep` ended by SIGKILL somewhere in its first start over a journal of before with a torn end: the queries, the
    count of changes and the torn bytes stay."""
    lines = [registering(start, 10) for start in range(0, 10_000, 10)]
    torn = frame_of_form_1(CHANGES, len(lines) - 2, registering(0, 20_000))[:-1]
    whole, dice = of_form_1(lines, 0) + torn, Random(33)
    stages, due = set(), listed_in(joined(lines))
    for _ in range(TAKEN_OVER):
        with folder() as name:
            journal = Path(name)
            (journal / "journal").write_bytes(whole)
            kept = Keep(journal)
            kept.turn(dice.uniform(0.05, 0.5))
            kept.kill()
            ENDED.append("keep")
            stages.add("journal" if (journal / "journal").exists() else "changes")
            same(listed_in(dump_of(journal)), due, "the dump")
            need(changes_in(journal) == len(lines) - 2, f"{changes_in(journal)} changes")
            need(run_keep(journal, COUNT)[:2] == (0, b'{"count":10000,"line":1}\n'), "another count")
            same((journal / "journal.old.1").read_bytes(), whole, "the old one")
            need(not (journal / "taken-over").exists(), "a folder is left")
    need("journal" in stages, f"it was ended at {stages}")


def a_stop_between_the_two_files() -> None:
    """Where the new file is in place and the old one still too, the rest is done; a folder that has both without such a
    stop is status 3, and nothing is changed."""
    lines = [registering(start, 3) for start in range(0, 30, 3)]
    with folder() as name:
        journal, text = Path(name), of_form_1(lines, 0)
        (journal / "journal").write_bytes(text)
        need(run_keep(journal, b"")[0] == 0, "it is not taken over")
        (journal / "journal.old.1").rename(journal / "journal")
        before = files_of(journal)
        status, replies, told = run_keep(journal, COUNT)
        need((status, replies) == (3, b"") and "two journals" in told, f"{status} {told}")
        need(files_of(journal) == before, "something was changed")
        (journal / "taken-over").mkdir()
        need(changes_in(journal) == len(lines) - 2, "another count of changes")
        status, replies, told = run_keep(journal, COUNT)
        need((status, replies) == (0, b'{"count":30,"line":1}\n') and "stays in" in told, f"{status} {told}")
        need(files_of(journal).keys() == {"changes", "lock", "journal.old.1"}, f"{files_of(journal).keys()}")


def what_the_engine_refuses_is_not_taken_over() -> None:
    """A line that it does not accept any more: status 1, and the journal stays."""
    with folder() as name:
        journal = Path(name)
        text = b"".join(frames_of_form_2([[b'{"op":"register","queries":[{"id":"q1","query":"tea AND"}]}']]))
        (journal / "journal").write_bytes(text)
        status, replies, told = run_keep(journal, COUNT)
        need((status, replies) == (1, b"") and "refuses what it accepted before" in told, f"{status} {told}")
        same((journal / "journal").read_bytes(), text, "the journal")


def random_changes_are_taken_over() -> None:
    """A random input leaves a journal of before that registers what is live."""
    source = Source(32)
    due = Due.of(source.lines(1_500))
    asked = b"".join(b'{"op":"show","id":"q%d"}\n' % number for number in range(120)) + COUNT
    accepted = [line for line, reply in zip(due.lines, due.replies)
                if reply and re.search(rb'"(registered|deleted|cleared)":', reply)]
    with folder() as name:
        journal = Path(name)
        groups = [accepted[start:start + 7] for start in range(0, len(accepted), 7)]
        (journal / "journal").write_bytes(b"".join(frames_of_form_2(groups)))
        status, replies, told = run_keep(journal, asked)
        need(status == 0 and f"{len(accepted)} changes are kept" in told, told)
        shown = replies_of_engine(joined(due.lines) + asked).splitlines()[-121:]
        same(unnumbered(replies.splitlines()), unnumbered(shown), "replies")


def queries_of_press_desks_are_taken_over() -> None:
    """A journal that stood above `press run` has them as they were written; one below it, as the engine has them."""
    lines = [dumped(of_press("Tesla NEAR/3 recall*", "tea, milk"))]
    asked = [b'{"op":"show","id":"0"}', dumped(match({"text": "a recall by Tesla"}, {"text": "tea"}))]
    with folder() as name:
        below = Path(name) / "below"
        kept = Spoken(run_command("--quiet", "--journal", str(below)))
        for line in (*lines, *asked):
            kept.send(line)
        due = kept.so_many_replies(3)
        kept.close()
        need(b'"queries":["0"]' in due[2] and b"NEAR/3" in due[1], f"{due}")
        for place, text in (("above", lines), ("dump", dump_of(below).splitlines())):
            journal = Path(name) / place
            journal.mkdir()
            (journal / "journal").write_bytes(b"".join(frames_of_form_2([text])))
            status, replies, told = run_keep(journal, joined(asked), engine=run_command("--quiet"))
            need(status == 0 and "is taken over" in told, f"{status} {told}")
            same(unnumbered(replies.splitlines()), unnumbered(due[1:]), place)
            need(listed_in(dump_of(journal)) == listed_in(dump_of(below)), "another dump")


TESTS = (what_is_not_as_it_was_written_is_refused, other_bytes_are_refused_or_a_front, journals_of_before_are_taken_over,
         what_is_torn_is_left_out, ended_while_it_is_taken_over, a_stop_between_the_two_files,
         what_the_engine_refuses_is_not_taken_over, random_changes_are_taken_over)
PRESS_TESTS = (queries_of_press_desks_are_taken_over,)
