"""Tests of `press run`: it answers as an engine does, is restarted over `keep` and below it, and loses nothing."""

from __future__ import annotations

import json
import os
import signal
import subprocess
import time
from collections.abc import Callable, Sequence
from contextlib import suppress
from pathlib import Path
from random import Random

from pressclip_service.engine import command_of

from .inputs import WORDS, Source, joined, with_long_lines
from .judge import KEEP, Due, folder, need, same
from .press_runs import PATIENCE_SECONDS, dumped, match, register, run_command, run_press
from .processes import ENDED, Spoken, children_of

PROFILE = '[dialect]\nblank = "or"\n'
LISTENED = [{"id": "near", "query": "tea NEAR/2 milk", "listener": "mail"},
            {"id": "plain", "query": "tea", "listener": "feed"}, {"id": "quiet", "query": "tea /s milk"}]
MANY = 10_000


class PlainSource(Source):
    """Lines of which the dialect and the engine's own syntax mean one thing: a query has a word that holds."""

    def text(self, most: int) -> str:
        parts = [self.dice.choice(["", "", "+", "-"]) + self.dice.choice(WORDS)
                 for _ in range(self.dice.randint(0, most - 1))]
        return " ".join([*parts, self.dice.choice(WORDS)])

    def article(self) -> dict[str, object]:
        words = " ".join(self.dice.choices(WORDS, k=self.dice.randint(0, 12)))
        return {"id": self.id() if self.dice.random() < 0.5 else f"a{self.dice.randint(0, 99)}", "fields": {"text": words}}


def profile_in(place: str) -> Path:
    """A profile by which a blank is OR."""
    path = Path(place) / "profile.toml"
    path.write_text(PROFILE)
    return path


def answers_as_the_engine() -> None:
    """Byte for byte, refusals and long lines with it, where queries mean in both what they mean in one."""
    with folder() as place:
        profile = profile_in(place)
        for seed in range(3):
            source = PlainSource(700 + seed)
            lines = with_long_lines(source.lines(700), source.dice)
            done = subprocess.run(run_command("--quiet", "--profile", str(profile)), input=joined(lines),
                                  capture_output=True, timeout=PATIENCE_SECONDS, check=False)
            need(done.returncode == 0, f"it ended with status {done.returncode}: {done.stderr.decode()[-600:]}")
            same(done.stdout, Due.of(lines).text(), f"seed {seed}")


def it_alerts_by_the_dialect() -> None:
    """Filters decide, with the listeners' notes, and a query is shown as it was written."""
    lines = [{"op": "register", "queries": LISTENED},
             match({"text": "tea with milk"}, {"text": "tea and more. No milk"}, {"text": "milk"}),
             {"op": "show", "id": "near"}, {"op": "show", "id": "none"}, {"op": "delete", "ids": ["near", "none"]},
             match({"text": "tea with milk"}), {"op": "clear"}, match({"text": "tea with milk"})]
    replies, _ = run_press(lines)
    due = [{"line": 1, "registered": 3},
           {"alerts": [{"article": "a0", "queries": ["near", "plain", "quiet"]},
                       {"article": "a1", "queries": ["plain"]}, {"article": "a2", "queries": []}], "line": 2,
            "notes": ["mail: near in a0", "feed plain/a0", "feed plain/a1"]},
           {"line": 3, "query": "tea NEAR/2 milk"}, {"line": 4, "query": None}, {"deleted": 1, "line": 5},
           {"alerts": [{"article": "a0", "queries": ["plain", "quiet"]}], "line": 6, "notes": ["feed plain/a0"]},
           {"cleared": 2, "line": 7}, {"alerts": [{"article": "a0", "queries": []}], "line": 8, "notes": []}]
    same(b"\n".join(replies), b"\n".join(map(dumped, due)), "the replies")


def hits_are_of_what_is_kept() -> None:
    """Over an engine that shows hits, those of a query that its filter drops are dropped with it."""
    lines = [register("tea NEAR/1 milk", "tea", "*lk"), match({"text": "milk and tea"}, {"text": "coffee"})]
    replies, _ = run_press(lines, engine=[*command_of([], workers=0), "hits"])
    due = {"alerts": [{"article": "a0", "hits": [[{"field": "text", "position": 2}],
                                                 [{"field": "backwards", "position": 2}]], "queries": ["1", "2"]},
                      {"article": "a1", "hits": [], "queries": []}], "line": 2, "notes": []}
    same(replies[1], dumped(due), "the reply with hits")


def a_refusal_has_its_reason() -> None:
    """A query that can't be said is refused in its place, and why is told; warnings are told too, unless it is quiet."""
    lines = [register("tea", "roam~", "tea OR"), register("Siemens Energy"), {"op": "count"}]
    replies, told = run_press(lines)
    same(b"\n".join(replies), b'{"line":1,"refused":"query","which":1}\n{"line":2,"registered":1}\n{"count":1,"line":3}',
         "the replies")
    need("line 1: query '1' is refused at character 0: Words like another" in told, f"told is {told}")
    need("line 2: query '0', notice at character 7: A blank is AND" in told, f"told is {told}")
    _, told = run_press(lines, "--quiet")
    need("notice" not in told and "is refused at character 0" in told, f"told is {told}")


def what_gets_too_long() -> None:
    """A line whose translation is longer than a line may be is refused by its name; articles are sent in several."""
    wide = " ".join(["ソニーグループ"] * 6_000)
    assert len(dumped(match({"text": wide}))) < 1 << 20
    articles = match(*({"text": wide} for _ in range(6)))
    assert len(dumped(articles)) < 1 << 20
    near = register(*("ソニー" for _ in range(3)))
    alone = match({"text": "ソニー" * 90_000})
    queries = register(*('"' + "ソニー " * 400 + '"' for _ in range(150)))
    assert max(len(dumped(alone)), len(dumped(queries))) < 1 << 20
    replies, told = run_press([near, articles, alone, queries, {"op": "count"}], "--quiet")
    found = [json.loads(reply) for reply in replies]
    need([alert["queries"] for alert in found[1]["alerts"]] == [["0", "1", "2"]] * 6, "an article was lost")
    need([one.get("refused") for one in found[2:4]] == ["long", "long"], f"they are {replies[2][:99]!r} {replies[3]!r}")
    need(found[4] == {"count": 3, "line": 5}, f"at last {replies[4]!r}")
    need(told.count("longer than a line may be") == 2, f"told is {told}")


def a_field_that_is_made_is_refused() -> None:
    """An article can't bring a field that is made of others; one that is no value of its kind is left out and told."""
    replies, told = run_press([register("has:author"), match({"text": "tea", "has": "author"}),
                               match({"text": "tea", "backwards": "aet"}),
                               match({"text": "tea", "author": "A", "date": "soon"})])
    found = [json.loads(reply) for reply in replies]
    need([one.get("refused") for one in found] == [None, "shape", "shape", None], f"the replies are {replies}")
    need(found[3]["alerts"][0]["queries"] == ["0"], f"the last is {replies[3]!r}")
    need("has a field has, which is made of others" in told and "date is no value of its kind" in told, f"told is {told}")


def mixed(dice: Random, count: int) -> list[bytes]:
    """Lines with queries that need their filters, changes among matches."""
    words = ["tea", "milk", "green", "sugar"]
    queries = ["tea NEAR/2 milk", "exact:Tea", "*een", "\"green te?\"", "tea /s milk", "tea", "green NOT sugar"]
    lines: list[bytes] = []
    for _ in range(count):
        turn = dice.random()
        if turn < 0.35:
            listed = [{"id": f"q{dice.randint(0, 30)}", "query": dice.choice(queries)} for _ in range(3)]
            lines.append(dumped({"op": "register", "queries": listed}))
        elif turn < 0.45:
            lines.append(dumped({"op": "delete", "ids": [f"q{dice.randint(0, 30)}"]}))
        elif turn < 0.5:
            lines.append(dumped({"op": "show", "id": f"q{dice.randint(0, 30)}"}))
        else:
            text = " ".join(dice.choice([word, word, word.title()]) + dice.choice(["", "", "."])
                            for word in dice.choices(words, k=6))
            lines.append(dumped(match({"text": text})))
    return lines


def unnumbered(reply: bytes) -> dict[str, object]:
    """A reply without its line's number."""
    value: dict[str, object] = json.loads(reply)
    value.pop("line")
    return value


def is_gone(process: int) -> bool:
    """Whether a process has ended, also where nobody has asked for its status yet."""
    try:
        return Path(f"/proc/{process}/stat").read_text().rpartition(")")[2].split()[0] in ("Z", "X")
    except OSError:
        return True


def end_all(served: Spoken) -> None:
    """Ends a process and its child at once, and waits until both are gone."""
    children = children_of(served.process.pid)
    served.kill()
    ENDED.append("press")
    start = time.monotonic()
    for child in children:
        with suppress(ProcessLookupError):
            os.kill(child, signal.SIGKILL)
        while not is_gone(child):
            need(time.monotonic() - start < PATIENCE_SECONDS, f"process {child} does not end")
            time.sleep(0.005)
    served.close()


def ended_at_random(command: Sequence[str], lines: Sequence[bytes], dice: Random) -> list[dict[str, object]]:
    """The replies of processes that are ended by SIGKILL, each after some replies; what was not answered is sent to the
    next."""
    found: list[dict[str, object]] = []
    while len(found) < len(lines):
        served = Spoken(command)
        left = lines[len(found):]
        most = dice.randint(3, 60)
        for line in left[:most]:
            served.send(line)
        got: list[dict[str, object]] = []
        while len(got) < min(most, len(left)):
            replies = served.wait_for_replies()
            need(bool(replies), f"it ended: {served.told()}")
            got += [unnumbered(reply) for reply in replies]
        end_all(served)
        found += got
    return found


def over_keep_and_below_it() -> None:
    """Ended at random places, with a journal of its own, over one and below one, each reply is that of a run to its
    end."""
    for seed, is_below in enumerate((None, False, True)):
        dice = Random(f"press {seed}")
        lines = mixed(dice, 140)
        due = [unnumbered(reply) for reply in run_press(lines, "--quiet")[0]]
        with folder() as place:
            engine = command_of([], workers=0)
            if is_below is None:
                command = run_command("--quiet", "--journal", place, engine=engine)
            elif is_below:
                command = [str(KEEP), "--journal", place, "--", *run_command("--quiet", engine=engine)]
            else:
                command = run_command("--quiet", engine=[str(KEEP), "--journal", place, "--", *engine])
            found = ended_at_random(command, lines, dice)
        for number, (one, other) in enumerate(zip(found, due)):
            need(one == other, f"seed {seed}, line {number + 1} {lines[number]!r}: {one}, and {other} is due")


def it_ends_as_it_is_asked() -> None:
    """With its input, at SIGTERM once all is answered, and with a status of its own where the engine ends."""
    served = Spoken(run_command())
    served.send(dumped(register("tea NEAR/3 milk")))
    need(served.wait_for_replies() == [b'{"line":1,"registered":1}'], "the first reply")
    served.send(dumped(match({"text": "tea, milk"})))
    need(b'"queries":["0"]' in b"".join(served.wait_for_replies()), "the second reply")
    served.process.send_signal(signal.SIGTERM)
    served.process.wait(PATIENCE_SECONDS)
    served.close()
    need(served.status == 0, f"after SIGTERM the status is {served.status}: {served.last_words}")
    served = Spoken(run_command())
    served.send(b'{"op":"count"}')
    served.wait_for_replies()
    for child in children_of(served.process.pid):
        os.kill(child, signal.SIGKILL)
    served.process.wait(PATIENCE_SECONDS)
    served.close()
    need(served.status == 1 and "the engine ended" in served.last_words, f"{served.status}: {served.last_words}")


def many_queries() -> None:
    """Some ten thousand queries, one in ten of them near, of which each article finds its own."""
    queries = [f"w{number} NEAR/3 v{number % 7}" if number % 10 == 0 else f"w{number} AND v{number % 7}"
               for number in range(MANY)]
    lines: list[bytes] = [dumped(register(*queries[start:start + 1_000], first=start)) for start in range(0, MANY, 1_000)]
    numbers = range(0, MANY, 977)
    lines += [dumped(match({"text": f"w{number} and the v{number % 7}, or a x x x x w{number // 10 * 10}"}))
              for number in numbers]
    replies, _ = run_press(lines, "--quiet")
    for number, reply in zip(numbers, replies[len(lines) - len(numbers):]):
        found = json.loads(reply)["alerts"][0]["queries"]
        other = number // 10 * 10
        due = {str(number)} | ({str(other)} if other == number else set())
        need(set(found) == due, f"w{number} finds {found}")


TESTS: tuple[Callable[[], None], ...] = (
    it_alerts_by_the_dialect, hits_are_of_what_is_kept, a_refusal_has_its_reason, answers_as_the_engine, what_gets_too_long,
    a_field_that_is_made_is_refused, it_ends_as_it_is_asked,
    over_keep_and_below_it, many_queries)
