"""Tests of the Python package: its calls, its threads, its examples, and how it is packed.

What is due of matches is worked out by a plain filter, a query of one word at a time, or told by the program.
"""

from __future__ import annotations

import doctest
import importlib
import json
import os
import pkgutil
import shutil
import subprocess
import sys
import tarfile
import tempfile
import threading
import zipfile
from pathlib import Path
from random import Random
from typing import Any, Callable, List, Tuple

from explained_tests import library_as, raised
from pressclip_tests.inputs import ODD_IDS, WORDS, Source

TOP = Path(__file__).resolve().parent.parent
PACKAGE = TOP / "bindings" / "python"
INPUTS = 1_000
THREADS = 8
CHANGES = 1_500
Plain = List[Tuple[str, List[Tuple[str, int]]]]
# What a child of a fork does, and what a program leaves open and running at its end.
FORKED = """
import os
from pressclip import Monitor

monitor = Monitor()
monitor.register("q", "tea")
if os.fork() == 0:
    with Monitor() as own:
        own.register("own", "tea")
        os._exit(len(own.match({"id": "a", "fields": {"text": "tea"}})) - len(monitor))
print(os.waitstatus_to_exitcode(os.wait()[1]), len(monitor))
"""
LEFT_OPEN = """
import threading, time
from pressclip import Monitor

monitor = Monitor(True)
monitor.register_many([(f"q{number}", "tea") for number in range(1000)])
view, ids = monitor.snapshot(), monitor.ids()
print(next(ids))

def work():
    while True:
        monitor.match({"id": "a", "fields": {"text": "tea " * 1000}})

for _ in range(4):
    threading.Thread(target=work, daemon=True).start()
time.sleep(0.2)
"""


def article(text: str, **fields: str) -> dict[str, Any]:
    """An article."""
    return {"id": "a", "fields": {"text": text, **fields}}


def ids_of(found: list[Any]) -> list[str]:
    """The ids of what is found."""
    return [one.query for one in found]


def run_python(code: str) -> tuple[int, str, str]:
    """Status, output and errors of a program in Python."""
    run = subprocess.run([sys.executable, "-c", code], env={**os.environ, "PYTHONPATH": str(PACKAGE)},
                         stdout=subprocess.PIPE, stderr=subprocess.PIPE, text=True, timeout=60)
    return run.returncode, run.stdout, run.stderr


def the_version_is_that_of_the_repository() -> None:
    """The library tells it, and the package has it."""
    import pressclip

    assert pressclip.__version__ + "\n" == (TOP / "VERSION").read_text()


def examples_of_the_package_run() -> None:
    """Those of its docstrings and of its page."""
    import pressclip

    names = [f"pressclip.{module.name}" for module in pkgutil.iter_modules(pressclip.__path__)]
    ran = 0
    for name in ("pressclip", *names):
        result = doctest.testmod(importlib.import_module(name))
        assert result.failed == 0, name
        ran += result.attempted
    page = doctest.testfile(str(PACKAGE / "README.md"), module_relative=False)
    assert page.failed == 0 and page.attempted > 5 and ran > 25, (page, ran)


def the_package_is_clean_by_mypy() -> None:
    """By `mypy --strict`, and a caller sees its types."""
    with tempfile.TemporaryDirectory() as folder:
        Path(folder, "caller.py").write_text(
            "from pressclip import Monitor\nreveal_type(Monitor().match_many([])[0][0].hits[0].start)\n")
        run = subprocess.run(["mypy", "--strict", "--cache-dir", f"{folder}/cache", PACKAGE / "pressclip",
                              f"{folder}/caller.py"], env={**os.environ, "MYPYPATH": str(PACKAGE)}, text=True,
                             stdout=subprocess.PIPE, stderr=subprocess.STDOUT)
    assert run.returncode == 0 and 'Revealed type is "builtins.int"' in run.stdout, run.stdout


def an_argument_of_another_type_is_a_type_error() -> None:
    """Each argument of each call, and nothing changes."""
    from pressclip import Monitor, explain, explain_line, near_holds, word_spans

    monitor: Any = Monitor()
    monitor.register("q", "tea")
    view: Any = monitor.snapshot()
    loose: list[Any] = [explain, explain_line, near_holds, word_spans]
    calls: list[Callable[[], object]] = [
        lambda: Monitor("yes"),  # type: ignore[arg-type]
        lambda: Monitor(1),  # type: ignore[arg-type]
        lambda: monitor.register(1, "tea"), lambda: monitor.register("a", b"tea"),
        lambda: monitor.register("a", "tea", 1), lambda: monitor.register("a"), lambda: monitor.register_many("ab"),
        lambda: monitor.register_many(None), lambda: monitor.register_many([("a", "tea"), ("b", 2)]),
        lambda: monitor.register_many([("a", "tea"), None]), lambda: monitor.register_many([("a", "b", "mail", "d")]),
        lambda: monitor.delete(None), lambda: monitor.get(b"q"), lambda: None in monitor, lambda: monitor.line("{}"),
        lambda: monitor.line(bytearray(b"{}")), lambda: monitor.match(None), lambda: monitor.match("a"),
        lambda: monitor.match({"id": 1, "fields": {}}), lambda: monitor.match({"id": "a", "fields": None}),
        lambda: monitor.match({"id": "a", "fields": {"text": b"tea"}}),
        lambda: monitor.match({"id": "a", "fields": {1: "tea"}}), lambda: monitor.match([("id", "a")]),
        lambda: monitor.match_many([article("tea"), None]), lambda: monitor.match_many(7),
        lambda: view.match(None), lambda: view.get(1), lambda: 1 in view, lambda: view.match_many([1]),
        lambda: loose[0](b"tea"), lambda: loose[1]("{}"), lambda: loose[2](1, "a", 1, True, {}),
        lambda: loose[2]("a", "b", 1, True, {"text": 1}), lambda: loose[3](7)]
    for number, call in enumerate(calls):
        assert raised(TypeError, call), number
    raised(KeyError, lambda: monitor.match({"fields": {}}))
    raised(KeyError, lambda: monitor.match({"id": "a"}))
    assert list(monitor) == ["q"] == list(view) and monitor.get("q") == "tea"


def after_a_close_each_call_is_refused() -> None:
    """Of a monitor, of one that was never opened, and of a snapshot; closing again does nothing."""
    from pressclip import Closed, Monitor

    closed, unopened = Monitor(), Monitor.__new__(Monitor)
    closed.register("q", "tea")
    view = closed.snapshot()
    ids = view.ids()
    closed.close()
    closed.close()
    assert ids_of(view.match(article("tea"))) == ["q"] and list(ids) == ["q"], "a snapshot stays"
    view.close()
    view.close()
    call: Callable[[], object]
    for monitor in (closed, unopened):
        for call in (lambda: monitor.register("q", "tea"), lambda: monitor.register_many([]),
                     lambda: monitor.delete("q"), monitor.clear, monitor.purge, monitor.count, lambda: len(monitor),
                     lambda: monitor.get("q"), lambda: "q" in monitor, monitor.ids, lambda: iter(monitor),
                     monitor.snapshot, lambda: monitor.match(article("tea")), lambda: monitor.match_many([]),
                     lambda: monitor.line(b"")):
            assert raised(Closed, call).word == "closed"
    of_view: list[Callable[[], object]] = [
        lambda: view.match(article("tea")), lambda: view.match_many([]), lambda: view.get("q"), lambda: "q" in view,
        lambda: len(view), lambda: list(view)]
    for call in of_view:
        assert raised(Closed, call).word == "closed"
    closed.__init__()  # type: ignore[misc]
    assert len(closed) == 0


def many_are_registered_or_none() -> None:
    """The first that is refused is named by its place, and says why."""
    from pressclip import LimitError, Monitor, QueryError, Refused

    with Monitor() as monitor:
        monitor.register_many([])
        monitor.register_many([("b", "tea"), ("a", "milk", None), ("b", "coffee", "mail")])
        assert {id: monitor.get(id) for id in monitor} == {"a": "milk", "b": "coffee"}
        error = raised(QueryError, lambda: monitor.register_many([("c", "tea"), ("a", "é (tea"), ("", "tea")]))
        assert (error.which, error.fault, error.at, error.word) == (1, "Structure", 6, "query"), error
        error = raised(LimitError, lambda: monitor.register_many([("c", "tea"), ("a", "tea"), ("q" * 257, "tea")]))
        assert (error.which, error.word) == (2, "limit"), error
        error = raised(Refused, lambda: monitor.register_many([("c", "tea", "post"), ("", "tea")]))
        assert (error.which, error.word) == (0, "listener"), error
        raised(UnicodeEncodeError, lambda: monitor.register_many([("c", "tea"), ("a", "\ud800")]))
        assert {id: monitor.get(id) for id in monitor} == {"a": "milk", "b": "coffee"}
        monitor.register_many((f"q{number}", "tea") for number in range(3_000))
        assert len(monitor) == 3_002
        error = raised(QueryError, lambda: monitor.register_many(
            (f"r{number}", "(" if number == 2_050 else "tea") for number in range(3_000)))
        assert error.which == 2_050 and len(monitor) == 3_002 + 2_048, (error, len(monitor))


def many_are_matched_or_none() -> None:
    """Each as by a match of its own, also where articles are alike."""
    from pressclip import LimitError, Monitor

    with Monitor(True) as monitor:
        monitor.register_many([("a", "tea"), ("b", "title:tea milk"), ("c", "*:*")])
        articles = [article("tea milk"), article("rain", title="Tea"), article("tea milk"), {"id": "x", "fields": {}}]
        found = monitor.match_many(articles)
        assert found == [monitor.match(each) for each in articles]
        assert [ids_of(each) for each in found] == [["a", "b", "c"], ["b", "c"], ["a", "b", "c"], ["c"]], found
        assert [(hit.field, hit.start, hit.end) for hit in found[1][0].hits] == [("title", 0, 3)]
        with monitor.snapshot() as view:
            assert view.match_many(articles) == found and view.match_many([]) == [] == monitor.match_many([])
            for calls in (monitor.match_many, view.match_many):
                error = raised(LimitError, lambda: calls([articles[0], article("", **{"no name": ""})]))
                assert (error.which, error.word) == (1, "limit"), error


def ids_come_in_byte_order_whatever_changes() -> None:
    """Of more than a page, and of ids that are hard to order; those that are being read are of one moment."""
    from pressclip import Monitor

    with Monitor() as monitor:
        ids = [*ODD_IDS, "\0", "a\0", *(f"q{number}" for number in range(2_500))]
        monitor.register_many([(id, "tea") for id in ids])
        due = sorted(ids, key=str.encode)
        reading = monitor.ids()
        assert [next(reading), next(reading)] == due[:2]
        monitor.clear()
        monitor.register("late", "tea")
        assert list(reading) == due[2:] and list(monitor) == ["late"]
        assert "late" in monitor and "q1" not in monitor and "" not in monitor and "q" * 257 not in monitor


def plain_filter(queries: dict[str, str], text: str) -> list[str]:
    """The ids of the queries, each of one word, that hold of a text of words, in byte order."""
    words = set(text.split())
    return sorted((id for id, word in queries.items() if word in words), key=str.encode)


def changed(dice: Random, monitor: Any, queries: dict[str, str]) -> None:
    """Makes a random change of a monitor and of a dictionary of its queries."""
    id, word = f"q{dice.randint(0, 30)}", dice.choice(WORDS)
    turn = dice.random()
    if turn < 0.6:
        monitor.register(id, word)
        queries[id] = word
    elif turn < 0.8:
        assert monitor.delete(id) == (queries.pop(id, None) is not None)
    elif turn < 0.9:
        many = {f"q{dice.randint(0, 30)}": dice.choice(WORDS) for _ in range(4)}
        monitor.register_many(many.items())
        queries.update(many)
    elif turn < 0.95:
        monitor.purge()
    else:
        monitor.clear()
        queries.clear()


def a_snapshot_is_what_stood_at_its_moment() -> None:
    """Many of them, each compared with a dictionary of that moment after all changes."""
    from pressclip import Monitor

    for seed in range(30):
        dice, queries = Random(f"snapshots {seed}"), dict[str, str]()
        with Monitor() as monitor:
            kept = []
            for _ in range(60):
                changed(dice, monitor, queries)
                if dice.random() < 0.3:
                    kept.append((monitor.snapshot(), dict(queries)))
            checks: list[tuple[Any, dict[str, str]]] = [*kept, (monitor, queries)]
            for view, due in checks:
                assert len(view) == len(due) and list(view) == sorted(due, key=str.encode), seed
                assert all(view.get(f"q{number}") == due.get(f"q{number}") for number in range(31)), seed
                text = " ".join(dice.choices(WORDS, k=6))
                assert ids_of(view.match(article(text))) == plain_filter(due, text), seed


class Growing:
    """A monitor in which one thread registers `q0`, `q1`, .. in order, the even ones for tea and the odd for milk."""

    def __init__(self, monitor: Any) -> None:
        self.monitor, self.start = monitor, threading.Barrier(THREADS + 1)
        self.begun = self.ended = 0
        self.wrong: list[object] = []
        self.matches = 0

    def grow(self) -> None:
        """Registers them."""
        self.start.wait()
        for number in range(CHANGES):
            self.begun = number + 1
            self.monitor.register(f"q{number:05}", "milk" if number % 2 else "tea")
            self.ended = number + 1

    def match(self, by_snapshot: bool) -> None:
        """Matches until all are there: each result is that of a moment between the call and its end."""
        self.start.wait()
        while self.ended < CHANGES and not self.wrong:
            low = self.ended
            if by_snapshot:
                with self.monitor.snapshot() as view:
                    found = [ids_of(view.match(article(text))) for text in ("tea milk", "milk")]
                    due = [[id for id in view], [id for id in view if int(id[1:]) % 2]]
                    count = len(view)
                    if found != due:
                        self.wrong.append((found, due))
            else:
                both = ids_of(self.monitor.match(article("Tea and milk")))
                count = len(both)
                if both != [f"q{number:05}" for number in range(count)]:
                    self.wrong.append(both)
            if not low <= count <= self.begun:
                self.wrong.append((low, count, self.begun))
            self.matches += 1


def together(work: list[Callable[[], None]]) -> None:
    """Does all of it, each on a thread."""
    threads = [threading.Thread(target=each) for each in work]
    for thread in threads:
        thread.start()
    for thread in threads:
        thread.join()


def eight_threads_match_while_one_registers() -> None:
    """On the monitor, and on snapshots."""
    from pressclip import Monitor

    with Monitor() as monitor:
        growing = Growing(monitor)
        together([growing.grow, *(lambda even=number % 2 == 0: growing.match(even) for number in range(THREADS))])
        assert not growing.wrong, growing.wrong[0]
        assert growing.matches >= THREADS and len(monitor) == CHANGES, growing.matches


def a_close_in_the_middle_of_calls_ends_none() -> None:
    """Threads that match go on until the next call, which is refused; a second `__init__` too."""
    from pressclip import Closed, Monitor

    for turn in range(20):
        monitor, wrong = Monitor(True), list[object]()
        monitor.register("q", "tea")

        def match() -> None:
            try:
                while True:
                    found = monitor.match(article("tea " * 50))
                    if found and len(found[0].hits) != 50:
                        wrong.append(found)
            except Closed:
                pass

        def end() -> None:
            if turn % 2:
                monitor.__init__(True)  # type: ignore[misc]
            monitor.close()

        together([match] * THREADS + [end])
        assert not wrong, wrong[0]


def a_snapshot_is_shared_by_threads() -> None:
    """Its calls are done one after another."""
    from pressclip import Monitor

    with Monitor(True) as monitor:
        monitor.register_many([("a", "tea"), ("b", "milk")])
        view, wrong = monitor.snapshot(), list[object]()

        def work() -> None:
            for _ in range(300):
                got = view.match(article("tea")), view.get("b"), list(view)
                if (ids_of(got[0]), *got[1:]) != (["a"], "milk", ["a", "b"]):
                    wrong.append(got)

        together([work] * THREADS)
        assert not wrong, wrong[0]


def no_memory_is_a_memory_error() -> None:
    """Of each call that the library refuses so, and the monitor goes on."""
    from pressclip import Monitor, NoMemory, explain

    class Empty:
        """The library, whose calls find no memory."""

        def __init__(self, library: Any) -> None:
            self.library = library

        def __getattr__(self, name: str) -> Any:
            """A call."""
            gives_nothing = name.endswith(("free", "close", "word"))
            return getattr(self.library, name) if gives_nothing else lambda *arguments: 5

    with Monitor() as monitor:
        monitor.register("q", "tea")
        with library_as(Empty):
            calls: list[Callable[[], object]] = [
                Monitor, lambda: monitor.register("a", "tea"), lambda: monitor.register_many([("a", "tea")]),
                lambda: monitor.match(article("tea")), lambda: monitor.match_many([article("tea")]),
                monitor.snapshot, monitor.count, monitor.clear, lambda: monitor.get("q"), lambda: explain("tea")]
            for call in calls:
                assert raised(NoMemory, call).word == "memory" and issubclass(NoMemory, MemoryError)
        assert ids_of(monitor.match(article("tea"))) == ["q"] and list(monitor) == ["q"]


def words_are_marked() -> None:
    """In the fields that have hits, whatever stands around them."""
    from pressclip import Monitor, highlight

    given = {"id": "a", "fields": {"title": "Tea, TEA!", "text": "🍵 thé [tea] tea", "author": "nobody"}}
    with Monitor(True) as monitor:
        monitor.register_many([("both", "tea title:tea"), ("none", "*:*")])
        both, none = monitor.match(given)
    assert highlight(given, both, "<b>", "</b>") == {
        "text": "🍵 thé [<b>tea</b>] <b>tea</b>", "title": "<b>Tea</b>, <b>TEA</b>!"}
    assert highlight(given, none, "<b>", "</b>") == {}
    assert highlight(given, both, "", "")["text"] == "🍵 thé [tea] tea"


def refusal_of(call: Callable[[], dict[str, Any]]) -> dict[str, Any]:
    """What a call gives, or by which word and at which place it is refused."""
    from pressclip import Refused

    try:
        return call()
    except Refused as error:
        return {"refused": error.word, "which": error.which}


def called(monitor: Any, request: dict[str, Any]) -> dict[str, Any]:
    """What the calls of the package give to a request of the protocol, as the program words it."""
    if request["op"] == "register":
        queries = request["queries"]
        monitor.register_many([(one["id"], one["query"], one.get("listener")) for one in queries])
        return {"registered": len({one["id"] for one in queries})}
    if request["op"] == "delete":
        return {"deleted": sum(monitor.delete(id) for id in dict.fromkeys(request["ids"]))}
    if request["op"] == "clear":
        count = len(monitor)
        monitor.clear()
        return {"cleared": count}
    if request["op"] == "purge":
        monitor.purge()
        return {"purged": True}
    if request["op"] == "show":
        return {"query": monitor.get(request["id"])}
    if request["op"] == "count":
        return {"count": len(monitor)}
    return {"alerts": [{"article": each["id"], "queries": ids_of(found),
                        "hits": [[{"field": hit.field, "position": hit.position} for hit in one.hits] for one in found]}
                       for each, found in zip(request["articles"], monitor.match_many(request["articles"]))]}


def requests_of(seed: int) -> list[dict[str, Any]]:
    """Random requests that calls can be made of: those that the program reads."""
    source = Source(seed, 12)
    found = []
    for line in source.lines(3 + seed % 12):
        try:
            request = json.loads(line)
        except ValueError:
            continue
        if isinstance(request, dict) and is_plain(request) and is_small(request):
            found.append(request)
    return found


def is_small(request: dict[str, Any]) -> bool:
    """Whether a request lists so little that no line is refused for it, and deletes ids that each can be deleted."""
    lists = [value for value in request.values() if isinstance(value, list)]
    return all(len(one) <= 256 for one in lists) and all(0 < len(id.encode()) <= 256 for id in request.get("ids", []))


def is_plain(request: dict[str, Any]) -> bool:
    """Whether calls can be made of a request: it has the members of its operation, and they are lists and texts."""
    members: dict[Any, dict[str, Any]] = {
        "register": {"queries": [{"id": "", "query": ""}]}, "delete": {"ids": [""]}, "clear": {}, "purge": {},
        "count": {}, "show": {"id": ""}, "match": {"articles": [{"id": "", "fields": {}}]}}
    own, op = {name: value for name, value in request.items() if name != "op"}, request.get("op")
    if not isinstance(op, str) or op not in members:
        return False
    return is_like(own, members[op]) if members[op] else not own


def is_like(value: Any, sample: Any) -> bool:
    """Whether a value is made as a sample is: a list of what its first item is like, a text in Unicode, or an object.

    A query may have a listener too, and an empty object is one of texts.
    """
    if isinstance(sample, list):
        return isinstance(value, list) and all(is_like(one, sample[0]) for one in value)
    if isinstance(sample, str):
        return isinstance(value, str) and not any("\ud800" <= character <= "\udfff" for character in value)
    if not isinstance(value, dict):
        return False
    if not sample:
        return all(is_like(name, "") and is_like(text, "") for name, text in value.items())
    return sample.keys() == value.keys() - {"listener"} and all(
        is_like(one, sample.get(name, "")) for name, one in value.items())


def calls_give_what_the_program_replies() -> None:
    """A thousand random inputs, call by call: counts, queries, ids, hits and refusals with their places."""
    from pressclip import Monitor

    inputs = [requests_of(seed) for seed in range(INPUTS)]
    lines = [json.dumps(request) for requests in inputs for request in [*requests, {"op": "clear"}]]
    told = subprocess.run([os.environ.get("PRESSCLIP", TOP / "crates" / "pressclip" / "out" / "pressclip"), "run",
                           "hits"], input="\n".join(lines).encode() + b"\n", stdout=subprocess.PIPE, check=True)
    replies = iter(told.stdout.splitlines())
    compared = 0
    for seed, requests in enumerate(inputs):
        with Monitor(True) as monitor:
            for request in requests:
                reply = json.loads(next(replies))
                due = {name: value for name, value in reply.items() if name not in ("line", "notes")}
                got = refusal_of(lambda: called(monitor, request))
                if "refused" in got and "which" not in due:
                    del got["which"]
                assert got == due, (seed, request, got, due)
                compared += 1
        next(replies)
    assert compared > 4 * INPUTS and next(replies, None) is None, compared


def a_child_of_a_fork_has_monitors_of_its_own() -> None:
    """And the parent's goes on."""
    assert run_python(FORKED) == (0, "0 1\n", "")


def an_interpreter_ends_whatever_is_open() -> None:
    """Also while threads are in calls."""
    assert run_python(LEFT_OPEN) == (0, "q0\n", "")


def copy_package(source: Path) -> None:
    """Copies the package, with the licence and the version that a source archive has."""
    shutil.copytree(PACKAGE, source, ignore=shutil.ignore_patterns("__pycache__", "build", "*.egg-info"))
    for name in ("LICENSE", "VERSION"):
        shutil.copyfile(TOP / name, source / name)


def built(folder: str, *words: str, **variables: str) -> Path:
    """The file that pip or the build backend makes of a copy of the package, and in which folder."""
    source, into = Path(folder, "source"), Path(folder, "made")
    shutil.rmtree(source, ignore_errors=True)
    copy_package(source)
    shutil.rmtree(into, ignore_errors=True)
    into.mkdir()
    environment = {name: value for name, value in os.environ.items() if name != "PRESSCLIP_LIBRARY"}
    subprocess.run([*words, into], cwd=source, env={**environment, **variables}, check=True, stdout=subprocess.DEVNULL,
                   stderr=subprocess.DEVNULL)
    (made,) = into.iterdir()
    return made


WHEEL = ["/usr/bin/python3", "-m", "pip", "wheel", "-q", "--no-deps", "--no-index", "--no-build-isolation", ".", "-w"]
ARCHIVE = ["/usr/bin/python3", "-c", "import sys, setuptools.build_meta as it; it.build_sdist(sys.argv[1])"]


def a_wheel_has_types_page_licence_and_what_library_is_asked_for() -> None:
    """One that is asked for makes it a wheel for this machine, and none one for all."""
    version = (TOP / "VERSION").read_text().strip()
    library = os.environ.get("PRESSCLIP_LIBRARY", str(TOP / "bindings" / "c" / "libpressclip.so"))
    with tempfile.TemporaryDirectory() as folder:
        for named, is_in in ((library, True), ("", False)):
            wheel = built(folder, *WHEEL, PRESSCLIP_LIBRARY=named)
            assert wheel.name.startswith(f"pressclip-{version}-py3-none-") and wheel.name.endswith("any.whl") != is_in
            with zipfile.ZipFile(wheel) as files:
                names, told = files.namelist(), files.read(f"pressclip-{version}.dist-info/METADATA").decode()
                assert ("pressclip/libpressclip.so" in names) == is_in and "pressclip/py.typed" in names, names
                assert not is_in or files.read("pressclip/libpressclip.so") == Path(library).read_bytes()
                assert f"pressclip-{version}.dist-info/LICENSE" in names, names
            for line in (f"Version: {version}", "License: Apache-2.0", "Requires-Python: >=3.9",
                         "Summary: Standing queries over articles", "# pressclip for Python"):
                assert line in told, line


def a_source_archive_makes_the_package() -> None:
    """From its files alone, where another folder has the library."""
    library = os.environ.get("PRESSCLIP_LIBRARY", str(TOP / "bindings" / "c" / "libpressclip.so"))
    with tempfile.TemporaryDirectory() as folder:
        archive = built(folder, *ARCHIVE)
        assert archive.name == f"pressclip-{(TOP / 'VERSION').read_text().strip()}.tar.gz"
        with tarfile.open(archive) as files:
            assert not any(name.endswith(".so") for name in files.getnames())
        into = Path(folder, "installed")
        subprocess.run(["/usr/bin/python3", "-m", "pip", "install", "-q", "--no-index", "--no-build-isolation",
                        "--no-deps", "--target", into, archive], check=True, stderr=subprocess.DEVNULL,
                       env={**os.environ, "PRESSCLIP_LIBRARY": library})
        told = subprocess.run(["/usr/bin/python3", "-c", "import pressclip; print(len(pressclip.Monitor()))"],
                              env={"PYTHONPATH": str(into)}, cwd="/", stdout=subprocess.PIPE, check=True)
        assert told.stdout == b"0\n"


def an_editable_install_uses_the_checkout() -> None:
    """Its modules are those of the folder, and no library is copied."""
    with tempfile.TemporaryDirectory() as folder:
        source, into = Path(folder, "source"), Path(folder, "environment")
        copy_package(source)
        subprocess.run(["/usr/bin/python3", "-m", "venv", "--without-pip", "--system-site-packages", into], check=True)
        subprocess.run([into / "bin" / "python3", "-m", "pip", "install", "-q", "--no-index", "--no-build-isolation",
                        "-e", source], check=True, stdout=subprocess.DEVNULL, stderr=subprocess.DEVNULL,
                       env={**os.environ, "PRESSCLIP_LIBRARY": ""})
        library = os.environ.get("PRESSCLIP_LIBRARY", str(TOP / "bindings" / "c" / "libpressclip.so"))
        told = subprocess.run([into / "bin" / "python3", "-c", "import pressclip; print(pressclip.__file__)"], cwd="/",
                              env={"PRESSCLIP_LIBRARY": library}, stdout=subprocess.PIPE, check=True, text=True)
        assert told.stdout == f"{source}/pressclip/__init__.py\n", told.stdout
        assert not list(source.rglob("*.so"))


TESTS: tuple[Callable[[], None], ...] = (
    the_version_is_that_of_the_repository, examples_of_the_package_run, the_package_is_clean_by_mypy,
    an_argument_of_another_type_is_a_type_error, after_a_close_each_call_is_refused, many_are_registered_or_none,
    many_are_matched_or_none, ids_come_in_byte_order_whatever_changes, a_snapshot_is_what_stood_at_its_moment,
    eight_threads_match_while_one_registers, a_close_in_the_middle_of_calls_ends_none, a_snapshot_is_shared_by_threads,
    no_memory_is_a_memory_error, words_are_marked, calls_give_what_the_program_replies,
    a_child_of_a_fork_has_monitors_of_its_own, an_interpreter_ends_whatever_is_open,
    a_wheel_has_types_page_licence_and_what_library_is_asked_for, a_source_archive_makes_the_package,
    an_editable_install_uses_the_checkout)
# The tests that want a tool, which not every machine has, and Debian's package of it.
WANTS: dict[Callable[[], None], tuple[str, str]] = {the_package_is_clean_by_mypy: ("mypy", "mypy")}
