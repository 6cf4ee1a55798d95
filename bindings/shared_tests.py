"""Tests of snapshots, of many in one call, and of one registry for many threads, against a plain filter."""

from __future__ import annotations

import ctypes
import os
import subprocess
import sys
import tempfile
from ctypes import POINTER, Structure, byref, c_bool, c_char_p, c_int, c_size_t, c_uint64, c_void_p
from pathlib import Path
from random import Random
from typing import Callable, Dict, Iterable, Optional, Sequence, Tuple

TOP = Path(__file__).resolve().parent.parent
C = TOP / "bindings" / "c"
WORDS = [f"w{number}" for number in range(12)]
# Queries by id.
Registered = Dict[str, str]
# A query to register: its id, its text and its listener.
Listed = Tuple[Optional[bytes], Optional[bytes], Optional[bytes]]
NULL, CLOSED, SIZE = "null", "closed", "size"
STRICT = ["gcc", "-std=c11", "-Wall", "-Wextra", "-Wpedantic", "-Werror", "-g", f"-I{TOP}/include", f"-I{C}"]
EDGE = [C / name for name in ("edge.c", "result.c", "gather.c", "view.c", "shared.c")]


class Field(Structure):
    """pressclip_field."""

    _fields_ = [("name", c_char_p), ("name_length", c_size_t), ("text", c_char_p), ("text_length", c_size_t)]


class Listing(Structure):
    """pressclip_listing."""

    _fields_ = [("id", c_char_p), ("id_length", c_size_t), ("query", c_char_p), ("query_length", c_size_t),
                ("listener", c_char_p), ("listener_length", c_size_t)]


class Article(Structure):
    """pressclip_article."""

    _fields_ = [("id", c_char_p), ("id_length", c_size_t), ("fields", POINTER(Field)), ("count", c_size_t)]


LIBRARY = ctypes.CDLL(str(C / "libpressclip.so"))
TEXT = [c_char_p, c_size_t]
SHOWN = [POINTER(c_void_p), POINTER(c_size_t)]
ARTICLE = [*TEXT, POINTER(Field), c_size_t, POINTER(c_void_p)]
MANY = [POINTER(Article), c_size_t, POINTER(c_void_p), POINTER(c_size_t)]
TAKES: dict[str, list[object]] = {
    "open": [c_bool, POINTER(c_void_p)], "close": [POINTER(c_void_p)], "free": [c_void_p],
    "register": [c_void_p, *TEXT, *TEXT, *TEXT], "delete": [c_void_p, *TEXT, POINTER(c_uint64)],
    "register_many": [c_void_p, POINTER(Listing), c_size_t, POINTER(c_size_t)],
    "clear": [c_void_p], "purge": [c_void_p], "count": [c_void_p, POINTER(c_uint64)],
    "show": [c_void_p, *TEXT, *SHOWN], "line": [c_void_p, *TEXT, *SHOWN],
    "match": [c_void_p, *ARTICLE], "match_many": [c_void_p, *MANY], "snapshot": [c_void_p, POINTER(c_void_p)],
}
for _call, _takes in TAKES.items():
    getattr(LIBRARY, f"pressclip_{_call}").argtypes = _takes
    if _call != "free":
        getattr(LIBRARY, f"pressclip_shared_{_call}").argtypes = _takes
    if _call in ("match", "match_many", "count", "show"):
        getattr(LIBRARY, f"pressclip_snapshot_{_call}").argtypes = _takes
for _nothing in ("close", "free", "shared_close", "snapshot_free", "result_free"):
    getattr(LIBRARY, f"pressclip_{_nothing}").restype = None
LIBRARY.pressclip_snapshot_free.argtypes = [POINTER(c_void_p)]
LIBRARY.pressclip_snapshot_ids.argtypes = [c_void_p, *TEXT, c_size_t, POINTER(c_void_p)]
LIBRARY.pressclip_result_free.argtypes = [c_void_p]
LIBRARY.pressclip_next_id.argtypes = [c_void_p, POINTER(c_void_p), POINTER(c_size_t)]
LIBRARY.pressclip_next_id.restype = c_bool
LIBRARY.pressclip_word.restype = LIBRARY.pressclip_version.restype = c_char_p
for _number in ("result_asked", "result_nanoseconds", "result_count"):
    getattr(LIBRARY, f"pressclip_{_number}").argtypes = [c_void_p]
    getattr(LIBRARY, f"pressclip_{_number}").restype = c_uint64


def word(status: int) -> str:
    """The word for a status."""
    return str(LIBRARY.pressclip_word(c_int(status)), "ascii")


def well(status: int) -> None:
    """The call went well."""
    assert status == 0, word(status)


# ---- the plain filter


def holds(query: str, text: str) -> bool:
    """Whether a query of words, each with +, - or no sign, holds of a text, by its words alone."""
    words = set(text.split())
    clauses = query.split()
    must = [clause[1:] for clause in clauses if clause[0] == "+"]
    may = [clause for clause in clauses if clause[0] not in "+-"]
    if any(clause[1:] in words for clause in clauses if clause[0] == "-"):
        return False
    return all(one in words for one in must) if must else any(one in words for one in may)


def due(registered: Registered, text: str) -> list[str]:
    """The ids of the queries that hold, in their byte order."""
    return sorted((id for id, query in registered.items() if holds(query, text)), key=str.encode)


def query_of(dice: Random) -> str:
    """A query of one to three words."""
    return " ".join(dice.choice(["", "", "+", "-"]) + one for one in dice.sample(WORDS, dice.randint(1, 3)))


def usable(dice: Random) -> str:
    """A query that has a word without a minus, as each query must."""
    while True:
        query = query_of(dice)
        if any(clause[0] != "-" for clause in query.split()):
            return query


def text_of(dice: Random) -> str:
    """An article's text."""
    return " ".join(dice.choices(WORDS, k=dice.randint(0, 8)))


# ---- the calls


def ids_in(result: c_void_p) -> list[str]:
    """The ids of a result, which ends."""
    id, length = c_void_p(), c_size_t()
    found = []
    while LIBRARY.pressclip_next_id(result, byref(id), byref(length)):
        found.append(ctypes.string_at(id, length.value).decode())
    LIBRARY.pressclip_result_free(result)
    return found


def fields_of(text: str) -> tuple[ctypes.Array[Field], int]:
    """One field with this text."""
    bytes_ = text.encode()
    return (Field * 1)(Field(b"text", 4, bytes_, len(bytes_))), 1


class Handle:
    """An engine, a snapshot or a shared registry, by the calls with its name's beginning."""

    def __init__(self, prefix: str, at: c_void_p) -> None:
        self.prefix, self.at = prefix, at

    def call(self, name: str, *arguments: object) -> int:
        """The status of a call."""
        return int(getattr(LIBRARY, f"pressclip_{self.prefix}{name}")(self.at, *arguments))

    def register(self, id: str, query: str) -> None:
        """Registers a query."""
        well(self.call("register", id.encode(), len(id.encode()), query.encode(), len(query), None, 0))

    def delete(self, id: str) -> int:
        """Takes a query out, and gives how many there were."""
        deleted = c_uint64()
        well(self.call("delete", id.encode(), len(id.encode()), byref(deleted)))
        return deleted.value

    def count(self) -> int:
        """How many are registered."""
        count = c_uint64()
        well(self.call("count", byref(count)))
        return count.value

    def show(self, id: str) -> str | None:
        """The text of a query."""
        text, length = c_void_p(), c_size_t()
        well(self.call("show", id.encode(), len(id.encode()), byref(text), byref(length)))
        if not text:
            return None
        shown = ctypes.string_at(text, length.value).decode()
        LIBRARY.pressclip_free(text)
        return shown

    def match(self, text: str) -> list[str]:
        """The ids of the queries that hold."""
        result = c_void_p()
        well(self.call("match", b"a", 1, *fields_of(text), byref(result)))
        return ids_in(result)

    def snapshot(self) -> Handle:
        """A snapshot."""
        view = c_void_p()
        well(self.call("snapshot", byref(view)))
        return Handle("snapshot_", view)

    def ids(self, after: bytes | None = None, most: int = 2 ** 40) -> list[str]:
        """Ids after a text."""
        ids = c_void_p()
        well(self.call("ids", after, len(after or b""), most, byref(ids)))
        return ids_in(ids)

    def end(self) -> None:
        """Ends it."""
        getattr(LIBRARY, f"pressclip_{self.prefix}{'free' if self.prefix == 'snapshot_' else 'close'}")(byref(self.at))


def opened(prefix: str, hits: bool = False) -> Handle:
    """An engine, or a shared registry."""
    at = c_void_p()
    well(getattr(LIBRARY, f"pressclip_{prefix}open")(hits, byref(at)))
    return Handle(prefix, at)


def listings_of(listed: Sequence[Listed]) -> ctypes.Array[Listing]:
    """Queries as C sees them."""
    return (Listing * max(1, len(listed)))(*[
        Listing(id, len(id or b""), query, len(query or b""), listener, len(listener or b""))
        for id, query, listener in listed])


def registered_many(handle: Handle, listed: Sequence[Listed]) -> tuple[str, int]:
    """What registering queries together comes to, and the place of the one that is refused."""
    which = c_size_t(77)
    return word(handle.call("register_many", listings_of(listed), len(listed), byref(which))), which.value


# ---- tests


def a_snapshot_shows_no_later_change() -> None:
    """Of an engine and of a shared registry: snapshots between random changes, each matched after all of them."""
    for seed in range(30):
        dice = Random(seed)
        handle = opened("shared_" if seed % 2 else "", seed % 3 == 0)
        registered: Registered = {}
        taken: list[tuple[Handle, Registered]] = []
        for _ in range(60):
            change(handle, registered, dice)
            if dice.random() < 0.2:
                taken.append((handle.snapshot(), dict(registered)))
        if seed % 4 == 0:
            handle.end()
        for view, then in taken:
            for text in [text_of(dice) for _ in range(5)]:
                assert view.match(text) == due(then, text), (seed, text)
            assert view.count() == len(then) and view.ids() == sorted(then, key=str.encode), seed
            for id in [*then, "q99"]:
                assert view.show(id) == then.get(id), (seed, id)
            view.end()
        if seed % 4 != 0:
            assert handle.count() == len(registered)
            handle.end()


def change(handle: Handle, registered: Registered, dice: Random) -> None:
    """Makes a random change, in the library and in the filter."""
    id, kind = f"q{dice.randint(0, 19)}", dice.random()
    if kind < 0.6:
        registered[id] = usable(dice)
        handle.register(id, registered[id])
    elif kind < 0.9:
        assert handle.delete(id) == (registered.pop(id, None) is not None)
    elif kind < 0.95:
        well(handle.call("purge"))
    else:
        well(handle.call("clear"))
        registered.clear()


def ids_come_in_their_byte_order() -> None:
    """A thousand random ids, all at once and page by page, from texts that are ids and texts that are none."""
    dice = Random(57)
    letters = ["a", "b", "\0", "é", "\U0001f375", "\x7f", "ab", "~"]
    ids = {"".join(dice.choices(letters, k=dice.randint(1, 6))) for _ in range(3000)}
    kept = sorted(ids, key=str.encode)[:1000]
    assert len(kept) == 1000
    engine = opened("")
    for id in dice.sample(kept, len(kept)):
        engine.register(id, "tea")
    for id in dice.sample(kept, 100):
        engine.register(id, "milk")
    view = engine.snapshot()
    for id in dice.sample(kept, 100):
        engine.delete(id)
    assert view.ids() == kept
    paged: list[str] = []
    while page := view.ids(paged[-1].encode() if paged else None, 7):
        paged += page
    assert paged == kept
    for text in [b"", b"a", b"\xff", b"\0", *[dice.choice(kept).encode()[:-1] for _ in range(50)]]:
        assert view.ids(text, 3) == [id for id in kept if id.encode() > text][:3], text
    assert view.ids(None, 0) == [] and view.ids(kept[-1].encode()) == []
    view.end()
    engine.end()


def many_are_registered_all_or_none() -> None:
    """Each refusal with its place and nothing changed, and a list that is taken."""
    good = [(f"q{number}".encode(), b"tea", [None, b"mail", b"feed"][number % 3]) for number in range(6)]
    cases: list[tuple[int, Listed, str]] = [
        (0, (b"", b"tea", None), "limit"), (3, (b"q" * 257, b"tea", None), "limit"),
        (5, (b"x", b"the (tea", None), "query"), (1, (b"x", b"", None), "query"),
        (2, (b"x", b"tea", b"post"), "listener"), (4, (b"\xff", b"tea", None), "utf8"),
        (4, (b"x", b"\xff", None), "utf8"), (0, (b"x", b"tea", b"\xff"), "utf8"), (3, (None, b"tea", None), NULL),
        (3, (b"x", None, None), NULL)]
    for prefix in ("", "shared_"):
        handle = opened(prefix)
        handle.register("old", "tea")
        for place, bad, status in cases:
            listed = [*good[:place], bad, *good[place:]]
            assert registered_many(handle, listed) == (status, place), (bad, status)
            assert handle.count() == 1 and handle.match("tea") == ["old"], bad
        two = [good[0], (b"x", b"(", None), (b"", b"tea", None)]
        assert registered_many(handle, two) == ("query", 1)
        assert registered_many(handle, good) == ("ok", 77) and handle.count() == 7
        assert registered_many(handle, [(b"q0", b"milk", None), (b"q0", b"rice", None)]) == ("ok", 77)
        assert handle.show("q0") == "rice" and handle.count() == 7
        assert registered_many(handle, []) == ("ok", 77)
        most = [(f"m{number}".encode(), b"rain", None) for number in range(1025)]
        assert registered_many(handle, most) == ("limit", 1024) and handle.count() == 7
        assert registered_many(handle, most[:1024]) == ("ok", 77) and handle.count() == 1031
        assert len(handle.match("rain")) == 1024
        handle.end()


def many_are_matched_all_or_none() -> None:
    """Each article gets its own result; where one is refused there is none, and its place is told."""
    dice = Random(5)
    for prefix in ("", "shared_"):
        handle, registered = opened(prefix), {f"q{number}": usable(dice) for number in range(40)}
        for id, query in registered.items():
            handle.register(id, query)
        texts = [text_of(dice) for _ in range(50)]
        assert matched_many(handle, texts, []) == [due(registered, text) for text in texts]
        assert matched_many(handle, [], []) == []
        for bad, status in ((3, "limit"), (0, "limit"), (49, "limit")):
            assert matched_many(handle, texts, [bad]) == (status, bad)
        handle.end()


def matched_many(handle: Handle, texts: Sequence[str], without_id: Sequence[int]) -> list[list[str]] | tuple[str, int]:
    """The ids of each article's result, or the refusal and its place."""
    kept = [fields_of(text) for text in texts]
    articles = (Article * max(1, len(texts)))(*[
        Article(b"" if number in without_id else b"a", 0 if number in without_id else 1, fields, count)
        for number, (fields, count) in enumerate(kept)])
    results, which = (c_void_p * max(1, len(texts)))(), c_size_t(77)
    status = handle.call("match_many", articles, len(texts), results, byref(which))
    if status != 0:
        assert not any(results), "a result was left"
        return word(status), which.value
    return [ids_in(c_void_p(result)) for result in results[:len(texts)]]


def a_match_tells_what_it_cost() -> None:
    """It asks at least those that hold and at most those that are registered, and takes some time."""
    dice = Random(9)
    engine, registered = opened(""), {f"q{number}": usable(dice) for number in range(60)}
    for id, query in registered.items():
        engine.register(id, query)
    for text in [text_of(dice) for _ in range(40)] + ["rain"]:
        result = c_void_p()
        well(engine.call("match", b"a", 1, *fields_of(text), byref(result)))
        asked, spent = LIBRARY.pressclip_result_asked(result), LIBRARY.pressclip_result_nanoseconds(result)
        found = ids_in(result)
        words = set(text.split())
        near = [id for id, query in registered.items() if words & {clause.lstrip("+") for clause in query.split()}]
        assert len(found) <= asked <= len(near) and 0 < spent < 10 ** 10, (text, found, asked, spent)
    assert LIBRARY.pressclip_result_asked(None) == LIBRARY.pressclip_result_nanoseconds(None) == 0
    engine.end()


def queries_are_shown_as_they_were_handed_in() -> None:
    """The text of each id, and none for another; ids that are none are refused."""
    texts = {"q": "+tea -milk", "é": "\"green tea\"", "a\0b": "tea*"}
    for prefix in ("", "shared_"):
        handle = opened(prefix)
        for id, query in texts.items():
            handle.register(id, query)
        assert {id: handle.show(id) for id in texts} == texts and handle.show("other") is None
        text, length = c_void_p(), c_size_t()
        refused: tuple[tuple[bytes | None, str], ...] = ((b"", "limit"), (b"q" * 257, "limit"), (b"\xff", "utf8"),
                                                          (None, NULL))
        for bad, status in refused:
            assert word(handle.call("show", bad, len(bad or b""), byref(text), byref(length))) == status, bad
        assert word(handle.call("show", b"q", 2 ** 63, byref(text), byref(length))) == SIZE and not text
        handle.end()


def hostile_arguments_are_refused() -> None:
    """Null pointers, closed handles and lengths that can't be."""
    out, size, number = c_void_p(), c_size_t(), c_uint64()
    fields, count = fields_of("tea")
    closed = {"": ("register_many", "clear", "purge", "show", "match_many", "snapshot"),
              "shared_": tuple(name for name in TAKES if name not in ("open", "close", "free")),
              "snapshot_": ("match", "match_many", "count", "show", "ids")}
    for prefix, names in closed.items():
        for name in names:
            takes = getattr(LIBRARY, f"pressclip_{prefix}{name}").argtypes
            nothing = [0 if it in (c_size_t, c_bool) else None for it in takes]
            assert word(getattr(LIBRARY, f"pressclip_{prefix}{name}")(*nothing)) == CLOSED, (prefix, name)
    assert word(LIBRARY.pressclip_shared_open(False, None)) == NULL
    for handle in (opened(""), opened("shared_")):
        view = handle.snapshot()
        assert word(handle.call("register_many", None, 1, byref(size))) == NULL
        assert word(handle.call("register_many", listings_of([]), 0, None)) == NULL
        assert word(handle.call("register_many", listings_of([]), 2 ** 40, byref(size))) == SIZE
        assert word(handle.call("match_many", None, 1, None, byref(size))) == NULL
        assert word(handle.call("match_many", None, 0, None, None)) == NULL
        assert word(handle.call("show", b"q", 1, None, byref(size))) == NULL
        assert word(handle.call("snapshot", None)) == NULL
        assert word(view.call("match", b"a", 1, fields, count, None)) == NULL
        assert word(view.call("match", None, 1, fields, count, byref(out))) == NULL
        assert word(view.call("match", b"a", 1, fields, 2 ** 40, byref(out))) == SIZE
        assert word(view.call("count", None)) == NULL and word(view.call("ids", None, 0, 5, None)) == NULL
        assert word(view.call("ids", b"a", 2 ** 63, 5, byref(out))) == SIZE
        assert handle.count() == 0 and view.count() == 0 and view.ids() == [] and not out
        view.end()
        view.end()
        handle.end()
        handle.end()
    for ended in ("close", "shared_close", "snapshot_free"):
        getattr(LIBRARY, f"pressclip_{ended}")(None)
    assert number.value == 0


def a_script(seed: int, changes: int) -> tuple[list[str], list[Registered], list[str]]:
    """Lines for bindings/c/threads.c, what is registered after each of its changes, and its articles' texts."""
    dice = Random(seed)
    texts = [text_of(dice) for _ in range(20)]
    lines = [f"article\t{text}" for text in texts]
    now: Registered = {}
    states = [now]
    for _ in range(changes):
        kind, ids = dice.random(), [f"q{number}" for number in dice.sample(range(60), 4)]
        if kind < 0.55:
            now = {**now, ids[0]: usable(dice)}
            lines.append(f"register\t{ids[0]}\t{now[ids[0]]}")
        elif kind < 0.75:
            listed = {id: usable(dice) for id in ids}
            now = {**now, **listed}
            lines.append("\t".join(["many", *[part for pair in listed.items() for part in pair]]))
        elif kind < 0.95:
            now = {id: query for id, query in now.items() if id != ids[0]}
            lines.append(f"delete\t{ids[0]}")
        else:
            lines.append(dice.choice(["purge", "purge", "clear"]))
            now = {} if lines[-1] == "clear" else now
        states.append(now)
    return lines, states, texts


def need_due(told: Iterable[str], states: Sequence[Registered], texts: Sequence[str]) -> int:
    """Each match found what is due after one of the changes that may have been the last. Gives how many there were."""
    count = 0
    known: dict[tuple[int, int], list[str]] = {}
    for line in told:
        before, after, article, *ids = line.split("\t")
        for place in range(int(before), min(int(after), len(states) - 1) + 1):
            key = place, int(article)
            if key not in known:
                known[key] = due(states[place], texts[key[1]])
            if known[key] == ids:
                break
        else:
            raise AssertionError(f"not due: {line}")
        count += 1
    return count


def built(folder: str, flags: Sequence[str], with_edge: bool) -> str:
    """bindings/c/threads.c, with the edge's files compiled by the same flags where this is asked for."""
    program = f"{folder}/threads"
    edge = EDGE if with_edge else []
    subprocess.run([*STRICT, *flags, C / "threads.c", *edge, C / "libpressclip.a", "-pthread", "-o", program],
                   check=True)
    return program


def run_threads(words: Sequence[str], seed: int, changes: int, matches: int, **variables: str) -> None:
    """Runs eight threads, and compares what they found with the plain filter."""
    lines, states, texts = a_script(seed, changes)
    run = subprocess.run([*words, str(matches)], input="".join(f"{line}\n" for line in lines), stdout=subprocess.PIPE,
                         stderr=subprocess.PIPE, text=True, env={**os.environ, **variables})
    assert run.returncode == 0 and run.stderr == "", (words, run.returncode, run.stderr[-2000:])
    assert need_due(run.stdout.splitlines(), states, texts) >= 7 * matches


def eight_threads_find_what_is_due() -> None:
    """On snapshots and on the shared registry, while one changes it."""
    with tempfile.TemporaryDirectory() as folder:
        program = built(folder, ["-O2"], False)
        for seed in range(6):
            run_threads([program], seed, 400, 200)


# ThreadSanitizer doesn't see that the crates count holders by atomic steps, since they are not compiled with it, and
# takes the last holder's free for a race. So it passes over what has a function of theirs: an export, or a path in it.
OF_THE_CRATES = "race:^clip_\nrace:::\n"


def eight_threads_under_sanitizers() -> None:
    """The edge compiled with AddressSanitizer and UndefinedBehaviorSanitizer, and with ThreadSanitizer."""
    for flags in (["-O1", "-fsanitize=address,undefined", "-fno-sanitize-recover=all"], ["-O1", "-fsanitize=thread"]):
        with tempfile.TemporaryDirectory() as folder:
            passed_over = Path(folder, "suppressions")
            passed_over.write_text(OF_THE_CRATES)
            run_threads([built(folder, flags, True)], 7, 150, 60,
                        TSAN_OPTIONS=f"suppressions={passed_over} print_suppressions=0")


def eight_threads_under_valgrind() -> None:
    """No leak and no bad access, also in the crates' code."""
    with tempfile.TemporaryDirectory() as folder:
        run_threads(["valgrind", "-q", "--leak-check=full", "--show-leak-kinds=all", "--error-exitcode=9",
                     built(folder, ["-O1"], False)], 3, 40, 12)


def the_version_has_one_home() -> None:
    """The file VERSION, and what the header and the library say."""
    home = (TOP / "VERSION").read_text().strip()
    header = (TOP / "include" / "pressclip.h").read_text()
    numbers = [line.split()[2] for line in header.splitlines() if line.startswith("#define PRESSCLIP_VERSION_")]
    assert str(LIBRARY.pressclip_version(), "ascii") == home == ".".join(numbers)
    assert f'#define PRESSCLIP_VERSION "{home}"\n' in header


TESTS: tuple[Callable[[], None], ...] = (
    a_snapshot_shows_no_later_change, ids_come_in_their_byte_order, many_are_registered_all_or_none,
    many_are_matched_all_or_none, a_match_tells_what_it_cost, queries_are_shown_as_they_were_handed_in,
    hostile_arguments_are_refused, eight_threads_find_what_is_due, eight_threads_under_sanitizers,
    eight_threads_under_valgrind, the_version_has_one_home)


if __name__ == "__main__":
    for _test in TESTS:
        if all(_word in _test.__name__ for _word in sys.argv[1:]):
            _test()
            print(f"passed {_test.__name__}", flush=True)
