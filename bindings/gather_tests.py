"""Tests of what parts of a registry found, put together: against one engine with all the queries, and by hand."""

from __future__ import annotations

import subprocess
import tempfile
from contextlib import ExitStack
from ctypes import POINTER, byref, c_size_t, c_uint64, c_void_p
from pathlib import Path
from random import Random
from typing import Any, Callable, Sequence

import engines
from result_tests import article, at_once, listed, one_by_one, result_of

TOP = Path(__file__).resolve().parent.parent
C = TOP / "bindings" / "c"
SEEDS = 60
ORDER = 12
# Gathers while the nth malloc is refused, for each n until all is well. Returns the number of the step that goes wrong.
REFUSED = '''
#include "pressclip.h"

#include <stdlib.h>
#include <string.h>

void *__real_malloc(size_t size);
void *__wrap_malloc(size_t size);

static long left = -1;

void *__wrap_malloc(size_t size) { return left >= 0 && left-- == 0 ? NULL : __real_malloc(size); }

int main(void) {
    pressclip *engine[2];
    pressclip_result *part[2], *whole = NULL;
    pressclip_field field = {"text", 4, "tea", 3};
    const char *ids[2] = {"b", "a"}, *id;
    size_t length;
    for (int place = 0; place < 2; place++) {
        if (pressclip_open(true, &engine[place]) != PRESSCLIP_OK) return 1;
        if (pressclip_register(engine[place], ids[place], 1, "tea", 3, NULL, 0) != PRESSCLIP_OK) return 2;
        if (pressclip_match(engine[place], "a", 1, &field, 1, &part[place]) != PRESSCLIP_OK) return 3;
        pressclip_close(&engine[place]);
    }
    const pressclip_result *const parts[2] = {part[0], part[1]};
    const size_t lengths[3] = {1, 1, 1}, counts[2] = {1, 2};
    uint64_t order[3] = {9, 9, 9};
    long refused = 0;
    for (;; refused++) {
        left = refused;
        int status = pressclip_gather(parts, 2, &whole);
        if (left >= 0 && status == PRESSCLIP_OK) break;
        if (status != PRESSCLIP_NO_MEMORY || whole != NULL) return 4;
    }
    for (long calls = 0;; calls++) {
        left = calls;
        int status = pressclip_gather_ids("bac", lengths, counts, 2, order);
        if (left >= 0 && status == PRESSCLIP_OK) break;
        if (status != PRESSCLIP_NO_MEMORY || order[0] != 9) return 5;
    }
    left = -1;
    if (refused < 4 || order[0] != 1 || order[1] != 0 || order[2] != 2) return 6;
    pressclip_result_free(part[0]);
    pressclip_result_free(part[1]);
    if (pressclip_result_count(whole) != 2 || pressclip_result_asked(whole) != 2) return 7;
    if (!pressclip_next_id(whole, &id, &length) || length != 1 || *id != 'a') return 8;
    if (!pressclip_next_id(whole, &id, &length) || length != 1 || *id != 'b') return 9;
    pressclip_result_free(whole);
    return 0;
}
'''


def library() -> Any:
    """The library, with the calls that only these tests make declared."""
    found = engines.library()
    for name, gives, arguments in (("gather", None, [POINTER(c_void_p), c_size_t, POINTER(c_void_p)]),
                                   ("result_asked", c_uint64, [c_void_p]),
                                   ("result_nanoseconds", c_uint64, [c_void_p])):
        call = getattr(found, f"pressclip_{name}")
        call.argtypes = arguments
        if gives is not None:
            call.restype = gives
    return found


def pointers(results: Sequence[c_void_p]) -> Any:
    """Results as C takes them: an array of one at least."""
    return (c_void_p * max(1, len(results)))(*[result.value for result in results])


def gathered(results: Sequence[c_void_p], use: Callable[[c_void_p], None]) -> None:
    """Gathers results, and frees the whole after its use."""
    calls, whole = library(), c_void_p()
    assert calls.pressclip_gather(pointers(results), len(results), byref(whole)) == 0
    try:
        use(whole)
    finally:
        calls.pressclip_result_free(whole)


def what_parts_find_is_what_the_whole_finds() -> None:
    """Of random queries, each in one of up to five engines: ids, hits and how many were asked. A part that was read in
    between is gathered whole, and reads on as if it had not been."""
    calls = library()
    for seed in range(SEEDS):
        dice, hits = Random(seed), seed % 4 != 0
        queries = dict(listed(seed)[1])
        parts = dice.randint(1, 5)
        with ExitStack() as stack:
            every = stack.enter_context(engines.opened(hits))
            some = [stack.enter_context(engines.opened(hits)) for _ in range(parts)]
            for id, query in queries.items():
                for engine in (every, dice.choice(some)):
                    engines.register(engine, id, query)
            fields = article(dice)
            due = stack.enter_context(result_of(every, fields))
            found = [stack.enter_context(result_of(engine, fields)) for engine in some]
            begun = one_by_one(found[0], 1)

            def is_due(whole: c_void_p) -> None:
                """The whole is what one engine with all queries finds."""
                assert at_once(whole) == one_by_one(whole) == at_once(due), seed
                assert calls.pressclip_result_asked(whole) == calls.pressclip_result_asked(due), seed
                taken = sum(calls.pressclip_result_nanoseconds(part) for part in found)
                assert calls.pressclip_result_nanoseconds(whole) == taken, seed

            gathered(found, is_due)
            assert begun + one_by_one(found[0]) == at_once(found[0]), seed


def nothing_is_gathered_of_nothing() -> None:
    """No parts, and one that found nothing."""
    calls = library()

    def is_empty(whole: c_void_p) -> None:
        assert at_once(whole) == [] and calls.pressclip_result_asked(whole) == 0

    gathered([], is_empty)
    whole = c_void_p()
    assert calls.pressclip_gather(None, 0, byref(whole)) == 0
    calls.pressclip_result_free(whole)
    with engines.opened() as engine, result_of(engine, {"text": "tea"}) as result:
        gathered([result, result], is_empty)


def order_of(parts: Sequence[Sequence[bytes]]) -> list[int] | int:
    """In which order the ids of parts stand, or the status."""
    ids = [id for part in parts for id in part]
    lengths, order = (c_size_t * len(ids))(*map(len, ids)), (c_uint64 * len(ids))()
    counts = (c_size_t * len(parts))(*map(len, parts))
    status: int = library().pressclip_gather_ids(b"".join(ids), lengths, counts, len(parts), order)
    return status if status != 0 else list(order)


def ids_are_put_in_order() -> None:
    """Worked out by hand: by bytes and not by letters, a front before what goes on, equal ids in the order of the
    parts, and bytes that are no text."""
    from pressclip import _calls

    rows: list[tuple[list[list[bytes]], list[int]]] = [
        ([], []), ([[]], []), ([[], [b"a"], []], [0]), ([[b"b"], [b"a"]], [1, 0]),
        ([[b"a", b"c"], [b"b", b"d"]], [0, 2, 1, 3]),
        ([[b"B", b"a", b"\xc3\xa9"], [b"", b"aa", b"z"], [b"\xff"]], [3, 0, 1, 4, 5, 2, 6]),
        ([[b"a", b"a"], [b"a"], [b"\0", b"a\0"]], [3, 0, 1, 2, 4])]
    for parts, due in rows:
        assert order_of(parts) == due, (parts, order_of(parts))
    fallen: list[list[list[bytes]]] = [[[b"b", b"a"]], [[b"a"], [], [b"a", b"b", b"aa"]], [[b"a\0", b"a"]]]
    for parts in fallen:
        assert order_of(parts) == ORDER, parts
    assert _calls.LIBRARY.pressclip_word(ORDER) == b"order"


def pointers_and_counts_of_parts_are_looked_at() -> None:
    """Each is refused before anything is read, and nothing is written."""
    calls, null, size = library(), 10, 11
    whole, order = c_void_p(), (c_uint64 * 1)(7)
    lengths, counts = (c_size_t * 1)(1), (c_size_t * 1)(1)
    with engines.opened() as engine, result_of(engine, {"text": "tea"}) as result:
        for due, arguments in (
                (null, (pointers([result]), 1, None)), (null, (None, 1, byref(whole))),
                (null, (pointers([result, c_void_p()]), 2, byref(whole))),
                (size, (pointers([result]), 1_000_001, byref(whole)))):
            assert calls.pressclip_gather(*arguments) == due, arguments
    for due, given in (
            (null, (None, lengths, counts, 1, order)), (null, (b"a", None, counts, 1, order)),
            (null, (b"a", lengths, None, 1, order)), (null, (b"a", lengths, counts, 1, None)),
            (size, (b"a", (c_size_t * 1)(2 ** 63), counts, 1, order)),
            (size, (b"a", (c_size_t * 2)(2 ** 62, 2 ** 62), (c_size_t * 1)(2), 1, order)),
            (size, (b"a", lengths, counts, 1_000_001, order)),
            (size, (b"a", lengths, (c_size_t * 1)(1_000_001), 1, order))):
        assert calls.pressclip_gather_ids(*given) == due, given
    assert not whole and order[0] == 7


def a_refused_allocation_changes_nothing() -> None:
    """At each malloc of C in turn, with no leak and no bad access."""
    with tempfile.TemporaryDirectory() as folder:
        (Path(folder) / "refused.c").write_text(REFUSED)
        subprocess.run(["gcc", "-std=c11", "-Wall", "-Wextra", "-g", "-Wl,--wrap=malloc", f"-I{TOP}/include",
                        f"{folder}/refused.c", C / "libpressclip.a", "-pthread", "-o", f"{folder}/refused"], check=True)
        run = subprocess.run(["valgrind", "-q", "--leak-check=full", "--error-exitcode=99", f"{folder}/refused"],
                             stderr=subprocess.PIPE)
        assert run.returncode == 0 and run.stderr == b"", (run.returncode, run.stderr.decode())


def monitors_are_gathered() -> None:
    """What monitors find, with its hits, is what one with all queries finds; other items go by their ids."""
    from pressclip import Monitor, Refused, gather, gather_by

    for seed in range(SEEDS):
        dice, fields, hits = Random(seed), article(Random(seed)), seed % 4 != 0
        with ExitStack() as stack:
            every = stack.enter_context(Monitor(hits))
            some = [stack.enter_context(Monitor(hits)) for _ in range(1 + seed % 4)]
            for id, query in dict(listed(seed)[1]).items():
                for monitor in (every, dice.choice(some)):
                    monitor.register(id, query)
            found = [monitor.match({"id": "a", "fields": fields}) for monitor in some]
            assert gather(found) == every.match({"id": "a", "fields": fields}), seed
    pairs = [[("a", 1), ("c", 2)], [("b", 3), ("c", 4)]]
    assert gather_by(lambda pair: pair[0], pairs) == [("a", 1), ("b", 3), ("c", 2), ("c", 4)]
    assert gather([]) == [] and gather_by(str, iter([["é"], ["z"]])) == ["z", "é"]
    try:
        gather_by(str, [["b", "a"]])
    except Refused as error:
        assert error.word == "order", error.word
    else:
        raise AssertionError("a part out of order was gathered")


TESTS = [what_parts_find_is_what_the_whole_finds, nothing_is_gathered_of_nothing, ids_are_put_in_order,
         pointers_and_counts_of_parts_are_looked_at, a_refused_allocation_changes_nothing, monitors_are_gathered]
