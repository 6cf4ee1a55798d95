"""Tests of what a match found: all of it at once, against ids and hits one by one, and what the package makes of it."""

from __future__ import annotations

import copy
import ctypes
import gc
import pickle
import subprocess
import sys
import tempfile
from contextlib import contextmanager
from ctypes import POINTER, byref, c_size_t, c_uint64, c_void_p
from pathlib import Path
from random import Random
from typing import Callable, Iterator, List, Tuple

import engines
from pressclip_tests.inputs import Source, WORDS

TOP = Path(__file__).resolve().parent.parent
# An id, and the name and position of each of its hits.
Listed = List[Tuple[bytes, List[Tuple[bytes, int]]]]
SEEDS = 150
# Ids that a byte 0 behind each text could be mistaken in, which inputs.py has none of.
WITH_ZEROS = ["\0", "a\0b", "a\0", "\0a", "\0\0"]
FIELDS = ["text", "title", "author", "t", "tex"]
# Asks for all that was found while malloc refuses, and then once more. Returns the number of the step that goes wrong.
REFUSED = '''
#include "pressclip.h"

#include <string.h>

void *__real_malloc(size_t size);
void *__wrap_malloc(size_t size);

static bool refuses;

void *__wrap_malloc(size_t size) { return refuses ? NULL : __real_malloc(size); }

int main(void) {
    pressclip *engine;
    pressclip_result *result;
    pressclip_field field = {"text", 4, "tea", 3};
    const pressclip_found *found = NULL;
    const char *id;
    size_t length;
    if (pressclip_open(true, &engine) != PRESSCLIP_OK) return 1;
    if (pressclip_register(engine, "q", 1, "tea", 3, NULL, 0) != PRESSCLIP_OK) return 2;
    if (pressclip_match(engine, "a", 1, &field, 1, &result) != PRESSCLIP_OK) return 3;
    refuses = true;
    if (pressclip_result_all(result, &found) != PRESSCLIP_NO_MEMORY || found != NULL) return 4;
    refuses = false;
    if (pressclip_result_all(result, &found) != PRESSCLIP_OK || strcmp(found->ids, "q") != 0) return 5;
    refuses = true;
    if (pressclip_result_all(result, &found) != PRESSCLIP_OK || found->hit_count != 1) return 6;
    if (!pressclip_next_id(result, &id, &length) || length != 1 || *id != 'q') return 7;
    pressclip_result_free(result);
    pressclip_close(&engine);
    return 0;
}
'''
# Calls of the interpreter that make objects, of which one is refused: the one that comes after `left` others.
REFUSING = '''
#include <stddef.h>

long left;
void *(*no_memory)(void);
void *(*list)(ptrdiff_t), *(*tuple)(ptrdiff_t), *(*item)(void *, ptrdiff_t);
void *(*text)(const char *, ptrdiff_t, const char *), *(*make)(void *, void *, void *);

void *refusing_list(ptrdiff_t count) { return left-- == 0 ? no_memory() : list(count); }
void *refusing_tuple(ptrdiff_t count) { return left-- == 0 ? no_memory() : tuple(count); }
void *refusing_item(void *of, ptrdiff_t place) { return left-- == 0 ? no_memory() : item(of, place); }
void *refusing_text(const char *bytes, ptrdiff_t length, const char *errors) {
    return left-- == 0 ? no_memory() : text(bytes, length, errors);
}
void *refusing_make(void *class, void *arguments, void *names) {
    return left-- == 0 ? no_memory() : make(class, arguments, names);
}
'''
REFUSED_CALLS = {"list": "PyList_New", "tuple": "PyTuple_New", "item": "PyList_GetItem", "text": "PyUnicode_DecodeUTF8",
                 "make": "tuple_new"}


@contextmanager
def result_of(engine: c_void_p, fields: dict[str, str]) -> Iterator[c_void_p]:
    """What C finds of an article."""
    from pressclip import _calls

    pairs = [(name.encode(), text.encode()) for name, text in fields.items()]
    result, library = c_void_p(), engines.library()
    assert library.pressclip_match(engine, b"a", 1, _calls.fields_of(pairs), len(pairs), byref(result)) == 0
    try:
        yield result
    finally:
        library.pressclip_result_free(result)


def hits_one_by_one(result: c_void_p) -> list[tuple[bytes, int]]:
    """The hits of the id that was given last which were not given yet."""
    library = engines.library()
    name, length, position = c_void_p(), c_size_t(), c_uint64()
    hits = []
    while library.pressclip_next_hit(result, byref(name), byref(length), byref(position)):
        hits.append((ctypes.string_at(name, length.value), position.value))
    return hits


def one_by_one(result: c_void_p, most: int = 2 ** 63) -> Listed:
    """What was not given yet, by so many calls of pressclip_next_id at most."""
    library = engines.library()
    id, length = c_void_p(), c_size_t()
    found: Listed = []
    while len(found) < most and library.pressclip_next_id(result, byref(id), byref(length)):
        found.append((ctypes.string_at(id, length.value), hits_one_by_one(result)))
    return found


def numbers(address: int, count: int) -> list[int]:
    """So many numbers at an address."""
    assert address, "an array is null"
    return list((c_uint64 * count).from_address(address))


def texts(address: int, places: int, count: int) -> list[bytes]:
    """So many texts at an address, each with a byte 0 behind it."""
    at = numbers(places, count + 1)
    assert address and at[0] == 0, at
    every = [ctypes.string_at(address + begin, end - begin) for begin, end in zip(at, at[1:])]
    assert all(text.endswith(b"\0") for text in every), every
    return [text[:-1] for text in every]


def at_once(result: c_void_p) -> Listed:
    """What pressclip_result_all gives, which is the same object at each call."""
    from pressclip._calls import LIBRARY, Found

    first, second = POINTER(Found)(), POINTER(Found)()
    assert LIBRARY.pressclip_result_all(result, byref(first)) == 0
    assert LIBRARY.pressclip_result_all(result, byref(second)) == 0
    assert ctypes.addressof(first.contents) == ctypes.addressof(second.contents)
    found = first.contents
    assert found.count == LIBRARY.pressclip_result_count(result)
    names = texts(found.names, found.name_at, found.name_count)
    assert len(set(names)) == len(names), names
    which, positions = numbers(found.hit_name, found.hit_count), numbers(found.hit_position, found.hit_count)
    hits = [(names[number], position) for number, position in zip(which, positions)]
    assert set(which) == set(range(len(names))), (which, names)
    at = numbers(found.hit_at, found.count + 1)
    assert at[0] == 0 and at[-1] == len(hits), at
    ids = texts(found.ids, found.id_at, found.count)
    return [(id, hits[begin:end]) for id, begin, end in zip(ids, at, at[1:])]


def listed(seed: int) -> tuple[list[bytes], list[tuple[str, str]]]:
    """Random lines, and queries under ids with a byte 0 within and in other fields."""
    source, dice = Source(seed, 12), Random(seed)
    lines = source.lines(20 + seed % 20)
    queries = [(id, source.text(3)) for id in dice.sample(WITH_ZEROS, dice.choice([0, 0, 1, 5]))]
    queries += [(f"in {name}", f"{name}:({source.text(3)}) {dice.choice(WORDS)} é{name}") for name in FIELDS]
    return lines, queries


@contextmanager
def registered(seed: int, hits: bool) -> Iterator[c_void_p]:
    """An engine with the queries of a seed."""
    lines, queries = listed(seed)
    with engines.opened(hits) as engine:
        for line in lines:
            engines.answer(engine, line)
        for id, query in queries:
            engines.register(engine, id, query)
        yield engine


def article(dice: Random) -> dict[str, str]:
    """The fields of an article: one to five, some of them with letters of several bytes, and one without a word."""
    names = dice.sample(FIELDS, dice.randint(1, len(FIELDS)))
    return {name: " ".join(dice.choices([*WORDS, f"é{name}", "🍵"], k=dice.choice([0, 1, 12]))) for name in names}


def all_at_once_is_what_comes_one_by_one() -> None:
    """Of random articles: from the beginning, and begun in between, where the rest comes as if it had not been."""
    had_hits = had_none = 0
    for seed in range(SEEDS):
        dice, hits = Random(seed), seed % 4 != 0
        with registered(seed, hits) as engine:
            for _ in range(4):
                with result_of(engine, article(dice)) as result:
                    before = one_by_one(result, dice.randint(0, 3))
                    every = at_once(result)
                    assert before + one_by_one(result) == every and at_once(result) == every, seed
                    assert hits or not any(of_id for _, of_id in every), seed
                had_hits += any(of_id for _, of_id in every)
                had_none += not every
    assert had_hits and had_none, (had_hits, had_none)


def the_package_gives_what_c_gives() -> None:
    """Each id in its order, and each hit with its word's place."""
    from pressclip import Found, Hit, Monitor, word_spans

    for seed in range(SEEDS):
        fields, hits = article(Random(seed)), seed % 4 != 0
        lines, queries = listed(seed)
        with Monitor(hits) as monitor:
            for line in lines:
                monitor.line(line)
            monitor.register_many(queries)
            found = monitor.match({"id": "a", "fields": fields})
        with registered(seed, hits) as engine, result_of(engine, fields) as result:
            due = one_by_one(result)
        spans = {name: word_spans(text) for name, text in fields.items()}
        assert [(one.query.encode(), [(hit.field.encode(), hit.position) for hit in one.hits]) for one in found] == due
        for one in found:
            assert type(one) is Found and type(one.query) is str and type(one.hits) is tuple, one
            for hit in one.hits:
                assert type(hit) is Hit and (hit.start, hit.end) == spans[hit.field][hit.position], (seed, hit)


def ids_with_a_zero_are_told_apart() -> None:
    """Also where they are all that is found."""
    from pressclip import Monitor

    for ids in (WITH_ZEROS, [*WITH_ZEROS, "a", "b", "é\0🍵"], ["\0"]):
        for hits in (False, True):
            with Monitor(hits) as monitor:
                for id in ids:
                    monitor.register(id, "tea")
                found = monitor.match({"id": "a", "fields": {"text": "Tea"}})
            assert [one.query for one in found] == sorted(ids, key=str.encode), found
            assert all(len(one.hits) == hits for one in found), found


def what_is_found_is_as_made_in_python() -> None:
    """Equal to it, by its hash too, printed as it, and pickled; and what others hold stays when all of it goes."""
    from pressclip import Found, Hit, Monitor

    with Monitor(True) as monitor:
        monitor.register_many([("all", "*:*"), ("thé", "thé title:tea")])
        article = {"id": "a", "fields": {"title": "Tea", "text": "🍵 thé, thé"}}
        for _ in range(3):
            found = monitor.match(article)
            gc.collect()
            hits = (Hit("text", 0, 2, 5), Hit("text", 1, 7, 10), Hit("title", 0, 0, 3))
            due = [Found("all", ()), Found("thé", hits)]
            assert found == due and hash(found[1]) == hash(due[1]) and repr(found) == repr(due), found
            assert hash(found[1].hits) == hash(hits) and {*found} == {*due}
            assert pickle.loads(pickle.dumps(found)) == due == copy.deepcopy(found)
            assert found[0]._replace(query="other") == Found(query="other", hits=())
        kept = found[1].hits[2]
        del found
        gc.collect()
        assert kept == Hit(field="title", position=0, start=0, end=3)


@contextmanager
def refusing_interpreter() -> Iterator[ctypes.CDLL]:
    """What the library makes objects by refuses one of its calls, until the end of a `with`; `left` says which."""
    from pressclip import _interpreter

    before, refusing = _interpreter.INTERPRETER, _interpreter.Interpreter()
    with tempfile.TemporaryDirectory() as folder:
        subprocess.run(["gcc", "-std=c11", "-Wall", "-Wextra", "-Werror", "-shared", "-fPIC", "-x", "c", "-", "-o",
                        f"{folder}/refusing.so"], input=REFUSING.encode(), check=True)
        library = ctypes.CDLL(f"{folder}/refusing.so")
    for name, _ in refusing._fields_:
        setattr(refusing, name, getattr(before, name))
    for name, call in REFUSED_CALLS.items():
        c_void_p.in_dll(library, name).value = getattr(before, call)
        setattr(refusing, call, ctypes.cast(getattr(library, f"refusing_{name}"), c_void_p))
    no_memory = ctypes.cast(ctypes.pythonapi.PyErr_NoMemory, c_void_p)
    c_void_p.in_dll(library, "no_memory").value = no_memory.value
    _interpreter.INTERPRETER = refusing
    try:
        yield library
    finally:
        _interpreter.INTERPRETER = before


def a_call_of_the_interpreter_that_is_refused_leaks_nothing() -> None:
    """Each in turn: it raises, and nothing of what was made before it is left; no more is left of what goes well."""
    from pressclip import Found, Monitor

    def refused(left: ctypes.c_long) -> int:
        number = 0
        while True:
            left.value = number
            try:
                found = monitor.match({"id": "a", "fields": {"title": "tea", "text": "tea milk"}})
            except MemoryError:
                number += 1
                continue
            assert [(one.query, len(one.hits)) for one in found] == [("a", 3), ("b", 0), ("c", 1)], found
            return number

    with Monitor(True) as monitor, refusing_interpreter() as library:
        monitor.register_many([("a", "milk tea title:tea"), ("b", "*:*"), ("c", "milk")])
        left = ctypes.c_long.in_dll(library, "left")
        # A list, its arguments, three texts, tuples and what is made of them, and two looks for each hit.
        assert refused(left) == 1 + 2 + 3 * 3 + 2 * 4
        gc.collect()
        before = sys.getallocatedblocks(), sys.getrefcount(Found), sys.getrefcount(())
        for _ in range(20):
            refused(left)
        gc.collect()
        after = sys.getallocatedblocks(), sys.getrefcount(Found), sys.getrefcount(())
        assert after[0] - before[0] < 20 and after[1:] == before[1:], (before, after)


def null_gives_nothing() -> None:
    """A null pointer is refused, and nothing is written."""
    from pressclip._calls import LIBRARY, Found

    found = POINTER(Found)()
    assert LIBRARY.pressclip_word(LIBRARY.pressclip_result_all(None, byref(found))) == b"null" and not found
    assert LIBRARY.pressclip_word(LIBRARY.pressclip_result_all(None, None)) == b"null"
    with engines.opened(True) as engine:
        engines.register(engine, "q", "tea")
        with result_of(engine, {"text": "tea"}) as result:
            assert LIBRARY.pressclip_word(LIBRARY.pressclip_result_all(result, None)) == b"null"
            assert at_once(result) == [(b"q", [(b"text", 0)])]


def no_memory_is_told_and_asked_for_again() -> None:
    """A call that malloc refuses writes nothing, the next one goes well, and those after it ask for none."""
    with tempfile.TemporaryDirectory() as folder:
        subprocess.run(["gcc", "-std=c11", "-Wall", "-Wextra", "-Werror", "-Wl,--wrap=malloc", f"-I{TOP}/include", "-x",
                        "c", "-", "-x", "none", TOP / "bindings" / "c" / "libpressclip.a", "-o", f"{folder}/refused"],
                       input=REFUSED.encode(), check=True)
        run = subprocess.run(["valgrind", "-q", "--leak-check=full", "--error-exitcode=9", f"{folder}/refused"],
                             stderr=subprocess.PIPE)
        assert (run.returncode, run.stderr) == (0, b""), run


def a_result_stays_when_its_engine_is_closed() -> None:
    """What is found at once too, put together after the end of the engine."""
    with engines.opened(True) as engine:
        engines.register(engine, "q", "title:tea milk")
        with result_of(engine, {"title": "green tea", "text": "milk"}) as result:
            engines.library().pressclip_close(byref(engine))
            assert at_once(result) == [(b"q", [(b"text", 0), (b"title", 1)])] == one_by_one(result)


TESTS: tuple[Callable[[], None], ...] = (
    all_at_once_is_what_comes_one_by_one, the_package_gives_what_c_gives, ids_with_a_zero_are_told_apart,
    what_is_found_is_as_made_in_python, a_call_of_the_interpreter_that_is_refused_leaks_nothing, null_gives_nothing,
    no_memory_is_told_and_asked_for_again, a_result_stays_when_its_engine_is_closed)
