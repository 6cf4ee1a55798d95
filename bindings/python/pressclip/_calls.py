"""The calls of the library: their arguments as C sees them, and their answers."""

from __future__ import annotations

import ctypes
from ctypes import POINTER, Array, Structure, byref, c_bool, c_char_p, c_int, c_size_t, c_uint64, c_void_p, py_object
from typing import Any, Callable

from ._interpreter import Interpreter
from ._library import load
from ._refusals import refusal

# The status of a text that is no query, as pressclip_status has it.
QUERY = 2


class Field(Structure):
    """A field of an article, as C sees it: pressclip_field."""

    _fields_ = [("name", c_char_p), ("name_length", c_size_t), ("text", c_char_p), ("text_length", c_size_t)]


class Article(Structure):
    """An article, as C sees it: pressclip_article."""

    _fields_ = [("id", c_char_p), ("id_length", c_size_t), ("fields", POINTER(Field)), ("count", c_size_t)]


class Listing(Structure):
    """A query to be registered, as C sees it: pressclip_listing."""

    _fields_ = [("id", c_char_p), ("id_length", c_size_t), ("query", c_char_p), ("query_length", c_size_t),
                ("listener", c_char_p), ("listener_length", c_size_t)]


class Pair(Structure):
    """Two queries, and how near they are to be, as C sees it: pressclip_pair."""

    _fields_ = [("first", c_char_p), ("first_length", c_size_t), ("second", c_char_p), ("second_length", c_size_t),
                ("between", c_size_t), ("ordered", c_bool)]


class Found(Structure):
    """What was found of an article, as C sees it: pressclip_found."""

    _fields_ = [("count", c_size_t), ("ids", c_void_p), ("id_at", c_void_p), ("hit_at", c_void_p),
                ("hit_count", c_size_t), ("hit_name", c_void_p), ("hit_position", c_void_p),
                ("name_count", c_size_t), ("names", c_void_p), ("name_at", c_void_p)]


_TEXT = [c_char_p, c_size_t]
_TO_POINTER, _TO_SIZE, _TO_NUMBER = POINTER(c_void_p), POINTER(c_size_t), POINTER(c_uint64)
_REPLY = [_TO_POINTER, _TO_SIZE]
_FIELDS = [POINTER(Field), c_size_t]
# What each call is handed. It gives a status, where it is not among those that follow.
_ARGUMENTS: dict[str, list[Any]] = {
    "shared_open": [c_bool, _TO_POINTER],
    "shared_close": [_TO_POINTER],
    "shared_register": [c_void_p, *_TEXT, *_TEXT, *_TEXT],
    "shared_register_many": [c_void_p, POINTER(Listing), c_size_t, _TO_SIZE],
    "shared_delete": [c_void_p, *_TEXT, _TO_NUMBER],
    "shared_clear": [c_void_p],
    "shared_purge": [c_void_p],
    "shared_count": [c_void_p, _TO_NUMBER],
    "shared_show": [c_void_p, *_TEXT, *_REPLY],
    "shared_line": [c_void_p, *_TEXT, *_REPLY],
    "shared_snapshot": [c_void_p, _TO_POINTER],
    "shared_match": [c_void_p, *_TEXT, *_FIELDS, _TO_POINTER],
    "shared_match_many": [c_void_p, POINTER(Article), c_size_t, _TO_POINTER, _TO_SIZE],
    "snapshot_free": [_TO_POINTER],
    "snapshot_match": [c_void_p, *_TEXT, *_FIELDS, _TO_POINTER],
    "snapshot_match_many": [c_void_p, POINTER(Article), c_size_t, _TO_POINTER, _TO_SIZE],
    "snapshot_count": [c_void_p, _TO_NUMBER],
    "snapshot_show": [c_void_p, *_TEXT, *_REPLY],
    "snapshot_ids": [c_void_p, *_TEXT, c_size_t, _TO_POINTER],
    "result_count": [c_void_p],
    "result_all": [c_void_p, POINTER(POINTER(Found))],
    "result_free": [c_void_p],
    "python_found": [POINTER(Interpreter), POINTER(Found), py_object, py_object],
    "free": [c_void_p],
    "gather_ids": [c_char_p, c_void_p, c_void_p, c_size_t, c_void_p],
    "explain": [*_TEXT, *_REPLY],
    "explain_line": [*_TEXT, *_REPLY],
    "words": [*_TEXT, *_REPLY],
    "near": [*_FIELDS, POINTER(Pair), POINTER(c_bool)],
    "word": [c_int],
    "version": [],
}
_GIVES: dict[str, Any] = {"word": c_char_p, "version": c_char_p, "result_count": c_size_t, "python_found": py_object}
_GIVE_NOTHING = ["shared_close", "snapshot_free", "result_free", "free"]
# Calls that keep the interpreter's lock: the one that makes objects, and those so short that to wait for it again would
# cost more, where threads match.
_KEEPING = ["python_found", "result_count", "result_all", "result_free", "free", "word", "version"]


def _declared(library: ctypes.CDLL) -> ctypes.CDLL:
    """The library, whose calls know what they are handed; `ImportError` where it is older than this package."""
    keeping = ctypes.PyDLL(library._name, handle=library._handle)
    try:
        for name, arguments in _ARGUMENTS.items():
            call = getattr(keeping if name in _KEEPING else library, f"pressclip_{name}")
            setattr(library, f"pressclip_{name}", call)
            call.argtypes = arguments
            call.restype = None if name in _GIVE_NOTHING else _GIVES.get(name, c_int)
    except AttributeError as error:
        raise ImportError(f"pressclip: the library is older than this package: {error}") from None
    return library


LIBRARY = _declared(load())


def well(status: int, which: int = 0) -> None:
    """Raises where a call did not go well."""
    if status != 0:
        raise refusal(LIBRARY.pressclip_word(status).decode(), which)


def encoded(text: str, what: str) -> bytes:
    """A text in UTF-8. `TypeError` where it is none, and `UnicodeEncodeError` where it has half of a surrogate pair."""
    if not isinstance(text, str):
        raise TypeError(f"{what} is a str, and not {type(text).__name__}")
    return text.encode()


def fields_of(pairs: list[tuple[bytes, bytes]]) -> Array[Field]:
    """The fields of an article, by names and texts in UTF-8, as C sees them: an array of one at least."""
    return (Field * max(1, len(pairs)))(*[Field(name, len(name), text, len(text)) for name, text in pairs])


def copied(address: c_void_p, length: int) -> bytes:
    """The bytes at an address."""
    return ctypes.string_at(address, length)


def texts_at(address: int, places: int, count: int) -> list[str]:
    """So many texts at an address, a byte 0 behind each; `places` is the address of the numbers where they begin."""
    encoded = ctypes.string_at(address, c_uint64.from_address(places + 8 * count).value)
    texts = encoded.decode().split("\0")
    if len(texts) == count + 1:
        texts.pop()
        return texts
    # A text has a character 0 within.
    at = memoryview(copied(c_void_p(places), 8 * (count + 1))).cast("Q").tolist()
    return [encoded[begin:end - 1].decode() for begin, end in zip(at, at[1:])]


def answer_or_none(call: Callable[..., int], *arguments: Any, size: int = 1) -> bytes | None:
    """The bytes that a call hands out in items of so many bytes, or None for a null pointer; they go back to it."""
    answer, count = c_void_p(), c_size_t()
    try:
        well(call(*arguments, byref(answer), byref(count)))
        return copied(answer, count.value * size) if answer else None
    finally:
        LIBRARY.pressclip_free(answer)


def answer_of(call: Callable[..., int], *arguments: Any, size: int = 1) -> bytes:
    """The bytes that a call hands out in items of so many bytes; they go back to the library."""
    return answer_or_none(call, *arguments, size=size) or b""


def count_of(call: Callable[..., int], *arguments: Any) -> int:
    """The number that a call gives."""
    count = c_uint64()
    well(call(*arguments, byref(count)))
    return count.value


def version() -> str:
    """The version of the library."""
    return LIBRARY.pressclip_version().decode()  # type: ignore[no-any-return]


def all_of(result: c_void_p) -> Found:
    """All that a result has, which lies in it as long as it is not freed."""
    given = POINTER(Found)()
    well(LIBRARY.pressclip_result_all(result, byref(given)))
    return given.contents
