"""An engine of the library as a caller in C has it, for tests: the package has no call for one."""

from __future__ import annotations

import ctypes
from contextlib import contextmanager
from ctypes import POINTER, byref, c_bool, c_char_p, c_int, c_size_t, c_uint64, c_void_p
from typing import Any, Iterator

_TEXT = [c_char_p, c_size_t]
_TO_POINTER, _TO_SIZE, _TO_NUMBER = POINTER(c_void_p), POINTER(c_size_t), POINTER(c_uint64)


def library() -> Any:
    """The library, with the calls of an engine declared."""
    from pressclip import _calls

    found = _calls.LIBRARY
    for name, gives, arguments in (
            ("open", c_int, [c_bool, _TO_POINTER]),
            ("close", None, [_TO_POINTER]),
            ("line", c_int, [c_void_p, *_TEXT, _TO_POINTER, _TO_SIZE]),
            ("register", c_int, [c_void_p, *_TEXT, *_TEXT, *_TEXT]),
            ("delete", c_int, [c_void_p, *_TEXT, _TO_NUMBER]),
            ("count", c_int, [c_void_p, _TO_NUMBER]),
            ("match", c_int, [c_void_p, *_TEXT, POINTER(_calls.Field), c_size_t, _TO_POINTER]),
            ("next_id", c_bool, [c_void_p, _TO_POINTER, _TO_SIZE]),
            ("next_hit", c_bool, [c_void_p, _TO_POINTER, _TO_SIZE, _TO_NUMBER])):
        call = getattr(found, f"pressclip_{name}")
        call.restype, call.argtypes = gives, arguments
    return found


@contextmanager
def opened(hits: bool = False) -> Iterator[c_void_p]:
    """An engine, which is closed at the end."""
    calls, engine = library(), c_void_p()
    assert calls.pressclip_open(hits, byref(engine)) == 0
    try:
        yield engine
    finally:
        calls.pressclip_close(byref(engine))


def register(engine: c_void_p, id: str, query: str) -> None:
    """Registers a query."""
    name, text = id.encode(), query.encode()
    assert library().pressclip_register(engine, name, len(name), text, len(text), None, 0) == 0, (id, query)


def answer(engine: c_void_p, line: bytes) -> bytes:
    """The reply to a line."""
    reply, length = c_void_p(), c_size_t()
    assert library().pressclip_line(engine, line, len(line), byref(reply), byref(length)) == 0, line
    try:
        return ctypes.string_at(reply, length.value)
    finally:
        library().pressclip_free(reply)
