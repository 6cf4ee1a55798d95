"""Calls of the interpreter, by which the library makes objects: a call for each would cost far more."""

from __future__ import annotations

from ctypes import PYFUNCTYPE, Structure, c_int, c_void_p, cast, py_object, pythonapi
from typing import Any

# Of CPython's stable interface, under their names there.
_CALLS = ["PyList_New", "PyList_GetItem", "PyList_SetItem", "PyTuple_New", "PyTuple_SetItem", "PyUnicode_DecodeUTF8",
          "PyObject_GC_UnTrack", "Py_IncRef", "Py_DecRef"]
_GET_SLOT = PYFUNCTYPE(c_void_p, py_object, c_int)(("PyType_GetSlot", pythonapi))
# Py_tp_new of the stable interface.
_NEW = 65


class _OfTuples(tuple[Any, ...]):
    """Tuples that are made as every tuple is. CPython 3.9 tells how of such a class, and not of `tuple`."""

    __slots__ = ()


class Interpreter(Structure):
    """Where the calls are, as C sees it: interpreter of bindings/c/python.c."""

    _fields_ = [(name, c_void_p) for name in (*_CALLS, "tuple_new")]


INTERPRETER = Interpreter(*(cast(getattr(pythonapi, name), c_void_p) for name in _CALLS), _GET_SLOT(_OfTuples, _NEW))
