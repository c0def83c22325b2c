"""The library for C, as its header declares it (bindings/c/tcpwit.h).

It is looked for in the file that the environment variable TCPWIT_LIBRARY names, then beside this file, then where the
system looks.
"""
from __future__ import annotations

import ctypes
import os


class Answer(ctypes.Structure):
    """struct tcpwit_result."""

    _fields_ = [*((name, ctypes.c_uint32) for name in ("kind", "rule", "fault")),
                *((name, ctypes.c_uint64) for name in ("lines", "hidden", "witness_line", "trace_line", "fault_line",
                                                       "fault_start", "fault_stop"))]


class Text(ctypes.Structure):
    """struct tcpwit_text."""

    _fields_ = [("bytes", ctypes.c_void_p), ("length", ctypes.c_size_t)]


class Judgement(ctypes.Structure):
    """struct tcpwit_judgement."""

    _fields_ = [("level", ctypes.c_uint32), ("said", Text), ("found", Text)]


USUAL_BUDGET = 1_000_000
USUAL_SLACK = 2**64 - 1
ANY_SLACK = 2**64 - 2


def load() -> ctypes.CDLL:
    """Loads the library and declares its functions."""
    beside = os.path.join(os.path.dirname(os.path.abspath(__file__)), "libtcpwit.so.1")
    path = os.environ.get("TCPWIT_LIBRARY") or (beside if os.path.exists(beside) else "libtcpwit.so.1")
    library = ctypes.CDLL(path)
    text, number = [ctypes.c_char_p, ctypes.c_size_t], ctypes.c_uint64
    functions = {
        "check": (None, [*text, ctypes.POINTER(Answer)]),
        "check_two": (None, [*text, *text, ctypes.POINTER(Answer)]),
        "rule_name": (ctypes.c_size_t, [ctypes.c_uint32, ctypes.c_char_p, ctypes.c_size_t]),
        "explain": (ctypes.c_uint32, [*text, ctypes.c_bool, ctypes.POINTER(Text)]),
        "remark": (ctypes.c_uint32, [*text, ctypes.POINTER(Text)]),
        "find": (ctypes.c_uint32, [*text, number, ctypes.POINTER(Text)]),
        "judge": (ctypes.c_uint32, [*text, number, number, ctypes.POINTER(Judgement)]),
        "text_free": (None, [ctypes.POINTER(Text)]),
    }
    for name, (result, parameters) in functions.items():
        function = getattr(library, f"tcpwit_{name}")
        function.restype = result
        function.argtypes = parameters
    return library


LIBRARY = load()


def taken(text: Text) -> bytes:
    """The bytes of a text, which is then freed."""
    if text.bytes is None:
        raise MemoryError("tcpwit ran out of memory")
    try:
        return ctypes.string_at(text.bytes, text.length)
    finally:
        LIBRARY.tcpwit_text_free(ctypes.byref(text))
