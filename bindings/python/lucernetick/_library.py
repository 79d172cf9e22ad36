"""The shared library, and its functions as include/lucernetick.h declares them."""

import ctypes
import os
import pathlib
from typing import Iterator

NAME = "liblucernetick.so"
VARIABLE = "LUCERNETICK_LIBRARY"
STATUS_BASE = -100
"""A function returns this minus the code of a status."""


def places() -> Iterator[pathlib.Path]:
    """Where the library may be: at the path in the variable, in this package, or in `out/` of this
    repository."""
    named = os.environ.get(VARIABLE)
    if named:
        yield pathlib.Path(named)
        return
    package = pathlib.Path(__file__).resolve().parent
    yield package / NAME
    if len(package.parents) > 2:
        yield package.parents[2] / "out" / NAME


def find() -> pathlib.Path:
    tried = list(places())
    for place in tried:
        if place.is_file():
            return place
    looked = ", ".join(map(str, tried))
    raise ImportError(
        f"{NAME} not found (looked for {looked}): build it by make library, or set {VARIABLE}"
    )


def load(path: pathlib.Path) -> ctypes.CDLL:
    library = ctypes.CDLL(str(path))
    engine, number, size, count = ctypes.c_void_p, ctypes.c_uint64, ctypes.c_size_t, ctypes.c_int64
    moment, data, flag = ctypes.c_uint32, ctypes.c_char_p, ctypes.POINTER(ctypes.c_bool)
    for name, result, arguments in (
        ("lt_version", data, []),
        ("lt_message", data, [count]),
        ("lt_new_keeping", engine, [number]),
        ("lt_free", None, [engine]),
        ("lt_open", count, [engine]),
        ("lt_feed", count, [engine, number, data, size]),
        ("lt_turn", count, [engine, number, moment]),
        ("lt_settle", count, [engine, number, moment, number, flag]),
        ("lt_run_all", count, [engine]),
        ("lt_wants_bytes", count, [engine, number]),
        ("lt_close", count, [engine, number]),
        ("lt_output", count, [engine, number, data, size]),
        ("lt_sent", count, [engine, number, size]),
    ):
        function = getattr(library, name)
        function.restype = result
        function.argtypes = arguments
    return library


library = load(find())


def message(answer: int) -> str:
    """The library's text for a result."""
    return str(library.lt_message(answer).decode())
