"""Checks of arguments, by name and range.

The library takes fixed-size integers. Without a check, ctypes would silently reduce a larger number
to its lowest bits.
"""

from __future__ import annotations

import inspect
import math
import operator
import os
from typing import Any, Union

LATEST = 2**32 - 1
"""The latest timestamp of the protocol, in seconds since 1970."""
MOST = 2**63 - 1
LONGEST_NAME = 255
LONGEST_PATH = 4096

Path = Union[str, bytes, "os.PathLike[str]", "os.PathLike[bytes]"]


def integer(name: str, value: Any, least: int = 0, most: int = MOST) -> int:
    """`value`, an int in this range."""
    if isinstance(value, bool) or not hasattr(value, "__index__"):
        raise TypeError(f"{name} must be an int, not {type(value).__name__}")
    number = operator.index(value)
    if not least <= number <= most:
        raise ValueError(f"{name} must be from {least} to {most}, not {number}")
    return number


def timestamp(name: str, value: Any) -> int:
    """`value`, a timestamp of the protocol: whole seconds since 1970."""
    return integer(name, value, 0, LATEST)


def seconds(name: str, value: Any, least: float = 0.0) -> float:
    """`value`, a finite number of seconds that isn't below `least`."""
    if isinstance(value, bool) or not isinstance(value, (int, float)):
        raise TypeError(f"{name} must be a number, not {type(value).__name__}")
    if not math.isfinite(value) or value < least:
        raise ValueError(f"{name} must be at least {least:g} and finite, not {value}")
    return float(value)


def function(name: str, value: Any) -> None:
    """Checks that `value` is None or a function that isn't async: nobody would await its result."""
    if value is not None and not callable(value):
        raise TypeError(f"{name} must be a function, not {type(value).__name__}")
    if inspect.iscoroutinefunction(value):
        raise TypeError(f"{name} must be a function that is not async")


def data(name: str, value: Any) -> bytes:
    """`value`, a bytes-like object, as bytes."""
    if isinstance(value, bytes):
        return value
    if isinstance(value, str):
        raise TypeError(f"{name} must be bytes, not str: encode the text, as by .encode()")
    if not isinstance(value, (bytearray, memoryview)):
        raise TypeError(f"{name} must be bytes-like, not {type(value).__name__}")
    return bytes(value)


def path(name: str, value: Any) -> bytes:
    """`value`, a path of the tree, as bytes. Text is encoded as UTF-8. The limits are the
    protocol's, in which the empty path is the root."""
    try:
        text = os.fspath(value)
    except TypeError:
        why = f"{name} must be a str, bytes or a path, not {type(value).__name__}"
        raise TypeError(why) from None
    encoded: bytes = text.encode("utf-8", "surrogateescape") if isinstance(text, str) else text
    if not encoded:
        raise ValueError(f"{name} is empty, and / is the root")
    if b"\0" in encoded:
        raise ValueError(f"{name} {text!r} has a NUL byte")
    if len(encoded) > LONGEST_PATH:
        why = f"{name} has {len(encoded)} bytes, and at most {LONGEST_PATH} are allowed"
        raise ValueError(why)
    longest = max(map(len, encoded.split(b"/")))
    if longest > LONGEST_NAME:
        why = f"a name of {longest} bytes, and at most {LONGEST_NAME} are allowed"
        raise ValueError(f"{name} {text!r} has {why}")
    return encoded


def normal(encoded: bytes) -> bytes:
    """A path in the server's normal form: absolute, without `.`, `..` and empty names."""
    names: list[bytes] = []
    for part in encoded.split(b"/"):
        if part == b"..":
            del names[-1:]
        elif part not in (b"", b"."):
            names.append(part)
    return b"/" + b"/".join(names)
