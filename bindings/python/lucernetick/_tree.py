"""Whole trees: written by requests of the library's own sessions, and taken as snapshots."""

from __future__ import annotations

import ctypes
import stat
import struct
from dataclasses import dataclass
from pathlib import PurePosixPath
from typing import TYPE_CHECKING, Iterator, Mapping, Optional, Sequence, Union

from . import _arguments as arguments
from ._calls import Kind, LtBytes, path_bytes, text
from ._faults import BlockedError, EndedError, Refusal, RefusedError, StatusError
from ._library import STATUS_BASE, library, message
from ._permissions import Mode

if TYPE_CHECKING:
    from ._engine import Engine

INIT = 1
UNIT = 32768
"""The holes of a sparse file begin and end at multiples of it, or at the end of the file."""


@dataclass(frozen=True)
class Link:
    """In place of contents: a hard link to the file at this path."""

    path: Union[str, bytes]


Contents = Union[bytes, bytearray, memoryview, Link, None]
"""A file's bytes, a hard link, or None for a directory."""

Files = Union[
    Mapping[str, Contents],
    Mapping[bytes, Contents],
    Mapping[Union[str, bytes], Contents],
    Mapping[PurePosixPath, Contents],
]
"""Contents by paths."""


@dataclass(frozen=True, init=False)
class Entry:
    """A file or directory of a snapshot."""

    mode: int
    """The bits of its file type and its permissions, as in `os.stat_result.st_mode`."""
    uid: int
    gid: int
    atime: int
    """Seconds since 1970, as `mtime`."""
    mtime: int
    size: int
    """The number of bytes of a file; 0 for a directory."""
    pieces: tuple[tuple[int, bytes], ...]
    """A file's bytes, by their offsets, without the holes of a sparse file: all other bytes are
    zeros. Files with the same bytes have the same pieces: a piece begins at a multiple of 32768,
    and has no 32768 zeros from such a multiple on."""
    file: Optional[int]
    """The number of a file; None for a directory. All names of one file have the same number. Each
    snapshot numbers its files, from 1 on."""

    def __init__(
        self,
        mode: int,
        uid: int,
        gid: int,
        atime: int,
        mtime: int,
        size: int,
        pieces: tuple[tuple[int, bytes], ...],
        file: Optional[int],
    ) -> None:
        # The __init__ that dataclass makes takes three times as long.
        fields = self.__dict__
        fields["mode"] = mode
        fields["uid"] = uid
        fields["gid"] = gid
        fields["atime"] = atime
        fields["mtime"] = mtime
        fields["size"] = size
        fields["pieces"] = pieces
        fields["file"] = file

    @property
    def contents(self) -> Optional[bytes]:
        """All bytes of a file, with zeros for the holes; None for a directory."""
        if self.file is None:
            return None
        if len(self.pieces) == 1 and len(self.pieces[0][1]) == self.size:
            return self.pieces[0][1]
        contents = bytearray(self.size)
        for offset, piece in self.pieces:
            contents[offset : offset + len(piece)] = piece
        return bytes(contents)

    @property
    def is_directory(self) -> bool:
        return stat.S_ISDIR(self.mode)

    @property
    def permissions(self) -> int:
        return stat.S_IMODE(self.mode)


class LtPlace(ctypes.Structure):
    """As lt_place in include/lucernetick.h."""

    _fields_ = [("length", ctypes.c_uint64), ("kind", ctypes.c_uint32)]

    def request(self, *paths: bytes) -> str:
        """The request as text: its name and its paths."""
        names = {0: "", INIT: "INIT", Kind.HARDLINK: "hardlink@openssh.com"}
        name = names[self.kind] if self.kind in names else Kind(self.kind).name
        return " ".join([name, *map(text, paths)])


LEAF = struct.Struct("PNQ6IQ")
"""The fields of lt_leaf in include/lucernetick.h."""

MANY = 1024
"""The number of leaves that are read at once."""


def declare() -> None:
    """Declares the library's functions for trees."""
    engine, moment, answer = ctypes.c_void_p, ctypes.c_uint32, ctypes.c_int64
    place, tree, number = ctypes.POINTER(LtPlace), ctypes.c_void_p, ctypes.c_uint64
    for name, words in (
        ("lt_make_directory", [engine, LtBytes, moment, place]),
        ("lt_write_file", [engine, LtBytes, LtBytes, moment, place]),
        ("lt_link", [engine, LtBytes, LtBytes, moment, place]),
        ("lt_tree_of", [engine, ctypes.POINTER(tree)]),
        ("lt_tree_leaf", [tree, number, ctypes.c_char_p]),
        (
            "lt_tree_leaves",
            [tree, number, ctypes.c_char_p, ctypes.c_size_t, ctypes.c_char_p, ctypes.c_size_t],
        ),
        ("lt_tree_read", [tree, number, number, ctypes.c_char_p, ctypes.c_size_t]),
        ("lt_tree_gap", [tree, number, number]),
    ):
        function = getattr(library, name)
        function.restype, function.argtypes = answer, words
    library.lt_tree_free.restype, library.lt_tree_free.argtypes = None, [tree]


declare()


def done(answer: int, request: str) -> None:
    """Raises an error if a request was rejected."""
    if answer <= STATUS_BASE:
        raise StatusError(STATUS_BASE - answer, message(answer), request)
    if answer == Refusal.IS_BLOCKED:
        raise BlockedError(f"{request}: {message(answer)}")
    if answer == Refusal.NO_REPLY:
        raise EndedError(f"{request}: {message(answer)}")
    if answer < 0:
        raise RefusedError(Refusal(answer))


def place(engine: Optional[int], path: bytes, contents: Contents, moment: int) -> None:
    """Writes one path, and creates its missing parent directories."""
    at, name = LtPlace(), LtBytes.of(path)
    if contents is None:
        answer = library.lt_make_directory(engine, name, moment, at)
    elif isinstance(contents, Link):
        old = path_bytes(contents.path)
        answer = library.lt_link(engine, LtBytes.of(old), name, moment, at)
        if at.kind == Kind.HARDLINK:
            done(answer, at.request(old, path))
    else:
        answer = library.lt_write_file(engine, name, LtBytes.of(bytes(contents)), moment, at)
    done(answer, at.request(path[: at.length]))


def checked_files(files: Files) -> list[tuple[bytes, Contents]]:
    """The paths and contents, links last."""
    parts: list[tuple[bytes, Contents]] = []
    for name, contents in files.items():
        path = arguments.path("a path", name)
        if isinstance(contents, Link):
            contents = Link(arguments.path("the path of a Link", contents.path))
        elif contents is not None:
            contents = arguments.data(f"the contents of {name!r}", contents)
            if arguments.normal(path) == b"/":
                raise ValueError("/ is a directory: its contents must be None")
        parts.append((path, contents))
    check_parents(parts)
    return sorted(parts, key=lambda part: isinstance(part[1], Link))


def check_parents(parts: list[tuple[bytes, Contents]]) -> None:
    """No path may be below a file."""
    made = {arguments.normal(path): contents for path, contents in parts}
    for path in made:
        names = path.split(b"/")
        for count in range(2, len(names)):
            above = b"/".join(names[:count])
            if made.get(above) is not None:
                raise ValueError(f"{text(path)} can't be made: {text(above)} is a file")


def write_tree(engine: Engine, files: Files, moment: int) -> None:
    """Checks all arguments before the first one is written."""
    parts = checked_files(files)
    with engine._moved:
        engine._check()
        for path, contents in parts:
            try:
                place(engine._engine, path, contents, moment)
            finally:
                engine._has_moved()


class Tree:
    """A snapshot of the library. It is freed at the end of a `with`."""

    def __init__(self, engine: Engine) -> None:
        self._tree = ctypes.c_void_p()
        self._leaves = ctypes.create_string_buffer(MANY * LEAF.size)
        self._room = ctypes.create_string_buffer(2 * UNIT)
        self._unit = ctypes.create_string_buffer(UNIT)
        self._numbers: dict[int, int] = {}
        """The numbers of files, by their labels."""
        with engine._lock:
            done(library.lt_tree_of(engine._engine, self._tree), "")

    def __enter__(self) -> Tree:
        return self

    def __exit__(self, *_fault: object) -> None:
        self.free()

    def free(self) -> None:
        library.lt_tree_free(self._tree)

    def entries(self) -> dict[str, Entry]:
        """The entries by their paths, in the order of the tree."""
        found: dict[str, Entry] = {}
        at, count = 0, library.lt_tree_leaf(self._tree, 2**64 - 1, self._leaves)
        if count < 0:
            done(count, "")
        while at < count:
            read = library.lt_tree_leaves(
                self._tree, at, self._leaves, MANY, self._room, len(self._room)
            )
            if read < 0:
                done(read, "")
            if read == 0:
                # There is no room for the path.
                self._room = ctypes.create_string_buffer(2 * len(self._room))
            self._add(found, at, read)
            at += read
        return found

    def find(self, names: Sequence[bytes]) -> Optional[Mode]:
        """The object at a path, by a binary search: a directory precedes its entries, and names are
        sorted."""
        wanted = list(names)
        low, high = 0, library.lt_tree_leaf(self._tree, 2**64 - 1, self._leaves)
        while low < high:
            at = (low + high) // 2
            done(library.lt_tree_leaf(self._tree, at, self._leaves), "")
            address, length, _, _, uid, gid, mode, *_ = LEAF.unpack_from(self._leaves)
            found = [name for name in ctypes.string_at(address, length).split(b"/") if name]
            if found == wanted:
                return Mode(stat.S_IMODE(mode), uid, gid, stat.S_ISDIR(mode))
            low, high = (at + 1, high) if found < wanted else (low, at)
        return None

    def _add(self, found: dict[str, Entry], at: int, count: int) -> None:
        """Adds the leaves that were read, from place `at` on. For a large tree, most of the time is
        spent here."""
        room, end, numbers = self._room.raw, 0, self._numbers
        leaves = LEAF.iter_unpack(self._leaves.raw[: count * LEAF.size])
        for _, length, size, _, uid, gid, mode, atime, mtime, label in leaves:
            begin, end = end, end + length
            path = room[begin:end]
            pieces: tuple[tuple[int, bytes], ...] = ()
            if size > UNIT:
                pieces = tuple(self._joined(at, size))
            elif size:
                begin, end = end, end + size
                unit = room[begin:end]
                if unit[0] or has_bytes(unit):
                    pieces = ((0, unit),)
            file = None if stat.S_ISDIR(mode) else numbers.setdefault(label, len(numbers) + 1)
            found[text(path)] = Entry(mode, uid, gid, atime, mtime, size, pieces, file)
            at += 1

    def _read(self, at: int, offset: int) -> bytes:
        """The bytes of the unit at this offset."""
        count = library.lt_tree_read(self._tree, at, offset, self._unit, UNIT)
        if count < 0:
            done(count, "")
        return ctypes.string_at(self._unit, count)

    def _units(self, at: int, size: int) -> Iterator[tuple[int, bytes]]:
        """The units that aren't in a hole."""
        offset = 0
        while offset < size:
            gap = library.lt_tree_gap(self._tree, at, offset)
            if not gap:
                yield offset, self._read(at, offset)
            offset += gap or UNIT

    def _joined(self, at: int, size: int) -> Iterator[tuple[int, bytes]]:
        """The units that aren't all zeros. Adjacent ones are joined."""
        begin = 0
        units: list[bytes] = []
        for offset, unit in self._units(at, size):
            if not has_bytes(unit):
                continue
            if units and offset != begin + len(units) * UNIT:
                yield begin, b"".join(units)
                units = []
            if not units:
                begin = offset
            units.append(unit)
        if units:
            yield begin, b"".join(units)


def has_bytes(unit: bytes) -> bool:
    """Whether any byte isn't 0."""
    return unit != bytes(len(unit))


def read_tree(engine: Engine) -> dict[str, Entry]:
    """The engine is locked while the library takes the snapshot, and not while it is read."""
    with Tree(engine) as tree:
        return tree.entries()
