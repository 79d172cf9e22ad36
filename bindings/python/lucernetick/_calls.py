"""The records of calls that an engine keeps."""

from __future__ import annotations

import ctypes
import enum
from dataclasses import dataclass
from typing import Iterator, Optional, Union

from ._flags import OpenFlag
from ._library import STATUS_BASE, library, message


class Kind(enum.IntEnum):
    """The kind of a request or a call."""

    OPEN = 3
    CLOSE = 4
    READ = 5
    WRITE = 6
    LSTAT = 7
    """Only of requests: the record of an LSTAT call has the kind STAT."""
    FSTAT = 8
    SETSTAT = 9
    """Also lsetstat@openssh.com."""
    FSETSTAT = 10
    """Also fsync@openssh.com."""
    OPENDIR = 11
    READDIR = 12
    REMOVE = 13
    MKDIR = 14
    RMDIR = 15
    REALPATH = 16
    """Only of requests: it reads nothing of the tree, so no call is recorded."""
    STAT = 17
    RENAME = 18
    POSIX_RENAME = 201
    """posix-rename@openssh.com"""
    HARDLINK = 202
    """hardlink@openssh.com"""


class Answer(enum.IntEnum):
    """The kind of a reply."""

    NO_MEMORY = 100
    """The status FAILURE, since the server ran out of memory."""
    STATUS = 101
    HANDLE = 102
    DATA = 103
    NAMES = 104
    ATTRS = 105


@dataclass(frozen=True)
class Attributes:
    """Attributes of a request or a reply. An attribute that wasn't sent is None."""

    size: Optional[int] = None
    uid: Optional[int] = None
    gid: Optional[int] = None
    permissions: Optional[int] = None
    """The mode: permission bits, and in a reply the bits of the file type."""
    atime: Optional[int] = None
    mtime: Optional[int] = None

    def __str__(self) -> str:
        mode = None if self.permissions is None else f"0{self.permissions:o}"
        parts = {"size": self.size, "uid": self.uid, "gid": self.gid, "mode": mode}
        parts.update(atime=self.atime, mtime=self.mtime)
        return " ".join(f"{name} {value}" for name, value in parts.items() if value is not None)


@dataclass(frozen=True)
class Reply:
    """The reply to a call. A field that its kind doesn't have is None or empty."""

    kind: Answer
    status: Optional[int] = None
    """The code of a status: 0 for OK, 1 for EOF, 2 for NO_SUCH_FILE, 4 for FAILURE."""
    handle: Optional[int] = None
    """The handle, which is the number of the call that opened it."""
    data: bytes = b""
    """The bytes of DATA."""
    names: tuple[str, ...] = ()
    attributes: Attributes = Attributes()

    @property
    def is_ok(self) -> bool:
        """Whether the call succeeded: its reply has a result, or the status OK."""
        return self.kind > Answer.STATUS or self.status == 0

    def __str__(self) -> str:
        if self.kind == Answer.NO_MEMORY:
            return "Out of memory"
        if self.status is not None:
            return message(STATUS_BASE - self.status)
        if self.handle is not None:
            return f"handle {self.handle}"
        if self.kind == Answer.DATA:
            return f"data of length {len(self.data)}"
        if self.kind == Answer.NAMES:
            return f"names {len(self.names)}"
        return str(self.attributes)


@dataclass(frozen=True)
class Call:
    """The record of a call. A field that its kind doesn't have is None or empty.

    `str(call)` is one line: its session, number, timestamp, request and reply.
    """

    number: int
    """1, 2, 3 and so on, in the order in which calls begin."""
    session: int
    moment: int
    """When it began, in seconds since 1970."""
    kind: Kind
    path: Optional[str]
    """The absolute path. Of a rename or a link: the old path."""
    new_path: Optional[str]
    handle: Optional[int]
    """The handle, which is the number of the call that opened it."""
    offset: Optional[int]
    length: Optional[int]
    """How many bytes were requested, or written."""
    flags: Optional[int]
    """The pflags of OPEN, see `OpenFlag`."""
    data: bytes
    """The bytes of WRITE."""
    attributes: Attributes
    reply: Reply

    @property
    def request(self) -> str:
        """The request as text: `mkdir "/a" mode 0755`. In paths, all bytes that aren't printable
        ASCII are escaped as in the log of OpenSSH's server."""
        words = [self.kind.name.lower().replace("_", "-")]
        words += [f'"{escaped(path)}"' for path in (self.path, self.new_path) if path is not None]
        numbers = {"handle": self.handle, "offset": self.offset, "length": self.length}
        words += [f"{name} {number}" for name, number in numbers.items() if number is not None]
        if self.flags is not None:
            flags = [str(flag.name) for flag in OpenFlag if self.flags & flag]
            words.append("flags " + ",".join(flags))
        return " ".join([*words, str(self.attributes)]).rstrip()

    def __str__(self) -> str:
        begins = f"session {self.session} call {self.number} at {self.moment}"
        return f"{begins}: {self.request} -> {self.reply}"


class LtAttributes(ctypes.Structure):
    """As lt_attributes in include/lucernetick.h."""

    _fields_ = [
        ("size", ctypes.c_uint64),
        ("given", ctypes.c_uint32),
        ("uid", ctypes.c_uint32),
        ("gid", ctypes.c_uint32),
        ("permissions", ctypes.c_uint32),
        ("atime", ctypes.c_uint32),
        ("mtime", ctypes.c_uint32),
    ]

    def read(self) -> Attributes:
        size, owner, mode, times = (bool(self.given & bit) for bit in (1, 2, 4, 8))
        return Attributes(
            self.size if size else None,
            self.uid if owner else None,
            self.gid if owner else None,
            self.permissions if mode else None,
            self.atime if times else None,
            self.mtime if times else None,
        )


class LtBytes(ctypes.Structure):
    """As lt_bytes in include/lucernetick.h."""

    _fields_ = [("at", ctypes.c_void_p), ("length", ctypes.c_size_t)]

    @classmethod
    def of(cls, data: bytes) -> LtBytes:
        """The caller keeps `data` alive until the library has returned."""
        return cls(ctypes.cast(ctypes.c_char_p(data), ctypes.c_void_p), len(data))

    def read(self) -> bytes:
        return ctypes.string_at(self.at, self.length)


class LtCall(ctypes.Structure):
    """As lt_call in include/lucernetick.h."""

    _fields_ = [
        ("number", ctypes.c_uint64),
        ("session", ctypes.c_uint64),
        ("moment", ctypes.c_uint32),
        ("kind", ctypes.c_uint32),
        ("path", LtBytes),
        ("new_path", LtBytes),
        ("handle", ctypes.c_uint64),
        ("offset", ctypes.c_uint64),
        ("length", ctypes.c_uint64),
        ("flags", ctypes.c_uint32),
        ("answer", ctypes.c_uint32),
        ("attributes", LtAttributes),
        ("written", LtBytes),
        ("status", ctypes.c_uint32),
        ("names", ctypes.c_uint32),
        ("answer_handle", ctypes.c_uint64),
        ("answer_attributes", LtAttributes),
        ("answer_bytes", LtBytes),
    ]

    def read(self) -> Call:
        kind = Kind(self.kind)
        data = kind in (Kind.READ, Kind.WRITE)
        by_handle = data or kind in (Kind.CLOSE, Kind.FSTAT, Kind.FSETSTAT, Kind.READDIR)
        return Call(
            number=self.number,
            session=self.session,
            moment=self.moment,
            kind=kind,
            path=text(self.path.read()) or None,
            new_path=text(self.new_path.read()) or None,
            handle=self.handle if by_handle else None,
            offset=self.offset if data else None,
            length=self.length if data else None,
            flags=self.flags if kind == Kind.OPEN else None,
            data=self.written.read(),
            attributes=self.attributes.read(),
            reply=self.reply(),
        )

    def reply(self) -> Reply:
        kind, data = Answer(self.answer), self.answer_bytes.read()
        return Reply(
            kind=kind,
            status=self.status if kind <= Answer.STATUS else None,
            handle=self.answer_handle if kind == Answer.HANDLE else None,
            data=data if kind == Answer.DATA else b"",
            names=tuple(map(text, data.split(b"\0")[:-1])) if kind == Answer.NAMES else (),
            attributes=self.answer_attributes.read(),
        )


def text(path: bytes) -> str:
    return path.decode("utf-8", "surrogateescape")


def path_bytes(path: Union[str, bytes]) -> bytes:
    return path.encode("utf-8", "surrogateescape") if isinstance(path, str) else path


library.lt_calls.restype = ctypes.c_int64
library.lt_calls.argtypes = [ctypes.c_void_p, ctypes.c_uint64, ctypes.POINTER(LtCall)]


BEYOND = 2**63
"""No record has this place, so `lt_calls` only returns their count."""


def read_call(engine: Optional[int], at: int, record: LtCall) -> Union[Call, int]:
    """The record at this place: a call, or the number of a session that ended."""
    library.lt_calls(engine, at, record)
    return record.read() if record.kind else int(record.session)


def read_calls(engine: Optional[int]) -> Iterator[Call]:
    """The records of calls that the library keeps, from the oldest on."""
    record = LtCall()
    for at in range(library.lt_calls(engine, BEYOND, record)):
        found = read_call(engine, at, record)
        if isinstance(found, Call):
            yield found


class Records:
    """Reads each record of an engine once, after it was added."""

    def __init__(self, limit: int) -> None:
        """The library keeps the last `limit` records, or all for 0."""
        self._limit = limit
        self._count = 0
        self._last: Union[Call, int, None] = None
        self._record = LtCall()
        self._highest = 0
        self.missed = 0
        """How many calls were dropped before they were read, by the last `news`."""

    def news(self, engine: Optional[int]) -> list[Union[Call, int]]:
        """The records that were added since the last time, from the oldest on. If more than the
        limit were added, the oldest of them are missing: these are calls of one session, with
        consecutive numbers."""
        record = self._record
        count = library.lt_calls(engine, BEYOND, record)
        if count != self._limit or not count:
            found = [read_call(engine, at, record) for at in range(self._count, count)]
        else:
            found = self._last_ones(engine, count)
        self._count = max(count, 0)
        numbers = [one.number for one in found if isinstance(one, Call)]
        self.missed = 0
        if len(found) == self._limit and numbers:
            self.missed = max(numbers[0] - self._highest - 1, 0)
        self._highest = max([self._highest, *numbers])
        if found:
            self._last = found[-1]
        return found

    def _last_ones(self, engine: Optional[int], count: int) -> list[Union[Call, int]]:
        """The records after the last one that was read."""
        found: list[Union[Call, int]] = []
        for at in range(count - 1, -1, -1):
            one = read_call(engine, at, self._record)
            if is_same(one, self._last):
                break
            found.append(one)
        return found[::-1]


def is_same(one: Union[Call, int], other: Union[Call, int, None]) -> bool:
    """Whether two records are the same one: the numbers of calls are unique, and a session ends
    once."""
    if isinstance(one, Call):
        return isinstance(other, Call) and one.number == other.number
    return one == other


LETTERS = dict(zip(b'\a\b\t\n\v\f\r\\"', 'abtnvfr\\"'))


def escaped(path: str) -> str:
    """A path in printable ASCII, as in the log of OpenSSH's server: other bytes as a letter or as
    octal digits. A quote is escaped too."""
    return "".join(map(escaped_byte, path_bytes(path)))


def escaped_byte(byte: int) -> str:
    if byte in LETTERS:
        return "\\" + LETTERS[byte]
    return chr(byte) if 32 <= byte < 127 else f"\\{byte:03o}"
