"""Requests that the package makes itself, in a session of its own."""

from __future__ import annotations

from typing import TYPE_CHECKING, Optional

from . import _arguments as arguments
from ._calls import Attributes, Kind
from ._faults import BlockedError, EndedError, Refusal, StatusError
from ._flags import OpenFlag
from ._library import STATUS_BASE, library, message
from ._requests import MODE, OWNER, SIZE, TIMES
from ._tree import Entry

if TYPE_CHECKING:
    from ._engine import Engine

STATUS, EXTENDED = 101, 200
BLOCKED = 4
"""As `Turn.BLOCKED`."""
INIT = b"\0\0\0\5\1\0\0\0\3"
WRITTEN = 131072
"""How many bytes a WRITE has at most."""


def number(value: int, size: int = 4) -> bytes:
    return value.to_bytes(size, "big")


def string(data: bytes) -> bytes:
    return number(len(data)) + data


class Asker:
    """A session that makes one request after the other. It ends at the end of a `with`. The engine
    is locked meanwhile, so another session's pending call may block it."""

    def __init__(self, engine: Engine, moment: int) -> None:
        self._engine = engine
        self._moment = moment

    def __enter__(self) -> Asker:
        self._engine._lock.acquire()
        try:
            self._session = self._engine._checked(library.lt_open(self._engine._engine))
            self._send(INIT, "INIT")
        except BaseException:
            self._engine._lock.release()
            raise
        return self

    def __exit__(self, *_fault: object) -> None:
        library.lt_close(self._engine._engine, self._session)
        self._engine._has_moved()
        self._engine._lock.release()

    def ask(self, kind: Kind, path: str, *fields: bytes) -> bytes:
        """The body of the reply. Raises a status other than OK; `path` is for its message."""
        body = bytes([min(kind, EXTENDED)]) + number(1) + b"".join(fields)
        reply = self._send(string(body), f"{kind.name} {path}")[4:]
        code = int.from_bytes(reply[5:9], "big") if reply[0] == STATUS else 0
        if code:
            raise StatusError(code, message(STATUS_BASE - code), f"{kind.name} {path}")
        return reply

    def set_attributes(self, path: str, attributes: bytes) -> None:
        """`attributes` as SETSTAT has them."""
        self.ask(Kind.SETSTAT, path, string(encoded(path)), attributes)

    def make_directory(self, path: str) -> None:
        self.ask(Kind.MKDIR, path, string(encoded(path)), number(0))

    def link(self, old: str, new: str) -> None:
        extension = string(b"hardlink@openssh.com")
        self.ask(Kind.HARDLINK, new, extension, string(encoded(old)), string(encoded(new)))

    def write_file(self, path: str, size: int, pieces: tuple[tuple[int, bytes], ...]) -> None:
        """Creates a file of this size, with these bytes at their offsets."""
        flags = number(OpenFlag.WRITE | OpenFlag.CREATE | OpenFlag.EXCL)
        opened = self.ask(Kind.OPEN, path, string(encoded(path)), flags, number(0))
        handle, end = opened[5:], 0
        for offset, data in pieces:
            for at in range(0, len(data), WRITTEN):
                part = string(data[at : at + WRITTEN])
                self.ask(Kind.WRITE, path, handle, number(offset + at, 8), part)
            end = offset + len(data)
        if size > end:
            self.ask(Kind.FSETSTAT, path, handle, number(SIZE) + number(size, 8))
        self.ask(Kind.CLOSE, path, handle)

    def _send(self, packet: bytes, request: str) -> bytes:
        """The packet of the reply."""
        engine, session = self._engine, self._session
        engine._checked(library.lt_feed(engine._engine, session, packet, len(packet)))
        turn = engine._checked(library.lt_settle(engine._engine, session, self._moment, 1, None))
        engine._has_moved()
        reply = engine._output(session)
        if not reply:
            why = message(Refusal.IS_BLOCKED if turn == BLOCKED else Refusal.NO_REPLY)
            raise (BlockedError if turn == BLOCKED else EndedError)(f"{request}: {why}")
        engine._sent(session, len(reply))
        return reply


def encoded(path: str) -> bytes:
    return path.encode("utf-8", "surrogateescape")


def encoded_attributes(given: Attributes, entry: Optional[Entry]) -> bytes:
    """As SETSTAT has them. Ids and times are sent in pairs: one that isn't given is the entry's."""
    flags, fields = 0, b""

    def add(flag: int, names: tuple[str, ...], size: int = 4, most: int = arguments.LATEST) -> None:
        nonlocal flags, fields
        if all(getattr(given, name) is None for name in names):
            return
        flags |= flag
        for name in names:
            value = getattr(given, name)
            value = getattr(entry, name, 0) if value is None else value
            fields += number(arguments.integer(name, value, 0, most), size)

    add(SIZE, ("size",), 8, arguments.MOST)
    add(OWNER, ("uid", "gid"))
    add(MODE, ("permissions",))
    add(TIMES, ("atime", "mtime"))
    return number(flags) + fields
