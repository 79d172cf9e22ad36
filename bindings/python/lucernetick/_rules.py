"""Rules: requests that are rejected because a test says so."""

from __future__ import annotations

import ctypes
import enum
import fnmatch
from typing import TYPE_CHECKING, Any, Callable, Iterable, Optional, Sequence, Union

from . import _arguments as arguments
from ._calls import Kind, LtBytes, text
from ._flags import OpenFlag
from ._library import library
from ._permissions import GUARDED, KEPT, Owner, Permissions, names_of
from ._reaching import Reaches
from ._requests import Request, with_ids

if TYPE_CHECKING:
    from ._engine import Engine, Session
    from ._server import Connection

ALWAYS = 2**64 - 1
CHANGES = {
    Kind.WRITE,
    Kind.SETSTAT,
    Kind.FSETSTAT,
    Kind.REMOVE,
    Kind.MKDIR,
    Kind.RMDIR,
    Kind.RENAME,
    Kind.POSIX_RENAME,
    Kind.HARDLINK,
}
"""The kinds that change the tree. An OPEN changes it by some of its flags."""
TO_CHANGE = OpenFlag.WRITE | OpenFlag.APPEND | OpenFlag.CREATE | OpenFlag.TRUNCATE


class Status(enum.IntEnum):
    """The codes of statuses."""

    OK = 0
    EOF = 1
    NO_SUCH_FILE = 2
    PERMISSION_DENIED = 3
    FAILURE = 4
    BAD_MESSAGE = 5
    OP_UNSUPPORTED = 8


class Rule:
    """A rule that `refuse` has given. It holds until its `end`, or to the end of a `with`."""

    def __init__(
        self,
        engine: Engine,
        matches: Callable[[Request], bool],
        after: int,
        after_bytes: Optional[int],
        times: Optional[int],
        status: Status,
    ) -> None:
        self._engine = engine
        self._matches = matches
        self._after = after
        self._bytes_left = after_bytes
        self._times = times
        self._status = status
        self._refused = 0

    def __repr__(self) -> str:
        return f"<lucernetick rule: {self._status.name}, refused {self._refused}>"

    @property
    def refused(self) -> int:
        """How many requests it has rejected so far."""
        with self._engine._lock:
            self._engine._check()
            return self._refused

    def end(self) -> None:
        """Ends the rule: it rejects no further request."""
        self._engine._forget(self)

    def __enter__(self) -> Rule:
        return self

    def __exit__(self, *_fault: object) -> None:
        self.end()

    def _judge(self, request: Request) -> Optional[Status]:
        """The status of a request that it rejects."""
        if self._times == 0 or not self._matches(request):
            return None
        if self._after:
            self._after -= 1
            return None
        if self._bytes_left is not None and self._bytes_left >= len(request.data):
            self._bytes_left -= len(request.data)
            return None
        if self._times is not None:
            self._times -= 1
        self._refused += 1
        return self._status

    def _rewrite(self, request: Request, packet: bytes) -> bytes:
        """The packet of a request that no rule rejects."""
        return packet

    def _ends_with(self, session: int) -> bool:
        """Whether it is of a session that has ended."""
        return False


class PermissionRule(Rule):
    """Rejects what permissions deny to a user, who owns what it creates."""

    def __init__(self, engine: Engine, owner: Owner, session: int) -> None:
        super().__init__(engine, self._denies, 0, None, None, Status.PERMISSION_DENIED)
        self._owner = owner
        self._session = session

    def _applies(self, request: Request) -> bool:
        return self._session in (0, request.session)

    def _denies(self, request: Request) -> bool:
        if self._owner.uid == 0 or request.kind not in GUARDED or not self._applies(request):
            return False
        find = self._engine._tree_now().find
        top = names_of(text(self._engine._roots.get(request.session, b"/")))
        return Permissions(self._owner, find, top).deny(request)

    def _rewrite(self, request: Request, packet: bytes) -> bytes:
        if self._applies(request) and request.kind in (Kind.OPEN, Kind.MKDIR):
            return with_ids(packet, self._owner.uid, self._owner.gid)
        return packet

    def _ends_with(self, session: int) -> bool:
        return session == self._session


class LtRule(ctypes.Structure):
    """As lt_rule in include/lucernetick.h."""

    _fields_ = [
        ("session", ctypes.c_uint64),
        ("pass", ctypes.c_uint64),
        ("refuse", ctypes.c_uint64),
        ("path", LtBytes),
        ("kind", ctypes.c_uint32),
        ("status", ctypes.c_uint32),
    ]


library.lt_refuse.restype = ctypes.c_int64
library.lt_refuse.argtypes = [ctypes.c_void_p, ctypes.POINTER(LtRule)]


class Refuses(Reaches):
    """Gives rules to an engine."""

    def refuse(
        self,
        *,
        session: Union[None, Session, Connection, int] = None,
        kind: Union[None, Kind, Iterable[Kind]] = None,
        path: Optional[arguments.Path] = None,
        flags: Optional[int] = None,
        when: Optional[Callable[[Request], bool]] = None,
        after: int = 0,
        after_bytes: Optional[int] = None,
        times: Optional[int] = 1,
        status: int = Status.FAILURE,
    ) -> Rule:
        """Rejects requests from now on: the reply is this status, and the request never reaches the
        tree. No call is recorded.

        - `session`: requests of this session or connection only.
        - `kind`: requests of this kind, or of one of several kinds.
        - `path`: requests for this path, in any spelling. A request by handle, as WRITE, matches by
          the path that the handle was opened with. A name may have the wildcards `*`, `?` and
          `[abc]`, and the name `**` stands for any number of names. `glob.escape` escapes them.
        - `flags`: OPEN requests that have all of these `OpenFlag` bits.
        - `when`: requests for which this function returns true.

        Of the requests that match, the first `after` pass, and WRITEs of `after_bytes` bytes in
        total. Then the next `times` are rejected, or all for None, and later ones pass again.
        If several rules match, the oldest one that rejects the request counts it. INIT and a
        request that the server has begun to read are never rejected.
        """
        kinds = as_kinds(kind, flags, after_bytes)
        pattern = None if path is None else as_pattern(path)
        bits = 0 if flags is None else arguments.integer("flags", flags, 1, 2**32 - 1)
        arguments.function("when", when)

        def matches(request: Request) -> bool:
            return (
                (not number or request.session == number)
                and (kinds is None or request.kind in kinds)
                and (not bits or (request.flags or 0) & bits == bits)
                and (pattern is None or names_path(request, pattern))
                and (when is None or bool(when(request)))
            )

        words = (
            arguments.integer("after", after),
            None if after_bytes is None else arguments.integer("after_bytes", after_bytes),
            None if times is None else arguments.integer("times", times),
            as_status(status),
        )
        with self._reach() as engine:
            number = session_number(session, engine)
            return engine._give(Rule(engine, matches, *words))

    def disk_full(self, after: int = 0) -> Rule:
        """Simulates a disk with room for `after` more bytes: a WRITE that doesn't fit fails until
        the rule ends, and takes no room."""
        return self.refuse(kind=Kind.WRITE, after_bytes=after, times=None)

    def read_only(self, path: Optional[arguments.Path] = None) -> Rule:
        """Makes the tree, or what this pattern matches, read-only for clients. Requests that would
        change it fail with PERMISSION_DENIED until the rule ends."""
        return self.refuse(
            path=path, when=would_change, times=None, status=Status.PERMISSION_DENIED
        )

    def enforce_permissions(
        self,
        *,
        uid: int,
        gid: int,
        session: Union[None, Session, Connection, int] = None,
    ) -> Rule:
        """Enforces permission bits as POSIX does, for a client that is this user, of this group:
        all clients, or that of a session. What they deny fails with PERMISSION_DENIED until the
        rule ends. The user 0 may do anything.

        - Each directory of a path needs the permission to search it (x); OPEN and OPENDIR need
          those to read or write. To create, remove, rename or link an entry, its directory needs
          the permission to write, and with the sticky bit the user must own one of them.
        - Only the owner sets permissions and times, and only the user 0 another owner. An id of
          4294967295 stays as it is.
        - What the client creates belongs to this user and group.

        Permissions are those at the time when the request is read, and a handle keeps those that it
        was opened with. `Engine.set_attributes` sets the owner and the mode of a path.
        """
        owner = Owner(
            arguments.integer("uid", uid, 0, KEPT - 1), arguments.integer("gid", gid, 0, KEPT - 1)
        )
        with self._reach() as engine:
            number = session_number(session, engine)
            return engine._give(PermissionRule(engine, owner, number))


def would_change(request: Request) -> bool:
    return request.kind in CHANGES or bool((request.flags or 0) & TO_CHANGE)


def as_kinds(kind: Any, flags: Any, after_bytes: Any) -> Optional[frozenset[Kind]]:
    """The kinds that a rule matches; None for all. Flags are those of OPEN, and bytes are those of
    WRITE."""
    kinds = None if kind is None else given_kinds(kind)
    needs = ("flags", flags, Kind.OPEN), ("after_bytes", after_bytes, Kind.WRITE)
    for name, value, only in needs:
        if value is None:
            continue
        if kinds not in (None, {only}):
            raise ValueError(f"{name} needs kind=Kind.{only.name}, or no kind")
        kinds = frozenset((only,))
    return kinds


def given_kinds(kind: Any) -> frozenset[Kind]:
    """A kind, or several. A number may be two that were joined like flags."""
    try:
        kinds = frozenset([kind] if isinstance(kind, (int, str)) else kind)
    except TypeError:
        kinds = frozenset()
    if not kinds or not all(isinstance(one, Kind) for one in kinds):
        raise TypeError(f"kind must be a Kind or some Kinds, not {kind!r}")
    return kinds


def as_status(status: Any) -> Status:
    try:
        return Status(status)
    except ValueError:
        names = ", ".join(f"Status.{one.name}" for one in Status)
        raise ValueError(f"status must be one of {names}, not {status!r}") from None


def session_number(session: Any, engine: Engine) -> int:
    """The number of a session or a connection of this engine; 0 for all."""
    if session is None:
        return 0
    session = getattr(session, "session", session)
    if getattr(session, "engine", engine) is not engine:
        raise ValueError("session must be of this engine, and is of another one")
    return arguments.integer("session", getattr(session, "number", session), 1)


def as_pattern(path: arguments.Path) -> list[str]:
    """The names of a path, which may have wildcards."""
    return as_names(text(arguments.normal(arguments.path("path", path))))


def as_names(path: str) -> list[str]:
    return path.split("/")[1:] if path != "/" else []


def names_path(request: Request, pattern: Sequence[str]) -> bool:
    paths = (request.path, request.new_path)
    return any(path is not None and fits(as_names(path), pattern) for path in paths)


def fits(names: Sequence[str], pattern: Sequence[str]) -> bool:
    """Whether names match a pattern, name by name."""
    if not pattern:
        return not names
    if pattern[0] == "**":
        return any(fits(names[at:], pattern[1:]) for at in range(len(names) + 1))
    return (
        bool(names)
        and fnmatch.fnmatchcase(names[0], pattern[0])
        and fits(names[1:], pattern[1:])
    )
