"""An engine and its sessions: bytes and timestamps in, bytes out."""

from __future__ import annotations

import contextlib
import ctypes
import enum
import os
import threading
import weakref
from collections import deque
from typing import Any, Iterator, NoReturn, Optional, Union

from . import _arguments as arguments
from ._asking import Asker, encoded_attributes
from ._calls import Attributes, Call, Kind, LtBytes, Records, read_calls, text
from ._faults import DroppedError, Error, Refusal, RefusedError
from ._flags import OpenFlag
from ._folders import Skip, Snapshot, read_folder
from ._library import library
from ._log import Log
from ._requests import Packets, below_root, read_request, refused_packet
from ._rules import ALWAYS, LtRule, Refuses, Rule, Status
from ._tree import Files, Tree, read_tree, write_tree
from ._watching import Hook, Watches
from ._writing import write_folder

ROOM = 65536
LEAST_KEPT = 512
"""More records than one turn adds, which may complete the calls of all sessions."""
NAMING = {Kind.OPEN, Kind.CLOSE, Kind.MKDIR, Kind.RENAME, Kind.POSIX_RENAME, Kind.HARDLINK}
"""The kinds after which there may be a new file at a path."""
SHAPING = {
    Kind.SETSTAT,
    Kind.FSETSTAT,
    Kind.MKDIR,
    Kind.RMDIR,
    Kind.REMOVE,
    Kind.RENAME,
    Kind.POSIX_RENAME,
    Kind.HARDLINK,
}
"""The kinds after which names and attributes may be others. An OPEN may create a file."""


class Turn(enum.IntEnum):
    """What a turn did, or why the session has ended."""

    IDLE = 0
    """Nothing: there is no complete packet to read."""
    WROTE = 1
    """It wrote a reply to the output."""
    BEGUN = 2
    """It read a request and began its call, with this turn's timestamp."""
    MOVED = 3
    """It made one step of its call."""
    BLOCKED = 4
    """Nothing: the call needs a mutex that another session's call holds."""
    DECIDED = 5
    """The call took effect. The next turn writes its reply."""
    SPENT = 6
    """Only of `settle`: it wrote as many replies as allowed."""
    NOT_INIT = 17
    """Ended: its first packet isn't INIT."""
    OLD_VERSION = 18
    """Ended: its client has a version below 3."""
    SECOND_INIT = 19
    """Ended: a later packet is INIT."""
    ZERO_LENGTH = 20
    """Ended: a packet of length 0."""
    TOO_LONG = 21
    """Ended: a packet longer than 262144 bytes."""
    NO_ID = 22
    """Ended: a packet without a complete id."""
    CLOSED = 23
    """Ended: it was closed."""

    @property
    def has_ended(self) -> bool:
        return self > Turn.SPENT


def checked(answer: int) -> int:
    """A result of the library. Raises its refusals."""
    if answer < 0:
        raise RefusedError(Refusal(answer))
    return answer


class Engine(Refuses, Watches):
    """One tree of files and any number of sessions on it. It has no clock and no thread.

    It is deterministic: the same calls return the same bytes. Threads may share an engine.
    """

    def __init__(self, keep: int = 0) -> None:
        """An engine with an empty tree. It keeps the records of its last `keep` calls, or of all
        calls for 0. Records take memory, with all bytes that were written and read."""
        self._lock = threading.RLock()
        self._moved = threading.Condition(self._lock)
        """Notified when a session did something, since others may have waited for it."""
        self._engine: Optional[int] = None
        self._keep = arguments.integer("keep", keep)
        kept = LEAST_KEPT if keep else 0
        self._engine = library.lt_new_keeping(kept)
        if not self._engine:
            raise RefusedError(Refusal.OUT_OF_MEMORY)
        self._log: Optional[Log] = None
        self._room = ctypes.create_string_buffer(ROOM)
        self._records = Records(kept)
        self._kept: deque[Call] = deque(maxlen=keep)
        """The last calls, if their number is limited. Otherwise the library keeps all."""
        self._recorded = 0
        self._changes = 0
        self._opened: dict[int, Call] = {}
        """The calls that opened the handles which are open."""
        self._packets: dict[int, Packets] = {}
        """Of each session that has not ended: what its client sent, and the library hasn't read."""
        self._roots: dict[int, bytes] = {}
        """The roots of sessions that don't see the whole tree."""
        self._fresh: set[int] = set()
        """The sessions that have read no packet."""
        self._rules: list[Rule] = []
        self._lost = b"/" + os.urandom(16).hex().encode()
        self._statuses: set[Status] = set()
        """For each of these the library has a rule for `_lost`."""
        self._hooks: list[Hook] = []
        self._modes: Optional[Tree] = None
        """A snapshot with the names and attributes of now, for permissions, or None."""
        self._is_forked = False
        ENGINES.add(self)

    @classmethod
    def from_files(cls, files: Files, *, moment: int = 0, keep: int = 0) -> Engine:
        """An engine with these files, see `write_files`."""
        engine = cls(keep)
        try:
            engine.write_files(files, moment=moment)
        except BaseException:
            engine.close()
            raise
        return engine

    @classmethod
    def from_folder(
        cls,
        folder: Union[str, os.PathLike[str]],
        *,
        moment: int = 0,
        keep: int = 0,
        attributes: bool = False,
        skip: Optional[Skip] = None,
    ) -> Engine:
        """An engine with the files of a folder: names, contents, and hard links. Holes of sparse
        files stay holes.

        With `attributes`, permissions, owners and times are copied, as by `sftpd --tree`. Without,
        they are the same on each machine, and the times are `moment`.

        Raises `ValueError` if there is anything but files and directories, as a symbolic link.
        With `skip`, such entries are skipped: it is called with the path of each and its kind.
        Raises `ValueError` or `OSError` if a file changes so that it can't be read.
        """
        timestamp = arguments.timestamp("moment", moment)
        found = read_folder(os.fspath(folder), skip)
        engine = cls(keep)
        try:
            write_folder(engine, found, timestamp, attributes)
        except BaseException:
            engine.close()
            raise
        return engine

    def write_files(self, files: Files, *, moment: int = 0) -> None:
        """Creates or replaces files. Missing parent directories are created.

        Keys are paths. Values are contents (bytes-like), None for a directory, or `Link(path)` for
        a hard link to the file at that path. Links are made last, in their order. A link fails with
        `StatusError` if its own path exists. The files' times are `moment`.

        The files are written by requests, in sessions of their own. What was written before an
        error stays.
        """
        write_tree(self, files, arguments.timestamp("moment", moment))

    def set_attributes(
        self, path: arguments.Path, attributes: Attributes, *, moment: int = 0
    ) -> None:
        """Sets those of a file or a directory that aren't None, by a request of a session of its
        own. A new size sets the file's mtime to `moment`. Raises `StatusError` if there is no such
        path, and for the root."""
        name = text(arguments.normal(arguments.path("path", path)))
        begins = arguments.timestamp("moment", moment)
        if not isinstance(attributes, Attributes):
            why = f"attributes must be Attributes, not {type(attributes).__name__}"
            raise TypeError(why)
        with self._moved:
            self._check()
            encoded = encoded_attributes(attributes, self.snapshot().get(name))
            with Asker(self, begins) as asker:
                asker.set_attributes(name, encoded)

    def snapshot(self) -> Snapshot:
        """The whole tree by paths. A directory precedes its entries, `/` is first, and names are
        sorted by their bytes. Names that aren't UTF-8 are decoded as by `os.fsdecode`.

        It has exactly the calls that took effect so far, and waits for none. It makes no request:
        no session opens, no call is recorded, and no time changes.
        """
        with self._lock:
            self._check()
        return Snapshot(read_tree(self))

    def run_all(self) -> int:
        """Completes all pending calls. In each round, every session with a pending call takes one
        turn, in the order of session numbers. Returns the number of rounds. Later turns write the
        replies."""
        with self._moved:
            rounds = self._checked(library.lt_run_all(self._engine))
            if rounds:
                self._has_moved()
            return rounds

    def calls(self) -> list[Call]:
        """The records of all calls, in the order in which they took effect. The calls of
        `write_files` are among them, with sessions of their own.

        Raises `DroppedError` if the engine has a limit (`keep`) and has dropped its oldest records,
        see `last_calls`.
        """
        with self._lock:
            found = self.last_calls()
            if self.dropped:
                why = f"{self.dropped} calls were dropped: the engine keeps the last {self._keep}"
                raise DroppedError(f"{why}; use Engine(keep=0), or last_calls() for those left")
            return found

    def last_calls(self) -> list[Call]:
        """The records that are kept, see `calls`."""
        with self._lock:
            self._check()
            return list(self._kept if self._keep else read_calls(self._engine))

    @property
    def dropped(self) -> int:
        """The number of records that were dropped, since the engine has a limit (`keep`)."""
        with self._lock:
            self._check()
            return self._recorded - len(self._kept) if self._keep else 0

    def open(self, *, root: arguments.Path = "/") -> Session:
        """Opens a session. At most 256 are open at a time. Its client sees the directory `root` of
        the tree as `/`."""
        top = arguments.normal(arguments.path("root", root))
        with self._lock:
            session = self._checked(library.lt_open(self._engine))
            self._packets[session] = Packets()
            if top != b"/":
                self._roots[session] = top
            self._fresh.add(session)
            if self._log:
                self._log.opened(session)
            return Session(self, session)

    def close(self) -> None:
        """Frees the engine. Later calls on it and its sessions are rejected."""
        with self._moved:
            engine, self._engine = self._engine, None
            self._drop_modes()
            if not self._is_forked:
                library.lt_free(engine)
            self._moved.notify_all()

    def __enter__(self) -> Engine:
        return self

    def __exit__(self, *_fault: object) -> None:
        self.close()

    def __del__(self) -> None:
        if getattr(self, "_engine", None):
            self.close()

    def __copy__(self) -> NoReturn:
        raise TypeError("an engine can't be copied")

    def __deepcopy__(self, _memo: Any) -> NoReturn:
        raise TypeError("an engine can't be copied")

    def __reduce__(self) -> NoReturn:
        raise TypeError("an engine can't be pickled")

    def _watch(self, log: Optional[Log]) -> None:
        """From now on this log has what clients do."""
        with self._lock:
            self._catch_up()
            self._log = log

    @contextlib.contextmanager
    def _reach(self) -> Iterator[Engine]:
        self._check()
        yield self

    def _check(self) -> None:
        """Raises an error if the engine was closed, or is the parent process's."""
        if self._is_forked:
            raise Error("an engine can't be used in a forked child process")
        if not self._engine:
            raise RefusedError(Refusal.BAD_POINTER)

    def _checked(self, answer: int) -> int:
        """A result of the library for this engine."""
        if answer == Refusal.BAD_POINTER:
            self._check()
        return checked(answer)

    def _in_child(self) -> None:
        """The process is a forked child. Its parent has the engine, and may have held the lock."""
        self._lock = threading.RLock()
        self._moved = threading.Condition(self._lock)
        self._engine = None
        self._modes = None
        self._is_forked = True

    def _has_moved(self) -> None:
        """A session did something."""
        self._moved.notify_all()
        if self._keep or self._log or self._hooks:
            self._catch_up()

    def _catch_up(self) -> None:
        """Reads the new records. Until they are needed, an engine that keeps all need not."""
        records = self._records.news(self._engine)
        if self._records.missed:
            self._drop_modes()
            self._recorded += self._records.missed
            self._kept.clear()
        for record in records:
            self._note(record)

    def _note(self, record: Union[Call, int]) -> None:
        """There is this new record."""
        if isinstance(record, Call):
            self._recorded += 1
            self._kept.append(record)
            self._changes += record.kind in NAMING
            if record.kind in SHAPING or (record.flags or 0) & OpenFlag.CREATE:
                self._drop_modes()
            if record.kind in (Kind.OPEN, Kind.OPENDIR) and record.reply.handle is not None:
                self._opened[record.reply.handle] = record
            elif record.kind == Kind.CLOSE and record.handle is not None:
                self._opened.pop(record.handle, None)
        else:
            left = [number for number, call in self._opened.items() if call.session == record]
            for number in left:
                del self._opened[number]
            self._rules = [rule for rule in self._rules if not rule._ends_with(record)]
            self._changes += bool(left)
        if self._log:
            self._log.note(record)
        if isinstance(record, Call):
            for hook in list(self._hooks):
                if hook._after:
                    hook._after(record)

    def _tree_now(self) -> Tree:
        """A snapshot with the names and attributes of now. All records were read."""
        if self._modes is None:
            self._modes = Tree(self)
        return self._modes

    def _drop_modes(self) -> None:
        if self._modes is not None:
            self._modes.free()
            self._modes = None

    def _changes_now(self) -> int:
        """Counts the calls after which there may be a new file at a path."""
        self._catch_up()
        return self._changes

    def _is_written(self, path: str) -> bool:
        """Whether a handle for writing that was opened with this path is open."""
        return any(
            call.path == path and (call.flags or 0) & OpenFlag.WRITE
            for call in self._opened.values()
        )

    def _hook(self, hook: Hook) -> Hook:
        with self._lock:
            self._check()
            self._catch_up()
            self._hooks.append(hook)
            return hook

    def _unhook(self, hook: Hook) -> None:
        with self._lock:
            if hook in self._hooks:
                self._hooks.remove(hook)

    def _feed(self, session: int, data: bytes) -> None:
        """The library gets one packet at a time, when it reads it: until then rules apply."""
        with self._lock:
            self._checked(library.lt_feed(self._engine, session, b"", 0))
            if session not in self._packets:
                raise RefusedError(Refusal.HAS_ENDED)
            self._packets[session].add(data)

    def _offer(self, session: int) -> None:
        """Gives the library the session's next packet, if it waits for one."""
        packets = self._packets.get(session)
        if packets is None or not packets.length():
            return
        if not self._checked(library.lt_wants_bytes(self._engine, session)):
            return
        packet = packets.first()
        if session not in self._fresh:
            if session in self._roots:
                packet = below_root(packet, self._roots[session])
            if self._rules or self._hooks:
                packet = self._ruled(session, packet)
        self._checked(library.lt_feed(self._engine, session, packet, len(packet)))
        packets.drop()
        self._fresh.discard(session)

    def _ruled(self, session: int, packet: bytes) -> bytes:
        """A packet, or if a rule rejects it, a REALPATH with its id to which the library replies
        with the rule's status."""
        self._catch_up()
        request = read_request(session, packet, self._opened)
        if request is None:
            return packet
        for hook in list(self._hooks):
            if hook._before:
                hook._before(request)
        for rule in list(self._rules):
            status = rule._judge(request)
            if status is not None:
                return refused_packet(packet, self._lost_by(status))
        for rule in list(self._rules):
            packet = rule._rewrite(request, packet)
        return packet

    def _lost_by(self, status: Status) -> bytes:
        """The path for which the library replies to REALPATH with this status."""
        path = self._lost + b"%d" % status
        if status not in self._statuses:
            rule = LtRule(0, 0, ALWAYS, LtBytes.of(path), Kind.REALPATH, status)
            self._checked(library.lt_refuse(self._engine, rule))
            self._statuses.add(status)
        return path

    def _turn(self, session: int, moment: int) -> Turn:
        with self._moved:
            self._offer(session)
            turn = Turn(self._checked(library.lt_turn(self._engine, session, moment)))
            if turn not in (Turn.IDLE, Turn.BLOCKED):
                self._has_moved()
            if turn.has_ended:
                self._packets.pop(session, None)
            return turn

    def _settle(self, session: int, moment: int, most: int) -> Turn:
        """Packet by packet."""
        moved = ctypes.c_bool()
        with self._moved:
            for _ in range(most):
                self._offer(session)
                answer = library.lt_settle(self._engine, session, moment, 1, moved)
                if moved or answer > Turn.SPENT:
                    self._has_moved()
                turn = Turn(self._checked(answer))
                if turn.has_ended:
                    self._packets.pop(session, None)
                if turn != Turn.SPENT:
                    return turn
            return Turn.SPENT

    def _wants_bytes(self, session: int) -> bool:
        with self._lock:
            packets = self._packets.get(session)
            wants = bool(self._checked(library.lt_wants_bytes(self._engine, session)))
            return wants and packets is not None and not packets.length()

    def _give(self, rule: Rule) -> Rule:
        with self._lock:
            self._check()
            self._rules.append(rule)
            return rule

    def _forget(self, rule: Rule) -> None:
        with self._lock:
            if rule in self._rules:
                self._rules.remove(rule)

    def _close(self, session: int) -> None:
        with self._moved:
            self._checked(library.lt_close(self._engine, session))
            self._packets.pop(session, None)
            self._fresh.discard(session)
            self._has_moved()

    def _output(self, session: int) -> bytes:
        with self._lock:
            waiting = self._checked(
                library.lt_output(self._engine, session, self._room, len(self._room))
            )
            if waiting > len(self._room):
                self._room = ctypes.create_string_buffer(waiting)
                library.lt_output(self._engine, session, self._room, waiting)
            return ctypes.string_at(self._room, waiting)

    def _sent(self, session: int, count: int) -> None:
        with self._lock:
            self._checked(library.lt_sent(self._engine, session, count))


ENGINES: weakref.WeakSet[Engine] = weakref.WeakSet()


def in_child() -> None:
    """After a fork, in the child: it has no thread of the servers', and must not share the parent's
    engines."""
    for engine in list(ENGINES):
        engine._in_child()


os.register_at_fork(after_in_child=in_child)


class Session:
    """One client's session with an engine."""

    def __init__(self, engine: Engine, number: int) -> None:
        self.engine = engine
        self.number = number

    def __repr__(self) -> str:
        return f"<lucernetick session {self.number}>"

    def feed(self, data: Union[bytes, bytearray, memoryview]) -> None:
        """Adds bytes that the client sent. They may be cut anywhere."""
        self.engine._feed(self.number, arguments.data("data", data))

    def turn(self, moment: int) -> Turn:
        """Takes one turn: writes a reply, makes one step of the call, or reads a packet. A call
        that begins has the timestamp `moment`, in seconds since 1970."""
        return self.engine._turn(self.number, arguments.timestamp("moment", moment))

    def settle(self, moment: int, most: int = 1_000_000) -> Turn:
        """Takes turns until one is IDLE or BLOCKED, the session has ended, or it has written `most`
        replies."""
        moment = arguments.timestamp("moment", moment)
        return self.engine._settle(self.number, moment, arguments.integer("most", most))

    def wants_bytes(self) -> bool:
        """Whether it waits for bytes of its client: it has no pending call and no complete packet
        to read, and hasn't ended."""
        return self.engine._wants_bytes(self.number)

    def output(self) -> bytes:
        """The bytes that wait to be sent to the client. If requests were rejected by a rule, the
        bytes up to the last such reply: those after it follow once these were sent."""
        return self.engine._output(self.number)

    def sent(self, count: int) -> None:
        """The first `count` bytes of the output were sent, and are dropped."""
        self.engine._sent(self.number, arguments.integer("count", count))

    def take(self) -> bytes:
        """All bytes that wait to be sent. They are dropped."""
        taken = b""
        with self.engine._lock:
            while waiting := self.output():
                self.sent(len(waiting))
                taken += waiting
        return taken

    def close(self) -> None:
        """Ends its input. A pending call completes, and its reply is written, by later turns."""
        self.engine._close(self.number)
