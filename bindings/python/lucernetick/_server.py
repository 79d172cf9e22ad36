"""An engine behind connected sockets."""

from __future__ import annotations

import asyncio
import contextlib
import select
import socket
import threading
from typing import (
    TYPE_CHECKING,
    Iterator,
    NamedTuple,
    Optional,
    Protocol,
    Sequence,
    TextIO,
    Union,
)

from . import _arguments as arguments
from ._calls import Attributes, text
from ._clock import Clock, checked_clock, wall_clock
from ._closing import Closes
from ._engine import Engine, Session, Turn
from ._faults import Refusal, RefusedError
from ._lines import PIECE, REPLIES, Faults, FaultyLine, Line
from ._log import Log, is_text
from ._permissions import names_of
from ._reaching import Shows
from ._rules import Refuses
from ._tree import Files, Tree
from ._users import User
from ._watching import Watches

if TYPE_CHECKING:
    from _typeshed import WriteableBuffer

PATIENCE = 5.0
"""How many seconds `close` waits for each thread."""


class Connection(socket.socket):
    """The client's end of a connection: a socket with the methods that `paramiko.SFTPClient` needs
    of a channel."""

    session: Session
    """Its session, for `refuse` and `wait_for_call`."""
    chunk: Optional[int] = None
    """The client receives at most this many bytes at a time."""
    _line: Optional[Line] = None

    def recv(self, bufsize: int, flags: int = 0) -> bytes:
        return super().recv(self._at_most(bufsize), flags)

    def recv_into(self, buffer: WriteableBuffer, nbytes: int = 0, flags: int = 0) -> int:
        return super().recv_into(buffer, self._at_most(nbytes or memoryview(buffer).nbytes), flags)

    def _at_most(self, count: int) -> int:
        return count if self.chunk is None else min(count, self.chunk)

    @property
    def is_cut(self) -> bool:
        """Whether the connection was dropped by `cut_after`."""
        return self._line is not None and self._line.is_cut

    def get_name(self) -> str:
        """As paramiko's channels have it."""
        return "lucernetick"

    def recv_ready(self) -> bool:
        """Whether there are bytes to receive, or the end of the stream."""
        return bool(select.select([self], [], [], 0)[0])


class Served(NamedTuple):
    """A connection: both of its ends, and the thread that serves it."""

    connection: Connection
    line: Line
    thread: threading.Thread

    @property
    def is_over(self) -> bool:
        """Whether the client has closed it, and its session has ended."""
        return self.connection.fileno() == -1 and not self.thread.is_alive()


class StreamReader(Protocol):
    """The methods of `asyncio.StreamReader` that are used."""

    async def read(self, n: int = -1) -> bytes:
        """Some bytes, at most `n`; none at the end."""


class StreamWriter(Protocol):
    """The methods of `asyncio.StreamWriter` that are used."""

    def write(self, data: bytes) -> None:
        """Buffers bytes."""

    async def drain(self) -> None:
        """Waits while the buffer is full."""

    def write_eof(self) -> None:
        """Ends the stream."""

    def close(self) -> None:
        """Closes it."""


def as_log(log: Union[None, Log, TextIO]) -> Optional[Log]:
    """A log, or a log on a text file."""
    if log is None or isinstance(log, Log):
        return log
    if not is_text(log):
        raise TypeError(f"log must be a Log or a text file, not {type(log).__name__}")
    return Log(log)


def as_engine(engine: Optional[Engine]) -> Engine:
    if engine is not None and not isinstance(engine, Engine):
        raise TypeError(f"engine must be an Engine, not {type(engine).__name__}")
    return Engine() if engine is None else engine


async def _pass_on(reader: StreamReader, writer: StreamWriter) -> None:
    """Copies a stream to its end. What the writer can't send is dropped."""
    is_lost = False
    with contextlib.suppress(ConnectionError):
        while data := await reader.read(PIECE):
            try:
                if not is_lost:
                    writer.write(data)
                    await writer.drain()
            except ConnectionError:
                is_lost = True
    with contextlib.suppress(ConnectionError):
        writer.write_eof()


class Server(Closes, Shows, Refuses, Watches):
    """Serves sessions on one tree over connected sockets, each in a thread.

        with lucernetick.Server() as server:
            client = paramiko.SFTPClient(server.connect())
            client.mkdir("/a")

    At the end of the `with` its connections are closed, and its engine too if it made that itself.

    If a clock, a callback or anything else in a thread raises an exception, all connections are
    closed. The next method raises `StoppedError` with that exception, and so does `close`.
    """

    def __init__(
        self,
        engine: Optional[Engine] = None,
        clock: Clock = wall_clock,
        log: Union[None, Log, TextIO] = None,
    ) -> None:
        """Serves this engine, or a new one. Each call begins with a timestamp of `clock`. What
        clients do from now on is written to `log`, a `Log` or a text file."""
        self._begin()
        self.clock = checked_clock(clock)
        found = as_log(log)
        self.engine = as_engine(engine)
        if found is not None:
            self.engine._watch(found)
        self._owned = engine is None
        self._served: list[Served] = []
        self._left = False

    def connect(
        self,
        *,
        cut_after: Optional[int] = None,
        delay: float = 0.0,
        bandwidth: Optional[float] = None,
        chunk: Optional[int] = None,
    ) -> Connection:
        """Opens a session, and returns the client's end of its connection. Closing that ends the
        session.

        The parameters inject faults, see `Faults`: `cut_after` bytes in one direction the
        connection is dropped, each reply has a latency of `delay` seconds, each direction has at
        most `bandwidth` bytes per second, and the client receives at most `chunk` bytes at a time.
        """
        return self._open(Faults(cut_after, delay, bandwidth, chunk))

    def _log_in(self, users: Sequence[User]) -> None:
        """From now on these users open sessions."""
        self._check()
        for user in users:
            root = text(arguments.normal(arguments.path("root", user.root)))
            with Tree(self.engine) as tree:
                is_missing = tree.find(names_of(root)) is None
            if is_missing:
                self.write_files({root: None})
                self.engine.set_attributes(root, Attributes(uid=user.uid, gid=user.gid))

    def _connect(self, user: User, faults: Faults) -> Connection:
        return self._open(faults, user)

    def _open(self, faults: Faults, user: Optional[User] = None) -> Connection:
        self._check()
        session = self.engine.open(root="/" if user is None else user.root)
        if user is not None and user.uid:
            self.enforce_permissions(uid=user.uid, gid=user.gid, session=session)
        try:
            ours, theirs = socket.socketpair()
        except OSError:
            session.close()
            raise
        line = Line(theirs) if faults == Faults(chunk=faults.chunk) else FaultyLine(theirs, faults)
        connection = Connection(fileno=ours.detach())
        connection.session = session
        connection.chunk = faults.chunk
        connection._line = line
        thread = threading.Thread(
            target=self._serve, args=(session, line), name=repr(session), daemon=True
        )
        with self.engine._lock:
            self._served = [served for served in self._served if not served.is_over]
            self._served.append(Served(connection, line, thread))
        thread.start()
        return connection

    async def serve(self, reader: StreamReader, writer: StreamWriter) -> None:
        """Serves one session over asyncio's streams, to its end. It is a callback for
        `asyncio.start_unix_server`."""
        back, forth = await asyncio.open_connection(sock=self.connect())
        to_server = asyncio.ensure_future(_pass_on(reader, forth))
        try:
            await _pass_on(back, writer)
        finally:
            to_server.cancel()
            forth.close()
            writer.close()

    def write_files(self, files: Files, *, moment: Optional[int] = None) -> None:
        """Creates or replaces files, see `Engine.write_files`. Without `moment` their times are
        those of the clock."""
        self._check()
        moment = self._now() if moment is None else moment
        self.engine.write_files(files, moment=moment)

    def close(self) -> None:
        """Closes all connections at both ends, and waits for their threads."""
        if self._is_forked:
            for served in self._served:
                served.connection.close()
                served.line.forget()
            return
        self._stop()
        for served in self._served:
            served.thread.join(PATIENCE)
            served.connection.close()
        if self._owned:
            self.engine.close()
        self._check()

    def _stop(self) -> None:
        """Closes the connections at the server's end."""
        with self.engine._moved:
            self._left = True
            self.engine._moved.notify_all()
            served = list(self._served)
        for one in served:
            one.line.shutdown()

    def _fail(self, fault: BaseException) -> None:
        """A thread has ended by an exception."""
        with self.engine._moved:
            if self._fault is None:
                self._fault = fault
        self._stop()

    @contextlib.contextmanager
    def _reach(self) -> Iterator[Engine]:
        self._check()
        yield self.engine

    def _now(self) -> int:
        return arguments.timestamp("the clock's result", self.clock())

    def _serve(self, session: Session, line: Line) -> None:
        """Serves a session until its client, it or the engine ends."""
        # The fault is known before the client sees the end of its connection.
        with contextlib.closing(line), self._reporting():
            self._pump(session, line)
        with self._reporting():
            self._leave(session)

    @contextlib.contextmanager
    def _reporting(self) -> Iterator[None]:
        """An exception ends the server, unless its engine was closed."""
        try:
            yield
        except BaseException as fault:
            is_closed = isinstance(fault, RefusedError) and fault.refusal == Refusal.BAD_POINTER
            if not is_closed:
                self._fail(fault)

    def _pump(self, session: Session, line: Line) -> None:
        """Passes bytes on in both directions, until the client or the session ends."""
        while data := line.recv():
            session.feed(data)
            if self._settle(session, line).has_ended or self._left:
                return

    def _settle(self, session: Session, line: Line) -> Turn:
        """Takes the session's turns until it waits for bytes or has ended, and sends its
        replies."""
        while True:
            turn = self._turns(session, line.replies)
            if output := session.take():
                line.sendall(output)
            if turn not in (Turn.SPENT, Turn.BLOCKED) or self._left:
                return turn

    def _turns(self, session: Session, replies: int = REPLIES) -> Turn:
        """Takes the turns of this many replies. If the call of another session blocks it, it waits
        until a session has moved. No call is pending while its client is slow to read, so a slow
        client blocks no other."""
        with self.engine._moved:
            turn = session.settle(self._now(), replies)
            if turn == Turn.BLOCKED and not session.output() and not self._left:
                self.engine._moved.wait()
            return turn

    def _leave(self, session: Session) -> None:
        """Ends a session after its client has left. Its pending call completes."""
        session.close()
        while self._turns(session) in (Turn.SPENT, Turn.BLOCKED) and not self._left:
            session.take()
