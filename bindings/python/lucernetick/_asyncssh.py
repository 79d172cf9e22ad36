"""The SSH server of `SshServer`, by asyncssh. No other module imports asyncssh."""

from __future__ import annotations

import asyncio
import contextlib
import errno
import logging
import os
import secrets
from typing import Any, Callable, Iterable, Optional, Sequence, Union, cast

import asyncssh

from ._faults import Error
from ._lines import Faults
from ._races import Races
from ._server import Connection, Server
from ._users import User

SHORT = (errno.EMFILE, errno.ENFILE)
"""The errors if descriptors run out."""
LOG = logging.getLogger("lucernetick")
KIND = "ssh-ed25519"
HOST_KINDS = (KIND, "ecdsa-sha2-nistp256")
"""The second one is for clients without Ed25519, as JSch."""
ATTEMPTS = 6
"""How many wrong passwords a connection may send."""
DELAY = 2.0
"""How many seconds later it is closed."""


class Listener:
    """Listens at a port. A client that has a user's password or one of the keys gets sessions on
    the tree, and nothing else."""

    def __init__(
        self,
        server: Union[Server, Races],
        users: Sequence[User],
        key_files: Iterable[Union[str, os.PathLike[str]]],
        host_key: Union[None, str, os.PathLike[str]],
        faults: Callable[[int], Faults],
    ) -> None:
        self.server = server
        self.users = {user.name: user for user in users}
        self.faults = faults
        self.sessions = 0
        self.host_keys = (
            [asyncssh.generate_private_key(kind) for kind in HOST_KINDS]
            if host_key is None
            else [asyncssh.read_private_key(os.fspath(host_key))]
        )
        self.client_key = asyncssh.generate_private_key(KIND)
        self.known = {asyncssh.read_public_key(os.fspath(name)).public_data for name in key_files}
        self.known.add(self.client_key.public_data)
        self.acceptor: Optional[asyncssh.SSHAcceptor] = None
        self.connections: set[asyncssh.SSHServerConnection] = set()
        self.lines: set[asyncio.Transport] = set()
        self.is_short = False
        """Whether descriptors ran out, and no connection was accepted since."""

    async def listen(self, host: str, port: int) -> int:
        """Returns the port."""
        asyncio.get_running_loop().set_exception_handler(self.on_error)
        self.acceptor = await asyncssh.listen(
            host,
            port,
            server_host_keys=self.host_keys,
            server_factory=lambda: Login(self),
            encoding=None,
            line_editor=False,
            allow_pty=False,
            agent_forwarding=False,
        )
        return int(self.acceptor.sockets[0].getsockname()[1])

    async def close(self) -> None:
        """Closes all connections, and ends their sessions."""
        if self.acceptor:
            self.acceptor.close()
        cut = list(self.connections)
        for connection in cut:
            connection.abort()
        for connection in cut:
            await connection.wait_closed()
        rest = asyncio.all_tasks() - {asyncio.current_task()}
        for task in rest:
            task.cancel()
        await asyncio.gather(*rest, return_exceptions=True)
        for line in list(self.lines):
            line.abort()
        await asyncio.sleep(0)
        # Its threads have looked up addresses.
        await asyncio.get_running_loop().shutdown_default_executor()

    def connect(self, user: User) -> Optional[Connection]:
        """A session; None if there is no room, or the server has stopped."""
        self.sessions += 1
        try:
            faults = self.faults(self.sessions)
            try:
                return self.server._connect(user, faults)
            except (Error, OSError) as fault:
                if not isinstance(fault, Error) and fault.errno not in SHORT:
                    raise
                LOG.warning("a session was rejected: %s", fault)
        except Exception as fault:
            self.server._fail(fault)
        return None

    def on_error(self, loop: asyncio.AbstractEventLoop, context: dict[str, Any]) -> None:
        """An error of the event loop. If there are no descriptors for connections, asyncio tries
        again each second, and reports each attempt."""
        fault = context.get("exception")
        if not isinstance(fault, OSError) or fault.errno not in SHORT:
            loop.default_exception_handler(context)
        elif not self.is_short:
            self.is_short = True
            LOG.warning("connections wait: %s", fault.strerror)


class Login(asyncssh.SSHServer):
    """A connection: its login, and its channels. asyncssh rejects what isn't accepted here, as
    forwarding of ports and sockets."""

    def __init__(self, listener: Listener) -> None:
        self.listener = listener
        self.failures = 0

    def connection_made(self, conn: asyncssh.SSHServerConnection) -> None:
        self.connection = conn
        self.listener.connections.add(conn)
        self.listener.is_short = False

    def connection_lost(self, exc: Optional[Exception]) -> None:
        self.listener.connections.discard(self.connection)

    def begin_auth(self, username: str) -> bool:
        return True

    def password_auth_supported(self) -> bool:
        return True

    async def validate_password(self, username: str, password: str) -> bool:
        user = self.listener.users.get(username)
        expected = user.password if user is not None else secrets.token_urlsafe()
        if secrets.compare_digest(password.encode(), expected.encode()) and user is not None:
            return True
        self.failures += 1
        if self.failures >= ATTEMPTS:
            await asyncio.sleep(DELAY)
            self.connection.abort()
        return False

    def public_key_auth_supported(self) -> bool:
        return True

    def validate_public_key(self, username: str, key: asyncssh.SSHKey) -> bool:
        return key.public_data in self.listener.known and username in self.listener.users

    def session_requested(self) -> Channel:
        name = self.connection.get_extra_info("username")
        return Channel(self.listener, self.connection, self.listener.users[name])


class Channel(asyncssh.SSHServerSession[bytes]):
    """A channel of a connection. It passes on to a session what its client sends, as fast as the
    session reads."""

    def __init__(
        self, listener: Listener, connection: asyncssh.SSHServerConnection, user: User
    ) -> None:
        self.listener = listener
        self.connection = connection
        self.user = user
        self.line: Optional[asyncio.Transport] = None
        self.early: list[bytes] = []
        """What was received before there was a line."""
        self.has_ended = False
        """Whether the client sends no more."""
        self.is_lost = False

    def connection_made(self, chan: asyncssh.SSHServerChannel[bytes]) -> None:
        self.channel = chan

    def shell_requested(self) -> bool:
        return False

    def exec_requested(self, command: str) -> bool:
        return False

    def subsystem_requested(self, subsystem: str) -> bool:
        """Whether there is a session for it."""
        if subsystem != "sftp":
            return False
        connection = self.listener.connect(self.user)
        if connection is None:
            return False
        self.joining = asyncio.ensure_future(self.join(connection))
        return True

    async def join(self, connection: Connection) -> None:
        loop = asyncio.get_running_loop()
        self.line, _ = await loop.create_connection(
            lambda: Line(self, connection), sock=connection
        )
        self.line.writelines(self.early)
        self.early.clear()
        if self.has_ended:
            self.line.write_eof()

    def data_received(self, data: bytes, datatype: asyncssh.DataType) -> None:
        if self.line is None:
            self.early.append(data)
        else:
            self.line.write(data)

    def eof_received(self) -> bool:
        """True: the client still receives its replies."""
        self.end()
        return True

    def connection_lost(self, exc: Optional[Exception]) -> None:
        """Requests that are complete take effect; nobody receives the replies."""
        self.is_lost = True
        self.end()
        self.resume_writing()

    def end(self) -> None:
        if self.line is not None and not self.has_ended:
            self.line.write_eof()
        self.has_ended = True

    def pause_writing(self) -> None:
        if self.line is not None:
            self.line.pause_reading()

    def resume_writing(self) -> None:
        if self.line is not None:
            self.line.resume_reading()


class Line(asyncio.Protocol):
    """The client's end of a channel's session. It passes on to the channel what the server sends,
    as fast as the client reads."""

    def __init__(self, channel: Channel, connection: Connection) -> None:
        self.channel = channel
        self.connection = connection

    def connection_made(self, transport: asyncio.BaseTransport) -> None:
        self.transport = cast(asyncio.Transport, transport)
        self.channel.listener.lines.add(self.transport)

    def data_received(self, data: bytes) -> None:
        # A channel that its client has closed isn't lost yet while reading is paused.
        with contextlib.suppress(BrokenPipeError):
            if not self.channel.is_lost:
                self.channel.channel.write(data)

    def pause_writing(self) -> None:
        if not self.channel.is_lost:
            self.channel.channel.pause_reading()

    def resume_writing(self) -> None:
        if not self.channel.is_lost:
            self.channel.channel.resume_reading()

    def connection_lost(self, exc: Optional[Exception]) -> None:
        """The session has ended. A cut drops the whole connection. Otherwise `exit` closes the
        channel once all output is sent, for which OpenSSH's client waits. No end of output is sent
        before that: Go's pkg/sftp would then end its input a second time, and asyncssh would close
        the connection."""
        self.channel.listener.lines.discard(self.transport)
        if self.connection.is_cut:
            self.channel.connection.abort()
        elif not self.channel.is_lost:
            self.channel.channel.exit(0 if self.channel.has_ended else 1)
