"""A server behind SSH."""

from __future__ import annotations

import asyncio
import errno
import os
import secrets
import shutil
import stat
import tempfile
import threading
import warnings
import weakref
from typing import TYPE_CHECKING, Any, Callable, Coroutine, Iterable, Optional, TypeVar, Union

from . import _arguments as arguments
from ._closing import Closes
from ._lines import Faults
from ._races import Races
from ._server import Server
from ._users import User

if TYPE_CHECKING:
    from ._asyncssh import Listener

OTHERS = stat.S_IWGRP | stat.S_IWOTH
Answer = TypeVar("Answer")
FaultsOf = Callable[[int], Faults]
"""Returns the faults of a session: the first one of a server is 1."""


def find_listener() -> type[Listener]:
    """The part of this package that needs asyncssh."""
    try:
        with warnings.catch_warnings():
            # It warns of old ciphers.
            warnings.simplefilter("ignore")
            from ._asyncssh import Listener
    except ModuleNotFoundError as missing:
        raise ImportError("SshServer needs asyncssh: pip install asyncssh") from missing
    return Listener


def remove_folder(folder: str, process: int) -> None:
    """Removes a folder, unless this is a forked child of the process that made it."""
    if process == os.getpid():
        shutil.rmtree(folder, ignore_errors=True)


class SshServer(Closes):
    """An SSH server at a port, for clients that make their own connection. Its subsystem `sftp` is
    a session on the tree of a `Server`, or a client of `Races`. There is nothing else: no shell, no
    command, no forwarding.

        with lucernetick.Server() as server, lucernetick.SshServer(server) as ssh:
            client = paramiko.SSHClient()
            client.load_host_keys(ssh.known_hosts)
            client.connect(ssh.host, ssh.port, ssh.user, ssh.password)
            client.open_sftp().mkdir("/a")

    It listens as soon as it is made. At the end of the `with`, its connections are closed. It needs
    asyncssh. A connection with six wrong passwords is closed, after a delay.
    """

    host: str
    port: int
    user: str
    """The user who may log in, with the password or a key."""
    password: str
    client_key: str
    """The path of a private key that may log in. OpenSSH, paramiko and asyncssh can read it. It is
    made for this server, and removed with it."""
    known_hosts: str
    """The path of a file with the host's public keys, in the format of OpenSSH's `known_hosts`."""
    faults: Union[Faults, FaultsOf]
    """The faults of the sessions that open from now on."""

    def __init__(
        self,
        server: Union[Server, Races],
        *,
        host: str = "127.0.0.1",
        port: int = 0,
        user: Union[str, User] = "user",
        password: Optional[str] = None,
        public_keys: Iterable[Union[str, os.PathLike[str]]] = (),
        host_key: Union[None, str, os.PathLike[str]] = None,
        users: Iterable[User] = (),
        cut_after: Optional[int] = None,
        delay: float = 0.0,
        bandwidth: Optional[float] = None,
        chunk: Optional[int] = None,
        faults: Optional[FaultsOf] = None,
    ) -> None:
        """Listens at this address, by default at a free port.

        - `user`, `password`: the name of a user and a password, by default a random one; or a
          `User`, who has both.
        - `public_keys`: files with further keys that may log in, in OpenSSH's format.
        - `host_key`: a file with the server's private key, by default two new ones.
        - `users`: further users.
        - `cut_after`, `delay`, `bandwidth`, `chunk`: faults of every session, see `Faults`.
        - `faults`: returns the `Faults` of a session by its number: 1, 2, 3 and so on.
        """
        self._begin()
        if not isinstance(server, (Server, Races)):
            why = f"server must be a Server or a Races, not {type(server).__name__}"
            raise TypeError(why)
        if not isinstance(host, str):
            raise TypeError(f"host must be a str, not {type(host).__name__}")
        arguments.integer("port", port, 0, 65535)
        for_all = Faults(cut_after, delay, bandwidth, chunk)
        if faults is not None and (for_all != Faults() or not callable(faults)):
            raise TypeError("faults must be a function, and the only parameter for faults")
        self.faults = for_all if faults is None else faults
        self.host = host
        if not isinstance(user, User):
            user = User(user, secrets.token_urlsafe(12) if password is None else password)
        elif password is not None:
            raise TypeError("a User has a password already")
        self.user, self.password = user.name, user.password
        everybody = [user, *users]
        for one in everybody:
            if not isinstance(one, User):
                raise TypeError(f"users must be Users, not {type(one).__name__}")
        if isinstance(public_keys, (str, bytes, os.PathLike)):
            raise TypeError("public_keys must be a list of paths, not one path")
        names = [one.name for one in everybody]
        if len(set(names)) < len(names):
            raise ValueError(f"users must have different names, not {', '.join(names)}")
        find = find_listener()
        self._listener = find(server, everybody, public_keys, host_key, self._faults_of)
        server._log_in(everybody)
        self._folder = tempfile.mkdtemp(prefix="lucernetick-")
        self._removed = weakref.finalize(self, remove_folder, self._folder, os.getpid())
        self._loop = asyncio.new_event_loop()
        self._thread = threading.Thread(
            target=self._loop.run_forever, name="lucernetick ssh", daemon=True
        )
        self._thread.start()
        try:
            self.port = self._do(self._listener.listen(host, port))
            key = self._listener.client_key.export_private_key()
            self.client_key = self._write("client_key", key)
            here, keys = self._names(), self._listener.host_keys
            hosts = b"".join(here + one.export_public_key() for one in keys)
            self.known_hosts = self._write("known_hosts", hosts)
        except BaseException:
            self.close()
            raise

    def sftp_command(self, *options: str) -> list[str]:
        """The command that connects OpenSSH's `sftp` with `client_key`, with further options."""
        reaches = [
            "-P",
            str(self.port),
            "-i",
            self.client_key,
            "-o",
            f"UserKnownHostsFile={self.known_hosts}",
        ]
        host = f"[{self.host}]" if ":" in self.host else self.host
        return ["sftp", *reaches, "-o", "IdentitiesOnly=yes", *options, f"{self.user}@{host}"]

    def write_ssh_config(self, folder: Union[str, os.PathLike[str]]) -> str:
        """Writes `ssh_config`, `client_key` and `known_hosts` into a folder, so that
        `sftp -F FOLDER/ssh_config lucernetick` connects. Returns the path of `ssh_config`. The
        folder is created, or must be this user's alone: others can't write it."""
        place = own_folder(os.path.abspath(os.fspath(folder)))
        paths = {}
        for name in ("client_key", "known_hosts"):
            with open(os.path.join(self._folder, name), "rb") as file:
                paths[name] = write_private(os.path.join(place, name), file.read())
        lines = [
            "Host lucernetick",
            f"  HostName {self.host}",
            f"  Port {self.port}",
            f"  User {self.user}",
            f'  IdentityFile "{paths["client_key"]}"',
            "  IdentitiesOnly yes",
            f'  UserKnownHostsFile "{paths["known_hosts"]}"',
            "  StrictHostKeyChecking yes",
        ]
        text = "".join(line + "\n" for line in lines)
        return write_private(os.path.join(place, "ssh_config"), text.encode())

    def close(self) -> None:
        """Closes all connections, and listens no more."""
        if self._is_forked or self._loop.is_closed():
            return
        try:
            self._do(self._listener.close())
        finally:
            self._loop.call_soon_threadsafe(self._loop.stop)
            self._thread.join()
            self._loop.close()
            self._removed()

    def _faults_of(self, session: int) -> Faults:
        if isinstance(self.faults, Faults):
            return self.faults
        found = self.faults(session)
        if not isinstance(found, Faults):
            raise TypeError(f"faults must return Faults, not {type(found).__name__}")
        return found

    def _do(self, work: Coroutine[Any, Any, Answer]) -> Answer:
        """Runs it in asyncssh's thread."""
        return asyncio.run_coroutine_threadsafe(work, self._loop).result()

    def _names(self) -> bytes:
        """The names of this host, in the format of `known_hosts`."""
        hosts = dict.fromkeys((self.host, "127.0.0.1", "localhost"))
        return (
            ",".join(
                host if self.port == 22 else f"[{host}]:{self.port}" for host in hosts
            ).encode()
            + b" "
        )

    def _write(self, name: str, data: bytes) -> str:
        return write_private(os.path.join(self._folder, name), data)


def own_folder(path: str) -> str:
    """Creates a folder, or accepts one that no other user can change. Returns its path."""
    os.makedirs(path, mode=0o700, exist_ok=True)
    status = os.lstat(path)
    if not stat.S_ISDIR(status.st_mode):
        raise NotADirectoryError(errno.ENOTDIR, os.strerror(errno.ENOTDIR), path)
    if status.st_uid != os.geteuid() or status.st_mode & OTHERS:
        raise PermissionError(errno.EPERM, "others can write this folder", path)
    return path


def write_private(path: str, data: bytes) -> str:
    """Replaces a file by one that only its owner may read. Returns its path."""
    flags = os.O_WRONLY | os.O_CREAT | os.O_EXCL | os.O_NOFOLLOW
    if os.path.lexists(path):
        os.unlink(path)
    with open(os.open(path, flags, 0o600), "wb") as file:
        file.write(data)
    return path
