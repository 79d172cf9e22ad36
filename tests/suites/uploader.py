"""The code under test: uploads a file by a temporary name, with several attempts."""

from __future__ import annotations

import uuid
from typing import Callable, Optional

import paramiko

ERRORS = (OSError, EOFError, paramiko.SSHException)
Connect = Callable[[], paramiko.SFTPClient]


def upload(connect: Connect, path: str, data: bytes, attempts: int = 3) -> None:
    """Readers of `path` see all of the data, or what there was before."""
    last: Optional[BaseException] = None
    for _ in range(attempts):
        try:
            with connect() as files:
                store(files, path, data)
            return
        except ERRORS as fault:
            last = fault
    assert last is not None
    raise last


def store(files: paramiko.SFTPClient, path: str, data: bytes) -> None:
    part = f"{path}.{uuid.uuid4().hex}.part"
    try:
        with files.open(part, "wx") as file:
            file.write(data)
        # paramiko reports no error of CLOSE.
        if files.stat(part).st_size != len(data):
            raise OSError(f"{part} is incomplete")
        files.posix_rename(part, path)
    except OSError:
        files.remove(part)
        raise


def by_ssh(host: str, port: int, user: str, password: str, known_hosts: str) -> Connect:
    """Each client has its own SSH connection."""

    def connect() -> paramiko.SFTPClient:
        client = paramiko.SSHClient()
        client.load_host_keys(known_hosts)
        client.connect(
            host, port, user, password, look_for_keys=False, allow_agent=False, banner_timeout=60
        )
        files = client.open_sftp()
        # It closes the connection with it.
        files.close = client.close  # type: ignore[method-assign]
        return files

    return connect
