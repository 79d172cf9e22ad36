"""Garbage, and want of descriptors: nothing gets in, nothing hangs, and others are served."""

from __future__ import annotations

import contextlib
import os
import random
import resource
import socket
import subprocess
import sys
import threading
import time
from pathlib import Path
from typing import Iterator

import paramiko
import pytest
from garbage import garbage

from lucernetick import Server, SshServer

LIMIT = 120
ENDED = (OSError, EOFError, paramiko.SSHException)


def log_in(port: int, password: str) -> paramiko.SSHClient:
    client = paramiko.SSHClient()
    client.set_missing_host_key_policy(paramiko.AutoAddPolicy())
    words = {"look_for_keys": False, "allow_agent": False, "timeout": LIMIT}
    words |= {"banner_timeout": LIMIT, "auth_timeout": LIMIT}
    client.connect("127.0.0.1", port, "user", password, **words)
    return client


def is_well(ssh: SshServer) -> bool:
    """Whether another client is served."""
    with log_in(ssh.port, ssh.password) as client:
        return client.open_sftp().stat("/").st_mode is not None


@pytest.fixture
def quiet(capfd: pytest.CaptureFixture[str], caplog: pytest.LogCaptureFixture) -> Iterator[None]:
    """The server reports no error of its own."""
    yield
    assert "Traceback" not in capfd.readouterr().err
    assert not [record for record in caplog.records if record.levelname == "ERROR"]


def test_garbage_at_the_port(quiet: None, sftp_ssh: SshServer, sftp_tree: Server) -> None:
    draw = random.Random(1)
    for _ in range(300):
        with socket.create_connection((sftp_ssh.host, sftp_ssh.port)) as line:
            line.settimeout(LIMIT)
            with contextlib.suppress(OSError):
                line.sendall(garbage(draw))
                if draw.random() < 0.5:
                    line.shutdown(socket.SHUT_WR)
                    while line.recv(65536):
                        pass
    assert sftp_tree.engine.open().number == 1
    assert is_well(sftp_ssh)


def flipping(port: int, at: int) -> int:
    """A port that forwards one connection to this one. It inverts a byte of the client's."""
    listening = socket.create_server(("127.0.0.1", 0))

    def forward(source: socket.socket, target: socket.socket, left: int) -> None:
        with contextlib.suppress(OSError):
            while data := bytearray(source.recv(65536)):
                if 0 <= left < len(data):
                    data[left] ^= 0xFF
                left -= len(data)
                target.sendall(data)
        with contextlib.suppress(OSError):
            target.shutdown(socket.SHUT_RDWR)

    def serve() -> None:
        with listening, listening.accept()[0] as client:
            with socket.create_connection(("127.0.0.1", port)) as server:
                back = threading.Thread(target=forward, args=(server, client, -1))
                back.start()
                forward(client, server, at)
                back.join()

    threading.Thread(target=serve, daemon=True).start()
    return int(listening.getsockname()[1])


def test_logins_with_an_inverted_byte(
    quiet: None, sftp_ssh: SshServer, sftp_tree: Server, monkeypatch: pytest.MonkeyPatch
) -> None:
    """In the exchange of keys, and in what is encrypted."""
    monkeypatch.setattr(threading, "excepthook", lambda _: None)
    draw = random.Random(2)
    for at in [draw.randrange(2500) for _ in range(60)]:
        port = flipping(sftp_ssh.port, at)
        with contextlib.suppress(*ENDED, ValueError), log_in(port, sftp_ssh.password) as client:
            files = client.open_sftp()
            files.get_channel().settimeout(LIMIT)
            files.mkdir(f"/{at}")
    assert set(sftp_tree.snapshot()) <= {"/", *(f"/{at}" for at in range(2500))}
    assert is_well(sftp_ssh)


def test_garbage_in_sessions(quiet: None, sftp_ssh: SshServer, sftp_tree: Server) -> None:
    """Each session ends. What is no valid request changes nothing."""
    draw = random.Random(3)
    with log_in(sftp_ssh.port, sftp_ssh.password) as client:
        transport = client.get_transport()
        assert transport is not None
        for _ in range(100):
            channel = transport.open_session(timeout=LIMIT)
            channel.settimeout(LIMIT)
            channel.invoke_subsystem("sftp")
            with contextlib.suppress(OSError):
                channel.sendall(draw.randbytes(draw.choice((4, 100, 10_000))))
                channel.shutdown_write()
            assert channel.recv(1) == b""
            channel.close()
    assert list(sftp_tree.snapshot()) == ["/"]
    assert is_well(sftp_ssh)


def test_no_descriptors_are_left() -> None:
    """It says so once, until it accepts again. Connections that wait are served later."""
    code = (
        "import lucernetick, sys\n"
        "with lucernetick.Server() as server, lucernetick.SshServer(server) as ssh:\n"
        "    print(ssh.port, ssh.password, flush=True)\n"
        "    sys.stdin.readline()\n"
    )

    def few() -> None:
        resource.setrlimit(resource.RLIMIT_NOFILE, (40, 40))

    streams = {"stdin": subprocess.PIPE, "stdout": subprocess.PIPE, "stderr": subprocess.PIPE}
    with subprocess.Popen(
        [sys.executable, "-c", code], text=True, preexec_fn=few, **streams
    ) as process:
        assert process.stdout is not None
        port, password = process.stdout.readline().split()
        silent = [socket.create_connection(("127.0.0.1", int(port))) for _ in range(60)]
        time.sleep(4)
        for line in silent:
            line.close()
        with log_in(int(port), password) as client:
            assert client.open_sftp().listdir("/") == []
        _, wrong = process.communicate("\n", timeout=LIMIT)
    assert process.returncode == 0
    assert set(wrong.splitlines()) == {"connections wait: Too many open files"}
    assert len(wrong.splitlines()) < 10


@pytest.mark.parametrize("mode", [0o770, 0o702])
def test_a_folder_for_keys_that_others_may_write(
    sftp_ssh: SshServer, tmp_path: Path, mode: int
) -> None:
    folder = tmp_path / "keys"
    folder.mkdir()
    os.chmod(folder, mode)
    with pytest.raises(PermissionError, match="others can write this folder"):
        sftp_ssh.write_ssh_config(folder)
    assert os.listdir(folder) == []


def test_a_folder_for_keys_that_is_a_link(sftp_ssh: SshServer, tmp_path: Path) -> None:
    (tmp_path / "keys").mkdir(0o700)
    (tmp_path / "link").symlink_to("keys")
    with pytest.raises(NotADirectoryError):
        sftp_ssh.write_ssh_config(tmp_path / "link")
    assert os.listdir(tmp_path / "keys") == []


def test_files_of_keys_that_are_links(sftp_ssh: SshServer, tmp_path: Path) -> None:
    """They are replaced, and what they lead to isn't written."""
    (tmp_path / "keys").mkdir(0o700)
    (tmp_path / "victim").write_text("1")
    for name in ("ssh_config", "known_hosts", "client_key"):
        (tmp_path / "keys" / name).symlink_to("../victim")
    sftp_ssh.write_ssh_config(tmp_path / "keys")
    assert (tmp_path / "victim").read_text() == "1"
    assert not any(path.is_symlink() for path in (tmp_path / "keys").iterdir())


def test_a_folder_for_keys_of_another_user(
    sftp_ssh: SshServer, tmp_path: Path, monkeypatch: pytest.MonkeyPatch
) -> None:
    (tmp_path / "keys").mkdir(0o700)
    user = os.geteuid()
    monkeypatch.setattr(os, "geteuid", lambda: user + 1)
    with pytest.raises(PermissionError):
        sftp_ssh.write_ssh_config(tmp_path / "keys")
