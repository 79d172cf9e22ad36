"""Races of clients that make their own SSH connections."""

from __future__ import annotations

import contextlib
import random
import subprocess
import time
from concurrent.futures import ThreadPoolExecutor
from pathlib import Path
from typing import Callable, Iterator

import paramiko
import pytest

from lucernetick import Call, Error, Races, SshServer, Turn, User

LIMIT = 300
Log = list[str]
USERS = [User("ann", "1"), User("bob", "2")]


def log_in(ssh: SshServer, user: User) -> paramiko.SSHClient:
    client = paramiko.SSHClient()
    client.load_host_keys(ssh.known_hosts)
    words = {"look_for_keys": False, "allow_agent": False, "banner_timeout": LIMIT}
    client.connect(ssh.host, ssh.port, user.name, user.password, auth_timeout=LIMIT, **words)
    return client


def deliver(files: paramiko.SFTPClient, name: str, pause: Callable[[], None]) -> Log:
    """What races. Returns how far it got."""
    did = []
    for step in (
        lambda: files.mkdir("/out"),
        lambda: files.open(f"/out/{name}", "w").close(),
        lambda: files.rename("/out", f"/done-{name}"),
    ):
        pause()
        try:
            step()
            did.append("done")
        except OSError as fault:
            did.append(str(fault))
    return did


def by_ssh(ssh: SshServer, user: User) -> Log:
    """At a speed that differs each time."""

    def pause() -> None:
        time.sleep(random.random() / 200)

    pause()
    with log_in(ssh, user) as client:
        pause()
        return deliver(client.open_sftp(), user.name, pause)


History = tuple[list[Log], list[tuple[int, Turn]], list[Call], list[str]]


@contextlib.contextmanager
def racing(seed: int) -> Iterator[tuple[Races, SshServer]]:
    with Races(seed, clients=2) as races:
        with SshServer(races, user=USERS[0], users=USERS[1:]) as ssh:
            yield races, ssh


def history(seed: int) -> History:
    with racing(seed) as (races, ssh), ThreadPoolExecutor() as threads:
        did = list(threads.map(lambda user: by_ssh(ssh, user), USERS, timeout=LIMIT))
        return did, races.turns, races.calls(), list(races.snapshot())


def direct_history(seed: int) -> History:
    def work(line: paramiko.Channel, user: User) -> Log:
        with paramiko.SFTPClient(line) as files:
            return deliver(files, user.name, lambda: None)

    with Races(seed, clients=2) as races, ThreadPoolExecutor() as threads:
        lines = [races.connect(), races.connect()]
        did = list(threads.map(work, lines, USERS, timeout=LIMIT))
        return did, races.turns, races.calls(), list(races.snapshot())


@pytest.mark.filterwarnings("error::lucernetick.StrayWarning")
def test_a_seed_50_times() -> None:
    """The same results, turns, calls and files, and those of direct connections."""
    wanted = [direct_history(seed) for seed in range(2)]
    assert wanted[0] != wanted[1]
    for turn in range(50):
        assert history(turn % 2) == wanted[turn % 2]


@pytest.mark.filterwarnings("error::lucernetick.StrayWarning")
def test_openssh_races(tmp_path: Path) -> None:
    """Two processes, each of which uploads a file of many requests to the same path."""
    for name in "ab":
        (tmp_path / name).write_bytes(name.encode() * 2_000_000)

    def race() -> tuple[str, bytes]:
        def put(user: User, name: str) -> None:
            words = ssh.sftp_command("-q", "-b", "-")[:-1] + [f"{user.name}@{ssh.host}"]
            put = f"put {tmp_path}/{name} /f\n"
            subprocess.run(words, input=put.encode(), check=True, timeout=LIMIT)

        with racing(7) as (races, ssh), ThreadPoolExecutor() as threads:
            list(threads.map(put, USERS, "ab"))
            return races.schedule, races.snapshot()["/f"].contents or b""

    first = race()
    assert set(first[1]) == set(b"ab")
    assert [race() for _ in range(4)] == [first] * 4


def test_each_user_opens_one_session(caplog: pytest.LogCaptureFixture) -> None:
    def work(user: User) -> None:
        with log_in(ssh, user) as client:
            files = client.open_sftp()
            with pytest.raises(paramiko.SSHException):
                client.open_sftp()
            files.close()

    with racing(1) as (_, ssh), ThreadPoolExecutor() as threads:
        list(threads.map(work, USERS, timeout=LIMIT))
    assert "ann has opened a session: each user of a race opens one" in caplog.text


def test_what_a_race_over_ssh_rejects() -> None:
    with Races(1, clients=2) as races:
        with pytest.raises(ValueError, match="2 clients, and there are 1 users"):
            SshServer(races)
        with pytest.raises(ValueError, match="users must have different names, not ann, ann"):
            SshServer(races, user=USERS[0], users=USERS[:1])
    with Races(1, clients=1) as races:
        with pytest.raises(ValueError, match="the users of a race can't have roots"):
            SshServer(races, user=User("ann", "1", "/a"))
    with Races(1, clients=2) as races:
        races.connect()
        with pytest.raises(Error, match="clients of the race are connected"):
            SshServer(races, user=USERS[0], users=USERS[1:])
