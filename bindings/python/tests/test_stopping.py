"""A thread of the package that ends by an exception: no client waits, and the test sees it."""

from __future__ import annotations

import threading
import time
from concurrent.futures import ThreadPoolExecutor
from typing import Callable, Iterator

import paramiko
import pytest

from lucernetick import Engine, Error, Faults, Kind, Races, Server, SshServer, StoppedError

from packets import LOOKS, MAKES

LIMIT = 120


class Broken(Exception):
    """What a clock raises here."""


def broken() -> int:
    raise Broken("no time")


def stopped(action: Callable[[], object]) -> BaseException:
    """The exception that an action reports as the cause."""
    with pytest.raises(StoppedError, match="a thread ended by ") as told:
        action()
    assert told.value.__cause__ is not None
    return told.value.__cause__


@pytest.mark.parametrize("clock", [broken, time.time, lambda: -1, lambda: "x"])
def test_a_clock_of_a_server(clock: Callable[[], int]) -> None:
    """Both clients see the end of their connections, even the one that has sent nothing."""
    server = Server(clock=clock)
    line, other = server.connect(), server.connect()
    line.settimeout(LIMIT), other.settimeout(LIMIT)
    line.sendall(MAKES)
    assert line.recv(1) == other.recv(1) == b""
    causes = {type(stopped(action)) for action in (server.connect, server.snapshot, server.calls)}
    assert stopped(server.refuse) and stopped(lambda: server.wait_for("/a"))
    assert isinstance(stopped(server.close), tuple(causes))
    assert causes in ({Broken}, {TypeError}, {ValueError})


def test_an_os_error_of_a_clock() -> None:
    """It isn't taken for one of the connection."""

    def clock() -> int:
        raise OSError("the clock")

    server = Server(clock=clock)
    line = server.connect()
    line.settimeout(LIMIT)
    line.sendall(MAKES)
    assert line.recv(1) == b""
    assert str(stopped(server.close)) == "the clock"


def test_a_callback_of_a_server(sftp_tree: Server) -> None:
    with Server() as server:
        server.on_call(after=lambda call: broken())
        line = server.connect()
        line.settimeout(LIMIT)
        line.sendall(MAKES)
        while line.recv(100):
            pass
        assert isinstance(stopped(server.snapshot), Broken)
        with pytest.raises(StoppedError):
            server.close()
        server._fault = None


def test_a_caller_s_engine_stays() -> None:
    with Engine() as engine:
        server = Server(engine, clock=broken)
        line = server.connect()
        line.settimeout(LIMIT)
        line.sendall(MAKES)
        assert line.recv(1) == b""
        assert isinstance(stopped(server.close), Broken)
        assert list(engine.snapshot()) == ["/"]


def test_faults_of_an_ssh_server() -> None:
    server = Server()

    def faults(session: int) -> Faults:
        raise Broken(str(session))

    with SshServer(server, faults=faults) as ssh, paramiko.SSHClient() as client:
        client.load_host_keys(ssh.known_hosts)
        words = {"look_for_keys": False, "allow_agent": False}
        client.connect(ssh.host, ssh.port, ssh.user, ssh.password, **words)
        with pytest.raises(paramiko.SSHException):
            client.open_sftp()
        assert str(stopped(server.snapshot)) == "1"
    assert isinstance(stopped(server.close), Broken)


@pytest.mark.parametrize("clock", [broken, time.time])
def test_a_clock_of_a_race(clock: Callable[[], int]) -> None:
    def upload(line: paramiko.Channel) -> None:
        with pytest.raises((OSError, EOFError, paramiko.SSHException)):
            paramiko.SFTPClient(line).mkdir("/a")

    races = Races(1, clients=2, clock=clock)
    with ThreadPoolExecutor() as threads:
        list(threads.map(upload, [races.connect(), races.connect()], timeout=LIMIT))
    causes = {type(stopped(action)) for action in (races.connect, races.snapshot, races.calls)}
    assert type(stopped(races.close)) in causes
    assert causes in ({Broken}, {TypeError})


@pytest.fixture
def alone(monkeypatch: pytest.MonkeyPatch) -> Iterator[None]:
    """Threads of other packages don't count."""
    mine = threading.current_thread()
    monkeypatch.setattr("lucernetick._races.threading.enumerate", lambda: [mine])
    yield


def test_two_clients_of_a_race_in_one_thread(alone: None) -> None:
    """paramiko waits for a reply to its first request, which the second client would have to send
    too."""
    begin = time.monotonic()
    with Races(1, clients=2) as races:
        with pytest.raises(Error, match="has used a client before it has connected all 2"):
            paramiko.SFTPClient(races.connect())
        with pytest.raises(Error, match="First call connect.. 2 times, then use each"):
            races.connect()
    assert time.monotonic() - begin < 20


@pytest.mark.filterwarnings("ignore::lucernetick.StrayWarning")
def test_two_clients_in_one_thread_beside_others() -> None:
    """Another thread might connect the second client, so the first one waits. Then it is an
    error."""
    ends = threading.Event()
    other = threading.Thread(target=ends.wait)
    other.start()
    try:
        with Races(1, clients=2, patience=0.2) as races:
            client = paramiko.SFTPClient(races.connect())
            with pytest.raises(Error, match="has used a client before it has connected all 2"):
                races.connect()
            client.close()
    finally:
        ends.set()
        other.join()


def test_all_clients_in_one_thread_by_packets() -> None:
    """Without waiting for replies one thread can use all clients."""
    with Races(1, clients=2) as races:
        makes, looks = races.connect(), races.connect()
        makes.sendall(MAKES)
        looks.sendall(LOOKS)
        makes.close()
        looks.close()
        assert {call.kind for call in races.calls()} == {Kind.MKDIR, Kind.STAT}
        assert races.stray is None
