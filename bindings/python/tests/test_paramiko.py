"""paramiko's client on a server."""

import socket
import stat
import threading
from io import BufferedReader
from typing import Iterator

import paramiko
import pytest

import lucernetick
from lucernetick import Engine, Server, Turn, VirtualTime
from packets import DATA, HANDLE, INIT, LOOKS, MAKES, OPEN, READ, STAT, VERSION, packet, string, u32

LIMIT = 120
"""Seconds: much longer than needed on an idle machine."""


@pytest.fixture
def client(sftp_tree: Server) -> Iterator[paramiko.SFTPClient]:
    with paramiko.SFTPClient(sftp_tree.connect()) as found:
        yield found


def write(client: paramiko.SFTPClient, path: str, contents: bytes) -> None:
    with client.open(path, "w") as file:
        file.write(contents)


def read(client: paramiko.SFTPClient, path: str) -> bytes:
    with client.open(path, "r") as file:
        return bytes(file.read())


def test_three_lines() -> None:
    with lucernetick.Server() as server:
        client = paramiko.SFTPClient(server.connect())
        client.mkdir("/a")
        assert client.listdir("/") == ["a"]


def test_write_and_read(client: paramiko.SFTPClient, sftp_tree: Server) -> None:
    contents = bytes(range(256)) * 4000
    write(client, "f", contents)
    assert read(client, "f") == contents
    assert sftp_tree.snapshot()["/f"].contents == contents


def test_read_ahead(client: paramiko.SFTPClient, sftp_tree: Server) -> None:
    contents = bytes(range(256)) * 20000
    sftp_tree.engine.write_files({"f": contents})
    with client.open("f") as file:
        file.prefetch()
        assert file.read() == contents


def test_list(client: paramiko.SFTPClient) -> None:
    client.mkdir("d")
    for number in range(40):
        write(client, f"d/{number:02}", b"x" * number)
    found = {entry.filename: entry.st_size for entry in client.listdir_attr("d")}
    assert found == {f"{number:02}": number for number in range(40)}


def test_rename(client: paramiko.SFTPClient, sftp_tree: Server) -> None:
    client.mkdir("d")
    write(client, "f", b"1")
    client.rename("f", "d/g")
    client.rename("d", "e")
    with pytest.raises(FileNotFoundError):
        client.stat("f")
    assert read(client, "e/g") == b"1"
    assert list(sftp_tree.snapshot()) == ["/", "/e", "/e/g"]


def test_two_sessions_on_one_tree(client: paramiko.SFTPClient, sftp_tree: Server) -> None:
    with paramiko.SFTPClient(sftp_tree.connect()) as other:
        write(client, "f", b"from the first")
        assert read(other, "f") == b"from the first"
        other.remove("f")
        with pytest.raises(FileNotFoundError):
            client.open("f")


def test_times_are_virtual(
    client: paramiko.SFTPClient, sftp_tree: Server, virtual_time: VirtualTime
) -> None:
    virtual_time.set(1_700_000_000)
    client.mkdir("d")
    virtual_time.advance(60)
    write(client, "d/f", b"")
    assert client.stat("d/f").st_mtime == 1_700_000_060
    virtual_time.set(7)
    write(client, "d/f", b"1")
    found = client.stat("d/f")
    assert (found.st_atime, found.st_mtime) == (1_700_000_060, 7)
    assert client.stat("d").st_mtime == 1_700_000_060
    assert {entry.mtime for entry in sftp_tree.snapshot().values()} == {
        1_700_000_000, 1_700_000_060, 7
    }


def test_time_of_the_fixture_at_first(client: paramiko.SFTPClient) -> None:
    client.mkdir("d")
    assert client.stat("d").st_mtime == 1_000_000_000


def test_a_tree_that_was_there() -> None:
    engine = Engine.from_files({"/a/b": b"1234"}, moment=3)
    with engine, Server(engine) as server:
        client = paramiko.SFTPClient(server.connect())
        found = client.stat("/a/b")
        assert (found.st_size, found.st_mode, found.st_mtime) == (4, stat.S_IFREG | 0o644, 3)


def test_a_caller_s_engine_outlives_its_server() -> None:
    with Engine() as engine:
        with Server(engine) as server:
            paramiko.SFTPClient(server.connect()).mkdir("/a")
        assert list(engine.snapshot()) == ["/", "/a"]


def test_clients_that_go_free_their_sessions() -> None:
    with Server() as server:
        for _ in range(300):
            with paramiko.SFTPClient(server.connect()) as client:
                client.stat("/")


def test_a_connection_waits_for_a_call_that_is_held(sftp_tree: Server) -> None:
    """A session that the test has stopped in the root blocks a client until it continues."""
    held = sftp_tree.engine.open()
    held.feed(MAKES)
    for _ in range(3):
        held.turn(100)
    client = paramiko.SFTPClient(sftp_tree.connect())
    found: list[int] = []
    waits = threading.Thread(target=lambda: found.append(client.stat("/a").st_mtime))
    waits.start()
    waits.join(0.3)
    assert waits.is_alive()
    held.settle(100)
    waits.join(LIMIT)
    assert found == [100]


def test_rounds_carry_out_the_calls_of_connections(sftp_tree: Server) -> None:
    """A client that a stopped session blocks gets its reply when `run_all` has completed both
    calls."""
    held = sftp_tree.engine.open()
    held.feed(MAKES)
    assert [held.turn(100) for _ in range(3)] == [Turn.WROTE, Turn.BEGUN, Turn.MOVED]
    line = sftp_tree.connect()
    line.sendall(LOOKS)
    line.settimeout(LIMIT)
    line.recv(VERSION, socket.MSG_WAITALL)
    line.settimeout(0.3)
    with pytest.raises(socket.timeout):
        line.recv(1)
    assert sftp_tree.engine.run_all() > 0
    line.settimeout(LIMIT)
    assert line.recv(41, socket.MSG_WAITALL)[-4:] == u32(100)


def test_a_session_that_ends_closes_its_connection(sftp_tree: Server) -> None:
    line: socket.socket = sftp_tree.connect()
    line.sendall(bytes(4))
    line.settimeout(LIMIT)
    assert line.recv(1) == b""


@pytest.mark.parametrize("depth", range(1, 9))
def test_a_client_that_reads_nothing_keeps_nobody_waiting(sftp_tree: Server, depth: int) -> None:
    """However far a call is when the output is full, it is completed."""
    path = b"/a" * depth
    sftp_tree.engine.write_files({path: None})
    lazy = sftp_tree.connect()
    lazy.settimeout(0.3)
    lazy.sendall(packet(INIT, u32(3)))
    with pytest.raises(socket.timeout):
        while True:
            lazy.sendall(packet(STAT, u32(1), string(path)) * 100)
    client = sftp_tree.connect()
    client.settimeout(LIMIT)
    client.sendall(LOOKS)
    client.recv(VERSION, socket.MSG_WAITALL)
    assert len(client.recv(41, socket.MSG_WAITALL)) == 41


def reply(replies: BufferedReader) -> bytes:
    """The body of the next packet."""
    return replies.read(int.from_bytes(replies.read(4), "big"))


def test_a_client_may_send_much_before_it_reads(sftp_tree: Server) -> None:
    contents = bytes(range(256)) * 128
    sftp_tree.engine.write_files({"f": contents})
    line = sftp_tree.connect()
    line.settimeout(LIMIT)
    with line.makefile("rb") as replies:
        line.sendall(packet(INIT, u32(3)) + packet(OPEN, u32(0), string(b"/f"), u32(1), u32(0)))
        reply(replies)
        opened = reply(replies)
        assert opened[0] == HANDLE
        reads = range(10000)
        asked = opened[5:] + bytes(8) + u32(len(contents))
        line.sendall(b"".join(packet(READ, u32(number), asked) for number in reads))
        for number in reads:
            assert reply(replies) == bytes([DATA]) + u32(number) + string(contents)
        line.shutdown(socket.SHUT_WR)
        assert replies.read(1) == b""


def test_many_clients_at_once(sftp_tree: Server) -> None:
    def work(name: str) -> None:
        with paramiko.SFTPClient(sftp_tree.connect()) as client:
            client.mkdir(name)
            for number in range(4):
                write(client, f"{name}/{number}", name.encode())

    names = [f"d{number}" for number in range(50)]
    threads = [threading.Thread(target=work, args=(name,)) for name in names]
    for thread in threads:
        thread.start()
    for thread in threads:
        thread.join()
    found = sftp_tree.snapshot()
    assert len(found) == 1 + 50 + 200
    for name in names:
        assert {found[f"/{name}/{number}"].contents for number in range(4)} == {name.encode()}
