"""Connections with faults."""

from __future__ import annotations

import socket
import time

import paramiko
import pytest

from lucernetick import Kind, Server

from packets import INIT, LOOKS, MAKES, MKDIR, STAT, VERSION, packet, replies, string, u32

LIMIT = 120
CONTENTS = bytes(range(256)) * 4000
ENDED = (paramiko.SSHException, OSError)
"""What paramiko raises if the connection has ended."""


def all_of(line: socket.socket) -> bytes:
    """What comes until the line ends."""
    line.settimeout(LIMIT)
    with line.makefile("rb") as told:
        return told.read()


@pytest.mark.parametrize(
    ("cut_after", "made"), [(226, 0), (227, 1), (444, 1), (445, 2), (662, 2), (663, 3)]
)
def test_cut_after_so_many_bytes_from_the_client(
    sftp_tree: Server, cut_after: int, made: int
) -> None:
    """INIT has 9 bytes, each MKDIR here 218. What came whole is carried out and answered, and
    nothing else is, however fast it was sent."""
    names = [f"/{letter * 200}" for letter in "abc"]
    line = sftp_tree.connect(cut_after=cut_after)
    line.sendall(
        packet(INIT, u32(3))
        + b"".join(packet(MKDIR, u32(7), string(name.encode()), u32(0)) for name in names)
    )
    assert len(replies(all_of(line))) == 1 + made
    assert list(sftp_tree.snapshot()) == ["/", *names[:made]]
    with pytest.raises(BrokenPipeError):
        line.sendall(LOOKS)


@pytest.mark.parametrize("delay", [0.0, 0.1])
@pytest.mark.parametrize("replies_bytes", [29, 41, 42, 83, 124])
def test_cut_after_so_many_bytes_to_the_client(
    sftp_tree: Server, replies_bytes: int, delay: float
) -> None:
    """A STAT has 14 bytes and its reply 41. All requests were received, so all take effect."""
    cut_after = VERSION + replies_bytes
    line = sftp_tree.connect(cut_after=cut_after, delay=delay)
    line.sendall(packet(INIT, u32(3)) + packet(STAT, u32(8), string(b"/")) * 5)
    assert len(all_of(line)) == cut_after
    assert line.is_cut and len(sftp_tree.calls()) == 5


def test_a_request_after_a_cut_of_the_replies(sftp_tree: Server) -> None:
    line = sftp_tree.connect(cut_after=VERSION + 1)
    line.sendall(MAKES)
    assert len(all_of(line)) == VERSION + 1
    with pytest.raises(BrokenPipeError):
        line.sendall(packet(MKDIR, u32(7), string(b"/b"), u32(0)))
    assert list(sftp_tree.snapshot()) == ["/", "/a"]


@pytest.mark.parametrize("faults", [{}, {"delay": 0.01}, {"bandwidth": 10_000_000}])
def test_a_client_that_closes_without_reading(
    sftp_tree: Server, faults: dict[str, float]
) -> None:
    """All that it sent before takes effect."""
    names = [f"/{number:03}" for number in range(100)]
    makes = (packet(MKDIR, u32(7), string(name.encode()), u32(0)) for name in names)
    line = sftp_tree.connect(**faults)
    line.sendall(packet(INIT, u32(3)) + b"".join(makes))
    line.close()
    sftp_tree.wait_for(names[-1], timeout=LIMIT)
    assert list(sftp_tree.snapshot()) == ["/", *names]


def test_cut_at_once(sftp_tree: Server) -> None:
    line = sftp_tree.connect(cut_after=0)
    assert line.recv(1) == b"" and line.is_cut


def test_an_upload_that_is_cut(sftp_tree: Server) -> None:
    """paramiko reports it. Each time the file has the same contents."""
    for _ in range(3):
        client = paramiko.SFTPClient(sftp_tree.connect(cut_after=500_000))
        with pytest.raises(ENDED):
            with client.open("/f", "w") as file:
                file.write(CONTENTS)
        left = sftp_tree.snapshot()["/f"].contents
        # 15 writes of 32768 bytes came whole.
        assert left == CONTENTS[: 15 * 32768]


def test_a_download_that_is_cut(sftp_tree: Server) -> None:
    sftp_tree.engine.write_files({"/f": CONTENTS})
    client = paramiko.SFTPClient(sftp_tree.connect(cut_after=500_000))
    with pytest.raises(ENDED):
        with client.open("/f") as file:
            file.read()


def test_a_line_that_is_not_reached(sftp_tree: Server) -> None:
    with paramiko.SFTPClient(sftp_tree.connect(cut_after=10**9)) as client:
        with client.open("/f", "w") as file:
            file.write(CONTENTS)
    assert sftp_tree.snapshot()["/f"].contents == CONTENTS


def test_chunks(sftp_tree: Server) -> None:
    """The client receives no more at a time, by either method."""
    line = sftp_tree.connect(chunk=10)
    line.sendall(MAKES)
    line.settimeout(LIMIT)
    first, room = line.recv(1000), bytearray(1000)
    assert len(first) == 10
    assert line.recv_into(room) == 10
    line.shutdown(socket.SHUT_WR)
    assert [reply[0] for reply in replies(first + room[:10] + all_of(line))] == [2, 101]


def test_paramiko_takes_chunks(sftp_tree: Server) -> None:
    sftp_tree.engine.write_files({"/f": CONTENTS[:100_000]})
    with paramiko.SFTPClient(sftp_tree.connect(chunk=7)) as client:
        with client.open("/f") as file:
            assert file.read() == CONTENTS[:100_000]


def test_late_replies_overlap(sftp_tree: Server) -> None:
    """40 pipelined requests take one latency and not 40; each of two in turn takes one."""
    late = sftp_tree.connect(delay=0.5)
    begin = time.monotonic()
    with late.makefile("rb") as replies:
        late.sendall(packet(INIT, u32(3)) + packet(STAT, u32(1), string(b"/")) * 40)
        assert len(replies.read(VERSION + 40 * 41)) == VERSION + 40 * 41
        once = time.monotonic() - begin
        for _ in range(2):
            late.sendall(packet(STAT, u32(1), string(b"/")))
            assert len(replies.read(41)) == 41
    assert once >= 0.5
    assert once < 20 * 0.5
    assert time.monotonic() - begin >= 1.5


def test_a_late_call_takes_effect_at_once(sftp_tree: Server) -> None:
    """Its reply alone is late."""
    late = sftp_tree.connect(delay=1000.0)
    late.sendall(MAKES)
    assert sftp_tree.wait_for("/a", timeout=LIMIT).is_directory
    assert not late.recv_ready()


def test_late_replies_come_after_the_client_s_last_request(sftp_tree: Server) -> None:
    late = sftp_tree.connect(delay=0.2)
    late.sendall(MAKES)
    late.shutdown(socket.SHUT_WR)
    assert len(replies(all_of(late))) == 2


def test_requests_of_a_client_that_does_not_wait(sftp_tree: Server) -> None:
    late = sftp_tree.connect(delay=1000.0)
    late.sendall(MAKES)
    sftp_tree.wait_for("/a", timeout=LIMIT)
    late.sendall(packet(MKDIR, u32(7), string(b"/b"), u32(0)))
    late.close()
    assert sftp_tree.wait_for("/b", timeout=LIMIT).is_directory


def test_a_server_closes_though_replies_are_late() -> None:
    begin = time.monotonic()
    with Server() as server:
        line = server.connect(delay=1000.0)
        line.sendall(MAKES)
        server.wait_for("/a", timeout=LIMIT)
    assert time.monotonic() - begin < 500


def test_bandwidth_of_an_upload(sftp_tree: Server) -> None:
    """300 KB at 1 MB a second, and nothing of the reply."""
    begin = time.monotonic()
    with paramiko.SFTPClient(sftp_tree.connect(bandwidth=1_000_000)) as client:
        with client.open("/f", "w") as file:
            file.write(CONTENTS[:300_000])
    assert time.monotonic() - begin >= 0.3
    assert sftp_tree.snapshot()["/f"].contents == CONTENTS[:300_000]


def test_bandwidth_of_a_download(sftp_tree: Server) -> None:
    sftp_tree.write_files({"/f": CONTENTS[:300_000]})
    begin = time.monotonic()
    with paramiko.SFTPClient(sftp_tree.connect(bandwidth=1_000_000)) as client:
        with client.open("/f") as file:
            assert file.read() == CONTENTS[:300_000]
    assert time.monotonic() - begin >= 0.3


def test_a_cut_line_leaves_no_session(sftp_tree: Server) -> None:
    """There is room for 256 at a time."""
    for _ in range(300):
        line = sftp_tree.connect(cut_after=20)
        line.sendall(MAKES)
        assert len(all_of(line)) == 20
