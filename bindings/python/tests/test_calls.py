"""What a client did, by the records of its calls."""

import paramiko
import pytest

from lucernetick import Answer, DroppedError, Engine, Kind, Server, VirtualTime

from packets import INIT, STAT, packet, string, u32


def upload(client: paramiko.SFTPClient, path: str, contents: bytes) -> None:
    """What is tested: it writes to a temporary name, and renames."""
    with client.open(path + ".part", "w") as file:
        file.write(contents)
    client.posix_rename(path + ".part", path)


def test_an_upload_by_a_temporary_name(sftp_tree: Server, virtual_time: VirtualTime) -> None:
    virtual_time.set(7)
    upload(paramiko.SFTPClient(sftp_tree.connect()), "/today.csv", b"1,2,3\n")
    calls = sftp_tree.calls()
    assert [call.number for call in calls] == list(range(1, len(calls) + 1))
    assert {call.moment for call in calls} == {7} and {call.session for call in calls} == {1}
    assert all(call.reply.is_ok for call in calls)
    opened, renamed = calls[0], calls[-1]
    assert (opened.kind, opened.path, opened.reply.handle) == (Kind.OPEN, "/today.csv.part", 1)
    [wrote] = [call for call in calls if call.kind == Kind.WRITE]
    assert (wrote.handle, wrote.offset, wrote.length, wrote.data) == (1, 0, 6, b"1,2,3\n")
    assert (renamed.kind, renamed.path, renamed.new_path) == (
        Kind.POSIX_RENAME, "/today.csv.part", "/today.csv"
    )
    assert not [call for call in calls if call.kind == Kind.OPENDIR]


def test_what_calls_are_answered() -> None:
    with Engine.from_files({"/d/a": b"1", "/d/b": b"22"}) as engine, Server(engine) as server:
        before = len(engine.calls())
        client = paramiko.SFTPClient(server.connect())
        assert client.listdir("/d") == ["a", "b"]
        assert client.stat("/d/b").st_size == 2
        calls = server.calls()[before:]
    kinds = [Kind.OPENDIR, Kind.READDIR, Kind.READDIR, Kind.CLOSE, Kind.STAT]
    assert [call.kind for call in calls] == kinds
    assert calls[1].reply.names == ("a", "b") and calls[1].handle == calls[0].number
    assert (calls[2].reply.kind, calls[2].reply.status) == (Answer.STATUS, 1)
    told = calls[4].reply.attributes
    assert (told.size, told.uid, told.permissions) == (2, 0, 0o100644)


def stats(*paths: bytes) -> bytes:
    return b"".join(packet(STAT, u32(1), string(path)) for path in paths)


def test_all_calls_are_kept(sftp_tree: Server) -> None:
    """Of a fixture's server: more than any limit that there was."""
    with paramiko.SFTPClient(sftp_tree.connect()) as client:
        client.listdir("/")
        for _ in range(1000):
            client.stat("/")
    calls = sftp_tree.calls()
    assert len(calls) == 1003 and sftp_tree.dropped == 0
    assert calls[0].kind == Kind.OPENDIR


def test_an_engine_with_a_limit() -> None:
    """It never leaves out a call without an error."""
    with Engine(keep=2) as engine:
        session = engine.open()
        session.feed(packet(INIT, u32(3)) + stats(b"/a", b"/b"))
        session.settle(0)
        assert ([call.path for call in engine.calls()], engine.dropped) == (["/a", "/b"], 0)
        session.feed(stats(b"/c", b"/d", b"/e"))
        session.settle(0)
        with pytest.raises(DroppedError, match="3 calls were dropped: the engine keeps the last 2"):
            engine.calls()
        assert ([call.path for call in engine.last_calls()], engine.dropped) == (["/d", "/e"], 3)
        session.close()
        assert [call.path for call in engine.last_calls()] == ["/d", "/e"]


@pytest.mark.parametrize("keep", [1, 700, 2000])
def test_limits_are_exact(keep: int) -> None:
    """By batches of 700 calls, which are more than the library keeps."""
    with Engine(keep=keep) as engine, Server(engine) as server:
        session = engine.open()
        session.feed(packet(INIT, u32(3)))
        for batch in range(1, 5):
            session.feed(stats(*(b"/%d" % number for number in range(700))))
            session.settle(0)
            assert engine.dropped == server.dropped == max(700 * batch - keep, 0)
            paths = [call.path for call in server.last_calls()]
            expected = [f"/{number}" for number in range(700)] * batch
            assert paths == expected[-keep:]


def test_files_of_a_test_are_calls_too() -> None:
    with Engine(keep=3) as engine:
        engine.write_files({"/a": b"1"})
        assert engine.dropped == len(Engine.from_files({"/a": b"1"}).calls()) - 3


def test_a_call_in_one_line() -> None:
    with Engine() as engine:
        session = engine.open()
        session.feed(packet(INIT, u32(3)) + packet(STAT, u32(1), string(b'/"\xff')))
        session.settle(7)
        [call] = engine.calls()
    assert str(call) == r'session 1 call 1 at 7: stat "/\"\377" -> No such file'
    assert (call.request, str(call.reply)) == (r'stat "/\"\377"', "No such file")
