"""Callbacks, and waiting for what clients do."""

from __future__ import annotations

import threading
import time

import paramiko
import pytest

from lucernetick import Call, Engine, Hook, Kind, OpenFlag, Request, Server

from packets import INIT, LOOKS, MAKES, STAT, packet, string, u32

LIMIT = 120


def later(work: object, *words: object) -> threading.Thread:
    """Another thread does it, a little later."""

    def run() -> None:
        time.sleep(0.2)
        work(*words)

    thread = threading.Thread(target=run)
    thread.start()
    return thread


def upload(client: paramiko.SFTPClient, path: str, data: bytes) -> None:
    with client.open(path, "w") as file:
        file.write(data)


def test_callbacks_before_and_after(sftp_tree: Server) -> None:
    """Both are called with each call. A request by handle has the path of its handle."""
    before: list[Request] = []
    after: list[Call] = []
    sftp_tree.on_call(before=before.append, after=after.append)
    client = paramiko.SFTPClient(sftp_tree.connect())
    client.mkdir("/d")
    upload(client, "/d/../d/f", b"12345")
    client.rename("/d", "/e")
    assert after == sftp_tree.calls()
    asked = [(one.kind, one.path, one.new_path) for one in before if one.kind != Kind.STAT]
    assert asked == [
        (Kind.MKDIR, "/d", None),
        (Kind.OPEN, "/d/f", None),
        (Kind.WRITE, "/d/f", None),
        (Kind.CLOSE, "/d/f", None),
        (Kind.RENAME, "/d", "/e"),
    ]
    wrote = next(one for one in before if one.kind == Kind.WRITE)
    assert (wrote.data, wrote.offset, wrote.length, wrote.session) == (b"12345", 0, 5, 1)
    opened = next(one for one in before if one.kind == Kind.OPEN)
    assert OpenFlag(opened.flags) == OpenFlag.WRITE | OpenFlag.CREATE | OpenFlag.TRUNCATE


def test_a_callback_may_use_the_engine(sftp_tree: Server) -> None:
    """`before` sees the tree before the call, and may have the request rejected."""
    seen: list[list[str]] = []

    def before(request: Request) -> None:
        seen.append(list(sftp_tree.snapshot()))
        if request.path == "/b":
            sftp_tree.refuse(kind=Kind.MKDIR)

    with sftp_tree.on_call(before=before):
        client = paramiko.SFTPClient(sftp_tree.connect())
        client.mkdir("/a")
        with pytest.raises(OSError):
            client.mkdir("/b")
    client.mkdir("/c")
    assert seen == [["/"], ["/", "/a"]]
    assert list(sftp_tree.snapshot()) == ["/", "/a", "/c"]


def test_callbacks_end() -> None:
    found: list[Call] = []
    with Engine() as engine:
        hook = engine.on_call(after=found.append)
        assert isinstance(hook, Hook)
        session = engine.open()
        session.feed(MAKES)
        session.settle(0)
        hook.end()
        hook.end()
        session.feed(packet(STAT, u32(1), string(b"/")))
        session.settle(0)
    assert [call.kind for call in found] == [Kind.MKDIR]


def test_what_no_callback_can_be() -> None:
    with Engine() as engine, pytest.raises(TypeError, match="after must be a function, not int"):
        engine.on_call(after=3)


def test_waiting_for_an_upload(sftp_tree: Server) -> None:
    """Until its handle is closed."""
    client = paramiko.SFTPClient(sftp_tree.connect())
    file = client.open("/f", "w")
    file.write(b"123")
    assert "/f" in sftp_tree.snapshot()
    with pytest.raises(TimeoutError, match="no complete file at /f within 0.2 seconds"):
        sftp_tree.wait_for("/f", timeout=0.2)
    thread = later(file.close)
    assert sftp_tree.wait_for("/f", timeout=LIMIT).contents == b"123"
    thread.join()
    assert sftp_tree.wait_for("f", timeout=0).contents == b"123"


def test_waiting_for_a_rename(sftp_tree: Server) -> None:
    client = paramiko.SFTPClient(sftp_tree.connect())
    upload(client, "/f.part", b"123")
    thread = later(client.rename, "/f.part", "/f")
    assert sftp_tree.wait_for("/f", timeout=LIMIT).contents == b"123"
    thread.join()


def test_a_session_that_ends_without_close(sftp_tree: Server) -> None:
    line = sftp_tree.connect()
    client = paramiko.SFTPClient(line)
    client.open("/f", "w")
    thread = later(client.close)
    assert sftp_tree.wait_for("/f", timeout=LIMIT).size == 0
    thread.join()


def test_waiting_for_a_call(sftp_tree: Server) -> None:
    client = paramiko.SFTPClient(sftp_tree.connect())
    thread = later(client.mkdir, "/a")
    assert sftp_tree.wait_for_call(kind=Kind.MKDIR, timeout=LIMIT).path == "/a"
    thread.join()
    client.mkdir("/b")
    client.rename("/b", "/c")
    by_path = sftp_tree.wait_for_call(path="/[b-c]", timeout=0)
    assert (by_path.kind, by_path.path) == (Kind.MKDIR, "/b")
    renamed = sftp_tree.wait_for_call(path="/c", when=lambda call: call.reply.is_ok, timeout=0)
    assert renamed.kind == Kind.RENAME
    with pytest.raises(TimeoutError) as told:
        sftp_tree.wait_for_call(session=7, timeout=0.1)
    assert "no such call within 0.1 seconds; the last calls:" in str(told.value)
    assert 'rename "/b" "/c" -> Success' in str(told.value)


def test_nobody_does_anything(sftp_tree: Server) -> None:
    with pytest.raises(TimeoutError, match="within 0 seconds; no client made a call"):
        sftp_tree.wait_for("/f", timeout=0)


def test_an_engine_by_turns() -> None:
    """The record of a call is there with the turn in which it takes effect."""
    found: list[str] = []
    with Engine() as engine:
        engine.on_call(after=lambda call: found.append(call.kind.name))
        makes, looks = engine.open(), engine.open()
        makes.feed(MAKES)
        looks.feed(LOOKS)
        did = []
        for number in (1, 2, 2, 1, 1, 2, 1, 2, 2, 2, 1):
            (makes if number == 1 else looks).turn(100)
            did.append(len(found))
    assert did == [0, 0, 0, 0, 0, 0, 1, 1, 2, 2, 2]
    assert found == ["MKDIR", "STAT"]
    assert INIT == 1
