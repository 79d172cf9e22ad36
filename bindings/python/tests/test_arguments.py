"""Arguments of the wrong type or out of range are rejected at the call, by name."""

from __future__ import annotations

import io
import socket
import sys
from pathlib import PurePosixPath
from typing import Callable

import pytest

from lucernetick import (
    Connection,
    Engine,
    Kind,
    Link,
    Races,
    Server,
    Session,
    SshServer,
    User,
    VirtualTime,
    seeds,
)

from packets import MAKES, VERSION, replies, status


@pytest.fixture
def session() -> Session:
    return Engine().open()


async def late(_: object) -> bool:
    """Nobody would await its result."""
    return False


TIMES = r"moment must be from 0 to 4294967295, not"


@pytest.mark.parametrize(
    ("action", "error", "says"),
    [
        (lambda: Engine(-1), ValueError, "keep must be from 0 to 9223372036854775807, not -1"),
        (lambda: Engine("x"), TypeError, "keep must be an int, not str"),
        (lambda: Engine(True), TypeError, "keep must be an int, not bool"),
        (lambda: Engine.from_files({}, moment=-1), ValueError, f"{TIMES} -1"),
        (lambda: Engine.from_files({"/f": b""}, moment=2**32 + 7), ValueError, TIMES),
        (lambda: Engine.from_files({"/f": b""}, moment=1.0), TypeError, "moment must be an int"),
        (lambda: Engine.from_folder("/none", moment=-1), ValueError, TIMES),
        (lambda: Engine.from_files({"/f": "text"}), TypeError, "'/f' must be bytes, not str"),
        (lambda: Engine.from_files({"/f": 3}), TypeError, "'/f' must be bytes-like, not int"),
        (lambda: Engine.from_files({3: b""}), TypeError, "a path must be a str, bytes or a path"),
        (lambda: Engine.from_files({"/a\0": b""}), ValueError, r"a path '/a\\x00' has a NUL byte"),
        (lambda: Engine.from_files({"/" + "x" * 256: b""}), ValueError, "a name of 256 bytes"),
        (lambda: Engine.from_files({"/x" * 3000: b""}), ValueError, "6000 bytes, and at most 4096"),
        (lambda: Engine.from_files({"": b""}), ValueError, "a path is empty, and / is the root"),
        (lambda: Engine.from_files({"/": b""}), ValueError, "/ is a directory"),
        (lambda: Engine.from_files({"/f/g/h": b"", "f/": b""}), ValueError, "/f is a file"),
        (lambda: Engine.from_files({"/a": Link(3)}), TypeError, "the path of a Link must be"),
        (lambda: VirtualTime(-1), ValueError, TIMES),
        (lambda: VirtualTime().set(1.7e9), TypeError, "moment must be an int, not float"),
        (lambda: VirtualTime().advance(0.5), TypeError, "seconds must be an int, not float"),
        (lambda: VirtualTime().advance(-1), ValueError, TIMES),
        (lambda: Server("x"), TypeError, "engine must be an Engine, not str"),
        (lambda: Server(clock=5), TypeError, "clock must be a function .*, not int"),
        (lambda: Server(log=5), TypeError, "log must be a Log or a text file, not int"),
        (lambda: Server(log=io.BytesIO()), TypeError, "log must be a Log or a text file, not Byt"),
        (lambda: SshServer(None), TypeError, "server must be a Server or a Races, not NoneType"),
        (lambda: SshServer(Engine()), TypeError, "server must be a Server or a Races, not Engine"),
        (lambda: SshServer(Server(), user=5), TypeError, "a user's name must be a str, not int"),
        (lambda: SshServer(Server(), port=99999), ValueError, "port must be from 0 to 65535"),
        (lambda: SshServer(Server(), host=5), TypeError, "host must be a str, not int"),
        (lambda: SshServer(Server(), cut_after=-1), ValueError, "cut_after must be from 0 to"),
        (lambda: SshServer(Server(), users=["ann"]), TypeError, "users must be Users, not str"),
        (lambda: SshServer(Server(), public_keys="/k"), TypeError, "public_keys must be a list"),
        (lambda: User("a", "b", "/x\0"), ValueError, "a user's root .* has a NUL byte"),
        (lambda: Races(1.5, 2), TypeError, "seed must be an int, not float"),
        (lambda: Races(2**64, 2), ValueError, "seed must be from 0 to 18446744073709551615"),
        (lambda: Races("1 2,", 2), ValueError, "seed: '2,' is no part of a schedule"),
        (lambda: Races(1, "2"), TypeError, "clients must be an int, not str"),
        (lambda: Races(1, 1000), ValueError, "clients must be from 1 to 256, not 1000"),
        (lambda: Races(1, 0), ValueError, "clients must be from 1 to 256, not 0"),
        (lambda: Races(1, 2, patience="x"), TypeError, "patience must be a number, not str"),
        (lambda: Races(1, 2, patience=float("nan")), ValueError, "patience must be at least 0"),
        (lambda: Races(1, 2, clock=3), TypeError, "clock must be a function"),
        (lambda: Races(1, 2, engine="x"), TypeError, "engine must be an Engine, not str"),
        (lambda: seeds(-1), ValueError, "count must be from 0"),
        (lambda: Engine().on_call(before=5), TypeError, "before must be a function, not int"),
        (lambda: Engine().on_call(after=late), TypeError, "after must be .* that is not async"),
        (lambda: Engine().wait_for_call(when=5), TypeError, "when must be a function, not int"),
    ],
)
def test_what_is_rejected(action: Callable[[], object], error: type[Exception], says: str) -> None:
    with pytest.raises(error, match=says):
        action()


@pytest.mark.parametrize(
    ("action", "error", "says"),
    [
        (lambda one: one.feed(3), TypeError, "data must be bytes-like, not int"),
        (lambda one: one.feed("x"), TypeError, "data must be bytes, not str: encode the text"),
        (lambda one: one.turn(-1), ValueError, TIMES),
        (lambda one: one.turn(2**32), ValueError, TIMES),
        (lambda one: one.turn(1.0), TypeError, "moment must be an int, not float"),
        (lambda one: one.settle(2**32 + 7), ValueError, TIMES),
        (lambda one: one.settle(0, -1), ValueError, "most must be from 0"),
        (lambda one: one.sent(-1), ValueError, "count must be from 0"),
        (lambda one: one.engine.open(root=5), TypeError, "root must be a str, bytes or a path"),
    ],
)
def test_what_a_session_rejects(
    session: Session, action: Callable[[Session], object], error: type[Exception], says: str
) -> None:
    with pytest.raises(error, match=says):
        action(session)
    assert session.output() == b"" and not session.engine.calls()


@pytest.mark.parametrize(
    ("words", "error", "says"),
    [
        ({"cut_after": -1}, ValueError, "cut_after must be from 0"),
        ({"cut_after": 1.5}, TypeError, "cut_after must be an int"),
        ({"chunk": 0}, ValueError, "chunk must be from 1"),
        ({"delay": -1.0}, ValueError, "delay must be at least 0"),
        ({"delay": "1"}, TypeError, "delay must be a number, not str"),
        ({"delay": float("inf")}, ValueError, "delay must be at least 0 and finite"),
        ({"bandwidth": 0}, ValueError, "bandwidth must be at least 1"),
    ],
)
def test_faults_that_are_rejected(
    sftp_tree: Server, words: dict[str, float], error: type[Exception], says: str
) -> None:
    with pytest.raises(error, match=says):
        sftp_tree.connect(**words)
    assert sftp_tree.engine.open().number == 1


@pytest.mark.parametrize(
    ("words", "error", "says"),
    [
        ({"path": 5}, TypeError, "path must be a str, bytes or a path, not int"),
        ({"path": ""}, ValueError, "path is empty, and / is the root"),
        ({"path": "/a\0"}, ValueError, "path '/a.x00' has a NUL byte"),
        ({"path": "/" + "a" * 256}, ValueError, "path .* has a name of 256 bytes"),
        ({"path": "/a/" * 2000}, ValueError, "path has 6000 bytes"),
        ({"kind": 1.5}, TypeError, "kind must be a Kind or some Kinds, not 1.5"),
        ({"kind": "WRITE"}, TypeError, "kind must be a Kind or some Kinds, not 'WRITE'"),
        ({"kind": []}, TypeError, "kind must be a Kind or some Kinds, not .."),
        ({"kind": Kind.READ | Kind.WRITE}, TypeError, "kind must be a Kind or some Kinds, not 7"),
        ({"kind": Kind.STAT, "flags": 2}, ValueError, "flags needs kind=Kind.OPEN"),
        ({"kind": Kind.OPEN, "after_bytes": 2}, ValueError, "after_bytes needs kind=Kind.WRITE"),
        ({"flags": 0}, ValueError, "flags must be from 1"),
        ({"status": 6}, ValueError, "status must be one of Status.OK, Status.EOF, .*, not 6"),
        ({"status": "x"}, ValueError, "status must be one of .*, not 'x'"),
        ({"after": -1}, ValueError, "after must be from 0"),
        ({"times": 2**63}, ValueError, "times must be from 0"),
        ({"session": -1}, ValueError, "session must be from 1"),
        ({"session": "x"}, TypeError, "session must be an int, not str"),
        ({"session": Engine().open()}, ValueError, "session must be of this engine"),
        ({"when": 5}, TypeError, "when must be a function, not int"),
        ({"when": late}, TypeError, "when must be a function that is not async"),
    ],
)
def test_rules_that_are_rejected(
    words: dict[str, object], error: type[Exception], says: str
) -> None:
    with Engine() as engine, pytest.raises(error, match=says):
        engine.refuse(**words)


def test_nothing_is_written_if_one_argument_is_wrong() -> None:
    with Engine() as engine:
        with pytest.raises(TypeError):
            engine.write_files({"/a": b"1", "/b": "2"})
        assert list(engine.snapshot()) == ["/"] and engine.calls() == []


def test_bytes_like_contents_and_paths_of_pathlib() -> None:
    files = {
        PurePosixPath("/d/a"): bytearray(b"1"),
        "/b": memoryview(b"22"),
        PurePosixPath("/c"): Link("/b"),
    }
    with Engine.from_files(files) as engine:
        tree = engine.snapshot()
    contents = {path: entry.contents for path, entry in tree.items() if not entry.is_directory}
    assert contents == {"/b": b"22", "/c": b"22", "/d/a": b"1"}


def test_bytes_like_input(session: Session) -> None:
    session.feed(bytearray(MAKES[:5]))
    session.feed(memoryview(MAKES[5:]))
    session.settle(0)
    assert list(session.engine.snapshot()) == ["/", "/a"]


def test_a_log_on_a_text_file(capfd: pytest.CaptureFixture[str]) -> None:
    with Server(log=sys.stderr) as server:
        server.connect().close()
    assert capfd.readouterr().err.startswith("session 1 opened\n")


def test_a_rule_for_a_connection(sftp_tree: Server) -> None:
    first, second = sftp_tree.connect(), sftp_tree.connect()
    rule = sftp_tree.refuse(session=second, kind=Kind.MKDIR)
    assert isinstance(second, Connection)
    first.sendall(MAKES)
    assert sftp_tree.wait_for_call(kind=Kind.MKDIR).session == first.session.number
    second.sendall(MAKES)
    second.settimeout(60)
    reply = replies(second.recv(VERSION + 28, socket.MSG_WAITALL))[1]
    assert (reply, rule.refused) == (status(7, 4, b"Failure"), 1)
