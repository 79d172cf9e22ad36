"""Rules: requests that are rejected because a test says so."""

from __future__ import annotations

import contextlib
import errno
import glob
import time
from concurrent.futures import ThreadPoolExecutor
from typing import Iterable, Optional, Union

import paramiko
import pytest

from lucernetick import (
    Connection,
    Engine,
    Kind,
    OpenFlag,
    Races,
    Refusal,
    RefusedError,
    Server,
    Session,
    Status,
    Turn,
)
from packets import INIT, MKDIR, REMOVE, STAT, packet, replies, status, string, u32

MESSAGES = {
    Status.OK: b"Success",
    Status.EOF: b"End of file",
    Status.NO_SUCH_FILE: b"No such file",
    Status.PERMISSION_DENIED: b"Permission denied",
    Status.FAILURE: b"Failure",
    Status.BAD_MESSAGE: b"Bad message",
    Status.OP_UNSUPPORTED: b"Operation unsupported",
}
PATH, HANDLE, NONE = string(b"/a"), string(bytes(7) + b"\1"), u32(0)
FIELDS = {
    Kind.OPEN: PATH + u32(0x0B) + NONE,
    Kind.CLOSE: HANDLE,
    Kind.READ: HANDLE + bytes(8) + u32(9),
    Kind.WRITE: HANDLE + bytes(8) + string(b"/b"),
    Kind.LSTAT: PATH,
    Kind.FSTAT: HANDLE,
    Kind.SETSTAT: PATH + NONE,
    Kind.FSETSTAT: HANDLE + NONE,
    Kind.OPENDIR: PATH,
    Kind.READDIR: HANDLE,
    Kind.REMOVE: PATH,
    Kind.MKDIR: PATH + NONE,
    Kind.RMDIR: PATH,
    Kind.REALPATH: PATH,
    Kind.STAT: PATH,
    Kind.RENAME: PATH + string(b"/b"),
    Kind.POSIX_RENAME: string(b"posix-rename@openssh.com") + PATH + string(b"/b"),
    Kind.HARDLINK: string(b"hardlink@openssh.com") + PATH + string(b"/b"),
}
"""What a request of each kind has behind its id, as the draft and OpenSSH's PROTOCOL say."""
BEGIN = packet(INIT, u32(3))


def request(kind: Kind, number: int) -> bytes:
    return packet(min(kind, 200), u32(number), FIELDS[kind])


def stat_root(number: int) -> bytes:
    return packet(STAT, u32(number), string(b"/"))


def mkdir(number: int, path: bytes) -> bytes:
    return packet(MKDIR, u32(number), string(path), NONE)


def told(session: Session, *pieces: bytes) -> list[bytes]:
    """The replies to these bytes, which come in pieces."""
    taken = b""
    for piece in pieces:
        session.feed(piece)
        assert session.settle(100) == Turn.IDLE
        taken += session.take()
    return replies(taken)


def others(kind: Kind) -> list[bytes]:
    """Requests of other kinds, under the ids 1 and 2."""
    if kind in (Kind.STAT, Kind.MKDIR):
        return [packet(REMOVE, u32(number), string(b"/x")) for number in (1, 2)]
    return [mkdir(1, b"/d"), stat_root(2)]


@pytest.mark.parametrize("at", [0, 1, 2])
@pytest.mark.parametrize("kind", FIELDS)
def test_each_kind_at_each_cut(kind: Kind, at: int) -> None:
    """The other requests have the replies that they have alone. The status is in its place."""
    batch = others(kind)
    with Engine() as engine:
        wanted = told(engine.open(), BEGIN + b"".join(batch))
        assert len(wanted) == 3
        tree = list(engine.snapshot())
    wanted.insert(1 + at, status(9, 3, b"Permission denied"))
    batch.insert(at, request(kind, 9))
    data = BEGIN + b"".join(batch)
    for cut in range(len(data)):
        with Engine() as engine:
            rule = engine.refuse(kind=kind, status=Status.PERMISSION_DENIED)
            assert told(engine.open(), data[:cut], data[cut:]) == wanted
            assert rule.refused == 1
            assert list(engine.snapshot()) == tree
            assert len(engine.calls()) == 2


@pytest.mark.parametrize("code", Status)
def test_each_status(code: Status) -> None:
    with Engine() as engine:
        engine.refuse(status=code)
        session = engine.open()
        assert told(session, BEGIN, mkdir(7, b"/a"))[1] == status(7, code, MESSAGES[code])
        assert list(engine.snapshot()) == ["/"]


def refused_of(count: int, **words: object) -> tuple[list[int], int]:
    """Which of `count` MKDIRs a rule rejects, and how many it counts."""
    with Engine() as engine:
        rule = engine.refuse(**words)
        asked = b"".join(mkdir(number, b"/a") for number in range(count))
        codes = [reply[8] for reply in told(engine.open(), BEGIN + asked)[1:]]
        return [number for number, code in enumerate(codes) if code == 3], rule.refused


@pytest.mark.parametrize(
    ("after", "times", "wanted"),
    [
        (0, 1, [0]),
        (0, 0, []),
        (2, 2, [2, 3]),
        (4, 9, [4, 5]),
        (6, 1, []),
        (0, None, [0, 1, 2, 3, 4, 5]),
        (1, None, [1, 2, 3, 4, 5]),
    ],
)
def test_after_so_many_so_many(after: int, times: Optional[int], wanted: list[int]) -> None:
    words = {"after": after, "times": times, "status": Status.PERMISSION_DENIED}
    assert refused_of(6, **words) == (wanted, len(wanted))


@pytest.mark.parametrize(
    ("path", "is_for"),
    [("/a", 1), (b"a", 1), ("/b/.././/a/", 1), ("/b", 0), ("/a/b", 0), ("/", 0)],
)
def test_a_path_in_any_spelling(path: Union[str, bytes], is_for: int) -> None:
    assert refused_of(1, path=path, status=Status.PERMISSION_DENIED)[1] == is_for


@pytest.mark.parametrize("path", ["/a", "/b"])
def test_both_paths_of_a_rename_are_named(path: str) -> None:
    with Engine() as engine:
        rule = engine.refuse(path=path)
        told(engine.open(), BEGIN, request(Kind.RENAME, 7))
        assert rule.refused == 1


def test_one_session_alone() -> None:
    with Engine() as engine:
        first, second = engine.open(), engine.open()
        rule = engine.refuse(session=second, kind=Kind.STAT)
        later = engine.refuse(session=3, kind=Kind.STAT)
        assert told(first, BEGIN + stat_root(1))[1][0] == 105
        assert told(second, BEGIN + stat_root(1))[1] == status(1, 4, b"Failure")
        assert (rule.refused, later.refused) == (1, 0)
        told(engine.open(), BEGIN + stat_root(1))
        assert (rule.refused, later.refused) == (1, 1)


def test_the_first_rule_that_refuses_answers() -> None:
    """The second one counts what the first one lets through."""
    with Engine() as engine:
        first = engine.refuse(after=1, status=Status.EOF)
        second = engine.refuse(after=1, status=Status.BAD_MESSAGE)
        session = engine.open()
        codes = [reply[8] for reply in told(session, BEGIN + mkdir(1, b"/a") * 4)[1:]]
        # The last one is refused by the tree, since /a is there.
        assert codes == [0, 1, 5, 4]
        assert (first.refused, second.refused) == (1, 1)


def test_the_request_that_comes_next() -> None:
    """A rule that is given after a session has begun, and after the bytes have come."""
    with Engine() as engine:
        session = engine.open()
        told(session, BEGIN)
        session.feed(mkdir(1, b"/a") + mkdir(2, b"/b"))
        rule = engine.refuse(kind=Kind.MKDIR)
        assert [reply[8] for reply in told(session, b"")] == [4, 0]
        assert rule.refused == 1
        assert list(engine.snapshot()) == ["/", "/b"]


def test_init_is_not_refused() -> None:
    with Engine() as engine:
        rule = engine.refuse(times=None)
        assert told(engine.open(), BEGIN)[0][0] == 2
        assert rule.refused == 0


def test_output_up_to_a_refusal() -> None:
    """What is behind it waits once that was sent, and `take` takes all."""
    with Engine() as engine:
        session = engine.open()
        engine.refuse(kind=Kind.MKDIR)
        session.feed(BEGIN + mkdir(1, b"/a") + stat_root(2))
        assert session.settle(100) == Turn.IDLE
        assert not session.wants_bytes() or session.output()
        first = session.output()
        assert [reply[0] for reply in replies(first)] == [2, 101]
        session.sent(len(first) - 1)
        assert session.output() == first[-1:]
        assert [reply[0] for reply in replies((first[:-1] + session.take()))] == [2, 101, 105]
        assert session.output() == b""
        assert session.wants_bytes()


def test_a_turn_refuses() -> None:
    with Engine() as engine:
        session = engine.open()
        engine.refuse(kind=Kind.MKDIR)
        session.feed(BEGIN + mkdir(1, b"/a") + mkdir(2, b"/a"))
        assert session.turn(100) == Turn.WROTE
        assert not session.wants_bytes()
        assert session.turn(100) == Turn.WROTE
        assert session.turn(100) == Turn.BEGUN


def test_rules_of_a_closed_engine() -> None:
    with Engine() as engine:
        rule = engine.refuse()
    for action in (lambda: rule.refused, engine.refuse):
        with pytest.raises(RefusedError) as refused:
            action()
        assert refused.value.refusal == Refusal.BAD_POINTER


def test_a_rule_ends() -> None:
    with Engine() as engine:
        session = engine.open()
        rule = engine.refuse(kind=Kind.MKDIR, times=None)
        assert told(session, BEGIN + mkdir(1, b"/a"))[1][8] == 4
        rule.end()
        rule.end()
        assert told(session, mkdir(1, b"/a"))[0][8] == 0
        with engine.refuse(kind=Kind.MKDIR, times=None) as other:
            assert told(session, mkdir(1, b"/b") + mkdir(1, b"/c"))[1][8] == 4
        assert told(session, mkdir(1, b"/b"))[0][8] == 0
        assert (rule.refused, other.refused) == (1, 2)
        assert list(engine.snapshot()) == ["/", "/a", "/b"]


@pytest.mark.parametrize(
    ("path", "is_for"),
    [
        ("/in/*", {"/in/a", "/in/b.part"}),
        ("/in/*.part", {"/in/b.part"}),
        ("/*/?", {"/in/a"}),
        ("/**/d", {"/in/c/d", "/d"}),
        ("/in/**", {"/in", "/in/a", "/in/b.part", "/in/c/d"}),
        ("**", {"/", "/in", "/in/a", "/in/b.part", "/in/c/d", "/d", "/[x]"}),
        ("/[a-d]", {"/d"}),
        ("/[[]x]", {"/[x]"}),
        (glob.escape("/[x]"), {"/[x]"}),
        ("/in/../d", {"/d"}),
        ("/", {"/"}),
        (b"/i*/a", {"/in/a"}),
    ],
)
def test_patterns(path: Union[str, bytes], is_for: set[str]) -> None:
    paths = ["/", "/in", "/in/a", "/in/b.part", "/in/c/d", "/d", "/[x]"]
    with Engine() as engine:
        engine.refuse(path=path, times=None, status=Status.PERMISSION_DENIED)
        stats = [packet(STAT, u32(1), string(one.encode())) for one in paths]
        found = told(engine.open(), BEGIN + b"".join(stats))[1:]
    denied = status(1, 3, b"Permission denied")
    assert {one for one, reply in zip(paths, found) if reply == denied} == is_for


def test_a_handle_s_path(sftp_tree: Server) -> None:
    """Also of a handle that was opened before the rule was given, by another session's name for
    the file, and not after its path was opened again."""
    sftp_tree.write_files({"/f": b"1", "/g": b"2"})
    with paramiko.SFTPClient(sftp_tree.connect()) as client:
        first, other = client.open("/f", "r+"), client.open("g", "r+")
        rule = sftp_tree.refuse(kind=Kind.WRITE, path="/f", times=None)
        with pytest.raises(OSError, match="Failure"):
            first.write(b"3")
        other.write(b"4")
        client.rename("/f", "/h")
        with pytest.raises(OSError, match="Failure"):
            first.write(b"3")
        first.close()
        with client.open("/h", "r+") as file:
            file.write(b"5")
    assert rule.refused == 2
    contents = {path: entry.contents for path, entry in sftp_tree.snapshot().items()}
    assert contents == {"/": None, "/g": b"4", "/h": b"5"}


@pytest.mark.parametrize(
    ("flags", "refused"),
    [
        (OpenFlag.READ, "r"),
        (OpenFlag.WRITE, "wa"),
        (OpenFlag.CREATE, "wa"),
        (OpenFlag.TRUNCATE, "w"),
        (OpenFlag.CREATE | OpenFlag.TRUNCATE, "w"),
        (OpenFlag.APPEND, "a"),
        (OpenFlag.EXCL, ""),
    ],
)
def test_flags_of_open(sftp_tree: Server, flags: OpenFlag, refused: str) -> None:
    """By what the modes of Python's `open` ask for: w creates and truncates, a creates and
    appends."""
    sftp_tree.write_files({"/f": b"1"})
    sftp_tree.refuse(flags=flags, times=None)
    found = ""
    with paramiko.SFTPClient(sftp_tree.connect()) as client:
        for mode in "rwa":
            try:
                client.open("/f", mode).close()
            except OSError:
                found += mode
        client.stat("/f")
    assert found == refused


def test_a_disk_that_is_full_and_freed(sftp_tree: Server) -> None:
    """WRITEs of 10 bytes: 2 of them fit into 25 bytes, and smaller ones still do."""
    with paramiko.SFTPClient(sftp_tree.connect()) as client, client.open("/f", "w") as file:
        with sftp_tree.disk_full(after=25) as full:
            file.write(b"1" * 10)
            file.write(b"2" * 10)
            with pytest.raises(OSError, match="Failure"):
                file.write(b"3" * 10)
            file.write(b"4" * 5)
            with pytest.raises(OSError, match="Failure"):
                file.write(b"5")
        file.write(b"6")
    assert full.refused == 2
    assert sftp_tree.snapshot()["/f"].size == 26


def test_a_tree_that_is_read_only(sftp_tree: Server) -> None:
    sftp_tree.write_files({"/d/f": b"1", "/e": b""})
    before = sftp_tree.snapshot()
    with paramiko.SFTPClient(sftp_tree.connect()) as client, client.open("/d/f", "r+") as opened:
        changes = (
            lambda: client.open("/d/f", "w"),
            lambda: client.open("/d/f", "a"),
            lambda: client.open("/new", "x"),
            lambda: opened.write(b"2"),
            lambda: opened.chmod(0o600),
            lambda: client.chmod("/d/f", 0o600),
            lambda: client.truncate("/d/f", 0),
            lambda: client.mkdir("/g"),
            lambda: client.rmdir("/d"),
            lambda: client.remove("/d/f"),
            lambda: client.rename("/e", "/g"),
            lambda: client.posix_rename("/e", "/g"),
        )
        with sftp_tree.read_only() as rule:
            for change in changes:
                with pytest.raises(PermissionError):
                    change()
            with client.open("/d/f") as file:
                assert file.read() == b"1"
            assert client.listdir("/") == ["d", "e"]
            assert sftp_tree.snapshot() == before
        assert rule.refused == len(changes)
        with sftp_tree.read_only("/d/**"):
            with pytest.raises(PermissionError):
                client.remove("/d/f")
            client.remove("/e")
    assert list(sftp_tree.snapshot()) == ["/", "/d", "/d/f"]


def test_several_kinds_and_a_predicate(sftp_tree: Server) -> None:
    odd = sftp_tree.refuse(
        kind={Kind.MKDIR, Kind.RMDIR},
        when=lambda request: len(str(request.path)) > 2,
        times=None,
    )
    with paramiko.SFTPClient(sftp_tree.connect()) as client:
        client.mkdir("/a")
        with pytest.raises(OSError):
            client.mkdir("/bb")
        with pytest.raises(OSError):
            client.rmdir("/cc")
        client.rename("/a", "/dd")
    assert odd.refused == 2


def test_many_refusals(sftp_tree: Server) -> None:
    """The last ones take no longer than the first."""
    with Engine() as engine, engine.read_only():
        session = engine.open()
        told(session, BEGIN)
        times = []
        for _ in range(20):
            begin = time.process_time()
            told(session, mkdir(1, b"/a") * 1000)
            times.append(time.process_time() - begin)
    assert min(times[-5:]) < 4 * min(times[:5])


def test_paramiko_s_open_is_refused(sftp_tree: Server) -> None:
    rule = sftp_tree.refuse(kind=Kind.OPEN, path="/f", status=Status.PERMISSION_DENIED)
    with paramiko.SFTPClient(sftp_tree.connect()) as client:
        with pytest.raises(OSError) as refused:
            client.open("/f", "w")
        assert refused.value.errno == errno.EACCES
        assert rule.refused == 1
        assert list(sftp_tree.snapshot()) == ["/"]
        with client.open("/f", "w") as file:
            file.write(b"1")
    assert sftp_tree.snapshot()["/f"].contents == b"1"


def test_paramiko_s_write_is_refused_twice_and_served(sftp_tree: Server) -> None:
    rule = sftp_tree.refuse(kind=Kind.WRITE, times=2)
    with paramiko.SFTPClient(sftp_tree.connect()) as client, client.open("/f", "w") as file:
        for _ in range(2):
            with pytest.raises(OSError, match="Failure"):
                file.write(b"1")
        file.write(b"1")
    assert rule.refused == 2
    assert sftp_tree.snapshot()["/f"].contents == b"1"


def test_one_connection_of_more(sftp_tree: Server) -> None:
    lines = [sftp_tree.connect(), sftp_tree.connect()]
    sftp_tree.refuse(session=lines[1].session, kind=Kind.MKDIR, times=None)
    with paramiko.SFTPClient(lines[0]) as first, paramiko.SFTPClient(lines[1]) as second:
        with pytest.raises(OSError):
            second.mkdir("/b")
        first.mkdir("/a")
    assert list(sftp_tree.snapshot()) == ["/", "/a"]


def test_large_replies_behind_refusals(sftp_tree: Server) -> None:
    """More than a socket's buffer, with rejected requests in between."""
    contents = bytes(range(256)) * 8000
    sftp_tree.engine.write_files({"/f": contents})
    rule = sftp_tree.refuse(kind=Kind.STAT, times=None)
    with paramiko.SFTPClient(sftp_tree.connect()) as client, client.open("/f") as file:
        file.prefetch(len(contents))
        for _ in range(20):
            with pytest.raises(OSError):
                client.stat("/f")
        assert file.read() == contents
    assert rule.refused == 20


def make(connection: Connection, path: str) -> None:
    with paramiko.SFTPClient(connection) as client:
        with contextlib.suppress(OSError):
            client.mkdir(path)
        client.mkdir(path + "0")


def raced(seed: int) -> tuple[Iterable[str], list[tuple[int, Turn]]]:
    with Races(seed, clients=2) as races, ThreadPoolExecutor() as threads:
        lines = [races.connect(), races.connect()]
        rule = races.refuse(session=lines[1].session, kind=Kind.MKDIR)
        list(threads.map(make, lines, ["/a", "/b"]))
        tree = list(races.snapshot())
        assert rule.refused == 1
        return tree, races.turns


def test_a_race_with_a_refusal_is_the_same_each_time() -> None:
    for seed in range(10):
        assert raced(seed) == raced(seed)
        assert raced(seed)[0] == ["/", "/a", "/a0", "/b0"]
