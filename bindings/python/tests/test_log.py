"""What clients did, line by line."""

from __future__ import annotations

import io

import paramiko

from lucernetick import Engine, Log, Server, VirtualTime

from packets import INIT, LOOKS, MAKES, STAT, packet, string, u32

LOG = """\
session 1 opened
session 1 call 1 at 1700000000: mkdir "/d" mode 0777 -> Success
session 1 call 2 at 1700000000: open "/d/f" flags WRITE,CREATE,TRUNCATE -> handle 2
session 1 call 3 at 1700000000: write handle 2 offset 0 length 5 -> Success
session 1 call 4 at 1700000000: close handle 2 -> Success
session 1 call 5 at 1700000007: stat "/d/f" -> size 5 uid 0 gid 0 mode 0100644 atime 1700000000 mtime 1700000000
session 1 call 6 at 1700000007: setstat "/d/f" mode 0600 -> Success
session 1 call 7 at 1700000007: setstat "/d/f" atime 1 mtime 2 -> Success
session 1 call 8 at 1700000007: setstat "/d/f" uid 3 gid 4 -> Success
session 1 call 9 at 1700000007: setstat "/d/f" size 2 -> Success
session 1 call 10 at 1700000007: rename "/d/f" "/d/g" -> Success
session 1 call 11 at 1700000007: posix-rename "/d/g" "/d/h" -> Success
session 1 call 12 at 1700000007: open "/d/h" flags READ -> handle 12
session 1 call 13 at 1700000007: fsetstat handle 12 mode 0640 -> Success
session 1 call 14 at 1700000007: fstat handle 12 -> size 2 uid 3 gid 4 mode 0100640 atime 1 mtime 1700000007
session 1 call 15 at 1700000007: read handle 12 offset 0 length 2 -> data of length 2
session 1 call 16 at 1700000007: close handle 12 -> Success
session 1 call 17 at 1700000007: opendir "/d" -> handle 17
session 1 call 18 at 1700000007: readdir handle 17 -> names 1
session 1 call 19 at 1700000007: readdir handle 17 -> End of file
session 1 call 20 at 1700000007: close handle 17 -> Success
session 1 call 21 at 1700000007: rmdir "/d" -> Failure
session 1 call 22 at 1700000007: remove "/d/h" -> Success
session 1 call 23 at 1700000007: stat "/d/h" -> No such file
session 1 closed
"""


def test_each_kind_of_call() -> None:
    file, clock = io.StringIO(), VirtualTime(1_700_000_000)
    log = Log(file)
    with Server(clock=clock, log=log) as server, paramiko.SFTPClient(server.connect()) as client:
        client.mkdir("/d")
        with client.open("/d/f", "w") as written:
            written.write(b"12345")
        clock.advance(7)
        client.stat("/d/f")
        client.chmod("/d/f", 0o600)
        client.utime("/d/f", (1, 2))
        client.chown("/d/f", 3, 4)
        client.truncate("/d/f", 2)
        client.rename("/d/f", "/d/g")
        client.posix_rename("/d/g", "/d/h")
        with client.open("/d/h") as read:
            read.chmod(0o640)
            read.stat()
            read.read(2)
        client.listdir("/d")
        for action in (client.rmdir, client.remove, client.stat):
            try:
                action("/d" if action == client.rmdir else "/d/h")
            except OSError:
                pass
    assert file.getvalue() == LOG
    assert (log.sessions, log.calls) == (1, 23)


SIDE_BY_SIDE = """\
session 1 opened
session 2 opened
session 1 call 2 at 100: mkdir "/a" -> Success
session 2 call 1 at 100: stat "/a" -> size 0 uid 0 gid 0 mode 040755 atime 100 mtime 100
session 2 closed
session 1 closed
"""


def test_two_sessions_side_by_side() -> None:
    """The look begins first, and takes effect after the directory is made. Of files and snapshots
    of the test's own nothing is told."""
    file = io.StringIO()
    with Engine() as engine:
        Server(engine, log=Log(file))
        first, second = engine.open(), engine.open()
        first.feed(MAKES)
        second.feed(LOOKS)
        for number in (1, 2, 2, 1, 1, 2, 1, 2, 2, 2, 1):
            (first if number == 1 else second).turn(100)
        engine.write_files({"/f": b"1"}, moment=3)
        second.close()
        engine.snapshot()
        first.close()
    assert file.getvalue() == SIDE_BY_SIDE


def test_rounds_are_told_of() -> None:
    file = io.StringIO()
    with Engine() as engine:
        Server(engine, log=Log(file))
        session = engine.open()
        session.feed(MAKES)
        session.turn(100), session.turn(100)
        engine.run_all()
    assert file.getvalue() == 'session 1 opened\nsession 1 call 1 at 100: mkdir "/a" -> Success\n'


def test_a_session_that_ends_by_a_fault() -> None:
    file = io.StringIO()
    with Engine() as engine:
        Server(engine, log=Log(file))
        session = engine.open()
        session.feed(bytes(4))
        session.settle(0)
        session.settle(0)
    assert file.getvalue() == "session 1 opened\nsession 1 closed\n"


def test_paths_are_escaped_as_openssh_does() -> None:
    """What OpenSSH 9.2's server wrote to its log for these bytes, but for the quote."""
    file = io.StringIO()
    with Engine() as engine:
        Server(engine, log=Log(file))
        session = engine.open()
        path = b"/\1\a\b\t\n\v\f\r\16\33\37 !\"'\\~\177\200\303\244\377"
        session.feed(packet(INIT, u32(3)) + packet(STAT, u32(1), string(path)))
        session.settle(5)
    _, line = file.getvalue().splitlines()
    escaped = r'/\001\a\b\t\n\v\f\r\016\033\037 !\"' + r"'\\~\177\200\303\244\377"
    assert line == f'session 1 call 1 at 5: stat "{escaped}" -> No such file'


def test_an_engine_that_keeps_one_record() -> None:
    """The log has all calls."""
    log = Log(io.StringIO())
    with Engine(keep=1) as engine:
        Server(engine, log=log)
        session = engine.open()
        session.feed(packet(INIT, u32(3)) + packet(STAT, u32(1), string(b"/")) * 5)
        session.settle(0)
        assert log.calls == 5
        for _ in range(5):
            session.feed(packet(STAT, u32(1), string(b"/")))
            session.settle(0)
        assert log.calls == 10
