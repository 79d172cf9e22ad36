"""Files with several names."""

from typing import Optional

import pytest

from lucernetick import Contents, Engine, Link, Session, StatusError
from packets import ATTRS, INIT, OK, REMOVE, SETSTAT, STAT, packet, replies, status, string, u32

# Two files of two names each and one of one, which differ in their names alone.
ALIKE: dict[str, Contents] = {
    "/a": b"same",
    "/b": b"same",
    "/c": Link("/b"),
    "/d/a": Link("/a"),
    "/d/e": b"same",
}
ALIKE_NUMBERS = {"/": None, "/a": 1, "/b": 2, "/c": 2, "/d": None, "/d/a": 1, "/d/e": 3}


def client(engine: Engine) -> Session:
    session = engine.open()
    session.feed(packet(INIT, u32(3)))
    session.settle(0)
    session.take()
    return session


def ask(session: Session, request: bytes) -> bytes:
    """The body of a request's reply."""
    session.feed(request)
    session.settle(900)
    (reply,) = replies(session.take())
    return reply


def look(session: Session) -> list[bytes]:
    """All attributes at the paths of `ALIKE`, as in the server's replies."""
    found = [ask(session, packet(STAT, u32(1), string(path.encode()))) for path in ALIKE_NUMBERS]
    assert {reply[0] for reply in found} == {ATTRS}
    return found


def alike() -> Engine:
    """The atimes are 5, the mtimes 9."""
    engine = Engine.from_files(ALIKE, moment=77)
    session = client(engine)
    for path in (b"/a", b"/b", b"/d/e"):
        times = u32(0x8) + u32(5) + u32(9)
        assert ask(
            session, packet(SETSTAT, u32(1), string(path), times)
        ) == status(1, OK, b"Success")
    session.close()
    return engine


def numbers(engine: Engine) -> dict[str, Optional[int]]:
    return {path: entry.file for path, entry in engine.snapshot().items()}


def test_a_tree_that_begins_with_links() -> None:
    files: dict[str, Contents] = {
        "/d/a": Link("/a"),
        "/a": b"one",
        "/b": b"two",
        "/d/c": Link("d/a"),
        "/e/f/b": Link(b"/b"),
    }
    with Engine.from_files(files, moment=77) as engine:
        found = engine.snapshot()
    named = {
        path: (entry.file, entry.contents)
        for path, entry in found.items()
        if not entry.is_directory
    }
    one, two = (1, b"one"), (2, b"two")
    assert named == {"/a": one, "/b": two, "/d/a": one, "/d/c": one, "/e/f/b": two}
    assert [found[path].file for path in ("/", "/d", "/e", "/e/f")] == [None] * 4
    assert {entry.mtime for entry in found.values()} == {77}


def test_files_that_look_alike() -> None:
    with alike() as engine:
        assert numbers(engine) == ALIKE_NUMBERS
        assert numbers(engine) == ALIKE_NUMBERS


def test_a_snapshot_leaves_all_attributes() -> None:
    with alike() as engine:
        session = client(engine)
        before = look(session)
        found = engine.snapshot()
        assert look(session) == before
    assert {(found[path].atime, found[path].mtime) for path in ALIKE} == {(5, 9)}


def test_all_names_are_one_file() -> None:
    with Engine.from_files(ALIKE) as engine:
        engine.write_files({"/c": b"longer than before"}, moment=9)
        found = engine.snapshot()
        assert found["/b"] == found["/c"] != found["/a"] == found["/d/a"]
        assert (found["/b"].contents, found["/b"].mtime) == (b"longer than before", 9)
        removed = ask(client(engine), packet(REMOVE, u32(1), string(b"/b")))
        assert removed == status(1, OK, b"Success")
        left = {path: entry for path, entry in engine.snapshot().items() if path == "/c"}
        assert left == {"/c": found["/c"]}


def test_many_names() -> None:
    files: dict[str, Contents] = {f"/f{number}": b"" for number in range(3)}
    files.update({f"/d/{name:02}": Link(f"/f{name % 3}") for name in range(90)})
    with Engine.from_files(files) as engine:
        found = numbers(engine)
    assert [found[f"/d/{name:02}"] for name in range(90)] == [1, 2, 3] * 30
    assert [found["/f0"], found["/f1"], found["/f2"]] == [1, 2, 3]


@pytest.mark.parametrize(
    ("files", "code"),
    [
        ({"/b": Link("/none")}, 2),
        ({"/d": None, "/b": Link("/d")}, 4),
        ({"/a": b"", "b": b"", "/b": Link("/a")}, 4),
        ({"/a": Link("/a")}, 2),
    ],
)
def test_links_that_are_refused(files: dict[str, Contents], code: int) -> None:
    with Engine() as engine:
        with pytest.raises(StatusError) as refused:
            engine.write_files(files)
        assert refused.value.code == code


def test_the_request_that_is_refused() -> None:
    """The error has it with its path. What was written before stays."""
    with Engine.from_files({"/a": b""}) as engine:
        with pytest.raises(StatusError) as refused:
            engine.write_files({"/e/f": None, "/a/b/c": b""})
        assert str(refused.value) == "MKDIR /a: Failure"
        with pytest.raises(StatusError) as refused:
            engine.write_files({"/b": Link("/none")})
        assert str(refused.value) == "hardlink@openssh.com /none /b: No such file"
        assert list(engine.snapshot()) == ["/", "/a", "/e", "/e/f"]
