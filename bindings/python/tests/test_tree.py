"""Trees at the start, and snapshots."""

import stat
from typing import Union

import pytest

from lucernetick import Engine, StatusError
from packets import INIT, OPEN, RENAME, SETSTAT, WRITE, packet, string, u32


def test_files_with_the_directories_on_their_way() -> None:
    files = {"/a/b": b"one", "c": b"", "/a/deep/er/d": b"x" * 300000}
    with Engine.from_files(files, moment=77) as engine:
        found = engine.snapshot()
    assert list(found) == ["/", "/a", "/a/b", "/a/deep", "/a/deep/er", "/a/deep/er/d", "/c"]
    contents = {path: entry.contents for path, entry in found.items() if not entry.is_directory}
    assert contents == {"/a/b": b"one", "/c": b"", "/a/deep/er/d": b"x" * 300000}
    assert {entry.mtime for entry in found.values()} == {77}
    assert found["/a/b"].mode == stat.S_IFREG | 0o644
    assert found["/a/deep"].mode == stat.S_IFDIR | 0o755
    assert found["/a/deep"].permissions == 0o755
    assert (found["/a/b"].uid, found["/a/b"].gid) == (0, 0)


def test_empty_directories() -> None:
    with Engine.from_files({"/a/b": None, "/": None}) as engine:
        found = engine.snapshot()
    assert list(found) == ["/", "/a", "/a/b"]
    assert found["/a/b"].is_directory and found["/a/b"].contents is None


def test_an_empty_tree_is_the_root() -> None:
    with Engine() as engine:
        found = engine.snapshot()
    assert list(found) == ["/"]
    assert (found["/"].mode, found["/"].mtime, found["/"].contents) == (
        stat.S_IFDIR | 0o755, 0, None
    )


def test_contents_are_replaced() -> None:
    with Engine.from_files({"f": b"a long text"}, moment=5) as engine:
        engine.write_files({"f": b"short"}, moment=9)
        found = engine.snapshot()["/f"]
    assert (found.contents, found.atime, found.mtime) == (b"short", 5, 9)


def test_more_names_than_one_listing_has() -> None:
    files = {f"/d/{k:03}": str(k).encode() for k in range(100)}
    with Engine.from_files(files) as engine:
        found = engine.snapshot()
    assert {path: entry.contents for path, entry in found.items() if path in files} == files
    assert len(found) == 102


def test_files_of_all_sizes() -> None:
    """More files, and more bytes, than one call of the library returns."""
    sizes = [0, 1, 32767, 32768, 32769, 65536, 70000]
    files = {f"/{k:04}": bytes([k % 255 + 1]) * sizes[k % 7] for k in range(100)}
    files |= {f"/{k:04}": str(k).encode() for k in range(100, 3000)}
    with Engine.from_files(files) as engine:
        found = engine.snapshot()
    assert {path: entry.contents for path, entry in found.items() if path in files} == files
    assert [entry.file for entry in found.values()] == [None, *range(1, 3001)]


def test_a_path_longer_than_any_that_is_asked() -> None:
    """By renames of deep directories below each other."""
    names = "/".join(["x" * 255] * 15)
    with Engine.from_files({f"/0/{names}/f": b"1"}) as engine:
        session = engine.open()
        session.feed(packet(INIT, u32(3)))
        for k in range(1, 18):
            engine.write_files({f"/{k}/{names}": None})
            old, new = f"/{k - 1}".encode(), f"/{k}/{names}/{k - 1}".encode()
            session.feed(packet(RENAME, u32(7), string(old), string(new)))
            session.settle(0)
        found = engine.snapshot()
    *_, deepest = found
    assert deepest == "".join(f"/{k}/{names}" for k in reversed(range(18))) + "/f"
    assert found[deepest].contents == b"1"


def test_names_are_bytes() -> None:
    files: dict[Union[str, bytes], bytes] = {b"/\xff": b"1", "/é": b"2"}
    with Engine.from_files(files) as engine:
        found = engine.snapshot()
    assert found["/\udcff"].contents == b"1"
    assert found["/é"].contents == b"2"


def test_snapshots_and_files_leave_no_session_open() -> None:
    with Engine() as engine:
        for number in range(300):
            engine.write_files({"f": str(number).encode()})
            assert engine.snapshot()["/f"].contents == str(number).encode()


def test_a_file_in_the_way() -> None:
    with Engine.from_files({"/a": b""}) as engine:
        with pytest.raises(StatusError, match="MKDIR /a: Failure") as refused:
            engine.write_files({"/a/b": b""})
        assert (refused.value.code, refused.value.message) == (4, "Failure")


def set_size(engine: Engine, path: bytes, size: int) -> None:
    session = engine.open()
    session.feed(packet(INIT, u32(3)))
    session.feed(packet(SETSTAT, u32(7), string(path), u32(0x1), size.to_bytes(8, "big")))
    session.settle(0)
    session.close()


def write_at(engine: Engine, path: bytes, pieces: dict[int, bytes]) -> None:
    """Writes into a file that is there, at these offsets."""
    session = engine.open()
    session.feed(packet(INIT, u32(3)) + packet(OPEN, u32(1), string(path), u32(0x2), u32(0)))
    session.settle(0)
    handle = string(session.take()[-8:])
    for offset, data in pieces.items():
        session.feed(packet(WRITE, u32(2), handle, offset.to_bytes(8, "big"), string(data)))
    session.settle(0)
    session.close()


def test_a_sparse_file() -> None:
    """Its holes are skipped."""
    with Engine.from_files({"/d/f": b"one"}) as engine:
        set_size(engine, b"/d/f", 2**40)
        write_at(engine, b"/d/f", {2**39 + 5: b"two", 2**40 - 4: b"four"})
        found = engine.snapshot()["/d/f"]
    assert found.size == 2**40
    assert [offset for offset, _ in found.pieces] == [0, 2**39, 2**40 - 32768]
    assert [len(piece) for _, piece in found.pieces] == [32768] * 3
    assert [piece.replace(b"\0", b"") for _, piece in found.pieces] == [b"one", b"two", b"four"]
    assert found.pieces[1][1][5:8] == b"two" and found.pieces[2][1].endswith(b"four")


def test_a_gap_is_zeros() -> None:
    with Engine.from_files({"/f": b"1"}) as engine:
        set_size(engine, b"/f", 100_000)
        found = engine.snapshot()["/f"]
    assert found.contents == b"1" + bytes(99_999)


def test_zeros_that_were_written_are_as_a_gap() -> None:
    with Engine.from_files({"/f": b"1" + bytes(99_999), "/none": bytes(10)}) as engine:
        written = engine.snapshot()
    with Engine.from_files({"/f": b"1", "/none": b""}) as engine:
        set_size(engine, b"/f", 100_000)
        set_size(engine, b"/none", 10)
        assert engine.snapshot() == written
    assert (written["/none"].pieces, written["/none"].contents) == ((), bytes(10))


def test_pieces_that_are_next_to_each_other_are_one() -> None:
    contents = bytes(range(251)) * 400
    with Engine.from_files({"/f": contents}) as engine:
        assert engine.snapshot()["/f"].pieces == ((0, contents),)


def test_a_snapshot_stays_as_it_was() -> None:
    with Engine.from_files({"/f": b"1" * 40_000}) as engine:
        found = engine.snapshot()
        engine.write_files({"/f": b"2", "/g": b""})
        assert list(found) == ["/", "/f"]
    assert found["/f"].contents == b"1" * 40_000


def test_a_snapshot_asks_for_nothing() -> None:
    """No session opens, also where as many are open as may be, and no call is recorded."""
    with Engine.from_files({"/f": b"1"}, keep=0) as engine:
        before = engine.calls()
        number = engine.open().number
        assert list(engine.snapshot()) == ["/", "/f"]
        assert engine.calls() == before
        assert [engine.open().number for _ in range(255)] == list(range(number + 1, number + 256))
        assert list(engine.snapshot()) == ["/", "/f"]
