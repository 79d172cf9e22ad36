"""Trees from a folder and into one."""

from __future__ import annotations

import os
import socket
import stat
import subprocess
import threading
import time
from pathlib import Path
from typing import Callable, Iterator

import pytest

from lucernetick import Engine, Entry, Link, Snapshot

from packets import INIT, SETSTAT, packet, string, u32


def chmod(engine: Engine, path: bytes, permissions: int) -> None:
    session = engine.open()
    session.feed(packet(INIT, u32(3)))
    session.feed(packet(SETSTAT, u32(7), string(path), u32(0x4), u32(permissions)))
    session.settle(0)
    session.close()


def test_from_a_folder(tmp_path: Path) -> None:
    (tmp_path / "d" / "empty").mkdir(parents=True)
    (tmp_path / "d" / "f").write_bytes(b"one")
    (tmp_path / "a").write_bytes(b"")
    os.link(tmp_path / "d" / "f", tmp_path / "z")
    (tmp_path / os.fsdecode(b"\xff\n")).write_bytes(b"two")
    with Engine.from_folder(tmp_path, moment=7) as engine:
        tree = engine.snapshot()
    assert list(tree) == ["/", "/a", "/d", "/d/empty", "/d/f", "/z", "/\udcff\n"]
    contents = {path: entry.contents for path, entry in tree.items() if not entry.is_directory}
    assert contents == {"/a": b"", "/d/f": b"one", "/z": b"one", "/\udcff\n": b"two"}
    assert tree["/d/f"].file == tree["/z"].file != tree["/a"].file
    assert {entry.mtime for entry in tree.values()} == {7}
    assert (tree["/a"].permissions, tree["/d"].permissions) == (0o644, 0o755)


def test_an_empty_folder(tmp_path: Path) -> None:
    with Engine.from_folder(str(tmp_path)) as engine:
        assert list(engine.snapshot()) == ["/"]


def test_folders_that_are_refused(tmp_path: Path) -> None:
    with pytest.raises(FileNotFoundError):
        Engine.from_folder(tmp_path / "none")
    (tmp_path / "f").write_bytes(b"")
    with pytest.raises(NotADirectoryError):
        Engine.from_folder(tmp_path / "f")
    (tmp_path / "link").symlink_to("f")
    with pytest.raises(ValueError, match="link: neither a file nor a directory"):
        Engine.from_folder(tmp_path)


def test_into_a_folder(tmp_path: Path) -> None:
    files = {"/d/e/f": b"one", "/a": b"", "/d/g": Link("/d/e/f"), b"/\xff": b"two", "/none": None}
    with Engine.from_files(files, moment=7) as engine:
        tree = engine.snapshot()
    tree.save(tmp_path / "to" / "there")
    there = tmp_path / "to" / "there"
    found = sorted(str(path.relative_to(there)) for path in there.rglob("*"))
    assert found == ["a", "d", "d/e", "d/e/f", "d/g", "none", "\udcff"]
    assert (there / "d" / "e" / "f").read_bytes() == b"one"
    assert (there / "\udcff").read_bytes() == b"two"
    assert (there / "a").read_bytes() == b""
    assert os.path.samefile(there / "d" / "e" / "f", there / "d" / "g")
    assert {path.stat().st_mtime for path in (there, *there.rglob("*"))} == {7.0}
    assert stat.S_IMODE((there / "a").stat().st_mode) == 0o644


def test_permissions_of_a_folder_s_files(tmp_path: Path) -> None:
    """Also if those of a directory forbid to write in it. Only the lowest nine bits."""
    with Engine.from_files({"/d/f": b"1"}) as engine:
        chmod(engine, b"/d/f", 0o4640)
        chmod(engine, b"/d", 0o500)
        engine.snapshot().save(tmp_path)
    assert stat.S_IMODE((tmp_path / "d").stat().st_mode) == 0o500
    assert stat.S_IMODE((tmp_path / "d" / "f").stat().st_mode) == 0o640


def test_there_and_back(tmp_path: Path) -> None:
    files = {"/d/a": b"1", "/d/b": Link("/d/a"), "/d/c": b"1", "/e": None}
    with Engine.from_files(files, moment=7) as engine:
        tree = engine.snapshot()
    tree.save(tmp_path)
    with Engine.from_folder(tmp_path, moment=7) as engine:
        assert engine.snapshot() == tree


def test_a_sparse_file_into_a_folder(tmp_path: Path) -> None:
    """Its gap takes no room there either."""
    with Engine.from_files({"/f": b"1"}) as engine:
        session = engine.open()
        session.feed(packet(INIT, u32(3)))
        size = (2**36).to_bytes(8, "big")
        session.feed(packet(SETSTAT, u32(7), string(b"/f"), u32(0x1), size))
        session.settle(0)
        engine.snapshot().save(tmp_path)
    status = (tmp_path / "f").stat()
    assert (status.st_size, status.st_blocks < 2000) == (2**36, True)
    with open(tmp_path / "f", "rb") as file:
        assert file.read(3) == b"1\0\0"


def test_a_folder_that_is_not_empty(tmp_path: Path) -> None:
    (tmp_path / "f").write_bytes(b"1")
    with Engine.from_files({"/f": b"2"}) as engine, pytest.raises(FileExistsError):
        engine.snapshot().save(tmp_path)
    assert (tmp_path / "f").read_bytes() == b"1"


def test_attributes_of_a_folder(tmp_path: Path) -> None:
    """As `sftpd --tree` copies them; by default they are the same everywhere."""
    (tmp_path / "d").mkdir()
    (tmp_path / "d" / "f").write_bytes(b"1")
    os.chown(tmp_path / "d" / "f", 3, 4)
    os.chmod(tmp_path / "d" / "f", 0o4640)
    os.utime(tmp_path / "d" / "f", (5, 6))
    os.chmod(tmp_path / "d", 0o1700)
    os.utime(tmp_path / "d", (-5, 2**33))
    with Engine.from_folder(tmp_path, attributes=True) as engine:
        tree = engine.snapshot()
    file, folder = tree["/d/f"], tree["/d"]
    assert (file.permissions, file.uid, file.gid) == (0o4640, 3, 4)
    assert (file.atime, file.mtime, file.contents) == (5, 6, b"1")
    assert (folder.permissions, folder.atime, folder.mtime) == (0o1700, 0, 2**32 - 1)
    with Engine.from_folder(tmp_path) as engine:
        assert engine.snapshot()["/d/f"].permissions == 0o644


def test_what_is_skipped(tmp_path: Path) -> None:
    (tmp_path / "link").symlink_to("/etc")
    os.mkfifo(tmp_path / "pipe")
    with socket.socket(socket.AF_UNIX) as listening:
        listening.bind(str(tmp_path / "socket"))
    (tmp_path / "f").write_bytes(b"1")
    skipped: list[tuple[str, str]] = []
    with Engine.from_folder(tmp_path, skip=lambda *words: skipped.append(words)) as engine:
        assert list(engine.snapshot()) == ["/", "/f"]
    assert skipped == [
        (f"{tmp_path}/link", "a symbolic link"),
        (f"{tmp_path}/pipe", "a FIFO"),
        (f"{tmp_path}/socket", "a socket"),
    ]
    with pytest.raises(ValueError, match="neither a file nor a directory"):
        Engine.from_folder(tmp_path)


def test_a_sparse_file_of_a_folder(tmp_path: Path) -> None:
    """Its hole is neither read nor written."""
    with open(tmp_path / "f", "wb") as file:
        file.write(b"one")
        file.seek(2**39)
        file.write(b"two")
        file.truncate(2**40)
    begin = time.monotonic()
    with Engine.from_folder(tmp_path, moment=7) as engine:
        found = engine.snapshot()["/f"]
    assert time.monotonic() - begin < 60
    assert (found.size, found.mtime) == (2**40, 7)
    assert [(offset, piece.rstrip(b"\0")) for offset, piece in found.pieces] == [
        (0, b"one"), (2**39, b"two")
    ]


def test_a_deep_folder(tmp_path: Path) -> None:
    """Deeper than Python's recursion, and than descriptors."""
    depth = 1500
    before = os.open(".", os.O_RDONLY)
    try:
        os.chdir(tmp_path)
        for _ in range(depth):
            os.mkdir("d")
            os.chdir("d")
        Path("f").write_bytes(b"1")
        with Engine.from_folder(tmp_path) as engine:
            tree = engine.snapshot()
    finally:
        os.chdir(before)
        os.close(before)
        # pytest's own cleaning is recursive.
        subprocess.run(["rm", "-rf", str(tmp_path / "d")], check=True)
    assert tree["/d" * depth + "/f"].contents == b"1"


@pytest.fixture
def swapped(tmp_path: Path) -> Iterator[Path]:
    """A folder in which a name is now a file, and now a link to a secret or a FIFO."""
    folder = tmp_path / "folder"
    folder.mkdir()
    (tmp_path / "secret").write_bytes(b"secret")
    ends = threading.Event()

    def swap() -> None:
        while not ends.is_set():
            for make in (
                lambda name: os.symlink(tmp_path / "secret", name),
                os.mkfifo,
                lambda name: Path(name).write_bytes(b"fine"),
            ):
                make(tmp_path / "new")
                os.rename(tmp_path / "new", folder / "f")

    thread = threading.Thread(target=swap)
    thread.start()
    yield folder
    ends.set()
    thread.join()


def test_a_name_that_becomes_a_link(swapped: Path) -> None:
    """It is never followed, and never waited for."""
    found = set()
    begin = time.monotonic()
    # On a busy machine the file is seldom the same one for two calls.
    while time.monotonic() < begin + (3 if b"fine" in found else 60):
        try:
            with Engine.from_folder(swapped, skip=lambda *words: None) as engine:
                found.add(engine.snapshot().get("/f", Entry(0, 0, 0, 0, 0, 0, (), None)).contents)
        except (OSError, ValueError):
            pass
    assert b"secret" not in found and b"fine" in found


def listen(path: Path) -> None:
    with socket.socket(socket.AF_UNIX) as listening:
        listening.bind(str(path))


MADE: dict[str, Callable[[Path], object]] = {
    "file": lambda path: path.write_bytes(b"other"),
    "directory": os.mkdir,
    "link": lambda path: path.symlink_to(path.parent),
    "FIFO": os.mkfifo,
    "socket": listen,
}


def replace_at(monkeypatch: pytest.MonkeyPatch, call: str, kind: str, name: Path) -> None:
    """The first call of this function of `os` replaces a file or an empty directory."""
    called = getattr(os, call)
    new = name.parent.parent / "new"
    MADE[kind](new)

    def swapping(*words: object, **named: object) -> object:
        if os.path.lexists(new) and words[0] != str(name.parent):
            if name.is_dir():
                name.rmdir()
            else:
                name.unlink()
            new.rename(name)
        return called(*words, **named)

    monkeypatch.setattr(f"lucernetick._folders.os.{call}", swapping)


@pytest.mark.parametrize("kind", MADE)
def test_a_file_that_is_replaced_before_it_is_opened(
    tmp_path: Path, monkeypatch: pytest.MonkeyPatch, kind: str
) -> None:
    (tmp_path / "folder").mkdir()
    (tmp_path / "folder" / "x").write_bytes(b"inside")
    replace_at(monkeypatch, "open", kind, tmp_path / "folder" / "x")
    told = {"link": "symbolic links", "socket": "No such device"}.get(kind, "x: it was replaced")
    before = os.listdir("/proc/self/fd")
    with pytest.raises((OSError, ValueError), match=told):
        Engine.from_folder(tmp_path / "folder")
    assert os.listdir("/proc/self/fd") == before


@pytest.mark.parametrize("kind", MADE)
def test_a_directory_that_is_replaced_before_it_is_opened(
    tmp_path: Path, monkeypatch: pytest.MonkeyPatch, kind: str
) -> None:
    (tmp_path / "folder" / "x").mkdir(parents=True)
    replace_at(monkeypatch, "open", kind, tmp_path / "folder" / "x")
    if kind == "directory":
        with Engine.from_folder(tmp_path / "folder") as engine:
            assert list(engine.snapshot()) == ["/", "/x"]
    else:
        with pytest.raises(NotADirectoryError, match=f"{tmp_path}/folder/x"):
            Engine.from_folder(tmp_path / "folder")


@pytest.mark.parametrize("kind", MADE)
def test_a_file_that_is_replaced_before_it_is_read(
    tmp_path: Path, monkeypatch: pytest.MonkeyPatch, kind: str
) -> None:
    """What was opened is read."""
    (tmp_path / "folder").mkdir()
    (tmp_path / "folder" / "x").write_bytes(b"inside")
    replace_at(monkeypatch, "pread", kind, tmp_path / "folder" / "x")
    with Engine.from_folder(tmp_path / "folder") as engine:
        assert engine.snapshot()["/x"].contents == b"inside"
    assert not os.path.lexists(tmp_path / "new")


@pytest.mark.parametrize(("size", "how"), [(10, "shrank"), (2**23, "grew")])
def test_a_file_that_changes_its_size(
    tmp_path: Path, monkeypatch: pytest.MonkeyPatch, size: int, how: str
) -> None:
    (tmp_path / "f").write_bytes(bytes(range(256)) * 16384)
    pread = os.pread

    def changing(descriptor: int, count: int, offset: int) -> bytes:
        os.truncate(tmp_path / "f", size)
        return pread(descriptor, count, offset)

    monkeypatch.setattr("lucernetick._folders.os.pread", changing)
    with pytest.raises(ValueError, match=f"f: it {how} while it was read"):
        Engine.from_folder(tmp_path)


def test_a_file_that_vanishes(tmp_path: Path, monkeypatch: pytest.MonkeyPatch) -> None:
    (tmp_path / "f").write_bytes(b"1")
    listdir = os.listdir

    def vanishing(folder: int) -> list[str]:
        names = listdir(folder)
        (tmp_path / "f").unlink()
        return names

    monkeypatch.setattr("lucernetick._folders.os.listdir", vanishing)
    with pytest.raises(FileNotFoundError, match=f"{tmp_path}/f"):
        Engine.from_folder(tmp_path)


def test_what_cannot_be_saved(tmp_path: Path) -> None:
    """The rest is."""
    whole = Entry(stat.S_IFREG | 0o644, 0, 0, 1, 2, 1, ((0, b"1"),), 1)
    top = Entry(stat.S_IFDIR | 0o755, 0, 0, 1, 2, 0, (), None)
    tree = Snapshot({"/": top, "/" + "x" * 255 + "y": whole, "/a": whole})
    with pytest.raises(OSError, match="File name too long"):
        tree.save(tmp_path / "one")
    [(path, fault)] = Snapshot(tree).save_all(tmp_path / "two")
    assert path.endswith("xy") and fault.strerror == "File name too long"
    assert (tmp_path / "two" / "a").stat().st_mtime == 2
