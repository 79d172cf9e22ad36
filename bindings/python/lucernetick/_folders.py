"""Trees from folders of the system, and into them."""

from __future__ import annotations

import contextlib
import errno
import os
import stat
from typing import Callable, Dict, Iterator, List, NamedTuple, Optional, Sequence, Tuple, Union

from ._tree import Entry, Link

PERMISSIONS = 0o777
TO_READ = os.O_RDONLY | os.O_NOFOLLOW | os.O_NONBLOCK | os.O_CLOEXEC
TO_LIST = os.O_RDONLY | os.O_NOFOLLOW | os.O_DIRECTORY | os.O_CLOEXEC
CHUNK = 1 << 20


class Snapshot(Dict[str, Entry]):
    """A whole tree: the entries by their paths. A directory precedes its entries, and names are
    sorted by their bytes."""

    def save(self, folder: Union[str, os.PathLike[str]]) -> None:
        """Writes it into a folder of the system, which is created or has to be empty: names,
        contents, times, and the lowest nine permission bits. Names of one file are hard links, and
        holes of sparse files stay holes."""
        failed = self.save_all(folder)
        if failed:
            raise failed[0][1]

    def save_all(self, folder: Union[str, os.PathLike[str]]) -> List[Tuple[str, OSError]]:
        """As `save`, but continues after an error. Returns the paths that couldn't be written, with
        their errors."""
        top = os.fspath(folder)
        make_empty(top)
        first: dict[int, str] = {}
        failed: List[Tuple[str, OSError]] = []
        written: List[str] = []
        for path, entry in self.items():
            try:
                if path != "/":
                    write_entry(top + path, entry, first)
                written.append(path)
            except OSError as fault:
                failed.append((path, fault))
        for path in reversed(written):
            try:
                os.chmod(top + path, self[path].permissions & PERMISSIONS)
                os.utime(top + path, (self[path].atime, self[path].mtime))
            except OSError as fault:
                failed.append((path, fault))
        return failed


def make_empty(folder: str) -> None:
    """Creates a folder, or accepts one that is empty."""
    os.makedirs(folder, exist_ok=True)
    if os.listdir(folder):
        raise FileExistsError(errno.ENOTEMPTY, os.strerror(errno.ENOTEMPTY), folder)


def write_entry(place: str, entry: Entry, first: dict[int, str]) -> None:
    """Writes a directory, a file, or a further name of a file. `first` has the first names of
    files."""
    if entry.file is None:
        os.mkdir(place)
    elif entry.file in first:
        os.link(first[entry.file], place)
    else:
        with open(place, "xb") as file:
            for offset, piece in entry.pieces:
                file.seek(offset)
                file.write(piece)
            file.truncate(entry.size)
        first[entry.file] = place


class Sparse(NamedTuple):
    """The contents of a file: its size, and its bytes by their offsets without the holes."""

    size: int
    pieces: Tuple[Tuple[int, bytes], ...]


class Found(NamedTuple):
    """A file or a directory of a folder."""

    contents: Union[Sparse, Link, None]
    status: os.stat_result


Skip = Callable[[str, str], object]
"""Is called with the path of an entry that is skipped, and what it is."""


class Folder:
    """Reads a folder by file descriptors: a name that becomes a symbolic link meanwhile is never
    followed, and a FIFO never blocks. Without recursion: a folder may be deep."""

    def __init__(self, folder: str, skip: Optional[Skip] = None) -> None:
        """Whatever is neither a file nor a directory is skipped, or an error without `skip`."""
        self._folder = folder
        self._skip = skip
        self._first: Dict[Tuple[int, int], str] = {}
        self._names: Tuple[str, ...] = ()
        """The path of the directory that is open."""
        self._directory = -1

    def read(self) -> Dict[str, Found]:
        """The entries by their paths. A directory precedes its entries."""
        found: Dict[str, Found] = {}
        waiting: List[Tuple[str, ...]] = [()]
        self._directory = os.open(self._folder, TO_LIST & ~os.O_NOFOLLOW)
        try:
            while waiting:
                names = waiting.pop()
                with self._naming(names):
                    self._enter(names)
                for name in sorted(os.listdir(self._directory)):
                    inside = (*names, name)
                    with self._naming(inside):
                        entry = self._entry(self._directory, inside)
                    if entry is not None:
                        found["/" + "/".join(inside)] = entry
                        if entry.contents is None:
                            waiting.append(inside)
        finally:
            os.close(self._directory)
        return found

    def _place(self, names: Sequence[str]) -> str:
        return os.path.join(self._folder, *names)

    @contextlib.contextmanager
    def _naming(self, names: Sequence[str]) -> Iterator[None]:
        """An error has the whole path."""
        try:
            yield
        except OSError as fault:
            raise OSError(fault.errno, fault.strerror, self._place(names)) from None

    def _enter(self, names: Tuple[str, ...]) -> None:
        """Opens a directory: from its parent if that is open, and name by name otherwise."""
        rest = names[-1:]
        if names[:-1] != self._names:
            self._replace(os.open(self._folder, TO_LIST & ~os.O_NOFOLLOW))
            rest = names
        for name in rest:
            self._replace(os.open(name, TO_LIST, dir_fd=self._directory))
        self._names = names

    def _replace(self, directory: int) -> None:
        os.close(self._directory)
        self._directory = directory

    def _entry(self, directory: int, names: Tuple[str, ...]) -> Optional[Found]:
        status = os.stat(names[-1], dir_fd=directory, follow_symlinks=False)
        if stat.S_ISDIR(status.st_mode):
            return Found(None, status)
        if not stat.S_ISREG(status.st_mode):
            if self._skip is None:
                raise ValueError(f"{self._place(names)}: neither a file nor a directory")
            self._skip(self._place(names), kind_name(status.st_mode))
            return None
        path = "/" + "/".join(names)
        first = self._first.setdefault((status.st_dev, status.st_ino), path)
        if first != path:
            return Found(Link(first), status)
        descriptor = os.open(names[-1], TO_READ, dir_fd=directory)
        try:
            opened = os.fstat(descriptor)
            if not stat.S_ISREG(opened.st_mode) or not os.path.samestat(status, opened):
                raise ValueError(f"{self._place(names)}: it was replaced while it was read")
            pieces = tuple(read_pieces(descriptor, opened.st_size))
            now = os.fstat(descriptor).st_size
            if now != opened.st_size:
                how = "shrank" if now < opened.st_size else "grew"
                raise ValueError(f"{self._place(names)}: it {how} while it was read")
            return Found(Sparse(opened.st_size, pieces), opened)
        finally:
            os.close(descriptor)


def kind_name(mode: int) -> str:
    """The kind of an entry that a tree can't have."""
    kinds = (
        (stat.S_ISLNK, "a symbolic link"),
        (stat.S_ISFIFO, "a FIFO"),
        (stat.S_ISSOCK, "a socket"),
    )
    return next((name for is_kind, name in kinds if is_kind(mode)), "a device")


def read_pieces(descriptor: int, size: int) -> Iterator[Tuple[int, bytes]]:
    """The bytes of a file by their offsets, at most CHUNK each, without its holes."""
    offset = 0
    while offset < size:
        try:
            begin = os.lseek(descriptor, offset, os.SEEK_DATA)
            end = min(os.lseek(descriptor, begin, os.SEEK_HOLE), size)
        except OSError as fault:
            if fault.errno == errno.ENXIO:
                return
            begin, end = offset, size
        for at in range(begin, end, CHUNK):
            piece = os.pread(descriptor, min(CHUNK, end - at), at)
            if piece:
                yield at, piece
        offset = end


def read_folder(folder: str, skip: Optional[Skip] = None) -> Dict[str, Found]:
    """The entries of a folder by their paths in the tree."""
    return Folder(folder, skip).read()
