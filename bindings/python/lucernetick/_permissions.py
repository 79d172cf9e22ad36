"""Permission bits, enforced as POSIX does."""

from __future__ import annotations

from dataclasses import dataclass
from typing import Callable, NamedTuple, Optional, Sequence

from ._calls import Attributes, Kind, path_bytes
from ._flags import OpenFlag
from ._requests import BY_PATH, Request

READ, WRITE, SEARCH = 4, 2, 1
STICKY = 0o1000
GUARDED = BY_PATH - {Kind.REALPATH} | {Kind.FSETSTAT}
"""The kinds that need a permission. Other requests by handle have that with which it was opened."""
KEPT = 2**32 - 1
"""In attributes: an id that stays as it is."""

Names = Sequence[bytes]


class Mode(NamedTuple):
    """An object of the tree."""

    mode: int
    uid: int
    gid: int
    is_directory: bool


class Place(NamedTuple):
    """A path: its object, if it has one, and the directory that has its last name."""

    parent: Optional[Mode]
    directory: Names
    """The names of that directory."""
    found: Optional[Mode]


@dataclass(frozen=True)
class Owner:
    """A user, and its group."""

    uid: int
    gid: int

    def may(self, found: Mode, bits: int) -> bool:
        """Whether it has these permissions. Those of its own class count, and no others."""
        shift = 6 if found.uid == self.uid else 3 if found.gid == self.gid else 0
        return found.mode >> shift & bits == bits

    def may_change(self, place: Place) -> bool:
        """Whether it may add an entry to the directory."""
        return place.parent is None or self.may(place.parent, WRITE)

    def may_remove(self, place: Place) -> bool:
        """Whether it may remove or replace the entry. With the sticky bit, only the owner of the
        entry or of the directory may."""
        if place.parent is None or place.found is None or not place.parent.mode & STICKY:
            return self.may_change(place)
        return self.may_change(place) and self.uid in (place.parent.uid, place.found.uid)

    def may_open(self, place: Place, flags: int) -> bool:
        if place.found is None:
            return not flags & OpenFlag.CREATE or self.may_change(place)
        is_changed = flags & (OpenFlag.WRITE | OpenFlag.CREATE)
        is_new = flags & OpenFlag.CREATE and flags & OpenFlag.EXCL
        if is_new or place.found.is_directory and is_changed:
            # The server rejects it.
            return True
        writes = bool(flags & OpenFlag.WRITE)
        reads = bool(flags & OpenFlag.READ) or not writes
        return self.may(place.found, READ * reads | WRITE * writes)

    def may_set(self, found: Mode, attributes: Attributes, is_open: bool) -> bool:
        """Owners set permissions and times, and their own group. The size needs a permission, or a
        file that is open for writing."""
        if attributes.size is not None and not is_open and not self.may(found, WRITE):
            return False
        ids = attributes.uid in (None, KEPT) and attributes.gid in (None, KEPT)
        if ids and attributes.permissions is None and attributes.mtime is None:
            return True
        return (
            found.uid == self.uid
            and attributes.uid in (None, KEPT, found.uid)
            and attributes.gid in (None, KEPT, found.gid, self.gid)
        )

    def may_rename(self, old: Place, new: Place) -> bool:
        """A directory that moves to another parent changes itself: its entry `..`."""
        moved = old.found if old.directory != new.directory else None
        may_move = moved is None or not moved.is_directory or self.may(moved, WRITE)
        return may_move and self.may_remove(old) and self.may_remove(new)


class Unreachable(Exception):
    """A directory of a path is missing, or is a file: the server replies so."""


class Permissions:
    """The permissions of a user in a tree, whose objects `find` returns. The client sees the
    directory `top` as /."""

    def __init__(self, owner: Owner, find: Callable[[Names], Optional[Mode]], top: Names) -> None:
        self._owner = owner
        self._find = find
        self._top = top

    def deny(self, request: Request) -> bool:
        """Whether the user may not do this, by a request of a kind that is guarded."""
        try:
            return not self._allow(request)
        except Unreachable:
            return False
        except PermissionError:
            return True

    def found(self, path: Optional[str]) -> Optional[Mode]:
        """The object at a path."""
        return None if path is None else self._find(names_of(path))

    def _allow(self, request: Request) -> bool:
        kind, user = request.kind, self._owner
        if kind == Kind.FSETSTAT:
            held = self.found(request.path)
            return held is None or user.may_set(held, request.attributes, True)
        place = self._reach(request.path or "/")
        if request.new_path is not None:
            return place.found is None or self._allow_both(kind, place, request.new_path)
        if kind == Kind.OPEN:
            return user.may_open(place, request.flags or 0)
        if kind == Kind.MKDIR:
            return place.found is not None or user.may_change(place)
        if place.found is None:
            return True
        if kind == Kind.SETSTAT:
            return user.may_set(place.found, request.attributes, False)
        if kind == Kind.OPENDIR:
            return user.may(place.found, READ)
        return kind not in (Kind.REMOVE, Kind.RMDIR) or user.may_remove(place)

    def _allow_both(self, kind: Kind, old: Place, path: str) -> bool:
        new = self._reach(path)
        if kind == Kind.HARDLINK:
            return new.found is not None or self._owner.may_change(new)
        return self._owner.may_rename(old, new)

    def _reach(self, path: str) -> Place:
        """Each directory on the way needs the permission to search it."""
        names, parent = names_of(path), None
        for depth in range(len(self._top), len(names)):
            parent = self._find(names[:depth])
            if parent is None or not parent.is_directory:
                raise Unreachable
            if not self._owner.may(parent, SEARCH):
                raise PermissionError
        return Place(parent, names[:-1], self._find(names))


def names_of(path: str) -> list[bytes]:
    """The names of a path in normal form."""
    return path_bytes(path).split(b"/")[1:] if path != "/" else []
