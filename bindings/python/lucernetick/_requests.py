"""Requests of clients: bytes are cut into packets, and a packet is read for rules and callbacks."""

from __future__ import annotations

from dataclasses import dataclass
from typing import Mapping, Optional

from ._arguments import LONGEST_NAME, LONGEST_PATH, normal
from ._calls import Attributes, Call, Kind, text

LONGEST = 262144
"""The greatest length of a packet."""
EXTENDED = 200
BY_PATH = {
    Kind.OPEN,
    Kind.LSTAT,
    Kind.SETSTAT,
    Kind.OPENDIR,
    Kind.REMOVE,
    Kind.MKDIR,
    Kind.RMDIR,
    Kind.REALPATH,
    Kind.STAT,
    Kind.RENAME,
    Kind.POSIX_RENAME,
    Kind.HARDLINK,
}
WITH_ATTRIBUTES = {Kind.OPEN, Kind.MKDIR, Kind.SETSTAT, Kind.FSETSTAT}
SIZE, OWNER, MODE, TIMES, PAIRS = 1, 2, 4, 8, 2**31
"""The flags of attributes."""
OF_ENTRIES = {Kind.REMOVE, Kind.RMDIR, Kind.RENAME, Kind.POSIX_RENAME, Kind.HARDLINK}
BY_TWO_PATHS = {Kind.RENAME, Kind.POSIX_RENAME, Kind.HARDLINK}
PLAIN = {int(kind): kind for kind in Kind if kind < EXTENDED}
EXTENSIONS = {
    b"posix-rename@openssh.com": Kind.POSIX_RENAME,
    b"hardlink@openssh.com": Kind.HARDLINK,
    b"fsync@openssh.com": Kind.FSETSTAT,
    b"lsetstat@openssh.com": Kind.SETSTAT,
}


@dataclass(frozen=True)
class Request:
    """A request that the server is about to read. A field that its kind doesn't have is None or
    empty."""

    session: int
    kind: Kind
    path: Optional[str]
    """The absolute path. Of a rename or a link: the old path. Of a request by handle: the path that
    the handle was opened with."""
    new_path: Optional[str]
    handle: Optional[int]
    offset: Optional[int]
    length: Optional[int]
    """How many bytes are requested, or written."""
    flags: Optional[int]
    """The pflags of OPEN, see `OpenFlag`."""
    data: bytes
    """The bytes of WRITE."""
    attributes: Attributes = Attributes()


class Packets:
    """Cuts the bytes of a stream into packets."""

    def __init__(self) -> None:
        self._rest = bytearray()

    def add(self, data: bytes) -> None:
        self._rest += data

    def length(self) -> int:
        """The length of the next packet with its length field, or 0 until all of it is there. A
        length that ends the session counts as a packet of four bytes."""
        if len(self._rest) < 4:
            return 0
        length = int.from_bytes(self._rest[:4], "big")
        if not 0 < length <= LONGEST:
            return 4
        return 4 + length if len(self._rest) >= 4 + length else 0

    def first(self) -> bytes:
        """The next packet, which stays. Empty until all of it is there."""
        return bytes(self._rest[: self.length()])

    def drop(self) -> None:
        """Removes the next packet."""
        del self._rest[: self.length()]

    def count(self, data: bytes) -> int:
        """Adds bytes, and removes the packets that are complete now. Returns how many."""
        self.add(data)
        complete = 0
        while self.length():
            self.drop()
            complete += 1
        return complete


class Fields:
    """Reads the fields of a packet, one after the other."""

    def __init__(self, packet: bytes) -> None:
        self._packet = packet
        self._at = 9

    def number(self, size: int) -> int:
        return int.from_bytes(self.take(size), "big")

    def string(self) -> bytes:
        return self.take(self.number(4))

    def path(self) -> str:
        """A path, in normal form. The server rejects some texts itself."""
        encoded = self.string()
        longest = max(map(len, encoded.split(b"/")))
        if len(encoded) > LONGEST_PATH or longest > LONGEST_NAME or b"\0" in encoded:
            raise ValueError("no path")
        return text(normal(encoded))

    def handle(self) -> int:
        handle = self.string()
        if len(handle) != 8:
            raise ValueError("no handle")
        return int.from_bytes(handle, "big")

    def attributes(self) -> Attributes:
        flags = self.number(4)
        size = self.number(8) if flags & SIZE else None
        uid, gid = self._pair(flags & OWNER)
        permissions = self.number(4) if flags & MODE else None
        atime, mtime = self._pair(flags & TIMES)
        for _ in range(2 * self.number(4) if flags & PAIRS else 0):
            self.string()
        return Attributes(size, uid, gid, permissions, atime, mtime)

    def _pair(self, is_given: int) -> tuple[Optional[int], Optional[int]]:
        return (self.number(4), self.number(4)) if is_given else (None, None)

    def take(self, size: int) -> bytes:
        found = self._packet[self._at : self._at + size]
        if len(found) != size:
            raise ValueError("too short")
        self._at += size
        return found


def read_request(session: int, packet: bytes, opened: Mapping[int, Call]) -> Optional[Request]:
    """The request that a packet is. None if the server rejects the packet without reading the tree.
    `opened` has the calls that opened the handles."""
    fields = Fields(packet)
    try:
        is_extended = packet[4] == EXTENDED
        kind = EXTENSIONS[fields.string()] if is_extended else PLAIN[packet[4]]
        path = fields.path() if kind in BY_PATH else None
        new_path = fields.path() if kind in BY_TWO_PATHS else None
        flags = fields.number(4) if kind == Kind.OPEN else None
        handle = None if kind in BY_PATH else fields.handle()
        offset = length = None
        data = b""
        if kind in (Kind.READ, Kind.WRITE):
            offset, length = fields.number(8), fields.number(4)
        if kind == Kind.WRITE and length is not None:
            data = fields.take(length)
        # fsync@openssh.com has none.
        has_attributes = kind in WITH_ATTRIBUTES - ({Kind.FSETSTAT} if is_extended else set())
        attributes = fields.attributes() if has_attributes else Attributes()
    except (IndexError, KeyError, ValueError):
        return None
    if handle is not None and handle in opened:
        path = opened[handle].path
    return Request(
        session, kind, path, new_path, handle, offset, length, flags, data, attributes
    )


def refused_packet(packet: bytes, path: bytes) -> bytes:
    """A REALPATH of this path, with the packet's id."""
    body = bytes([Kind.REALPATH]) + packet[5:9] + len(path).to_bytes(4, "big") + path
    return len(body).to_bytes(4, "big") + body


def with_ids(packet: bytes, uid: int, gid: int) -> bytes:
    """An OPEN or MKDIR with these ids in its attributes. It has valid fields."""
    fields = Fields(packet)
    fields.string()
    if packet[4] == Kind.OPEN:
        fields.number(4)
    begin = fields._at
    flags = fields.number(4)
    size = fields.take(8 if flags & SIZE else 0)
    fields.take(8 if flags & OWNER else 0)
    numbers = [number.to_bytes(4, "big") for number in (flags | OWNER, uid, gid)]
    body = packet[4:begin] + numbers[0] + size + numbers[1] + numbers[2] + packet[fields._at :]
    return len(body).to_bytes(4, "big") + body


def below_root(packet: bytes, root: bytes) -> bytes:
    """A packet with the paths below `root`. No client can remove or rename the root."""
    fields = Fields(packet)
    try:
        is_extended = packet[4] == EXTENDED
        name = fields.string() if is_extended else b""
        kind = EXTENSIONS[name] if is_extended else PLAIN[packet[4]]
        if kind not in BY_PATH or kind == Kind.REALPATH:
            return packet
        count = 2 if kind in BY_TWO_PATHS else 1
        paths = [normal(fields.string()) for _ in range(count)]
    except (IndexError, KeyError, ValueError):
        return packet
    if kind not in OF_ENTRIES or b"/" not in paths:
        paths = [root + path.rstrip(b"/") for path in paths]
    strings = [name, *paths] if is_extended else paths
    body = packet[4:9] + b"".join(len(one).to_bytes(4, "big") + one for one in strings)
    body += packet[fields._at :]
    return len(body).to_bytes(4, "big") + body
