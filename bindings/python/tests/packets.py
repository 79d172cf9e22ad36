"""The packets of these tests, made and cut (docs/PROTOCOL.md, "Packets")."""

INIT, OPEN, CLOSE, READ, WRITE, SETSTAT = 1, 3, 4, 5, 6, 9
REMOVE, MKDIR, STAT, RENAME = 13, 14, 17, 18
STATUS, HANDLE, DATA, ATTRS = 101, 102, 103, 105
OK, NO_SUCH_FILE = 0, 2
VERSION = 153
"""The length of VERSION's packet."""


def u32(value: int) -> bytes:
    return value.to_bytes(4, "big")


def string(data: bytes) -> bytes:
    return u32(len(data)) + data


def packet(kind: int, *fields: bytes) -> bytes:
    return string(bytes([kind]) + b"".join(fields))


def replies(data: bytes) -> list[bytes]:
    """The bodies of the packets that these bytes are."""
    found = []
    while data:
        count = int.from_bytes(data[:4], "big")
        assert len(data) >= 4 + count > 4
        found.append(data[4 : 4 + count])
        data = data[4 + count :]
    return found


def status(number: int, code: int, message: bytes) -> bytes:
    """The body of a STATUS."""
    return bytes([STATUS]) + u32(number) + u32(code) + string(message) + string(b"")


# INIT, and MKDIR of /a under the id 7.
MAKES = packet(INIT, u32(3)) + packet(MKDIR, u32(7), string(b"/a"), u32(0))
# INIT, and STAT of /a under the id 8.
LOOKS = packet(INIT, u32(3)) + packet(STAT, u32(8), string(b"/a"))
