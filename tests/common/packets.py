"""Packets of the protocol, by name (docs/PROTOCOL.md, "Packets")."""

INIT, VERSION, OPEN, CLOSE, READ, WRITE, LSTAT, FSTAT, SETSTAT, FSETSTAT = range(1, 11)
OPENDIR, READDIR, REMOVE, MKDIR, RMDIR, REALPATH, STAT, RENAME = range(11, 19)
STATUS, HANDLE, DATA, NAME, ATTRS = range(101, 106)
EXTENDED = 200
EXTENDED_REPLY = 201
OK, EOF, NO_SUCH_FILE, PERMISSION_DENIED, FAILURE, BAD_MESSAGE, OP_UNSUPPORTED = 0, 1, 2, 3, 4, 5, 8


def u32(value):
    return value.to_bytes(4, "big")


def u64(value):
    return value.to_bytes(8, "big")


def string(data):
    return u32(len(data)) + data


def packet(kind, *fields):
    """A whole packet: its length, its type, and its fields."""
    body = bytes([kind]) + b"".join(fields)
    return u32(len(body)) + body


NO_ATTRIBUTES = u32(0)
