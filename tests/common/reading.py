"""What a packet asks for, by docs/PROTOCOL.md, section 5, "Order of the cases", read on its own and
byte by byte.

`reads` tells of a whole packet's body, its type and its data, whether it ends the session, is
answered without a call, or is a call."""

from engine import NO_ID, NOT_INIT, OLD_VERSION, SECOND_INIT
from packets import (
    BAD_MESSAGE, CLOSE, EXTENDED, EXTENDED_REPLY, FAILURE, FSETSTAT, FSTAT, INIT, LSTAT, MKDIR,
    NAME, OP_UNSUPPORTED, OPEN, OPENDIR, READ, READDIR, REALPATH, REMOVE, RENAME, RMDIR, SETSTAT,
    STAT, STATUS, VERSION, WRITE, packet, string, u32, u64,
)

MESSAGES = {
    BAD_MESSAGE: b"Bad message",
    FAILURE: b"Failure",
    OP_UNSUPPORTED: b"Operation unsupported",
}

# The fields of the extensions, by section 1, in VERSION's order.
EXTENSIONS = {
    b"posix-rename@openssh.com": ("path", "path"),
    b"hardlink@openssh.com": ("path", "path"),
    b"fsync@openssh.com": ("handle",),
    b"lsetstat@openssh.com": ("path", "attrs"),
    b"limits@openssh.com": (),
}
# The bytes of a packet, of a READ and of a WRITE, and the open handles of a session.
LIMITS = (262144, 261120, 261120, 128)
VERSION_REPLY = packet(VERSION, u32(3), *(string(name) + string(b"1") for name in EXTENSIONS))

# The fields behind the id, by section 1.
FIELDS = {
    OPEN: ("path", "u32", "attrs"),
    CLOSE: ("handle",),
    READ: ("handle", "u64", "u32"),
    WRITE: ("handle", "u64", "string"),
    LSTAT: ("path",),
    STAT: ("path",),
    FSTAT: ("handle",),
    SETSTAT: ("path", "attrs"),
    FSETSTAT: ("handle", "attrs"),
    OPENDIR: ("path",),
    READDIR: ("handle",),
    REMOVE: ("path",),
    RMDIR: ("path",),
    MKDIR: ("path", "attrs"),
    REALPATH: ("path",),
    RENAME: ("path", "path"),
}

# The parts of attrs and their lengths, by section 3; the pairs of strings stand behind them.
PARTS = ((0x1, 8), (0x2, 8), (0x4, 4), (0x8, 8))
PAIRS = 0x80000000


class Ends:
    """The session ends, by this cause."""

    def __init__(self, cause):
        self.cause = cause


class Answers:
    """The packet is answered so, without a call."""

    def __init__(self, reply):
        self.reply = reply


class Calls:
    """The packet is a call."""


class Short(Exception):
    """A field goes past the end of the data."""


class Fields:
    """The fields of some data, from its front."""

    def __init__(self, data):
        self.data = data

    def bytes(self, count):
        if count > len(self.data):
            raise Short
        front, self.data = self.data[:count], self.data[count:]
        return front

    def number(self, count=4):
        return int.from_bytes(self.bytes(count), "big")

    def string(self):
        return self.bytes(self.number())

    def attrs(self):
        flags = self.number()
        for flag, length in PARTS:
            if flags & flag:
                self.bytes(length)
        if flags & PAIRS:
            for _ in range(self.number()):
                self.string()
                self.string()


def reads(body, first):
    """What the body asks for, being the session's first packet or a later one."""
    kind, data = body[0], body[1:]
    if first:
        return reads_first(kind, data)
    if kind == INIT:
        return Ends(SECOND_INIT)
    if len(data) < 4:
        return Ends(NO_ID)
    return reads_request(kind, data[:4], Fields(data[4:]))


def reads_first(kind, data):
    if kind != INIT:
        return Ends(NOT_INIT)
    if len(data) < 4:
        return Ends(NO_ID)
    if int.from_bytes(data[:4], "big") < 3:
        return Ends(OLD_VERSION)
    return Answers(VERSION_REPLY)


def reads_request(kind, request_id, fields):
    wanted = FIELDS.get(kind)
    if kind == EXTENDED:
        try:
            name = fields.string()
        except Short:
            return status(request_id, BAD_MESSAGE)
        wanted = EXTENSIONS.get(name)
    if wanted is None:
        return status(request_id, OP_UNSUPPORTED)
    try:
        found = [read_field(field, fields) for field in wanted]
    except Short:
        return status(request_id, BAD_MESSAGE)
    paths = [value for field, value in zip(wanted, found) if field == "path"]
    handles = [value for field, value in zip(wanted, found) if field == "handle"]
    if any(is_refused(path) for path in paths) or any(len(handle) != 8 for handle in handles):
        return status(request_id, FAILURE)
    if kind == EXTENDED and not wanted:
        return Answers(packet(EXTENDED_REPLY, request_id, *map(u64, LIMITS)))
    if kind == REALPATH:
        name = string(normal_text(paths[0]))
        return Answers(packet(NAME, request_id, u32(1), name, name, u32(0)))
    return Calls()


def read_field(field, fields):
    if field in ("path", "handle", "string"):
        return fields.string()
    if field == "attrs":
        return fields.attrs()
    return fields.number(4 if field == "u32" else 8)


def status(request_id, code):
    return Answers(packet(STATUS, request_id, u32(code), string(MESSAGES[code]), string(b"")))


def is_refused(path):
    """Whether section 6 refuses the path."""
    return len(path) > 4096 or any(len(part) > 255 for part in path.split(b"/")) or 0 in path


def normal_text(path):
    names = []
    for part in path.split(b"/"):
        if part == b"..":
            names = names[:-1]
        elif part not in (b"", b"."):
            names.append(part)
    return b"/" + b"/".join(names)
