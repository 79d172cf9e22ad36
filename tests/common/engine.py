"""The C library (include/lucernetick.h), by its calls."""

import ctypes
import os
import subprocess
import sys

from checks import same
from packets import u32, u64

TOP = os.path.dirname(os.path.dirname(os.path.dirname(os.path.abspath(__file__))))

# What a turn did.
IDLE, WROTE, BEGUN, MOVED, BLOCKED, DECIDED, SPENT = range(7)
ENDED = 16
# Why a session ended: ENDED and one of these.
NOT_INIT, OLD_VERSION, SECOND_INIT, ZERO_LENGTH, TOO_LONG, NO_ID, CLOSED = range(1, 8)

MOMENT = 100
MOST_REPLIES = 1 << 40
ROOM = 1 << 19


class Bytes(ctypes.Structure):
    _fields_ = [("at", ctypes.c_void_p), ("length", ctypes.c_size_t)]

    def bytes(self):
        return ctypes.string_at(self.at, self.length)


class Attributes(ctypes.Structure):
    _fields_ = [("size", ctypes.c_uint64)] + [
        (name, ctypes.c_uint32)
        for name in ("given", "uid", "gid", "permissions", "atime", "mtime")
    ]

    def packed(self):
        """As a packet has them."""
        numbers = (self.uid, self.gid, self.permissions, self.atime, self.mtime)
        return u32(self.given) + u64(self.size) + b"".join(map(u32, numbers))


class Record(ctypes.Structure):
    _fields_ = [
        ("number", ctypes.c_uint64),
        ("session", ctypes.c_uint64),
        ("timestamp", ctypes.c_uint32),
        ("kind", ctypes.c_uint32),
        ("path", Bytes),
        ("new_path", Bytes),
        ("handle", ctypes.c_uint64),
        ("offset", ctypes.c_uint64),
        ("length", ctypes.c_uint64),
        ("flags", ctypes.c_uint32),
        ("answer", ctypes.c_uint32),
        ("attributes", Attributes),
        ("written", Bytes),
        ("status", ctypes.c_uint32),
        ("names", ctypes.c_uint32),
        ("answer_handle", ctypes.c_uint64),
        ("answer_attributes", Attributes),
        ("answer_bytes", Bytes),
    ]


class Leaf(ctypes.Structure):
    _fields_ = [("path", Bytes), ("attributes", Attributes), ("label", ctypes.c_uint64)]


def find_library():
    """The library that a script is given behind the program, or that scripts/library builds."""
    if len(sys.argv) > 2:
        return os.path.abspath(sys.argv[2])
    packages = ["gcc", "binutils", "libc6-dev"]
    subprocess.run(["bash", os.path.join(TOP, "tests/common/install.sh"), *packages], check=False)
    build = os.path.join(TOP, "scripts/library")
    subprocess.run([build], check=True, stdout=subprocess.DEVNULL, timeout=7200)
    return os.path.join(TOP, "out/liblucernetick.so")


def load():
    """Loads the library, before the first engine is made."""
    library = ctypes.CDLL(find_library())
    pointer, u64, u32, size = ctypes.c_void_p, ctypes.c_uint64, ctypes.c_uint32, ctypes.c_size_t
    for name, gives, takes in (
        ("lt_new_keeping", pointer, [u64]),
        ("lt_free", None, [pointer]),
        ("lt_open", ctypes.c_int64, [pointer]),
        ("lt_feed", ctypes.c_int64, [pointer, u64, ctypes.c_char_p, size]),
        ("lt_turn", ctypes.c_int64, [pointer, u64, u32]),
        ("lt_settle", ctypes.c_int64, [pointer, u64, u32, u64, pointer]),
        ("lt_run_all", ctypes.c_int64, [pointer]),
        ("lt_close", ctypes.c_int64, [pointer, u64]),
        ("lt_output", ctypes.c_int64, [pointer, u64, pointer, size]),
        ("lt_sent", ctypes.c_int64, [pointer, u64, size]),
        ("lt_calls", ctypes.c_int64, [pointer, u64, pointer]),
        ("lt_tree_of", ctypes.c_int64, [pointer, pointer]),
        ("lt_tree_leaf", ctypes.c_int64, [pointer, u64, pointer]),
        ("lt_tree_read", ctypes.c_int64, [pointer, u64, u64, pointer, size]),
        ("lt_tree_gap", ctypes.c_int64, [pointer, u64, u64]),
        ("lt_tree_free", None, [pointer]),
    ):
        function = getattr(library, name)
        function.restype, function.argtypes = gives, takes
    Engine.library = library


class Engine:
    """An engine, of which no call may be refused."""

    library = None

    def __init__(self, keep=1):
        self.at = self.library.lt_new_keeping(keep)
        self.room = ctypes.create_string_buffer(ROOM)
        if self.at is None:
            raise AssertionError("no engine")

    def __enter__(self):
        return self

    def __exit__(self, *_):
        self.library.lt_free(self.at)

    def open(self):
        return granted(self.library.lt_open(self.at))

    def feed(self, session, data):
        same(self.library.lt_feed(self.at, session, data, len(data)), 0)

    def turn(self, session, timestamp=MOMENT):
        return granted(self.library.lt_turn(self.at, session, timestamp))

    def settle(self, session):
        return granted(self.library.lt_settle(self.at, session, MOMENT, MOST_REPLIES, None))

    def run_all(self):
        return granted(self.library.lt_run_all(self.at))

    def close(self, session):
        same(self.library.lt_close(self.at, session), 0)

    def take(self, session):
        """What waits to be sent, which is sent."""
        taken, waiting = b"", ROOM + 1
        while waiting > ROOM:
            waiting = granted(self.library.lt_output(self.at, session, self.room, ROOM))
            data = ctypes.string_at(self.room, min(waiting, ROOM))
            same(self.library.lt_sent(self.at, session, len(data)), 0)
            taken += data
        return taken

    def ask(self, session, data):
        """Feeds bytes, of whole packets, and gives what they are answered."""
        self.feed(session, data)
        same(self.settle(session), IDLE)
        return self.take(session)

    def record(self, at):
        """The number, session and timestamp of the record at a place, from the last one on: None
        before the first one. A session that left has the number 0."""
        found = Record()
        count = granted(self.library.lt_calls(self.at, 1 << 63, ctypes.byref(found)))
        if at >= count:
            return None
        self.library.lt_calls(self.at, count - 1 - at, ctypes.byref(found))
        return found.number, found.session, found.timestamp

    def snapshot(self):
        return Snapshot(self.library, self.at)


class Snapshot:
    """A snapshot of an engine's tree."""

    def __init__(self, library, engine):
        self.library = library
        self.at = ctypes.c_void_p()
        self.room = ctypes.create_string_buffer(ROOM)
        same(library.lt_tree_of(engine, ctypes.byref(self.at)), 0)

    def __enter__(self):
        return self

    def __exit__(self, *_):
        self.library.lt_tree_free(self.at)

    def leaves(self):
        """Each path with the label and the attributes of what it names."""
        leaf = Leaf()
        for at in range(granted(self.library.lt_tree_leaf(self.at, 0, ctypes.byref(leaf)))):
            self.library.lt_tree_leaf(self.at, at, ctypes.byref(leaf))
            yield leaf.path.bytes(), leaf.label, leaf.attributes.packed()

    def read(self, at, offset, count):
        """Bytes of the leaf at a place."""
        found = granted(self.library.lt_tree_read(self.at, at, offset, self.room, count))
        return ctypes.string_at(self.room, found)

    def gap(self, at, offset):
        return granted(self.library.lt_tree_gap(self.at, at, offset))


def granted(number):
    if number < 0:
        raise AssertionError(f"refused: {number}")
    return number
