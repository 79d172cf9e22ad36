"""Rows of packets, each with the reply that docs/PROTOCOL.md gives it. Every row begins with an
empty tree, and all timestamps are 100."""

from engine import (
    BEGUN, BLOCKED, CLOSED, DECIDED, ENDED, MOVED, NO_ID, NOT_INIT, OLD_VERSION, SECOND_INIT,
    TOO_LONG, WROTE, ZERO_LENGTH,
)
from packets import (
    ATTRS, CLOSE, DATA, EOF, EXTENDED, FAILURE, FSETSTAT, FSTAT, HANDLE, INIT, LSTAT, MKDIR, NAME,
    NO_ATTRIBUTES, NO_SUCH_FILE, OK, OPEN, OPENDIR, READ, READDIR, REALPATH, REMOVE, RENAME, RMDIR,
    SETSTAT, STAT, STATUS, WRITE, packet, string, u32, u64,
)
from reading import VERSION_REPLY

READS_WRITES_AND_MAKES = 0x01 | 0x02 | 0x08
WRITES_AND_MAKES = 0x02 | 0x08
LARGEST = 1 << 40
MESSAGES = {OK: b"Success", EOF: b"End of file", NO_SUCH_FILE: b"No such file", FAILURE: b"Failure"}
BAD_MESSAGE_2 = "0000001c 65 00000002 00000005 0000000b 426164206d657373616765 00000000"
UNSUPPORTED = "00000026 65 %s 00000008 00000015 4f7065726174696f6e20756e737570706f72746564 00000000"


class Ask:
    """A session is fed a packet, and does these things in so many turns; where none are told it is
    given turns until it has nothing to do, or has ended by a cause. The reply may be written
    later."""

    def __init__(self, session, request, reply=b"", did=None, cause=None):
        self.session, self.request, self.reply = session, request, reply
        self.did, self.cause = did, cause


class Turns:
    """A session does these things."""

    def __init__(self, session, *did):
        self.session, self.did = session, did


class Closes:
    """A session is closed."""

    def __init__(self, session):
        self.session = session


def from_hex(text):
    return bytes.fromhex(text.replace(" ", ""))


def begins(*sessions):
    return [Ask(session, packet(INIT, u32(3)), VERSION_REPLY) for session in sessions]


def one_session(*asked):
    """A row of one session: pairs of a request and its reply, as bytes or in hexadecimal, behind
    INIT."""
    pairs = [[from_hex(it) if isinstance(it, str) else it for it in pair] for pair in asked]
    return begins(1) + [Ask(1, request, reply) for request, reply in pairs]


def ends(cause, *packets):
    """A row of one session whose last packet ends it. Those before it are INIT alone."""
    found = [from_hex(text) for text in packets]
    return [Ask(1, it, VERSION_REPLY) for it in found[:-1]] + [Ask(1, found[-1], cause=cause)]


def status(request_id, code):
    return packet(STATUS, u32(request_id), u32(code), string(MESSAGES[code]), string(b""))


def handle(request_id, number):
    return packet(HANDLE, u32(request_id), string(u64(number)))


def fields(size, permissions, accessed=100, modified=100, owner=(0, 0)):
    numbers = (*owner, permissions, accessed, modified)
    return u32(0xF) + u64(size) + b"".join(u32(number) for number in numbers)


def attrs(request_id, size, permissions=0o100644, accessed=100, modified=100):
    return packet(ATTRS, u32(request_id), fields(size, permissions, accessed, modified))


def data(request_id, contents):
    return packet(DATA, u32(request_id), string(contents))


def listing(request_id, *entries):
    """NAME of files, each a name, its size and its links."""
    found = []
    for name, size, links in entries:
        line = b"-rw-r--r-- %3d 0        0        %8d          100 %s" % (links, size, name)
        found.append(string(name) + string(line) + fields(size, 0o100644))
    return packet(NAME, u32(request_id), u32(len(entries)), *found)


def by_path(kind, request_id, path, *more):
    return packet(kind, u32(request_id), string(path), *more)


def by_handle(kind, request_id, number, *more):
    return packet(kind, u32(request_id), string(u64(number)), *more)


def mkdir(request_id, path):
    return by_path(MKDIR, request_id, path, NO_ATTRIBUTES)


def opens(request_id, path, flags=READS_WRITES_AND_MAKES):
    return by_path(OPEN, request_id, path, u32(flags), NO_ATTRIBUTES)


def write(request_id, number, offset, contents):
    return by_handle(WRITE, request_id, number, u64(offset), string(contents))


def read(request_id, number, offset, count):
    return by_handle(READ, request_id, number, u64(offset), u32(count))


def rename(request_id, old, new):
    return packet(RENAME, u32(request_id), string(old), string(new))


def extended(request_id, name, old, new):
    return packet(EXTENDED, u32(request_id), string(name), string(old), string(new))


def posix_rename(request_id, old, new):
    return extended(request_id, b"posix-rename@openssh.com", old, new)


def link(request_id, old, new):
    return extended(request_id, b"hardlink@openssh.com", old, new)


def versions():
    yield "version_reply", begins(1)
    yield "newer_version", [Ask(1, from_hex("00000005 01 00000006"), VERSION_REPLY)]
    yield "old_version", ends(OLD_VERSION, "00000005 01 00000002")
    yield "length_0", ends(ZERO_LENGTH, "00000000")
    yield "length_above_262144", ends(TOO_LONG, "00040001")
    init = "00000005 01 00000003"
    yield "no_room_for_an_id", ends(NO_ID, init, "00000004 11 000000")
    yield "second_init", ends(SECOND_INIT, init, "00000001 01")
    yield "init_without_a_version", ends(NO_ID, "00000001 01")
    yield "not_init", ends(NOT_INIT, "00000001 11")
    yield "length_0_later", ends(ZERO_LENGTH, init, "00000000")
    yield "length_above_262144_later", ends(TOO_LONG, init, "00040001")


def local_replies():
    yield "cut_open", one_session(
        ("00000013 03 00000002 00000002 2f66 0000001a 00000004", BAD_MESSAGE_2),
        ("0000000b 13 00000009 00000002 2f61", UNSUPPORTED % "00000009"),
        (by_path(STAT, 3, b"/"), attrs(3, 0, 0o40755, 0, 0)),
    )
    yield "more_pairs_than_bytes", one_session(
        ("00000013 0e 00000002 00000002 2f61 80000000 ffffffff", BAD_MESSAGE_2),
        ("0000001b 0e 00000002 00000002 2f61 80000000 00000001 00000000 00000000", status(2, OK)),
        (by_path(STAT, 3, b"/a"), attrs(3, 0, 0o40755)),
    )
    yield "handle_of_7_bytes", one_session(
        (
            "00000010 08 00000003 00000007 00000000000000",
            "00000018 65 00000003 00000004 00000007 4661696c757265 00000000",
        ),
        ("00000005 63 00000004", UNSUPPORTED % "00000004"),
        (opens(5, b"/f"), handle(5, 1)),
    )
    name, long_name = b"x" * 255, b"x" * 256
    found = string(b"/" + name)
    real_path = "000000%s 68 000000%s 00000001 000000%s %s 000000%s %s 00000000"
    yield "normal_forms", one_session(
        (by_path(REALPATH, 5, b""), real_path % ("17", "05", "01", "2f", "01", "2f")),
        (by_path(REALPATH, 1, b"a//./b/../.."), real_path % ("17", "01", "01", "2f", "01", "2f")),
        (by_path(REALPATH, 2, b"/../x/"), real_path % ("19", "02", "02", "2f78", "02", "2f78")),
        (by_path(REALPATH, 3, name), packet(NAME, u32(3), u32(1), found, found, u32(0))),
        (by_path(REALPATH, 4, long_name), status(4, FAILURE)),
    )


def calls():
    yield "mkdir_and_stat", one_session(
        (mkdir(7, b"/a"), "00000018 65 00000007 00000000 00000007 53756363657373 00000000"),
        (mkdir(7, b"/a"), "00000018 65 00000007 00000004 00000007 4661696c757265 00000000"),
        (
            by_path(STAT, 8, b"/a"),
            "00000025 69 00000008 0000000f 0000000000000000 00000000 00000000 000041ed"
            "00000064 00000064",
        ),
    )
    yield "write_read_and_list", one_session(
        (
            "00000013 03 00000001 00000002 2f66 0000000b 00000000",
            "00000011 66 00000001 00000008 0000000000000001",
        ),
        (
            "0000001e 06 00000002 00000008 0000000000000001 0000000000000005 00000001 78",
            status(2, OK),
        ),
        (
            "0000001d 05 00000003 00000008 0000000000000001 0000000000000000 0003fc01",
            "0000000f 67 00000003 00000006 000000000078",
        ),
        (
            read(4, 1, 6, 1),
            "0000001c 65 00000004 00000001 0000000b 456e64206f662066696c65 00000000",
        ),
        (by_path(OPENDIR, 3, b"/"), handle(3, 5)),
        (by_handle(READDIR, 4, 5), listing(4, (b"f", 6, 1))),
        (by_handle(READDIR, 5, 5), status(5, EOF)),
        (by_handle(FSETSTAT, 6, 1, u32(1), u64(7)), status(6, OK)),
        (by_handle(FSETSTAT, 7, 1, u32(1), u64(6)), status(7, OK)),
        (by_handle(FSTAT, 9, 1), attrs(9, 6)),
        (by_path(LSTAT, 8, b"/f"), attrs(8, 6)),
    )
    yield "unlinked_file_stays_readable", one_session(
        (opens(1, b"/f"), handle(1, 1)),
        (write(2, 1, 0, b"abc"), status(2, OK)),
        (by_path(REMOVE, 3, b"/f"), status(3, OK)),
        (read(4, 1, 0, 16), data(4, b"abc")),
        (by_handle(CLOSE, 5, 1), status(5, OK)),
        (read(7, 1, 0, 16), status(7, FAILURE)),
        (
            by_path(STAT, 6, b"/f"),
            "0000001d 65 00000006 00000002 0000000c 4e6f20737563682066696c65 00000000",
        ),
    )
    yield "rename_cases", one_session(
        (mkdir(1, b"/a"), status(1, OK)),
        (mkdir(2, b"/a/b"), status(2, OK)),
        (opens(3, b"/f"), handle(3, 3)),
        (opens(4, b"/g"), handle(4, 4)),
        (posix_rename(5, b"/a", b"/a"), status(5, OK)),
        (posix_rename(6, b"/a", b"/a/b"), status(6, FAILURE)),
        (posix_rename(7, b"/a/b", b"/a"), status(7, FAILURE)),
        (rename(8, b"/f", b"/g"), status(8, FAILURE)),
        (posix_rename(9, b"/f", b"/g"), status(9, OK)),
        (by_path(STAT, 10, b"/f"), status(10, NO_SUCH_FILE)),
        (rename(11, b"/none", b"/none"), status(11, NO_SUCH_FILE)),
    )


def attributes():
    """All parts of attrs, with pairs of strings behind them."""
    owner, permissions, times = u32(1) + u32(2), u32(0o700), u32(3) + u32(4)
    pairs = u32(2) + string(b"x@y") + string(b"z") + string(b"") + string(b"")
    made = fields(0, 0o40700, 3, 4, (1, 2))
    all_parts = u32(0xF) + u64(9) + owner + permissions + times
    all_but_size = u32(0x8000000E) + owner + permissions + times + pairs
    yield "attributes", one_session(
        (by_path(MKDIR, 1, b"/a", all_but_size), status(1, OK)),
        (by_path(STAT, 2, b"/a"), packet(ATTRS, u32(2), made)),
        (by_path(OPEN, 3, b"/f", u32(READS_WRITES_AND_MAKES), all_parts), handle(3, 3)),
        (by_handle(FSTAT, 4, 3), packet(ATTRS, u32(4), fields(0, 0o100700, 3, 4, (1, 2)))),
        (by_path(SETSTAT, 5, b"/f", u32(0x80000009), u64(6), times, pairs), status(5, OK)),
        (by_handle(FSETSTAT, 6, 3, u32(0x6), u32(7) + u32(8), u32(0o640)), status(6, OK)),
        (by_path(LSTAT, 7, b"/f"), packet(ATTRS, u32(7), fields(6, 0o100640, 3, 4, (7, 8)))),
        (by_path(SETSTAT, 8, b"/none", u32(0x1), u64(0)), status(8, NO_SUCH_FILE)),
    )


def limits():
    """The size limit in its order: what reaches it is written, and then what goes past it isn't."""
    yield "size_limit", one_session(
        (opens(1, b"/f"), handle(1, 1)),
        (write(2, 1, 16777215, b"x"), status(2, OK)),
        (by_handle(FSTAT, 3, 1), attrs(3, 16777216)),
        (write(4, 1, 16777216, b"x"), status(4, OK)),
        (by_handle(FSTAT, 5, 1), attrs(5, 16777217)),
        (write(6, 1, LARGEST - 1, b"x"), status(6, OK)),
        (by_handle(FSTAT, 7, 1), attrs(7, LARGEST)),
        (write(8, 1, LARGEST, b"x"), status(8, FAILURE)),
        (by_handle(FSTAT, 9, 1), attrs(9, LARGEST)),
        (by_path(OPENDIR, 10, b"/"), handle(10, 10)),
        (by_handle(READDIR, 11, 10), listing(11, (b"f", LARGEST, 1))),
    )


def listings():
    names = [b"n%02d" % n for n in range(1, 34)]
    asked = [(opens(n, b"/" + name), handle(n, n)) for n, name in enumerate(names, 1)]
    yield "listing_survives_removals", one_session(
        *asked,
        (by_path(OPENDIR, 34, b"/"), handle(34, 34)),
        (by_handle(READDIR, 35, 34), listing(35, *((name, 0, 1) for name in names[:32]))),
        (by_path(REMOVE, 36, b"/n01"), status(36, OK)),
        (by_handle(READDIR, 37, 34), listing(37, (b"n33", 0, 1))),
        (by_path(REMOVE, 38, b"/n33"), status(38, OK)),
        (by_handle(READDIR, 39, 34), status(39, EOF)),
    )


def links():
    root = by_path(OPENDIR, 5, b"/")
    yield "two_names", one_session(
        (opens(1, b"/f"), handle(1, 1)),
        (mkdir(2, b"/d"), status(2, OK)),
        (
            "00000029 c8 00000004 00000014 686172646c696e6b406f70656e7373682e636f6d"
            "00000002 2f66 00000002 2f67",
            status(4, OK),
        ),
        (posix_rename(6, b"/f", b"/g"), status(6, OK)),
        (rename(7, b"/f", b"/g"), status(7, FAILURE)),
        (link(8, b"/f", b"/g"), status(8, FAILURE)),
        (link(9, b"/d", b"/e"), status(9, FAILURE)),
        (link(10, b"/f", b"/x/y"), status(10, NO_SUCH_FILE)),
        (link(11, b"/none", b"/none"), status(11, NO_SUCH_FILE)),
        (by_path(RMDIR, 12, b"/d"), status(12, OK)),
        (root, handle(5, 11)),
        (by_handle(READDIR, 13, 11), listing(13, (b"f", 0, 2), (b"g", 0, 2))),
        (by_path(REMOVE, 14, b"/f"), status(14, OK)),
        (root, handle(5, 14)),
        (by_handle(READDIR, 15, 14), listing(15, (b"g", 0, 1))),
    )


def handles():
    yield "handle_of_another_session", begins(1, 2) + [
        Ask(1, opens(1, b"/f"), handle(1, 1)),
        Ask(2, read(2, 1, 0, 1), status(2, FAILURE)),
        Ask(2, by_handle(CLOSE, 3, 1), status(3, FAILURE)),
        Ask(1, read(4, 1, 0, 1), status(4, EOF)),
    ]


def write_during_rename():
    """The WRITE and the size after it are answered too."""
    yield "write_during_rename", begins(1, 2, 3) + [
        Ask(3, mkdir(1, b"/a"), status(1, OK)),
        Ask(3, opens(2, b"/a/f", WRITES_AND_MAKES), handle(2, 2)),
        Ask(3, write(3, 2, 0, b"abc"), status(3, OK)),
        Ask(1, by_path(STAT, 6, b"/a/f"), attrs(6, 3), (BEGUN, MOVED, MOVED)),
        Ask(2, posix_rename(7, b"/a", b"/z"), status(7, OK), (BEGUN, MOVED, DECIDED)),
        Ask(3, write(8, 2, 3, b"de"), status(8, OK), (BEGUN, DECIDED)),
        Turns(1, DECIDED, WROTE),
        Turns(2, WROTE),
        Turns(3, WROTE),
        Ask(3, by_handle(FSTAT, 9, 2), attrs(9, 5)),
        Ask(3, by_path(STAT, 10, b"/z/f"), attrs(10, 5)),
        Ask(1, by_path(STAT, 11, b"/a/f"), status(11, NO_SUCH_FILE)),
    ]


def renames():
    yield "mkdir_below_rename", begins(1, 2, 3) + [
        Ask(3, mkdir(1, b"/a"), status(1, OK)),
        Ask(3, mkdir(2, b"/a/b"), status(2, OK)),
        Ask(1, mkdir(9, b"/a/b/c"), status(9, OK), (BEGUN, MOVED, MOVED, MOVED)),
        Ask(2, rename(7, b"/a", b"/z"), status(7, OK), (BEGUN, MOVED, DECIDED, WROTE)),
        Ask(3, by_path(STAT, 8, b"/z/b/c"), attrs(8, 0, 0o40755), (BEGUN, MOVED, MOVED, MOVED)),
        Turns(3, DECIDED, WROTE),
        Turns(1, DECIDED, WROTE),
    ]
    yield "helped_rename", helped_rename((1, 4), status(9, NO_SUCH_FILE), attrs(11, 0, 0o40755))
    yield "helped_rename_comes_last", helped_rename((4, 1), status(9, OK), status(11, NO_SUCH_FILE))
    yield "crossing_renames", crossing_renames(1, 2)
    yield "crossing_renames_the_other_way", crossing_renames(2, 1)
    yield "link_during_rename", begins(1, 2, 3) + [
        Ask(3, mkdir(1, b"/a"), status(1, OK)),
        Ask(3, opens(2, b"/a/f"), handle(2, 2)),
        Ask(1, link(9, b"/a/f", b"/a/g"), status(9, OK), (BEGUN, MOVED, MOVED)),
        Ask(2, rename(7, b"/a", b"/z"), status(7, OK), (BEGUN, MOVED, DECIDED, WROTE)),
        Turns(1, DECIDED, WROTE),
        Ask(3, by_path(OPENDIR, 10, b"/z"), handle(10, 5)),
        Ask(3, by_handle(READDIR, 11, 5), listing(11, (b"f", 0, 2), (b"g", 0, 2))),
    ]


def helped_rename(order, removed, there):
    """RENAME of `/a/b` to `/a/e` and RMDIR of `/a/b/d` begin in this order, and are carried out by
    a rename of `/a`."""
    inner = {
        1: Ask(1, rename(7, b"/a/b", b"/a/e"), status(7, OK), (BEGUN,)),
        4: Ask(4, by_path(RMDIR, 9, b"/a/b/d"), removed, (BEGUN,)),
    }
    return begins(1, 2, 3, 4) + [
        Ask(3, mkdir(1, b"/a"), status(1, OK)),
        Ask(3, mkdir(2, b"/a/b"), status(2, OK)),
        Ask(3, mkdir(3, b"/a/b/d"), status(3, OK)),
        *(inner[session] for session in order),
        Turns(4, MOVED, MOVED, MOVED),
        Turns(1, MOVED, MOVED),
        Ask(2, rename(8, b"/a", b"/z"), status(8, OK), (BEGUN, MOVED, DECIDED, WROTE)),
        Turns(1, DECIDED, WROTE),
        Turns(4, DECIDED, WROTE),
        Ask(3, by_path(STAT, 10, b"/z/e"), attrs(10, 0, 0o40755)),
        Ask(3, by_path(STAT, 11, b"/z/e/d"), there),
    ]


def crossing_renames(first, second):
    """Two renames across each other, which take turns; the first one to step is OK."""
    moves = {1: (b"/a/x", b"/b/y/x"), 2: (b"/b/y", b"/a/x/y")}
    told = {first: status(7, OK), second: status(7, NO_SUCH_FILE)}
    by_turns = [Turns(first, MOVED), Turns(second, BLOCKED)] * 4
    return begins(1, 2, 3) + [
        Ask(3, mkdir(1, b"/a"), status(1, OK)),
        Ask(3, mkdir(2, b"/a/x"), status(2, OK)),
        Ask(3, mkdir(3, b"/b"), status(3, OK)),
        Ask(3, mkdir(4, b"/b/y"), status(4, OK)),
        *(Ask(session, rename(7, *moves[session]), told[session], (BEGUN,)) for session in (1, 2)),
        *by_turns,
        Turns(first, DECIDED, WROTE),
        Turns(second, MOVED, MOVED, MOVED, DECIDED, WROTE),
        Ask(3, by_path(STAT, 8, moves[first][1]), attrs(8, 0, 0o40755)),
    ]


def closing():
    """A session that is closed while its call is under way goes on to the reply."""
    yield "close_under_way", begins(1, 2) + [
        Ask(2, mkdir(1, b"/a"), status(1, OK)),
        Ask(1, by_path(STAT, 2, b"/a/f"), status(2, NO_SUCH_FILE), (BEGUN, MOVED, MOVED)),
        Closes(1),
        Turns(1, DECIDED, WROTE, ENDED + CLOSED),
    ]


def all_rows():
    groups = (
        versions, local_replies, calls, attributes, limits, listings, links, handles,
        write_during_rename, renames, closing,
    )
    return {name: steps for group in groups for name, steps in group()}
