"""Schedules of sessions on one engine, as the program in crates/replay reads them. Calls are
numbered in the order in which they begin, so the handles are known in advance. All timestamps are
100."""

from packets import (
    CLOSE, EXTENDED, FSETSTAT, FSTAT, INIT, LSTAT, MKDIR, NO_ATTRIBUTES, OPEN, OPENDIR, READ,
    READDIR, REMOVE, RENAME, RMDIR, STAT, WRITE, packet, string, u32, u64,
)

READS_WRITES_AND_MAKES = 0x01 | 0x02 | 0x08
WRITES_AND_MAKES = 0x02 | 0x08
READS = 0x01
FIRST_MOMENT = 100
# Turns that are enough for one call, and for the calls of all sessions, one after the other.
ENOUGH = 10
WHOLE = 65536


def handle(number):
    return string(u64(number))


def mkdir(path):
    return MKDIR, string(path), NO_ATTRIBUTES


def opens(path, flags=WRITES_AND_MAKES):
    return OPEN, string(path), u32(flags), NO_ATTRIBUTES


def reads(number, offset, count):
    return READ, handle(number), u64(offset), u32(count)


def lists(number):
    return READDIR, handle(number)


def writes(number, offset, data):
    return WRITE, handle(number), u64(offset), string(data)


def set_size(number, size):
    return FSETSTAT, handle(number), u32(1), u64(size)


def renames(old, new):
    return RENAME, string(old), string(new)


def posix_renames(old, new):
    return EXTENDED, string(b"posix-rename@openssh.com"), string(old), string(new)


def links(old, new):
    return EXTENDED, string(b"hardlink@openssh.com"), string(old), string(new)


def fsyncs(number):
    return EXTENDED, string(b"fsync@openssh.com"), handle(number)


class Schedule:
    """The lines of a schedule, and what each session asks."""

    def __init__(self, *sessions, paths):
        self.lines = []
        self.requests = {}
        self.paths = paths
        self.calls = 0
        for session in sessions:
            self.opens(session)

    def opens(self, session):
        """The next session opens, and is sent VERSION."""
        self.requests[session] = []
        self.lines.append("open")
        self.lines.append(f"feed {session} {packet(INIT, u32(3)).hex()}")
        self.turns(session, 1)

    def turns(self, session, count):
        self.lines += [f"turn {session} {FIRST_MOMENT + len(self.lines)}"] * count

    def feeds(self, session, call):
        kind, *fields = call
        self.calls += 1
        request = packet(kind, u32(self.calls), *fields)
        self.requests[session].append(request)
        self.lines.append(f"feed {session} {request.hex()}")

    def starts(self, session, call, moves):
        """A call begins, and makes so many moves."""
        self.feeds(session, call)
        self.turns(session, 1 + moves)

    def ends(self, *sessions):
        """Sessions' calls are decided, and their replies written."""
        for session in sessions:
            self.turns(session, 2)

    def asks(self, session, *calls):
        """Calls of a session, one after the other, each to its reply."""
        for call in calls:
            self.feeds(session, call)
            self.turns(session, ENOUGH)

    def settled(self):
        """This schedule, and turns of all sessions until none has anything to do."""
        for _ in range(len(self.requests) * ENOUGH):
            for session in self.requests:
                self.turns(session, 1)
        return self

    def looked_at(self):
        """This schedule, and all that one more session is told of its paths: attributes, names,
        contents. A call before it that was refused may have taken no number, so a handle has its
        number or the one below."""
        session = len(self.requests) + 1
        self.opens(session)
        for path in self.paths:
            self.asks(session, (LSTAT, string(path)))
            number = self.calls + 1
            self.asks(session, (OPENDIR, string(path)), lists(number), lists(number - 1))
            number = self.calls + 1
            self.asks(session, opens(path, READS))
            self.asks(session, reads(number, 0, WHOLE), reads(number - 1, 0, WHOLE))
        return self


def mkdir_and_stat():
    row = Schedule(1, paths=[b"/", b"/a"])
    row.asks(1, mkdir(b"/a"), mkdir(b"/a"), (STAT, string(b"/a")))
    return row


def write_read_and_list():
    row = Schedule(1, paths=[b"/", b"/f"])
    row.asks(1, opens(b"/f", READS_WRITES_AND_MAKES), writes(1, 5, b"x"))
    row.asks(1, reads(1, 0, 261121), reads(1, 6, 1), (OPENDIR, string(b"/")), lists(5), lists(5))
    row.asks(1, set_size(1, 7), set_size(1, 6), (FSTAT, handle(1)), (LSTAT, string(b"/f")))
    row.asks(1, (CLOSE, handle(1)))
    return row


def write_by_blocks():
    """WRITEs across several blocks of 4096 bytes, over what is there and beyond it, and sizes
    within a block."""
    row = Schedule(1, paths=[b"/", b"/f"])
    row.asks(1, opens(b"/f", READS_WRITES_AND_MAKES), writes(1, 5000, bytes(range(250)) * 40))
    row.asks(1, writes(1, 4090, b"y" * 4110), reads(1, 0, WHOLE), set_size(1, 6000))
    row.asks(1, writes(1, 40000, b"z" * 4097), reads(1, 5990, 100))
    row.asks(1, writes(1, 8192, b"w" * 4096), set_size(1, 40001), reads(1, 0, WHOLE))
    return row


def listing_survives_removals():
    row = Schedule(1, paths=[b"/", b"/n01", b"/n33"])
    for n in range(1, 34):
        row.asks(1, opens(b"/n%02d" % n))
    row.asks(1, (OPENDIR, string(b"/")), lists(34), (REMOVE, string(b"/n01")))
    row.asks(1, lists(34), (REMOVE, string(b"/n33")), lists(34))
    return row


def rename_cases():
    row = Schedule(1, paths=[b"/", b"/a", b"/a/b", b"/z", b"/f", b"/g"])
    row.asks(1, mkdir(b"/a"), mkdir(b"/a/b"), opens(b"/f"), opens(b"/g"))
    row.asks(1, posix_renames(b"/a", b"/a"), posix_renames(b"/a", b"/a/b"))
    row.asks(1, posix_renames(b"/a/b", b"/a"), renames(b"/f", b"/g"), posix_renames(b"/f", b"/g"))
    row.asks(1, (STAT, string(b"/f")), renames(b"/none", b"/none"), renames(b"/", b"/z"))
    row.asks(1, posix_renames(b"/a", b"/"), renames(b"/a/b", b"/g/x"), renames(b"/a/b", b"/z"))
    return row


def write_during_rename(new=b"/z"):
    """STAT, which is call 4, has walked into `/a` when the rename, call 5, moves it; WRITE, call 6,
    comes after."""
    row = Schedule(1, 2, 3, paths=[b"/", b"/a", b"/a/f", new, new + b"/f"])
    row.asks(3, mkdir(b"/a"), opens(b"/a/f"), writes(2, 0, b"abc"))
    writes_while_moved(row, new, 1, 2)
    return row


def write_during_rename_to_empty():
    """The same with `/d/z` for `/z`, and with one call before that makes `/d`."""
    row = Schedule(1, 2, 3, paths=[b"/", b"/a", b"/a/f", b"/d", b"/d/z", b"/d/z/f"])
    row.asks(3, mkdir(b"/d"), mkdir(b"/a"), opens(b"/a/f"), writes(3, 0, b"abc"))
    writes_while_moved(row, b"/d/z", 2, 3)
    return row


def writes_while_moved(row, new, moves, number):
    """STAT, the rename, which makes so many moves, and the WRITE by this handle."""
    row.starts(1, (STAT, string(b"/a/f")), 2)
    row.starts(2, posix_renames(b"/a", new), moves)
    row.turns(2, 1)
    row.starts(3, writes(number, 3, b"de"), 0)
    row.ends(3, 1)
    row.turns(2, 1)


def mkdir_below_rename():
    """MKDIR of `/a/b/c` stands in `/a/b` while `/a` goes to `/z`."""
    row = Schedule(1, 2, 3, paths=[b"/", b"/a", b"/a/b", b"/a/b/c", b"/z", b"/z/b", b"/z/b/c"])
    row.asks(3, mkdir(b"/a"), mkdir(b"/a/b"))
    row.starts(1, mkdir(b"/a/b/c"), 3)
    row.starts(2, renames(b"/a", b"/z"), 1)
    row.ends(2)
    row.asks(3, (STAT, string(b"/z/b/c")))
    row.ends(1)
    return row


def helped_rename(in_order):
    """A rename in `/a` and an RMDIR in `/a/b` begin in this order, and stand there while `/a` goes
    to `/z`."""
    below = (b"", b"/b", b"/b/d", b"/e", b"/e/d")
    paths = [top + path for top in (b"/a", b"/z") for path in below]
    row = Schedule(1, 2, 3, 4, paths=[b"/", *paths])
    row.asks(3, mkdir(b"/a"), mkdir(b"/a/b"), mkdir(b"/a/b/d"))
    calls = {1: renames(b"/a/b", b"/a/e"), 4: (RMDIR, string(b"/a/b/d"))}
    for session in in_order:
        row.starts(session, calls[session], 0)
    row.turns(4, 3)
    row.turns(1, 2)
    row.starts(2, renames(b"/a", b"/z"), 1)
    row.ends(2, 1, 4)
    row.asks(3, (STAT, string(b"/z/e")), (STAT, string(b"/z/e/d")))
    return row


def link_during_rename():
    """A link of `/a/f` to `/a/g` stands in `/a` while `/a` goes to `/z`."""
    row = Schedule(1, 2, 3, paths=[b"/", b"/a", b"/a/f", b"/z", b"/z/f", b"/z/g"])
    row.asks(3, mkdir(b"/a"), opens(b"/a/f"))
    row.starts(1, links(b"/a/f", b"/a/g"), 2)
    row.starts(2, renames(b"/a", b"/z"), 1)
    row.ends(2, 1)
    row.asks(3, (OPENDIR, string(b"/z")), lists(5), writes(2, 0, b"ab"), (STAT, string(b"/z/g")))
    return row


ROWS = {
    "mkdir_and_stat": mkdir_and_stat,
    "write_read_and_list": write_read_and_list,
    "write_by_blocks": write_by_blocks,
    "listing_survives_removals": listing_survives_removals,
    "rename_cases": rename_cases,
    "write_during_rename": write_during_rename,
    "write_during_rename, to a long name": lambda: write_during_rename(b"/" + b"z" * 200),
    "write_during_rename, to an empty directory": write_during_rename_to_empty,
    "mkdir_below_rename": mkdir_below_rename,
    "helped_rename": lambda: helped_rename([1, 4]),
    "helped_rename, the other order": lambda: helped_rename([4, 1]),
    "link_during_rename": link_during_rename,
}
