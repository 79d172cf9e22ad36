"""Random requests on few paths, for `random_schedules`: each class draws those of all its clients
from one seed. Paths and handles are such that calls meet."""

import random
from collections import deque

from packets import (
    CLOSE, EXTENDED, FSETSTAT, FSTAT, OPEN, OPENDIR, REMOVE, RMDIR, SETSTAT, STAT, string, u32, u64,
)
from schedules import (
    fsyncs, handle, links, lists, mkdir, opens, posix_renames, reads, renames, set_size, writes,
)

READS_WRITES_AND_MAKES, TRUNCATES = 0x0B, 0x10
# Where a block ends, a row of blocks, a file whose size 24 or 32 bits have, and the largest file.
SEAMS = (4096, 32768, 1 << 24, 1 << 32, 1 << 40)
BLOCK = 4096


def set_path_size(path, size):
    return SETSTAT, string(path), u32(1), u64(size)


class Requests:
    """Draws, and each session's latest handles of files and of directories."""

    sessions = 8
    # The handles before these are forgotten.
    latest = 4

    def __init__(self, seed):
        self.chance = random.Random(seed)
        self.handles = {OPEN: {}, OPENDIR: {}}

    def once_in(self, times):
        return self.chance.randrange(times) == 0

    def opened(self, session, kind, number):
        """A call of this kind was answered by a handle."""
        self.handles[kind].setdefault(session, deque(maxlen=self.latest)).append(number)

    def handle(self, session, kind=OPEN):
        """Mostly one of the session's own."""
        found = self.handles[OPEN if self.once_in(12) else kind]
        if self.once_in(12):
            session = self.chance.choice([session, *found])
        return self.chance.choice(found.get(session, [0]))

    def renamed(self, old, new):
        """A rename succeeded."""

    def first(self):
        """Requests before all others."""
        return []


class Names(Requests):
    """Most calls are on paths below one directory, the home, which renames move."""

    roots = b"abcde"

    def __init__(self, seed):
        super().__init__(seed)
        self.home = b"a"

    def renamed(self, old, new):
        if old == b"/" + self.home and len(new) == 2:
            self.home = new[1:]

    def one_of(self, names):
        return bytes([self.chance.choice(names)])

    def root(self):
        """Mostly the home."""
        return self.one_of(self.roots) if self.once_in(12) else self.home

    def path(self):
        """Up to four names, of which all but the first are `a` or `b`."""
        count = self.chance.choice([0, 1, 2, 2, 3, 3, 3, 4, 4, 4, 4])
        names = [self.root(), *(self.one_of(b"ab") for _ in range(3))][:count]
        return b"/" + b"/".join(names)

    def within(self, directory, names=b"ab"):
        return b"/" + directory + b"/" + self.one_of(names)

    def two_paths(self):
        """Any two; a name in the root and one in the home; two in one directory; or two in the
        root, of which the first is mostly the home."""
        kind = self.chance.randrange(13)
        if kind == 0:
            return self.path(), self.path()
        if kind == 1:
            return b"/" + self.one_of(self.roots), self.within(self.home)
        if kind <= 4:
            directory = self.root()
            return self.within(directory), self.within(directory)
        return b"/" + self.root(), b"/" + self.one_of(self.roots)

    def request(self, session):
        kind = self.chance.randrange(24)
        if kind == 0:
            return lists(self.handle(session, OPENDIR))
        if kind == 1:
            return self.by_handle(self.handle(session))
        if kind == 2:
            path = self.chance.choice([b"/" + self.one_of(self.roots), self.within(self.home)])
            return self.chance.choice([RMDIR, REMOVE]), string(path)
        if kind <= 12:
            return self.chance.choice([renames] * 3 + [posix_renames])(*self.two_paths())
        return self.on_files() if kind <= 15 else self.on_path()

    def by_handle(self, number):
        offset = self.chance.randrange(40)
        return self.chance.choice(
            [(CLOSE, handle(number)), (FSTAT, handle(number)), set_size(number, offset)]
            + [reads(number, offset, 20), writes(number, offset, b"some bytes")] * 3
        )

    def on_path(self):
        """Few of them make a name in the root, and none a file there, so that renames find a name
        free."""
        path = self.path()
        if len(path) == 2:
            return mkdir(path) if self.once_in(4) else (STAT, string(path))
        return self.chance.choice(
            [(STAT, string(path)), opens(path, READS_WRITES_AND_MAKES)] * 2
            + [mkdir(path)] * 8
            + [(RMDIR, string(path))] * 2
            + [(REMOVE, string(path)), (OPENDIR, string(path))]
            + [set_path_size(path, self.chance.randrange(40))]
        )

    def on_files(self):
        """Names in the home that files alone have."""
        path, other = self.within(self.home, b"fghij"), self.within(self.home, b"fghij")
        return self.chance.choice(
            [opens(path, READS_WRITES_AND_MAKES), posix_renames(path, other)]
            + [(REMOVE, string(path))] * 2
            + [links(path, self.path())]
            + [links(path, other)] * 3
        )


class Writes(Requests):
    """WRITEs of several blocks, and calls that resize and read the same two files, below a
    directory that renames move."""

    sessions = 6
    latest = 1

    def __init__(self, seed):
        super().__init__(seed)
        self.home = b"a"

    def renamed(self, old, new):
        if old == b"/" + self.home:
            self.home = new[1:]

    def first(self):
        return [mkdir(b"/a")]

    def request(self, session):
        path = b"/" + self.home + b"/" + self.chance.choice([b"f", b"f", b"f", b"g"])
        size, number = self.chance.randrange(40000), self.handle(session)
        kind = self.chance.randrange(12)
        if kind <= 3:
            data = bytes([self.chance.randrange(256)]) * self.chance.randrange(1, 40000)
            return writes(number, self.chance.randrange(10000), data)
        if kind == 4:
            return reads(number, size, 40000)
        if kind <= 6:
            return set_path_size(path, size)
        if kind <= 9:
            return opens(path, READS_WRITES_AND_MAKES | (TRUNCATES if kind <= 8 else 0))
        other = b"b" if self.home == b"a" else b"a"
        return renames(b"/" + self.home, b"/" + other)


class Kinds(Requests):
    """Requests of every kind with all attributes and flags, on ten paths, by few sessions."""

    sessions = 2
    paths = [b"/", b"/a", b"/b", b"/c", b"/a/a", b"/a/b", b"/b/a", b"/b/b", b"/a/a/a", b"/b/a/b"]
    data = [b"", b"x", b"abc", b"\0\xff", b"r" * 5000, b"s" * 40000, b"seven..", b"seven.."]

    def near_a_seam(self):
        return self.chance.choice(SEAMS) + 2 - self.chance.randrange(9)

    def size(self):
        return self.near_a_seam() if self.once_in(3) else self.chance.randrange(21)

    def owner(self):
        return self.chance.choice([0, 1, 2, 0xFFFFFFFF])

    def attributes(self):
        """Permissions have bits beyond their twelve."""
        flags, fields = 0, b""
        number = self.chance.randrange
        for flag, field in (
            (1, lambda: u64(self.size())),
            (2, lambda: u32(self.owner()) + u32(self.owner())),
            (4, lambda: u32(number(1 << 18))),
            (8, lambda: u32(number(1000)) + u32(number(1000))),
        ):
            if self.once_in(3):
                flags, fields = flags | flag, fields + field()
        return u32(flags) + fields

    def flags(self):
        often, seldom = [1, 2, 8], [4, 16, 32]
        return sum(flag for flag in often if not self.once_in(3)) | sum(
            flag for flag in seldom if self.once_in(5)
        )

    def offset(self):
        kind = self.chance.randrange(40)
        if kind == 0:
            return (1 << 64) - 1
        return self.near_a_seam() if kind <= 10 else kind - 11

    def request(self, session):
        kind = self.chance.randrange(40)
        if kind <= 3:
            return self.by_two_paths(*self.chance.choices(self.paths, k=2))
        if kind <= 17:
            return self.by_path(self.chance.choice(self.paths))
        if kind <= 33:
            return self.by_handle(self.handle(session))
        return self.by_listing(self.handle(session, OPENDIR))

    def by_two_paths(self, old, new):
        return self.chance.choice([renames, posix_renames, links])(old, new)

    def by_path(self, path):
        makes = opens(path, self.flags())[:-1]
        return self.chance.choice(
            [(STAT, string(path)), (RMDIR, string(path)), (REMOVE, string(path))]
            + [(SETSTAT, string(path), self.attributes()), (OPENDIR, string(path))] * 2
            + [(EXTENDED, string(b"lsetstat@openssh.com"), string(path), self.attributes())]
            + [(*mkdir(path)[:-1], self.attributes())] * 3
            + [(*makes, self.attributes())] * 6
        )

    def by_handle(self, number):
        length = self.chance.choice([*range(20), (1 << 32) - 1])
        return self.chance.choice(
            [(CLOSE, handle(number)), (FSTAT, handle(number)), fsyncs(number)]
            + [(FSETSTAT, handle(number), self.attributes())]
            + [reads(number, self.offset(), length)] * 3
            + [writes(number, self.offset(), self.chance.choice(self.data))] * 4
        )

    def by_listing(self, number):
        return self.chance.choice(
            [(CLOSE, handle(number)), (FSTAT, handle(number)), fsyncs(number)]
            + [(FSETSTAT, handle(number), self.attributes())]
            + [lists(number)] * 7
        )


class Sparse(Kinds):
    """WRITEs, sizes and READs of two files around the seams of their blocks."""

    latest = 2

    def request(self, session):
        if self.once_in(50) or session not in self.handles[OPEN]:
            return opens(self.chance.choice([b"/f", b"/g"]), READS_WRITES_AND_MAKES)
        number, place = self.handle(session), self.near_a_seam()
        kind = self.chance.randrange(8)
        if kind <= 1:
            return set_size(number, self.chance.choice([place, self.chance.randrange(9)]))
        if kind <= 4:
            count = self.chance.choice([32768, 70000, 5000, *range(1, 9)])
            data = bytes([self.chance.randrange(255)]) * count
            return writes(number, place - self.chance.choice([0, min(count, place)]), data)
        return reads(number, place, self.chance.choice([12, 100000]))
