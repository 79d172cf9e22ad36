"""A tree of files that answers one call at a time, as docs/PROTOCOL.md says: to compare a server
with. It is written from that page alone, and knows the calls on paths and by handle, but no
session's packets before they are whole."""

from packets import (
    ATTRS, CLOSE, DATA, EOF, EXTENDED, FAILURE, FSETSTAT, FSTAT, HANDLE, LSTAT, MKDIR, NAME,
    NO_SUCH_FILE, OK, OPEN, OPENDIR, PERMISSION_DENIED, READ, READDIR, REMOVE, RENAME, RMDIR,
    SETSTAT, STAT, STATUS, WRITE, packet, string, u32, u64,
)

LARGEST_DATA = 261120
LARGEST_FILE = 1 << 40
BLOCK = 1 << 16
ZEROS = bytes(BLOCK)
MOST_NAMES = 32
MOST_HANDLES = 128
MOST_LINKS = 1024
READS, WRITES, APPENDS, CREATES, TRUNCATES, EXCLUDES = 1, 2, 4, 8, 16, 32
MESSAGES = {
    OK: b"Success",
    EOF: b"End of file",
    NO_SUCH_FILE: b"No such file",
    PERMISSION_DENIED: b"Permission denied",
    FAILURE: b"Failure",
}
POSIX_RENAME, HARDLINK = b"posix-rename@openssh.com", b"hardlink@openssh.com"
FSYNC, LSETSTAT = b"fsync@openssh.com", b"lsetstat@openssh.com"


def status(number, code, message=None):
    return packet(STATUS, u32(number), u32(code), string(message or MESSAGES[code]), string(b""))


def out_of_memory(number):
    """The reply to a call that no memory was found for."""
    return status(number, FAILURE, b"Out of memory")


class Status(Exception):
    """A call's answer by a status, with which nothing changes."""

    def __init__(self, code):
        super().__init__(code)
        self.code = code


def fails_if(condition, code=FAILURE):
    if condition:
        raise Status(code)


class Fields:
    """The fields of a request, read one after the other."""

    def __init__(self, data):
        self.data = data

    def bytes(self, count):
        assert len(self.data) >= count
        taken, self.data = self.data[:count], self.data[count:]
        return taken

    def u32(self):
        return int.from_bytes(self.bytes(4), "big")

    def u64(self):
        return int.from_bytes(self.bytes(8), "big")

    def string(self):
        return self.bytes(self.u32())

    def path(self):
        """The names of a path's normal form."""
        names = []
        for part in self.string().split(b"/"):
            if part == b"..":
                names = names[:-1]
            elif part not in (b"", b"."):
                names.append(part)
        return names

    def handle(self):
        data = self.string()
        assert len(data) == 8
        return int.from_bytes(data, "big")

    def attributes(self):
        """The parts that are there, by name."""
        flags = self.u32()
        parts = {}
        if flags & 1:
            parts["size"] = self.u64()
        if flags & 2:
            parts["owner"] = (self.u32(), self.u32())
        if flags & 4:
            parts["permissions"] = self.u32() & 0o7777
        if flags & 8:
            parts["times"] = (self.u32(), self.u32())
        return parts


class Contents:
    """A file's bytes. What was never written is zeros, and takes no memory."""

    def __init__(self):
        self.size = 0
        self.blocks = {}

    def read(self, offset, count):
        end = min(offset + count, self.size)
        found = b""
        while offset < end:
            number, start = divmod(offset, BLOCK)
            length = min(BLOCK - start, end - offset)
            found += self.blocks.get(number, ZEROS)[start : start + length]
            offset += length
        return bytes(found)

    def write(self, offset, data):
        self.size = max(self.size, offset + len(data))
        while data:
            number, start = divmod(offset, BLOCK)
            piece = data[: BLOCK - start]
            block = self.blocks.setdefault(number, bytearray(ZEROS))
            block[start : start + len(piece)] = piece
            offset, data = offset + len(piece), data[len(piece) :]

    def resize(self, size):
        kept, start = divmod(size, BLOCK)
        self.blocks = {number: block for number, block in self.blocks.items() if number <= kept}
        if kept in self.blocks:
            self.blocks[kept][start:] = bytes(BLOCK - start)
        self.size = size


class Node:
    """A file, or a directory with entries by name. Its label is the number of the call that made
    it."""

    def __init__(self, is_directory, moment, label=0):
        self.label = label
        self.data = Contents()
        self.entries = {} if is_directory else None
        self.owner = (0, 0)
        self.permissions = 0o755 if is_directory else 0o644
        self.times = (moment, moment)
        self.links = 1

    def is_directory(self):
        return self.entries is not None

    def attributes(self):
        kind = 0o40000 if self.is_directory() else 0o100000
        numbers = (*self.owner, kind | self.permissions, *self.times)
        return u32(15) + u64(self.data.size) + b"".join(map(u32, numbers))

    def set_parts(self, parts):
        for name in ("permissions", "times"):
            setattr(self, name, parts.get(name, getattr(self, name)))
        given = zip(parts.get("owner", self.owner), self.owner)
        self.owner = tuple(old if new == 0xFFFFFFFF else new for new, old in given)

    def changed(self, moment):
        self.times = (self.times[0], moment)

    def resize(self, size, moment):
        self.data.resize(size)
        self.changed(moment)

    def longname(self, name):
        bits = f"{self.permissions & 0o777:09b}"
        places = "".join(letter if bit == "1" else "-" for letter, bit in zip("rwxrwxrwx", bits))
        kind = "d" if self.is_directory() else "-"
        owner, group = self.owner
        front = f"{kind}{places} {self.links:3} {owner:<8} {group:<8} "
        return f"{front}{self.data.size:8} {self.times[1]:12} ".encode() + name


class Opened:
    """What a handle stands for."""

    def __init__(self, node, marks=0):
        self.node = node
        self.marks = marks
        self.last = b""


class Tree:
    """The root, and the handles of all sessions."""

    def __init__(self):
        self.root = Node(True, 0)
        self.handles = {}

    def answer(self, session, number, moment, request):
        """The reply to a request, which is a whole packet, as the call with this number. A call
        that isn't answered as it asks changes nothing."""
        fields = Fields(request[5:])
        number_of_request = fields.u32()
        try:
            kind, *parts = CALLS[request[4]](self, Call(session, number, moment), fields)
        except Status as fault:
            return status(number_of_request, fault.code)
        if kind == STATUS:
            return status(number_of_request, OK)
        return packet(kind, u32(number_of_request), *parts)

    def leave(self, session):
        """Closes a session's handles."""
        self.handles = {key: opened for key, opened in self.handles.items() if key[0] != session}

    def paths(self):
        """All paths with what stands at each: attributes, contents, and how many names it has."""
        found, left = [], [(b"/", self.root)]
        while left:
            path, node = left.pop()
            data = node.data.read(0, node.data.size)
            found.append((path, node.attributes(), data, node.links))
            left += [(path + name + b"/", below) for name, below in (node.entries or {}).items()]
        return tuple(sorted(found))

    def leaves(self):
        """Each path with the file or directory that it names, in the order of their names."""
        left = [((), self.root)]
        while left:
            names, node = left.pop()
            yield b"/" + b"/".join(names), node
            below = sorted((node.entries or {}).items(), reverse=True)
            left += [((*names, name), child) for name, child in below]

    def find(self, names):
        """What a path names, or nothing."""
        node = self.root
        for name in names:
            if node is None or not node.is_directory():
                return None
            node = node.entries.get(name)
        return node

    def present(self, names):
        node = self.find(names)
        fails_if(node is None, NO_SUCH_FILE)
        return node

    def parent(self, names):
        """The directory of a path that isn't the root's; a bad way is no such file."""
        node = self.find(names[:-1])
        fails_if(node is None or not node.is_directory(), NO_SUCH_FILE)
        return node

    def opened(self, call, fields):
        opened = self.handles.get((call.session, fields.handle()))
        fails_if(opened is None)
        return opened

    def open(self, call, node, marks=0):
        self.handles[call.session, call.number] = Opened(node, marks)
        return HANDLE, string(u64(call.number))

    def may_open(self, call):
        fails_if(sum(key[0] == call.session for key in self.handles) >= MOST_HANDLES)


class Call:
    """Who calls, under which number, and when."""

    def __init__(self, session, number, moment):
        self.session = session
        self.number = number
        self.moment = moment


def stat(tree, _call, fields):
    return ATTRS, tree.present(fields.path()).attributes()


def set_size(node, parts, moment, may_write=True):
    """The cases of a size, and its part; then the others."""
    size = parts.get("size")
    if size is not None:
        fails_if(node.is_directory())
        fails_if(not may_write, PERMISSION_DENIED)
        fails_if(size > LARGEST_FILE)
        node.resize(size, moment)
    node.set_parts(parts)
    return (STATUS,)


def set_stat(tree, call, fields):
    names, parts = fields.path(), fields.attributes()
    fails_if(not names)
    return set_size(tree.present(names), parts, call.moment)


def make_directory(tree, call, fields):
    names, parts = fields.path(), fields.attributes()
    fails_if(not names)
    parent = tree.parent(names)
    fails_if(names[-1] in parent.entries)
    parent.entries[names[-1]] = node = Node(True, call.moment, call.number)
    node.set_parts(parts)
    parent.changed(call.moment)
    return (STATUS,)


def remove_directory(tree, call, fields):
    names = fields.path()
    fails_if(not names)
    node = tree.present(names)
    fails_if(not node.is_directory() or len(node.entries) > 0)
    return unlink(tree, call, names)


def remove(tree, call, fields):
    names = fields.path()
    fails_if(not names)
    fails_if(tree.present(names).is_directory())
    return unlink(tree, call, names)


def unlink(tree, call, names):
    parent = tree.parent(names)
    parent.entries.pop(names[-1]).links -= 1
    parent.changed(call.moment)
    return (STATUS,)


def open_directory(tree, call, fields):
    node = tree.present(fields.path())
    fails_if(not node.is_directory())
    tree.may_open(call)
    return tree.open(call, node)


def open_file(tree, call, fields):
    names, flags, parts = fields.path(), fields.u32(), fields.attributes()
    fails_if(not names)
    parent = tree.parent(names)
    node = parent.entries.get(names[-1])
    fails_if(node is None and not flags & CREATES, NO_SUCH_FILE)
    fails_if(node is not None and flags & CREATES and flags & EXCLUDES)
    fails_if(node is not None and node.is_directory())
    tree.may_open(call)
    if node is None:
        parent.entries[names[-1]] = node = Node(False, call.moment, call.number)
        node.set_parts(parts)
        parent.changed(call.moment)
    elif flags & TRUNCATES and flags & WRITES:
        node.resize(0, call.moment)
    marks = flags & (READS | WRITES | APPENDS)
    return tree.open(call, node, marks if flags & (READS | WRITES) else marks | READS)


def close(tree, call, fields):
    handle = fields.handle()
    fails_if(tree.handles.pop((call.session, handle), None) is None)
    return (STATUS,)


def stat_opened(tree, call, fields):
    return ATTRS, tree.opened(call, fields).node.attributes()


def set_opened(tree, call, fields):
    opened, parts = tree.opened(call, fields), fields.attributes()
    fails_if(opened.node is tree.root)
    return set_size(opened.node, parts, call.moment, bool(opened.marks & WRITES))


def read(tree, call, fields):
    opened, offset, count = tree.opened(call, fields), fields.u64(), fields.u32()
    fails_if(opened.node.is_directory())
    fails_if(not opened.marks & READS, PERMISSION_DENIED)
    fails_if(offset >= opened.node.data.size, EOF)
    return DATA, string(opened.node.data.read(offset, min(count, LARGEST_DATA)))


def write(tree, call, fields):
    opened, offset, data = tree.opened(call, fields), fields.u64(), fields.string()
    fails_if(opened.node.is_directory())
    fails_if(not opened.marks & WRITES, PERMISSION_DENIED)
    contents = opened.node.data
    start = contents.size if opened.marks & APPENDS else offset
    if data:
        fails_if(start + len(data) > LARGEST_FILE)
        contents.write(start, data)
        opened.node.changed(call.moment)
    return (STATUS,)


def list_opened(tree, call, fields):
    opened = tree.opened(call, fields)
    fails_if(not opened.node.is_directory())
    names = sorted(name for name in opened.node.entries if name > opened.last)[:MOST_NAMES]
    fails_if(not names, EOF)
    opened.last = names[-1]
    nodes = [(name, opened.node.entries[name]) for name in names]
    lines = [string(name) + string(node.longname(name)) + node.attributes() for name, node in nodes]
    return NAME, u32(len(lines)), *lines


def rename(tree, call, fields):
    return move(tree, call, fields.path(), fields.path(), replaces=False)


def move(tree, call, old, new, replaces):
    fails_if(not old or not new)
    node = tree.present(old)
    if old == new:
        fails_if(not replaces)
        return (STATUS,)
    fails_if(new[: len(old)] == old or old[: len(new)] == new)
    parent = tree.parent(new)
    there = parent.entries.get(new[-1])
    if there is not None:
        fails_if(not replaces)
        if there is node:
            return (STATUS,)
        fails_if(node.is_directory() != there.is_directory() or bool(there.entries))
        there.links -= 1
    old_parent = tree.parent(old)
    parent.entries[new[-1]] = old_parent.entries.pop(old[-1])
    old_parent.changed(call.moment)
    parent.changed(call.moment)
    return (STATUS,)


def link(tree, call, old, new):
    fails_if(not old or not new)
    node = tree.present(old)
    fails_if(node.is_directory())
    parent = tree.parent(new)
    fails_if(new[-1] in parent.entries or node.links >= MOST_LINKS)
    parent.entries[new[-1]] = node
    node.links += 1
    parent.changed(call.moment)
    return (STATUS,)


def extended(tree, call, fields):
    name = fields.string()
    if name == HARDLINK:
        return link(tree, call, fields.path(), fields.path())
    if name == FSYNC:
        fails_if(tree.opened(call, fields).node is tree.root)
        return (STATUS,)
    if name == LSETSTAT:
        return set_stat(tree, call, fields)
    assert name == POSIX_RENAME
    return move(tree, call, fields.path(), fields.path(), replaces=True)


CALLS = {
    STAT: stat, LSTAT: stat, SETSTAT: set_stat, MKDIR: make_directory, RMDIR: remove_directory,
    REMOVE: remove, OPENDIR: open_directory, OPEN: open_file, CLOSE: close, FSTAT: stat_opened,
    FSETSTAT: set_opened, READ: read, WRITE: write, READDIR: list_opened, RENAME: rename,
    EXTENDED: extended,
}
