"""Bytes, requests and replies that rows have in words, spelled as docs/PROTOCOL.md has them.

Bytes: hexadecimal digits, names that the rows give, text in quotes as Python writes bytes; each so
often as a number behind `*` says, as `78*255`. `00..fa` stands for bytes that rise by one, and
`ENTRY_01..ENTRY_32` for what has these names.

Requests: MKDIR, SETSTAT, LSETSTAT path attributes; OPEN path letters attributes; REMOVE, RMDIR,
REALPATH, STAT, LSTAT, OPENDIR path; RENAME, POSIX_RENAME, LINK old new; CLOSE, FSTAT, READDIR,
FSYNC handle; FSETSTAT handle attributes; READ handle offset count; WRITE handle offset bytes. The
letters are `r` READ, `w` WRITE, `a` APPEND, `c` CREAT, `t` TRUNC and `x` EXCL, or `-` for none of
them. Attributes, each where it is there: size=7 owner=1000:50 permissions=0o40700 times=3:4. A path
with other bytes than those of a word stands in quotes: "/a b", "", "/"+"x"*255.

Replies: a status by its name, OUT_OF_MEMORY for that FAILURE; HANDLE number; DATA bytes;
ATTRS size permissions atime mtime [uid:gid]; NAME and its entries with a comma behind each but the
last: a path alone, as REALPATH is answered, or name size permissions atime mtime [uid:gid]
[links=2]; for the name `n01..n32` there is an entry for each number."""

import ast
import re
from collections import deque

import packets
from packets import packet, string, u32, u64

WORD = re.compile(r'(?:"(?:[^"\\]|\\.)*"(?:\*\d+)?(?:\+(?="))?)+,?|[^\s"]+')
PIECE = re.compile(r'("(?:[^"\\]|\\.)*")(?:\*(\d+))?')
BY_PATH = {"REMOVE", "RMDIR", "REALPATH", "STAT", "LSTAT", "OPENDIR"}
BY_HANDLE = {"CLOSE", "FSTAT", "READDIR", "FSYNC"}
WITH_ATTRIBUTES = {"MKDIR", "SETSTAT", "LSETSTAT", "FSETSTAT"}
EXTENSIONS = {
    "POSIX_RENAME": b"posix-rename@openssh.com",
    "LINK": b"hardlink@openssh.com",
    "FSYNC": b"fsync@openssh.com",
    "LSETSTAT": b"lsetstat@openssh.com",
}
REQUESTS = BY_PATH | BY_HANDLE | WITH_ATTRIBUTES | {"OPEN", "READ", "WRITE", "RENAME", *EXTENSIONS}
LETTERS = "rwactx"
STATUSES = {
    "OK": (0, b"Success"),
    "EOF": (1, b"End of file"),
    "NO_SUCH_FILE": (2, b"No such file"),
    "PERMISSION_DENIED": (3, b"Permission denied"),
    "FAILURE": (4, b"Failure"),
    "OUT_OF_MEMORY": (4, b"Out of memory"),
    "BAD_MESSAGE": (5, b"Bad message"),
    "OP_UNSUPPORTED": (8, b"Operation unsupported"),
}


def words_of(text):
    """The words of a text; what stands in quotes is one."""
    found = WORD.findall(text)
    if "".join(found).replace(" ", "") != "".join(text.split()):
        raise ValueError(f"no words: {text}")
    return found


def parts_of(words):
    """The words between each two bars."""
    parts = [[]]
    for word in words:
        if word == "|":
            parts.append([])
        else:
            parts[-1].append(word)
    return parts


def text_of(word):
    """The bytes of a path or a name: a word, or text in quotes."""
    if not word.startswith('"'):
        return word.encode("ascii")
    pieces = PIECE.findall(word)
    return b"".join(ast.literal_eval("b" + text) * int(count or 1) for text, count in pieces)


def bytes_of(words, named):
    """The bytes that words stand for."""
    return b"".join(piece_of(word, named) for word in words)


def piece_of(word, named):
    if word.startswith('"'):
        return text_of(word)
    name, _, count = word.partition("*")
    if name.split("..")[0] in named:
        piece = b"".join(named[each] for each in numbered(name))
    elif ".." in name:
        first, last = bytes.fromhex(name.replace("..", " "))
        piece = bytes(range(first, last + 1))
    else:
        piece = bytes.fromhex(name)
    return piece * int(count or 1)


def numbered(word):
    """The words that one stands for: `n01..n32` for each of these."""
    found = re.fullmatch(r"(\D*)(\d+)\.\.\1(\d+)", word)
    if not found:
        return [word]
    front, first, last = found.groups()
    return [f"{front}{number:0{len(first)}}" for number in range(int(first), int(last) + 1)]


def number_of(word):
    """A number, in decimal, or in octal behind `0o`."""
    return int(word, 8 if word.startswith("0o") else 10)


def pair_of(word):
    return b"".join(u32(number_of(part)) for part in word.split(":"))


def attributes_of(words):
    """The attributes that a request carries."""
    given = dict(word.split("=") for word in words)
    flags, fields = 0, b""
    for name, flag, spelled in (
        ("size", 0x1, lambda word: u64(number_of(word))),
        ("owner", 0x2, pair_of),
        ("permissions", 0x4, lambda word: u32(number_of(word))),
        ("times", 0x8, pair_of),
    ):
        if name in given:
            flags |= flag
            fields += spelled(given.pop(name))
    if given:
        raise ValueError(f"no such attributes: {given}")
    return u32(flags) + fields


def flags_of(letters):
    """The flags of an OPEN: each letter's, by its place among all."""
    return sum(1 << LETTERS.index(letter) for letter in letters.replace("-", ""))


def handle_of(word):
    return string(u64(number_of(word)))


def request_of(words, number, named):
    """The packet of a request under an id."""
    name, *rest = words
    front = u32(number)
    if name in EXTENSIONS:
        fields = fields_of(name, rest, named)
        return packet(packets.EXTENDED, front, string(EXTENSIONS[name]), *fields)
    return packet(getattr(packets, name), front, *fields_of(name, rest, named))


def fields_of(name, rest, named):
    """What stands behind a request's id."""
    if name == "OPEN":
        path, letters, *attributes = rest
        return string(text_of(path)), u32(flags_of(letters)), attributes_of(attributes)
    if name == "READ":
        handle, offset, count = rest
        return handle_of(handle), u64(number_of(offset)), u32(number_of(count))
    if name == "WRITE":
        handle, offset, *data = rest
        return handle_of(handle), u64(number_of(offset)), string(bytes_of(data, named))
    if name in ("RENAME", "POSIX_RENAME", "LINK"):
        old, new = rest
        return string(text_of(old)), string(text_of(new))
    first, *attributes = rest
    front = handle_of(first) if name in BY_HANDLE | {"FSETSTAT"} else string(text_of(first))
    if name in WITH_ATTRIBUTES:
        return front, attributes_of(attributes)
    if attributes:
        raise ValueError(f"too many words: {name} {' '.join(rest)}")
    return (front,)


class Told:
    """The attributes that a reply tells: size permissions atime mtime [uid:gid] [links=2]."""

    def __init__(self, words):
        self.links = 1
        self.owner = (0, 0)
        size, permissions, *times = words[:4]
        self.size, self.permissions = number_of(size), number_of(permissions)
        self.times = tuple(map(number_of, times))
        for word in words[4:]:
            if word.startswith("links="):
                self.links = number_of(word[6:])
            else:
                self.owner = tuple(map(number_of, word.split(":")))
        if len(self.times) != 2 or len(self.owner) != 2:
            raise ValueError(f"no attributes: {' '.join(words)}")

    def fields(self):
        numbers = (*self.owner, self.permissions, *self.times)
        return u32(0xF) + u64(self.size) + b"".join(map(u32, numbers))

    def long_name(self, name):
        """The line of an entry."""
        bits = f"{self.permissions & 0o777:09b}"
        places = "".join(letter if bit == "1" else "-" for letter, bit in zip("rwxrwxrwx", bits))
        kind = "d" if self.permissions & 0o40000 else "-"
        owner, group = self.owner
        front = f"{kind}{places} {self.links:3} {owner:<8} {group:<8} "
        return f"{front}{self.size:8} {self.times[1]:12} ".encode("ascii") + name


def entries_of(words):
    """The entries of a NAME, each in bytes."""
    for entry in split(words):
        name, *told = entry
        if told:
            attributes = Told(told)
            for each in map(text_of, numbered(name)):
                yield string(each) + string(attributes.long_name(each)) + attributes.fields()
        else:
            path = text_of(name)
            yield string(path) * 2 + u32(0)


def split(words):
    """The words of each entry, of which all but the last have a comma behind them."""
    entry = []
    for word in words:
        entry.append(word.removesuffix(","))
        if word.endswith(","):
            yield entry
            entry = []
    yield entry


def reply_of(words, number, named):
    """The packet of a reply to the request that has this id."""
    name, *rest = words
    front = u32(number)
    if name in STATUSES:
        code, message = STATUSES[name]
        return packet(packets.STATUS, front, u32(code), string(message), string(b""))
    if name == "HANDLE":
        (handle,) = rest
        return packet(packets.HANDLE, front, handle_of(handle))
    if name == "DATA":
        return packet(packets.DATA, front, string(bytes_of(rest, named)))
    if name == "ATTRS":
        return packet(packets.ATTRS, front, Told(rest).fields())
    if name == "NAME":
        entries = list(entries_of(rest))
        return packet(packets.NAME, front, u32(len(entries)), *entries)
    raise ValueError(f"no such reply: {' '.join(words)}")


class Asked:
    """What sessions are fed by words, and what they are sent for it. Requests have the ids 1, 2, 3
    and so on, whichever session's they are."""

    def __init__(self, named):
        self.named = named
        self.count = 0
        # The ids of a session's requests whose replies weren't looked at.
        self.waiting = {}

    def fed(self, session, words):
        """Bytes and requests with bars between them."""
        return b"".join(self.part(session, part) for part in parts_of(words))

    def part(self, session, words):
        if not words or words[0] not in REQUESTS or words[0] in self.named:
            return bytes_of(words, self.named)
        self.count += 1
        self.waiting.setdefault(session, deque()).append(self.count)
        return request_of(words, self.count, self.named)

    def sent(self, session, words):
        """The replies to its requests, with bars between them."""
        return b"".join(
            reply_of(part, self.waiting[session].popleft(), self.named) for part in parts_of(words)
        )
