"""Sessions of `sftpd serve` in which an allocation fails."""

import contextlib
import copy
import socket

from checks import same
from packets import (
    ATTRS, CLOSE, EXTENDED, FSETSTAT, HANDLE, INIT, LSTAT, MKDIR, NAME, NO_ATTRIBUTES, OPEN,
    OPENDIR, READ, READDIR, VERSION, WRITE, packet, string, u32, u64,
)
from schedules import READS_WRITES_AND_MAKES
from serving import WORKERS
from tree import Fields, Tree, out_of_memory

SECONDS = 20


def timeless(reply):
    """A reply without what depends on the clock: the times of an object, and of those that are
    listed."""
    if reply[4] == ATTRS:
        return reply[:-8]
    if reply[4] != NAME:
        return reply
    fields = Fields(reply[9:])
    return [timeless_entry(fields) for _ in range(fields.u32())]


def timeless_entry(fields):
    name, longname = fields.string(), fields.string()
    attributes = fields.bytes(32)
    return name, longname[:41], attributes[:-8]


class Client:
    """A session at a server's socket, which asks one thing at a time. It may be cut off."""

    def __init__(self, server):
        self.connection = server.connect()
        self.connection.settimeout(SECONDS)
        self.id = 0
        first = self.exchange(packet(INIT, u32(3)))
        self.is_on = first is not None and first[4] == VERSION

    def exchange(self, request):
        """The reply, or nothing where the session has ended."""
        try:
            self.connection.sendall(request)
            length = self.read(4)
            return length and length + self.read(int.from_bytes(length, "big"))
        except (BrokenPipeError, ConnectionResetError):
            return None

    def read(self, count):
        data = b""
        while len(data) < count:
            got = self.connection.recv(count - len(data))
            if not got:
                same(data, b"")
                return None
            data += got
        return data

    def request(self, kind, *fields):
        self.id += 1
        return packet(kind, u32(self.id), *fields)

    def close(self):
        """Its input ends, and the server says that it has left."""
        with self.connection, contextlib.suppress(ConnectionError):
            if self.is_on:
                self.connection.shutdown(socket.SHUT_WR)
            same(self.connection.recv(1), b"")


class Beliefs:
    """What the tree of a server may be, by what its clients were told. Where a session was cut off,
    its last call may have been carried out or not."""

    def __init__(self):
        self.trees = [Tree()]

    def ask(self, client, session, kind, *fields):
        """A request of a session, and its reply: the handle, where it is one. It may say that
        memory was wanting, or not come at all; gives 1 then, beside the handle."""
        if not client.is_on:
            return b"", 0
        request = client.request(kind, *fields)
        reply = client.exchange(request)
        if reply is None:
            client.is_on = False
            self.trees += [self.after(tree, session, 0, request)[0] for tree in self.trees]
            return b"", 1
        if reply == out_of_memory(client.id):
            return b"", 1
        number = int.from_bytes(reply[13:], "big") if reply[4] == HANDLE else 0
        found = [self.after(tree, session, number, request) for tree in self.trees]
        self.trees = [tree for tree, wanted in found if timeless(wanted) == timeless(reply)]
        if not self.trees:
            wanted = [wanted.hex() for _, wanted in found]
            raise AssertionError(f"wanted one of {wanted}, got {reply.hex()}")
        return reply[9:] if number else b"", 0

    def after(self, tree, session, number, request):
        tree = copy.deepcopy(tree)
        return tree, tree.answer(session, number, 0, request)

    def leave(self, session):
        """Its handles are closed. Of trees that look alike one is kept."""
        for tree in self.trees:
            tree.leave(session)
        self.trees = list({tree.paths(): tree for tree in self.trees}.values())


def all_work(server):
    """As many sessions at once as there are workers: then all of these have begun."""
    clients = [Client(server) for _ in range(WORKERS)]
    same([client.is_on for client in clients], [True] * WORKERS)
    for client in clients:
        client.close()


def ten_calls(beliefs, server, session):
    """A session of ten calls in a directory of its own. Gives how often it was told that memory was
    wanting."""
    here, client, told = b"/d%d" % session, Client(server), []

    def ask(kind, *fields):
        answer, refused = beliefs.ask(client, session, kind, *fields)
        told.append(refused)
        return answer or string(u64(0))

    ask(MKDIR, string(here), NO_ATTRIBUTES)
    file = ask(OPEN, string(here + b"/f"), u32(READS_WRITES_AND_MAKES), NO_ATTRIBUTES)
    ask(WRITE, file, u64(1000), string(bytes(range(250)) * 40))
    ask(READ, file, u64(0), u32(65536))
    ask(FSETSTAT, file, u32(1), u64(9000))
    ask(EXTENDED, string(b"hardlink@openssh.com"), string(here + b"/f"), string(here + b"/g"))
    ask(EXTENDED, string(b"posix-rename@openssh.com"), string(here + b"/f"), string(here + b"/h"))
    ask(CLOSE, file)
    directory = ask(OPENDIR, string(here))
    ask(READDIR, directory)
    told.append(not client.is_on and not any(told))
    client.close()
    beliefs.leave(session)
    return sum(told)


def looks(beliefs, server, session, number):
    """A session that looks at what one before it has made, and is told all of it."""
    here, client = b"/d%d" % number, Client(server)
    asked = [(LSTAT, string(here + end)) for end in (b"", b"/f", b"/g", b"/h")]
    same([beliefs.ask(client, session, *call)[1] for call in asked], [0] * len(asked))
    directory, refused = beliefs.ask(client, session, OPENDIR, string(here))
    same(refused, 0)
    if directory:
        same([beliefs.ask(client, session, READDIR, directory)[1] for _ in range(2)], [0, 0])
    same(client.is_on, True)
    client.close()
    beliefs.leave(session)


def refused_sessions(server, growths):
    """Refuses each growth of a session of ten calls in turn, and gives how many there are. What
    such a session was told of its calls is true, and the next session is told all."""
    all_work(server)
    beliefs = Beliefs()
    for left in range(10000):
        growths.refuse(left)
        told = ten_calls(beliefs, server, 2 * left + 1)
        refused = growths.refused()
        growths.forget()
        if told > refused:
            raise AssertionError(f"growth {left + 1}: want of memory is told {told} times")
        if not refused:
            return left
        looks(beliefs, server, 2 * left + 2, 2 * left + 1)
    raise AssertionError("each session has more growths than the one before")
