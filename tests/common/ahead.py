"""Sessions that send much before they read:

    python3 -B tests/common/ahead.py SOCKET

runs two of them at a Unix socket, and succeeds if their replies are right."""

import os
import random
import socket
import sys
import time

from checks import same
from packets import (
    CLOSE, DATA, HANDLE, INIT, NO_ATTRIBUTES, OK, OPEN, READ, STATUS, VERSION, WRITE, packet,
    string, u32, u64,
)

MIB = 1 << 20
READS_WRITES_AND_MAKES = 0x01 | 0x02 | 0x08
# For how many seconds nothing is read after all was sent.
PAUSE = 2
CONTENTS = random.Random(3).randbytes(16 * MIB)


class Session:
    """A session by packets, with requests that are sent as they are and replies that are read when
    that is asked."""

    def __init__(self, to_server, from_server):
        self.to_server, self.from_server = to_server, from_server
        self.id = 0
        self.unread = bytearray()
        self.send(packet(INIT, u32(3)))
        same(self.packet()[0], VERSION)

    def send(self, data):
        rest = memoryview(data)
        while rest:
            rest = rest[os.write(self.to_server, rest) :]

    def request(self, kind, *fields):
        self.id += 1
        return packet(kind, u32(self.id), *fields)

    def read(self, count):
        while len(self.unread) < count:
            got = os.read(self.from_server, MIB)
            if not got:
                raise AssertionError("the server ended the session")
            self.unread += got
        data = bytes(self.unread[:count])
        del self.unread[:count]
        return data

    def packet(self):
        return self.read(int.from_bytes(self.read(4), "big"))

    def open(self, path):
        """The handle of a file that is made where it is missing."""
        self.send(self.request(OPEN, string(path), u32(READS_WRITES_AND_MAKES), NO_ATTRIBUTES))
        reply = self.packet()
        same(reply[:5], bytes([HANDLE]) + u32(self.id))
        return reply[5:]

    def ask(self, kind, *fields):
        """One request, and its reply, which isn't a refusal."""
        self.send(self.request(kind, *fields))
        reply = self.packet()
        same(reply[1:5], u32(self.id))
        if reply[0] == STATUS:
            same(reply[5:9], u32(OK))
        return reply


def sends_reads(session, count):
    """So many READs of 32768 bytes, all sent before a reply is read."""
    data = CONTENTS[:32768]
    handle = session.open(b"/read")
    session.ask(WRITE, handle, u64(0), string(data))
    first = session.id + 1
    session.send(
        b"".join(session.request(READ, handle, u64(0), u32(len(data))) for _ in range(count))
    )
    time.sleep(PAUSE)
    for number in range(first, first + count):
        same(session.packet(), bytes([DATA]) + u32(number) + string(data))
    session.ask(CLOSE, handle)


def sends_writes(session, count):
    """So many WRITEs of 1,000 bytes, all sent before a reply is read."""
    size = 1000
    data = CONTENTS[: count * size]
    handle = session.open(b"/written")
    first = session.id + 1
    offsets = range(0, len(data), size)
    session.send(
        b"".join(
            session.request(WRITE, handle, u64(at), string(data[at : at + size])) for at in offsets
        )
    )
    time.sleep(PAUSE)
    for number in range(first, first + count):
        reply = session.packet()
        same((reply[0], reply[1:9]), (STATUS, u32(number) + u32(OK)))
    got = b"".join(
        session.ask(READ, handle, u64(at), u32(100000))[9:] for at in range(0, len(data), 100000)
    )
    same(got == data, True)
    session.ask(CLOSE, handle)


def main():
    for sends, count in ((sends_reads, 10000), (sends_writes, 16000)):
        with socket.socket(socket.AF_UNIX) as connection:
            connection.connect(sys.argv[1])
            sends(Session(connection.fileno(), connection.fileno()), count)


if __name__ == "__main__":
    main()
