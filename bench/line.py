"""A session of `sftpd stdio` behind a line, for bench/copy: the line passes on what a client sends,
and what the server answers, each byte as much later as the line's delay says."""

import collections
import os
import select
import socket
import subprocess
import time

from packets import (
    CLOSE, DATA, EOF, HANDLE, INIT, NO_ATTRIBUTES, OK, OPEN, READ, STATUS, VERSION, WRITE,
    packet, string, u32, u64,
)

READS, WRITES_MAKES_EMPTIES = 0x01, 0x02 | 0x08 | 0x10
# How many bytes a READ or WRITE has that isn't a client's, and how many one read takes at most.
PIECE = 131072
MOST = 262144
# How many seconds pass without a byte before a copy is given up.
PATIENCE = 60


class Way:
    """One direction of a line. Bytes go on in their order, each the delay after it came; further
    ones are taken meanwhile, as many as come: clients keep few requests on their way."""

    def __init__(self, source, target, delay):
        self.source = source
        self.target = target
        self.delay = delay
        self.waiting = collections.deque()

    def due(self):
        """When the first bytes that wait go on."""
        return self.waiting[0][0] if self.waiting else float("inf")

    def take(self):
        """Takes bytes; whether there were any, and not the end."""
        data = os.read(self.source, MOST)
        if data:
            self.waiting.append((time.monotonic() + self.delay, memoryview(data)))
        return bool(data)

    def give(self):
        """Gives the first bytes that wait, or a beginning of them."""
        due, data = self.waiting.popleft()
        rest = data[os.write(self.target, data) :]
        if rest:
            self.waiting.appendleft((due, rest))


def pass_on(there, back):
    """Passes bytes on both ways until the client ends."""
    while True:
        now = time.monotonic()
        due = [way.target for way in (there, back) if way.due() <= now]
        timeout = min([PATIENCE] + [way.due() - now for way in (there, back) if way.due() > now])
        readable, writable, _ = select.select([there.source, back.source], due, [], timeout)
        if not readable and not writable and timeout == PATIENCE:
            raise AssertionError("nothing moves on the line")
        for way in (there, back):
            if way.target in writable:
                way.give()
        if back.source in readable and not back.take():
            raise AssertionError("the server ended before the client")
        if there.source in readable and not there.take():
            break
    if there.waiting or back.waiting:
        raise AssertionError("the client ended before its line was empty")


class Session:
    """One session of the server, opened by INIT."""

    def __init__(self, program):
        self.line, theirs = socket.socketpair()
        self.server = subprocess.Popen([program, "stdio"], stdin=theirs, stdout=theirs)
        theirs.close()
        self.stream = self.line.makefile("rwb")
        self.version = self.answer(packet(INIT, u32(3)))
        if self.version[0] != VERSION:
            raise AssertionError(f"the answer to INIT: {self.version}")

    def answer(self, request):
        """The body of the server's reply to a packet."""
        self.stream.write(request)
        self.stream.flush()
        return self.stream.read(int.from_bytes(self.stream.read(4), "big"))

    def ask(self, due, kind, *fields):
        """What follows the type and the id in the reply, which must be of the type that is due;
        nothing where it is EOF."""
        reply = self.answer(packet(kind, u32(1), *fields))
        if reply[:5] == bytes([due]) + u32(1):
            return reply[5:]
        if reply[:9] == bytes([STATUS]) + u32(1) + u32(EOF):
            return None
        raise AssertionError(f"the reply to a request of type {kind}: {reply[:100]}")

    def succeed(self, kind, *fields):
        status = self.ask(STATUS, kind, *fields)
        if status[:4] != u32(OK):
            raise AssertionError(f"the reply to a request of type {kind}: {status}")

    def write_file(self, path, data):
        handle = self.ask(HANDLE, OPEN, string(path), u32(WRITES_MAKES_EMPTIES), NO_ATTRIBUTES)
        for offset in range(0, len(data), PIECE):
            self.succeed(WRITE, handle, u64(offset), string(data[offset : offset + PIECE]))
        self.succeed(CLOSE, handle)

    def read_file(self, path):
        """The file's bytes, read to its end."""
        handle = self.ask(HANDLE, OPEN, string(path), u32(READS), NO_ATTRIBUTES)
        data = bytearray()
        while piece := self.ask(DATA, READ, handle, u64(len(data)), u32(PIECE)):
            data += piece[4:]
        self.succeed(CLOSE, handle)
        return data

    def serve(self, reader, writer, delay):
        """Serves a client to its end, by what reads its bytes and what writes to it. Its INIT is
        answered with the VERSION that the server sent; all further bytes are passed on."""
        begin = os.read(reader, MOST)
        if begin != packet(INIT, u32(3)):
            raise AssertionError(f"the client began with {begin[:100]}")
        time.sleep(2 * delay)
        os.write(writer, packet(*self.version[:1], self.version[1:]))
        for descriptor in (reader, writer, self.line.fileno()):
            os.set_blocking(descriptor, False)
        pass_on(Way(reader, self.line.fileno(), delay), Way(self.line.fileno(), writer, delay))
        self.line.setblocking(True)

    def end(self):
        """Ends the session; the server must end well."""
        self.stream.close()
        self.line.close()
        if self.server.wait(PATIENCE) != 0:
            raise AssertionError(f"the server's exit status is {self.server.returncode}")
