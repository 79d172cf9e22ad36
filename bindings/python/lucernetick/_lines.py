"""The server's ends of connections."""

from __future__ import annotations

import contextlib
import math
import select
import socket
from collections import deque
from dataclasses import dataclass
from time import monotonic
from typing import Iterator, Optional

from . import _arguments as arguments

PIECE = 65536
REPLIES = 8
"""The number of replies that are written before the output is sent."""
MOST_AHEAD = 1 << 24
"""How many bytes are buffered at most, of requests while replies can't be sent, and of replies that
are late."""


@dataclass(frozen=True)
class Faults:
    """Faults of a connection. The numbers are of SFTP's bytes, without those of SSH."""

    cut_after: Optional[int] = None
    """The connection is dropped as soon as this many bytes were received from the client, or sent
    to it. Requests that are complete by then take effect, and no others."""
    delay: float = 0.0
    """The latency of each reply, in seconds. Replies to pipelined requests overlap."""
    bandwidth: Optional[float] = None
    """The bytes per second in each direction, at most."""
    chunk: Optional[int] = None
    """The client receives at most this many bytes at a time."""

    def __post_init__(self) -> None:
        if self.cut_after is not None:
            arguments.integer("cut_after", self.cut_after)
        arguments.seconds("delay", self.delay)
        if self.bandwidth is not None:
            arguments.seconds("bandwidth", self.bandwidth, 1.0)
        if self.chunk is not None:
            arguments.integer("chunk", self.chunk, 1)


class LineEnded(Exception):
    """The client or the server has closed the connection before its late replies."""


class Line:
    """While it can't send, it reads on and buffers: so a client that sends before it reads doesn't
    block. What its client sent before it closed the connection is still received."""

    replies = REPLIES
    is_cut = False

    def __init__(self, line: socket.socket) -> None:
        self._line = line
        self._ahead: deque[bytearray] = deque()
        self._count = 0
        self._has_ended = False
        self._is_deaf = False
        """Whether the client receives no more. Its replies are dropped."""
        self._is_shut = False

    def recv(self) -> bytes:
        """The next bytes, none at the end of the input."""
        if self._ahead:
            data = bytes(self._ahead.popleft())
            self._count -= len(data)
            return data
        with contextlib.suppress(OSError):
            return b"" if self._has_ended else self._line.recv(PIECE)
        return b""

    def sendall(self, data: bytes) -> None:
        rest = memoryview(data)
        try:
            while rest and not self._is_deaf:
                try:
                    rest = rest[self._line.send(rest, socket.MSG_DONTWAIT) :]
                except BlockingIOError:
                    self._wait()
        except OSError:
            self._is_deaf = True

    def shutdown(self) -> None:
        """Ends both directions."""
        self._is_shut = True
        with contextlib.suppress(OSError):
            self._line.shutdown(socket.SHUT_RDWR)

    def close(self) -> None:
        self._line.close()

    def forget(self) -> None:
        """Closes a forked child's copy: the parent's connection stays."""
        self._line.close()

    def _wait(self) -> None:
        """Waits until it can send, or has read something."""
        poll = select.poll()
        reads = not self._has_ended and self._count < MOST_AHEAD
        poll.register(self._line, select.POLLOUT | (select.POLLIN if reads else 0))
        [(_, events)] = poll.poll()
        if reads and not events & select.POLLOUT:
            self._read_ahead()

    def _read_ahead(self) -> None:
        data = self._line.recv(PIECE)
        self._has_ended = not data
        self._count += len(data)
        # Small parts are joined, so that they take no more memory than their bytes.
        if data and self._ahead and len(self._ahead[-1]) + len(data) <= PIECE:
            self._ahead[-1] += data
        elif data:
            self._ahead.append(bytearray(data))


class FaultyLine(Line):
    """A line with faults. Replies are written one by one, so that a cut is reproducible."""

    replies = 1

    def __init__(self, line: socket.socket, faults: Faults) -> None:
        super().__init__(line)
        self._faults = faults
        self._to_come = self._to_go = math.inf if faults.cut_after is None else faults.cut_after
        self.is_cut = faults.cut_after == 0
        self._late: deque[tuple[float, bytes]] = deque()
        """Bytes to be sent, and when."""
        self._late_bytes = 0
        self._free = 0.0
        """When the bandwidth allows to send further bytes."""

    def recv(self) -> bytes:
        self._wait_for_input()
        data = b""
        if self._to_come and (self._to_go or self._ahead):
            data = super().recv()
            if len(data) >= self._to_come:
                data = data[: int(self._to_come)]
                self.is_cut = True
            self._to_come -= len(data)
        if self._faults.bandwidth:
            with self._without_client():
                self._send_late(monotonic() + len(data) / self._faults.bandwidth)
        return data

    def sendall(self, data: bytes) -> None:
        if len(data) >= self._to_go:
            data = data[: int(self._to_go)]
            self.is_cut = True
        self._to_go -= len(data)
        if self._faults.delay or self._faults.bandwidth:
            self._add_late(data)
        else:
            super().sendall(data)

    def close(self) -> None:
        """Sends the late replies. The client sees an end of the stream, and no reset: what it has
        sent is read."""
        with contextlib.suppress(LineEnded):
            while self._late:
                self._send_late(self._late[0][0])
        self.shutdown()
        with contextlib.suppress(OSError):
            while self._line.recv(PIECE):
                pass
        super().close()

    def _add_late(self, data: bytes) -> None:
        due = monotonic() + self._faults.delay
        for at in range(0, len(data), PIECE):
            part = data[at : at + PIECE]
            self._free = max(due, self._free)
            if self._faults.bandwidth:
                self._free += len(part) / self._faults.bandwidth
            self._late.append((self._free, part))
            self._late_bytes += len(part)
        with self._without_client():
            while self._late_bytes > MOST_AHEAD:
                self._send_late(self._late[0][0])

    def _wait_for_input(self) -> None:
        """Sends late replies until there is something to read."""
        with self._without_client():
            while self._late and not self._ahead and not self._has_ended and self._to_come:
                if self._to_go and self._has_input(self._late[0][0]):
                    return
                self._send_late(self._late[0][0])

    @contextlib.contextmanager
    def _without_client(self) -> Iterator[None]:
        """If the client has closed its end, late replies are dropped. What it sent is read."""
        try:
            yield
        except LineEnded:
            self._late.clear()
            self._late_bytes = 0

    def _send_late(self, until: float) -> None:
        """Sends the replies that are due until then, and returns then."""
        while not self._is_shut:
            now = monotonic()
            while self._late and self._late[0][0] <= now:
                _, data = self._late.popleft()
                self._late_bytes -= len(data)
                super().sendall(data)
            if now >= until:
                return
            next_due = self._late[0][0] if self._late else until
            self._sleep(min(next_due, until) - now)
        raise LineEnded("shut down")

    def _has_input(self, until: float) -> bool:
        poll = select.poll()
        poll.register(self._line, select.POLLIN)
        return bool(poll.poll(milliseconds(until - monotonic())))

    def _sleep(self, seconds: float) -> None:
        """Ends early if the connection is closed."""
        poll = select.poll()
        poll.register(self._line, 0)
        if poll.poll(milliseconds(seconds)):
            raise LineEnded("closed")


def milliseconds(seconds: float) -> int:
    return max(math.ceil(seconds * 1000), 0)
