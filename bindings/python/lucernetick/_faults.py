"""Errors, with the library's messages."""

import enum

from ._library import message


class Error(Exception):
    """The base class of this package's errors."""


class Refusal(enum.IntEnum):
    """Why the engine rejected a call. A rejected call has changed nothing and may be repeated."""

    OUT_OF_MEMORY = -1
    NO_SUCH_SESSION = -2
    TOO_MANY_SESSIONS = -3
    """256 sessions are open."""
    HAS_ENDED = -4
    """The session has ended, and takes no more bytes."""
    NUMBERS_SPENT = -5
    NOT_SENT = -6
    """`Session.sent` was given more bytes than are waiting."""
    BAD_POINTER = -7
    """The engine was closed."""
    IS_BLOCKED = -8
    """Of `write_files`; raised as `BlockedError`."""
    LONG_PATH = -10
    """Of `write_files`: the paths don't fit into a packet."""
    NO_REPLY = -11
    """Of `write_files`; raised as `EndedError`."""
    BAD_KIND = -12
    BAD_STATUS = -13
    BAD_PATH = -14


class RefusedError(Error):
    """The engine rejected a call: `refusal` says why."""

    def __init__(self, refusal: Refusal) -> None:
        super().__init__(refusal)
        self.refusal = refusal

    def __str__(self) -> str:
        if self.refusal == Refusal.BAD_POINTER:
            return "the engine was closed"
        return message(self.refusal)


class StatusError(Error):
    """The server replied to a request of `write_files` with a status other than OK."""

    def __init__(self, code: int, message: str, request: str) -> None:
        super().__init__(code, message, request)
        self.code = code
        self.message = message
        self.request = request

    def __str__(self) -> str:
        return f"{self.request}: {self.message}"


class BlockedError(Error):
    """The call of another session, which the test has stopped, holds a mutex that a request of
    `write_files` needs. The request stays pending. `Engine.run_all` completes both."""


class EndedError(Error):
    """A session of `write_files` ended before its reply."""


class DroppedError(Error):
    """`calls()` would be incomplete: the engine no longer has the records of its oldest calls."""


class StoppedError(Error):
    """A thread of a server or a race ended by an exception, which is the cause of this one. All
    connections were closed."""
