"""A log of what clients do."""

from __future__ import annotations

import io
from typing import Any, Optional, TextIO, Union

from ._calls import Call


def is_text(file: Any) -> bool:
    """Whether it takes text, as far as it shows."""
    return hasattr(file, "write") and not isinstance(file, (io.RawIOBase, io.BufferedIOBase))


class Log:
    """What clients do, line by line: each session that opens or closes, and each call as it takes
    effect, with its number, timestamp, request and reply.

        session 1 opened
        session 1 call 1 at 1700000000: mkdir "/a" mode 0755 -> Success
        session 1 closed

    In paths, all bytes that aren't printable ASCII are escaped as in the log of OpenSSH's server,
    and a quote as `\\"`. Sessions of `write_files` are left out.
    """

    sessions: int
    """The number of sessions that were opened."""
    calls: int
    """The number of their calls."""

    def __init__(self, file: Optional[TextIO] = None) -> None:
        """Writes to this text file. Without one it only counts."""
        if file is not None and not is_text(file):
            raise TypeError(f"file must be a text file, not {type(file).__name__}")
        self.sessions = self.calls = 0
        self._file = file
        self._here: set[int] = set()

    def opened(self, session: int) -> None:
        """This session was opened."""
        self.sessions += 1
        self._here.add(session)
        self._write(f"session {session} opened")

    def note(self, record: Union[Call, int]) -> None:
        """There is a new record: a call, or the number of a session that ended."""
        if isinstance(record, Call):
            if record.session in self._here:
                self.calls += 1
                self._write(str(record))
        elif record in self._here:
            self._here.discard(record)
            self._write(f"session {record} closed")

    def _write(self, text: str) -> None:
        if self._file is not None:
            print(text, file=self._file, flush=True)
