"""What a `with` and an `async with` close."""

from __future__ import annotations

import asyncio
import os
from typing import NoReturn, Optional, TypeVar

from ._faults import Error, StoppedError

Entered = TypeVar("Entered", bound="Closes")


class Closes:
    """Is closed at the end of a `with`. Closing waits for threads: an `async with` waits without
    blocking the event loop."""

    _fault: Optional[BaseException] = None
    """The exception that ended one of its threads."""
    _process: int
    """The process that made it: a forked child must not close what is its parent's."""

    def close(self) -> None:
        raise NotImplementedError

    def _begin(self) -> None:
        self._process = os.getpid()

    @property
    def _is_forked(self) -> bool:
        return self._process != os.getpid()

    def _check(self) -> None:
        """Raises the exception that ended one of its threads, or an error in a forked child."""
        if self._is_forked:
            raise Error(f"a {type(self).__name__} can't be used in a forked child process")
        if self._fault is not None:
            why = f"{type(self._fault).__name__}: {self._fault}"
            raise StoppedError(f"all connections were closed, since a thread ended by {why}") from (
                self._fault
            )

    def __copy__(self) -> NoReturn:
        raise TypeError(f"a {type(self).__name__} can't be copied")

    def __reduce__(self) -> NoReturn:
        raise TypeError(f"a {type(self).__name__} can't be pickled or copied")

    def __enter__(self: Entered) -> Entered:
        return self

    def __exit__(self, *_fault: object) -> None:
        self.close()

    async def __aenter__(self: Entered) -> Entered:
        return self

    async def __aexit__(self, *_fault: object) -> None:
        await asyncio.get_running_loop().run_in_executor(None, self.close)
