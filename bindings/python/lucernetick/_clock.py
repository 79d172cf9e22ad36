"""Clocks: each call of a client begins at a timestamp."""

import time
from typing import Callable

from ._arguments import LATEST, integer, timestamp

Clock = Callable[[], int]
"""Returns the time in whole seconds since 1970, from 0 to 4294967295."""


def wall_clock() -> int:
    """The system's clock."""
    return min(max(int(time.time()), 0), LATEST)


def checked_clock(clock: Clock) -> Clock:
    if not callable(clock):
        why = f"clock must be a function that returns seconds, not {type(clock).__name__}"
        raise TypeError(why)
    return clock


class VirtualTime:
    """A clock that stands still until the test moves it."""

    def __init__(self, moment: int = 0) -> None:
        self.set(moment)

    def __call__(self) -> int:
        return self._moment

    def __repr__(self) -> str:
        return f"VirtualTime({self._moment})"

    def set(self, moment: int) -> None:
        """Sets the time to `moment`, in whole seconds since 1970. It may go back."""
        self._moment = timestamp("moment", moment)

    def advance(self, seconds: int) -> None:
        """Moves the time forward by this many whole seconds."""
        self.set(self._moment + integer("seconds", seconds, -LATEST, LATEST))
