"""What `Server` and `Races` have of their engine."""

from __future__ import annotations

from typing import TYPE_CHECKING, ContextManager

from ._calls import Call
from ._folders import Snapshot

if TYPE_CHECKING:
    from ._engine import Engine


class Reaches:
    """Has an engine, or is one."""

    def _reach(self) -> ContextManager[Engine]:
        """The engine. Raises why the clients can't be served."""
        raise NotImplementedError


class Shows(Reaches):
    """Shows the tree and the calls of its engine. `Races` first waits for all replies to what the
    clients sent."""

    def snapshot(self) -> Snapshot:
        """The whole tree, see `Engine.snapshot`."""
        with self._reach() as engine:
            return engine.snapshot()

    def calls(self) -> list[Call]:
        """The records of all calls, see `Engine.calls`."""
        with self._reach() as engine:
            return engine.calls()

    def last_calls(self) -> list[Call]:
        """The records that are kept, see `Engine.last_calls`."""
        with self._reach() as engine:
            return engine.last_calls()

    @property
    def dropped(self) -> int:
        """The number of records that were dropped, see `Engine.dropped`."""
        with self._reach() as engine:
            return engine.dropped
