"""Callbacks, and waiting for what clients do."""

from __future__ import annotations

import time
from typing import TYPE_CHECKING, Callable, Iterable, Optional, TypeVar, Union

from . import _arguments as arguments
from ._calls import Call, Kind, text
from ._reaching import Reaches
from ._requests import Request
from ._rules import as_kinds, as_pattern, fits, as_names, session_number
from ._tree import Entry

if TYPE_CHECKING:
    from ._engine import Engine, Session
    from ._server import Connection

Found = TypeVar("Found")
SHOWN = 5
"""How many calls the message of a timeout shows."""


class Hook:
    """The callbacks of `on_call`. They are called until its `end`, or to the end of a `with`."""

    def __init__(
        self,
        engine: Engine,
        before: Optional[Callable[[Request], object]],
        after: Optional[Callable[[Call], object]],
    ) -> None:
        self._engine = engine
        self._before = before
        self._after = after

    def end(self) -> None:
        """Ends them: they are called no more."""
        self._engine._unhook(self)

    def __enter__(self) -> Hook:
        return self

    def __exit__(self, *_fault: object) -> None:
        self.end()


class Watches(Reaches):
    """Watches the clients of an engine."""

    def on_call(
        self,
        *,
        before: Optional[Callable[[Request], object]] = None,
        after: Optional[Callable[[Call], object]] = None,
    ) -> Hook:
        """Calls `before` with each request that is about to be read, and `after` with the record of
        each call that took effect.

        The engine is locked meanwhile: no other request is served. A callback may use the engine
        (`snapshot`, `refuse`), but must not wait for a client. If a callback raises an exception,
        the server closes all its connections, and its next method raises `StoppedError`.
        """
        arguments.function("before", before)
        arguments.function("after", after)
        with self._reach() as engine:
            return engine._hook(Hook(engine, before, after))

    def wait_for(self, path: arguments.Path, timeout: float = 10.0) -> Entry:
        """Waits until there is a file or a directory at this path, and no handle for writing that
        was opened with this path. Returns its entry. Raises `TimeoutError` after `timeout`
        seconds."""
        name = text(arguments.normal(arguments.path("path", path)))
        seen: list[int] = []

        def ready(engine: Engine) -> Optional[Entry]:
            changes = engine._changes_now()
            if seen == [changes]:
                return None
            seen[:] = [changes]
            found = engine.snapshot().get(name)
            return None if found is None or engine._is_written(name) else found

        return self._wait(ready, timeout, f"no complete file at {name}")

    def wait_for_call(
        self,
        *,
        kind: Union[None, Kind, Iterable[Kind]] = None,
        path: Optional[arguments.Path] = None,
        session: Union[None, Session, Connection, int] = None,
        when: Optional[Callable[[Call], bool]] = None,
        timeout: float = 10.0,
    ) -> Call:
        """Waits for a call, and returns its record: the first one with this kind, path (a pattern,
        as in `refuse`) and session for which `when` returns true. Earlier calls count too. Raises
        `TimeoutError` after `timeout` seconds."""
        kinds = as_kinds(kind, None, None)
        arguments.function("when", when)
        with self._reach() as engine:
            number = session_number(session, engine)
        pattern = None if path is None else as_pattern(path)
        found: list[Call] = []

        def is_meant(call: Call) -> bool:
            paths = (call.path, call.new_path)
            return (
                (kinds is None or call.kind in kinds)
                and (not number or call.session == number)
                and (
                    pattern is None
                    or any(one is not None and fits(as_names(one), pattern) for one in paths)
                )
                and (when is None or bool(when(call)))
            )

        def note(call: Call) -> None:
            if is_meant(call):
                found.append(call)

        with self._reach() as engine, engine._lock:
            for call in engine.last_calls():
                note(call)
            with engine._hook(Hook(engine, None, note)):
                return self._wait(lambda _: found[0] if found else None, timeout, "no such call")

    def _wait(
        self, ready: Callable[[Engine], Optional[Found]], timeout: float, why: str
    ) -> Found:
        """Waits until `ready` has a result, which it returns."""
        end = time.monotonic() + arguments.seconds("timeout", timeout)
        while True:
            with self._reach() as engine, engine._moved:
                found = ready(engine)
                if found is not None:
                    return found
                left = end - time.monotonic()
                if left <= 0:
                    last = "".join(f"\n  {call}" for call in engine.last_calls()[-SHOWN:])
                    seen = f"; the last calls:{last}" if last else "; no client made a call"
                    raise TimeoutError(f"{why} within {timeout:g} seconds{seen}")
                engine._moved.wait(left)
