"""Fixtures for pytest, which finds them once this package is installed."""

from __future__ import annotations

import enum
from typing import Any, Generator, Iterator, Optional

import pytest

from ._calls import Kind
from ._clock import VirtualTime
from ._engine import Engine, Turn
from ._faults import Error
from ._rules import Status
from ._server import Server
from ._ssh import SshServer

BEGIN = 1_000_000_000
NAMED = (Kind, Status, Turn)
SHOWN = 100
"""How many calls the report of a failed test shows."""


@pytest.fixture
def virtual_time() -> VirtualTime:
    """The clock of `sftp_tree`: 1000000000 (September 2001) until the test sets it."""
    return VirtualTime(BEGIN)


@pytest.fixture
def sftp_tree(virtual_time: VirtualTime) -> Iterator[Server]:
    """A server with an empty tree: `connect()` returns a socket for a client, `snapshot()` the
    whole tree. Its clock is `virtual_time`. The report of a failed test has its calls."""
    with Engine() as engine, Server(engine, virtual_time) as server:
        yield server


@pytest.fixture
def sftp_ssh(sftp_tree: Server) -> Iterator[SshServer]:
    """An SSH server at a free port, whose sessions use `sftp_tree`."""
    with SshServer(sftp_tree) as ssh:
        yield ssh


def pytest_make_parametrize_id(val: object) -> Optional[str]:
    """Names instead of numbers in the ids of tests."""
    if isinstance(val, NAMED):
        assert isinstance(val, enum.Enum)
        return str(val.name)
    return None


@pytest.hookimpl(hookwrapper=True)
def pytest_runtest_makereport(item: pytest.Item, call: Any) -> Generator[None, Any, None]:
    """Adds the calls of `sftp_tree` to the report of a failed test."""
    outcome = yield
    report = outcome.get_result()
    server = getattr(item, "funcargs", {}).get("sftp_tree")
    if report.when == "call" and report.failed and isinstance(server, Server):
        report.sections.append(("SFTP calls", calls_text(server)))


def calls_text(server: Server) -> str:
    """The last calls, one in a line."""
    try:
        calls = server.engine.last_calls()
    except Error as fault:
        return str(fault)
    left_out = len(calls) - SHOWN
    lines = [f"({left_out} earlier calls)"] if left_out > 0 else []
    return "\n".join([*lines, *map(str, calls[-SHOWN:])]) or "(no calls)"
