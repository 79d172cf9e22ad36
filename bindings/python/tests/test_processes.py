"""Copies and forked children."""

from __future__ import annotations

import copy
import os
import pickle
import subprocess
import sys
import threading
from pathlib import Path
from typing import Callable

import pytest

from lucernetick import Engine, Error, Races, Server, SshServer

from packets import LOOKS, MAKES, VERSION

LIMIT = 120


def in_child(work: Callable[[], object]) -> int:
    """What a forked child's work ends with: 0, or 1 if it raises an exception, or the signal that
    kills it, below 0."""
    child = os.fork()
    if not child:
        status = 1
        try:
            work()
            status = 0
        finally:
            os._exit(status)
    return os.waitstatus_to_exitcode(os.waitpid(child, 0)[1])


@pytest.mark.parametrize("copies", [copy.copy, copy.deepcopy, pickle.dumps])
@pytest.mark.parametrize("makes", [Engine, Server, lambda: Races(1, 1)])
def test_what_cannot_be_copied(
    copies: Callable[[object], object], makes: Callable[[], Engine]
) -> None:
    with makes() as found, pytest.raises(TypeError, match="can't be"):
        copies(found)


def test_a_copy_does_not_crash() -> None:
    """A second owner would free the engine twice."""
    code = (
        "import copy, lucernetick\n"
        "engine = lucernetick.Engine()\n"
        "try:\n    copy.copy(engine)\nexcept TypeError:\n    pass\n"
        "engine.close()\nprint('closed')"
    )
    words = [sys.executable, "-c", code]
    ran = subprocess.run(words, capture_output=True, text=True, timeout=LIMIT)
    assert (ran.returncode, ran.stdout) == (0, "closed\n")


def test_an_engine_in_a_forked_child() -> None:
    """It is the parent's. The child's attempts are errors, whatever thread holds its lock."""
    with Engine.from_files({"/f": b"1"}) as engine:
        session = engine.open()
        holds, ends = threading.Event(), threading.Event()

        def hold() -> None:
            with engine._lock:
                holds.set()
                ends.wait(LIMIT)

        holder = threading.Thread(target=hold)
        holder.start()
        holds.wait(LIMIT)

        def child() -> None:
            actions = (
                engine.open, engine.snapshot, engine.calls, engine.run_all, engine.refuse,
                session.output, lambda: session.turn(0), lambda: session.feed(b"1"),
                lambda: engine.write_files({"/g": b""}),
            )
            for action in actions:
                with pytest.raises(Error, match="can't be used in a forked child"):
                    action()
            engine.close()

        status = in_child(child)
        ends.set()
        holder.join()
        assert status == 0
        assert list(engine.snapshot()) == ["/", "/f"]


def test_a_child_that_closes_leaves_its_parent_s_connections() -> None:
    with Server() as server, SshServer(server) as ssh, Races(1, clients=1) as races:
        line, racer = server.connect(), races.connect()
        line.settimeout(LIMIT)
        racer.settimeout(LIMIT)

        def child() -> None:
            for action in (server.connect, server.snapshot, races.connect, races.snapshot):
                with pytest.raises(Error, match="can't be used in a forked child"):
                    action()
            races.close()
            ssh.close()
            server.close()

        assert in_child(child) == 0
        assert os.path.exists(ssh.client_key)
        line.sendall(MAKES)
        assert len(line.recv(VERSION + 28)) >= VERSION
        racer.sendall(LOOKS)
        assert len(racer.recv(VERSION)) == VERSION
        racer.close()


def test_a_child_that_exits_leaves_its_parent_s_keys(tmp_path: Path) -> None:
    code = (
        "import os, sys, lucernetick\n"
        "with lucernetick.Server() as server, lucernetick.SshServer(server) as ssh:\n"
        "    child = os.fork()\n"
        "    if not child:\n"
        "        sys.exit(0)\n"
        "    print(os.waitpid(child, 0)[1], os.path.exists(ssh.client_key))\n"
        "print(os.path.exists(ssh.client_key))\n"
    )
    words = [sys.executable, "-c", code]
    ran = subprocess.run(words, capture_output=True, text=True, timeout=LIMIT)
    assert (ran.returncode, ran.stdout) == (0, "0 True\nFalse\n")
