"""`python -m lucernetick`: an SFTP server at a port, for a workstation or a CI job."""

from __future__ import annotations

import argparse
import contextlib
import json
import os
import re
import shlex
import signal
import sys
from typing import Any, ContextManager, Optional, Sequence, TextIO, Union

from . import __version__
from ._control import Control
from ._engine import Engine
from ._faults import Error, StoppedError
from ._folders import make_empty
from ._log import Log
from ._server import Server
from ._ssh import SshServer, write_private
from ._users import User

ENDS = {signal.SIGINT, signal.SIGTERM, signal.SIGHUP}
LOGIN = "NAME:PASSWORD[:ROOT[:UID:GID]]"
LOOK = 1.0
"""How often it looks whether a thread has failed, in seconds."""
KEEP = 1024
"""How many records of calls are kept without --control."""
KEEP_CONTROLLED = 100_000
"""How many with it."""
KEEP_MOST = 1_000_000


def login(words: str) -> User:
    """NAME:PASSWORD[:ROOT[:UID:GID]]. A password may have colons; a root begins with /."""
    found = re.fullmatch("([^:]+):(.*)", words, re.DOTALL)
    if found is None:
        raise argparse.ArgumentTypeError(f"it must be {LOGIN}")
    parts = re.fullmatch("(.*):(/[^:]*)(?::([0-9]+):([0-9]+))?", found[2], re.DOTALL)
    if parts is None:
        return User(found[1], found[2])
    try:
        return User(found[1], parts[1], parts[2], int(parts[3] or 0), int(parts[4] or 0))
    except ValueError as fault:
        raise argparse.ArgumentTypeError(str(fault)) from None


def password_file(name: str) -> list[User]:
    """The users of a file, one in each line."""
    try:
        with open(name, encoding="utf-8") as file:
            return [login(line) for line in file.read().splitlines() if line]
    except OSError as fault:
        raise argparse.ArgumentTypeError(f"{name}: {fault.strerror}") from None


def port_number(word: str) -> int:
    if not word.isdigit() or int(word) > 65535:
        raise argparse.ArgumentTypeError(f"it must be from 0 to 65535, not {word!r}")
    return int(word)


def keep_number(word: str) -> int:
    if not word.isdigit() or not 1 <= int(word) <= KEEP_MOST:
        raise argparse.ArgumentTypeError(f"it must be from 1 to {KEEP_MOST}, not {word!r}")
    return int(word)


def not_empty(word: str) -> str:
    if not word:
        raise argparse.ArgumentTypeError("it must not be empty")
    return word


def control_address(word: str) -> Union[int, str]:
    """A port, or the path of a Unix socket."""
    return port_number(word) if word.isdigit() else not_empty(word)


def read_words(words: Optional[Sequence[str]]) -> argparse.Namespace:
    parser = argparse.ArgumentParser(
        prog="python -m lucernetick",
        description="An SFTP server with its tree in memory, until Ctrl-C. It prints the command "
        "that connects OpenSSH's client.",
    )
    add = parser.add_argument
    add("--host", default="127.0.0.1", help="the address to listen at, by default %(default)s")
    add(
        "--port", type=port_number, default=2222, help="by default %(default)s; 0 for a free port"
    )
    add(
        "--user",
        metavar=LOGIN,
        type=login,
        action="append",
        default=[],
        help="a user, who sees the directory ROOT of the tree as /, with enforced permissions if "
        "there is a UID; may be repeated; by default `user` with the key in the printed command. "
        "Other users of this machine can see it: see --password-file",
    )
    add(
        "--password-file",
        metavar="FILE",
        type=password_file,
        default=[],
        help="users, as by --user, one in each line",
    )
    add(
        "--key", metavar="FILE", action="append", default=[], help="a public key that may log in"
    )
    add("--host-key", metavar="FILE", help="the server's private key, by default a new one")
    add(
        "--tree",
        metavar="DIR",
        type=not_empty,
        help="the files at the start, with their permissions, owners and times; DIR isn't changed",
    )
    add(
        "--save",
        metavar="DIR",
        type=not_empty,
        help="a folder, empty or new, for the tree at the end",
    )
    add(
        "--keep",
        metavar="N",
        type=keep_number,
        help=f"how many records of calls are kept, by default {KEEP}, or with --control "
        f"{KEEP_CONTROLLED}",
    )
    add("--read-only", action="store_true", help="clients can't change the tree")
    add("--log", metavar="FILE", help="a line for each session and each call; - is standard output")
    add(
        "--control",
        metavar="PATH|PORT",
        type=control_address,
        help="control the server by HTTP and JSON, at a Unix socket or a port of 127.0.0.1",
    )
    add("--json", action="store_true", help="print how to connect as a line of JSON")
    add("--ready-file", metavar="FILE", type=not_empty, help="write that JSON to FILE when ready")
    add(
        "--write-ssh-config",
        metavar="DIR",
        type=not_empty,
        help="write ssh_config and the keys to DIR, for `sftp -F DIR/ssh_config lucernetick`",
    )
    add("--version", action="version", version=f"lucernetick {__version__}")
    return parser.parse_args(words)


def log_file(name: Optional[str]) -> ContextManager[Optional[TextIO]]:
    if name is None or name == "-":
        return contextlib.nullcontext(sys.stdout if name else None)
    return open(name, "a", encoding="ascii")


def warn(text: str) -> None:
    print(f"python -m lucernetick: {text}", file=sys.stderr, flush=True)


def make_engine(words: argparse.Namespace) -> Engine:
    keep = words.keep or (KEEP if words.control is None else KEEP_CONTROLLED)
    if not words.tree:
        return Engine(keep)

    def skip(path: str, kind: str) -> None:
        warn(f"skipped: {path!r} is {kind}")

    return Engine.from_folder(words.tree, keep=keep, attributes=True, skip=skip)


def how_to_connect(ssh: SshServer, control: Optional[Control]) -> dict[str, Any]:
    return {
        "host": ssh.host,
        "port": ssh.port,
        "user": ssh.user,
        "password": ssh.password,
        "client_key": ssh.client_key,
        "known_hosts": ssh.known_hosts,
        "control": None if control is None else control.address,
        "sftp": ssh.sftp_command(),
        "pid": os.getpid(),
    }


def announce(words: argparse.Namespace, ssh: SshServer, control: Optional[Control]) -> None:
    """Reports that it is ready, in each requested form."""
    if words.write_ssh_config:
        ssh.write_ssh_config(words.write_ssh_config)
    line = json.dumps(how_to_connect(ssh, control))
    if words.ready_file:
        write_private(words.ready_file + ".new", line.encode() + b"\n")
        os.replace(words.ready_file + ".new", words.ready_file)
    print(line if words.json else shlex.join(ssh.sftp_command()), flush=True)


def save(engine: Engine, folder: str) -> int:
    """Writes what it can. Returns 1 if something is missing."""
    failed = engine.snapshot().save_all(folder)
    for path, fault in failed:
        warn(f"not saved: {path[:200]!r}: {fault.strerror}")
    return 1 if failed else 0


def serve(words: argparse.Namespace) -> int:
    """Until Ctrl-C, SIGTERM or SIGHUP, or until a thread fails. Returns the exit status."""
    # Before there are threads, which would receive them.
    signal.pthread_sigmask(signal.SIG_BLOCK, ENDS)
    if words.save:
        make_empty(words.save)
    first, *others = [*words.user, *words.password_file] or ["user"]
    reached = {"host": words.host, "port": words.port, "user": first, "users": others}
    keys = {"public_keys": words.key, "host_key": words.host_key}
    status = 0
    with log_file(words.log) as file, make_engine(words) as engine:
        log = Log(file)
        try:
            with Server(engine, log=log) as server:
                with SshServer(server, **reached, **keys) as ssh:
                    run(words, server, ssh)
        except StoppedError as fault:
            warn(str(fault))
            status = 1
        print(f"sessions {log.sessions} calls {log.calls}", flush=True)
        return max(status, save(engine, words.save) if words.save else 0)


def run(words: argparse.Namespace, server: Server, ssh: SshServer) -> None:
    """Serves until a signal, or until a thread fails."""
    if words.read_only:
        server.read_only()
    with contextlib.ExitStack() as stack:
        control = None
        if words.control is not None:
            control = stack.enter_context(Control(server, ssh, words.control))
        announce(words, ssh, control)
        while signal.sigtimedwait(ENDS, LOOK) is None and server._fault is None:
            pass


def main(words: Optional[Sequence[str]] = None) -> int:
    try:
        return serve(read_words(words))
    except (Error, ImportError, OSError, ValueError) as fault:
        warn(str(fault))
        return 1


if __name__ == "__main__":
    sys.exit(main())
