"""An SFTP version 3 server for tests, in the process, with its tree in memory.

`Engine` is the server without threads, sockets or a clock: bytes and timestamps in, bytes out.
`Server` serves connected sockets, and `SshServer` listens at a port for SSH. `Races` runs
concurrent clients under a seeded scheduler. The package's pytest plugin has the fixtures
`sftp_tree`, `sftp_ssh` and `virtual_time`.
"""

from ._calls import Answer, Attributes, Call, Kind, Reply
from ._clock import Clock, VirtualTime, wall_clock
from ._engine import Engine, Session, Turn
from ._faults import (
    BlockedError,
    DroppedError,
    EndedError,
    Error,
    Refusal,
    RefusedError,
    StatusError,
    StoppedError,
)
from ._flags import OpenFlag
from ._folders import Snapshot
from ._library import library
from ._lines import Faults
from ._log import Log
from ._races import Races, StrayWarning, seeds
from ._requests import Request
from ._rules import Rule, Status
from ._server import Connection, Server
from ._ssh import SshServer
from ._tree import Contents, Entry, Files, Link
from ._users import User
from ._watching import Hook

__version__: str = library.lt_version().decode()

__all__ = [
    "Answer",
    "Attributes",
    "BlockedError",
    "Call",
    "Clock",
    "Connection",
    "Contents",
    "DroppedError",
    "EndedError",
    "Engine",
    "Entry",
    "Error",
    "Faults",
    "Files",
    "Hook",
    "Kind",
    "Link",
    "Log",
    "OpenFlag",
    "Races",
    "Refusal",
    "RefusedError",
    "Reply",
    "Request",
    "Rule",
    "Server",
    "Session",
    "Snapshot",
    "SshServer",
    "Status",
    "StatusError",
    "StoppedError",
    "StrayWarning",
    "Turn",
    "User",
    "VirtualTime",
    "seeds",
    "wall_clock",
]
