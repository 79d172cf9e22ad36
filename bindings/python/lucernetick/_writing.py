"""Writes a folder of the system into an engine."""

from __future__ import annotations

import stat
from typing import TYPE_CHECKING, Dict

from ._arguments import LATEST
from ._asking import Asker, number
from ._folders import Found, Sparse
from ._requests import MODE, OWNER, TIMES
from ._tree import Link

if TYPE_CHECKING:
    import os

    from ._engine import Engine


def write_folder(engine: Engine, found: Dict[str, Found], moment: int, attributes: bool) -> None:
    """Directories and files, then hard links, then attributes."""
    with Asker(engine, moment) as asker:
        for path, entry in found.items():
            if entry.contents is None:
                asker.make_directory(path)
            elif isinstance(entry.contents, Sparse):
                asker.write_file(path, *entry.contents)
        for path, entry in found.items():
            if isinstance(entry.contents, Link):
                asker.link(str(entry.contents.path), path)
        if attributes:
            for path, entry in found.items():
                asker.set_attributes(path, encoded_status(entry.status))


def encoded_status(status: os.stat_result) -> bytes:
    """Owner, permissions and times, as SETSTAT has them."""
    times = (min(max(int(time), 0), LATEST) for time in (status.st_atime, status.st_mtime))
    owner = number(status.st_uid) + number(status.st_gid)
    mode = number(stat.S_IMODE(status.st_mode))
    return number(OWNER | MODE | TIMES) + owner + mode + b"".join(map(number, times))
