"""The flags of OPEN."""

import enum


class OpenFlag(enum.IntFlag):
    """The bits of OPEN's pflags."""

    READ = 1
    WRITE = 2
    APPEND = 4
    CREATE = 8
    TRUNCATE = 16
    EXCL = 32
