"""Users of an SSH server."""

from __future__ import annotations

from dataclasses import dataclass

from . import _arguments as arguments


@dataclass(frozen=True)
class User:
    """A user who may log in with this password, or with a key. `root` is the directory of the tree
    that the user sees as `/`.

    With a `uid` other than 0, permissions are enforced for this user and its `gid`, see
    `Engine.enforce_permissions`. A root that is made for the user belongs to it."""

    name: str
    password: str
    root: str = "/"
    uid: int = 0
    gid: int = 0

    def __post_init__(self) -> None:
        for name in ("name", "password", "root"):
            value = getattr(self, name)
            if not isinstance(value, str):
                raise TypeError(f"a user's {name} must be a str, not {type(value).__name__}")
        if not self.name:
            raise ValueError("a user's name must not be empty")
        arguments.path("a user's root", self.root)
        for name in ("uid", "gid"):
            arguments.integer(f"a user's {name}", getattr(self, name), 0, arguments.LATEST - 1)
