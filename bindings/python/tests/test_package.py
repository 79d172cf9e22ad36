"""The package itself: what it raises, and what it says of itself."""

from __future__ import annotations

import copy
import importlib.metadata
import pickle
import re

import pytest

import lucernetick
from lucernetick import (
    BlockedError,
    EndedError,
    Engine,
    Error,
    Refusal,
    RefusedError,
    StatusError,
)


@pytest.mark.parametrize(
    ("error", "says"),
    [
        (RefusedError(Refusal.TOO_MANY_SESSIONS), "256 sessions are open"),
        (StatusError(2, "No such file", "STAT /a"), "STAT /a: No such file"),
        (BlockedError("STAT /a: it is blocked"), "STAT /a: it is blocked"),
        (EndedError("STAT /a: no reply"), "STAT /a: no reply"),
    ],
)
def test_errors_between_processes(error: Error, says: str) -> None:
    """They arrive as they were."""
    for other in (pickle.loads(pickle.dumps(error)), copy.copy(error)):
        assert type(other) is type(error) and vars(other) == vars(error)
        assert str(other) == str(error) == says


def test_names_that_it_has() -> None:
    assert sorted(lucernetick.__all__) == lucernetick.__all__
    assert all(hasattr(lucernetick, name) for name in lucernetick.__all__)


def test_what_it_says_of_itself() -> None:
    """The metadata that a package index and pip use."""
    found = importlib.metadata.metadata("lucernetick")
    wanted = (
        "Name Version Summary Author Keywords Classifier Requires-Python Provides-Extra "
        "Requires-Dist"
    )
    assert set(wanted.split()) <= set(found.keys())
    assert found["Version"] == lucernetick.__version__
    assert found["Description-Content-Type"] == "text/markdown"
    # By the extra `ssh` alone.
    wants, by = re.sub("[ ()'\"]", "", found["Requires-Dist"]).split(";")
    assert by == "extra==ssh" and wants.startswith("asyncssh")


@pytest.mark.parametrize(
    ("version", "is_admitted"),
    [
        ("2.10.0", False), ("2.10.1", True), ("2.11.0", False), ("2.13.2", False),
        ("2.14.0", False), ("2.14.1", False), ("2.14.2", True), ("2.21.0", True),
    ],
)
def test_versions_of_asyncssh(version: str, is_admitted: bool) -> None:
    """Those with strict key exchange: since 2.14.2, and Debian 12's 2.10.1."""
    packaging = pytest.importorskip("packaging.requirements")
    found = importlib.metadata.requires("lucernetick")
    assert found is not None
    assert (version in packaging.Requirement(found[0]).specifier) == is_admitted


def test_an_engine_shows_no_lock() -> None:
    with Engine() as engine:
        assert not [name for name in vars(engine) if not name.startswith("_")]
