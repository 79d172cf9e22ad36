"""The pytest plugin, in another pytest process."""

from __future__ import annotations

import subprocess
import sys
from pathlib import Path

LIMIT = 120
TESTS = """
import paramiko
import pytest
from lucernetick import Kind, Status


def test_fails(sftp_tree):
    client = paramiko.SFTPClient(sftp_tree.connect())
    client.mkdir("/a")
    assert "/b" in sftp_tree.snapshot()


def test_passes(sftp_tree):
    paramiko.SFTPClient(sftp_tree.connect()).mkdir("/c")


def test_without_calls(sftp_tree):
    assert 0


@pytest.mark.parametrize("kind", [Kind.OPEN, Kind.POSIX_RENAME])
@pytest.mark.parametrize("status", [Status.EOF])
@pytest.mark.parametrize("other", [7])
def test_ids(kind, status, other):
    pass
"""


def run(folder: Path, *words: str) -> str:
    (folder / "test_it.py").write_text(TESTS)
    begins = [sys.executable, "-m", "pytest", "-p", "no:cacheprovider", "--rootdir", str(folder)]
    ran = subprocess.run(
        [*begins, *words, str(folder)], capture_output=True, text=True, timeout=LIMIT, cwd=folder
    )
    assert "passed" in ran.stdout or "tests collected" in ran.stdout, ran.stdout + ran.stderr
    return ran.stdout


def test_the_report_of_a_failed_test_has_its_calls(tmp_path: Path) -> None:
    found = run(tmp_path)
    assert "2 failed, 3 passed" in found
    assert found.count("- SFTP calls -") == 2
    assert 'session 1 call 1 at 1000000000: mkdir "/a" mode 0777 -> Success' in found
    assert "(no calls)" in found and '"/c"' not in found


def test_ids_have_names(tmp_path: Path) -> None:
    found = run(tmp_path, "--collect-only", "-q")
    assert "test_ids[7-EOF-OPEN]" in found and "test_ids[7-EOF-POSIX_RENAME]" in found
