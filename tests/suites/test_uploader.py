"""A suite as a user of the Python package writes it."""

from __future__ import annotations

from concurrent.futures import ThreadPoolExecutor

import lucernetick
import paramiko
import pytest
from lucernetick import Faults, Kind, SshServer, Status, User

from uploader import ERRORS, Connect, by_ssh, upload

DATA = bytes(range(256)) * 400


def direct(server: lucernetick.Server, **faults: float) -> Connect:
    return lambda: paramiko.SFTPClient(server.connect(**faults))


def reach(ssh: SshServer, user: str = "user", password: str = "") -> Connect:
    return by_ssh(ssh.host, ssh.port, user, password or ssh.password, ssh.known_hosts)


def test_upload(sftp_tree, virtual_time):
    virtual_time.set(1_700_000_000)
    upload(direct(sftp_tree), "/a", DATA)
    tree = sftp_tree.snapshot()
    assert list(tree) == ["/", "/a"]
    assert (tree["/a"].contents, tree["/a"].mtime) == (DATA, 1_700_000_000)


def test_only_the_temporary_file_is_opened(sftp_tree):
    upload(direct(sftp_tree), "/a", DATA)
    opened = [call.path for call in sftp_tree.calls() if call.kind == Kind.OPEN]
    assert len(opened) == 1 and opened[0].endswith(".part")


def test_writes_to_this_path_fail(sftp_tree):
    sftp_tree.refuse(kind=Kind.WRITE, path="/in/*.part", times=None)
    sftp_tree.write_files({"/in": None})
    with pytest.raises(OSError):
        upload(direct(sftp_tree), "/in/a", DATA)
    assert list(sftp_tree.snapshot()) == ["/", "/in"]
    upload(direct(sftp_tree), "/b", DATA)


def test_full_then_freed(sftp_tree):
    sftp_tree.write_files({"/a": b"old"})
    with sftp_tree.disk_full(after=50_000) as full, pytest.raises(OSError):
        upload(direct(sftp_tree), "/a", DATA)
    assert full.refused > 0 and sftp_tree.snapshot()["/a"].contents == b"old"
    upload(direct(sftp_tree), "/a", DATA)
    assert sftp_tree.snapshot()["/a"].contents == DATA


def test_a_failure_that_passes(sftp_tree):
    rule = sftp_tree.refuse(kind=Kind.POSIX_RENAME, times=2, status=Status.PERMISSION_DENIED)
    upload(direct(sftp_tree), "/a", DATA)
    assert rule.refused == 2 and list(sftp_tree.snapshot()) == ["/", "/a"]


@pytest.mark.parametrize("cut_after", range(0, 110_000, 10_000))
def test_a_cut_over_ssh(sftp_tree, cut_after):
    faults = {1: Faults(cut_after=cut_after)}
    with SshServer(sftp_tree, faults=lambda session: faults.get(session, Faults())) as ssh:
        upload(reach(ssh), "/a", DATA)
    assert sftp_tree.snapshot()["/a"].contents == DATA


def test_each_connection_is_cut(sftp_tree):
    with SshServer(sftp_tree, cut_after=50_000) as ssh, pytest.raises(ERRORS):
        upload(reach(ssh), "/a", DATA)
    assert "/a" not in sftp_tree.snapshot()


def test_in_the_background(sftp_tree):
    with ThreadPoolExecutor() as threads:
        running = threads.submit(upload, direct(sftp_tree, delay=0.01), "/a", DATA)
        assert sftp_tree.wait_for("/a", timeout=60).contents == DATA
        running.result()


@pytest.mark.parametrize("seed", lucernetick.seeds(100))
def test_two_uploaders_of_one_path(seed):
    def work(line, data):
        upload(lambda: paramiko.SFTPClient(line), "/a", data, attempts=1)

    with lucernetick.Races(seed, clients=2) as races, ThreadPoolExecutor() as threads:
        list(threads.map(work, [races.connect(), races.connect()], [DATA, b"short"]))
        tree = races.snapshot()
    assert list(tree) == ["/", "/a"] and tree["/a"].contents in (DATA, b"short")
    assert races.stray is None


@pytest.mark.parametrize("seed", lucernetick.seeds(5))
def test_two_uploaders_over_ssh(seed):
    ann, bob = User("ann", "1"), User("bob", "2")
    with lucernetick.Races(seed, clients=2) as races:
        with SshServer(races, user=ann, users=[bob]) as ssh, ThreadPoolExecutor() as threads:
            lines = [reach(ssh, one.name, one.password) for one in (ann, bob)]
            list(threads.map(upload, lines, "aa", [DATA, b"short"], [1, 1]))
            tree = races.snapshot()
    assert list(tree) == ["/", "/a"] and tree["/a"].contents in (DATA, b"short")
