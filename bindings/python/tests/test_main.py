"""`python -m lucernetick`, as a command."""

from __future__ import annotations

import base64
import contextlib
import http.client
import json
import os
import re
import shlex
import signal
import socket
import subprocess
import sys
import time
from concurrent.futures import ThreadPoolExecutor
from pathlib import Path
from typing import Any, Iterator, Optional

import asyncssh
import paramiko
import pytest

from lucernetick import Engine, __version__

LIMIT = 120


@contextlib.contextmanager
def running(*words: str) -> Iterator[tuple[subprocess.Popen[str], list[str]]]:
    """The command and the words that it prints first, by which `sftp` reaches it."""
    begins = [sys.executable, "-m", "lucernetick", "--port", "0", *words]
    with subprocess.Popen(
        begins, stdout=subprocess.PIPE, stderr=subprocess.PIPE, text=True
    ) as process:
        try:
            assert process.stdout is not None
            yield process, shlex.split(process.stdout.readline())
        finally:
            process.kill()


def ends(process: subprocess.Popen[str], by: signal.Signals = signal.SIGINT) -> str:
    """What it prints further, until Ctrl-C."""
    process.send_signal(by)
    told, wrong = process.communicate(timeout=LIMIT)
    assert (process.returncode, wrong) == (0, "")
    return told


def sftp(words: list[str], commands: str) -> None:
    """Runs OpenSSH's client by the words that were printed."""
    batch = [words[0], "-q", "-b", "-", *words[1:]]
    subprocess.run(batch, input=commands, text=True, check=True, timeout=LIMIT)


LOG = """\
session 1 opened
session 1 call 1 at MOMENT: mkdir "/d" mode 0777 -> Success
session 1 call 2 at MOMENT: mkdir "/d/\\303\\244" mode 0777 -> Success
session 1 call 3 at MOMENT: rename "/d" "/e" -> Success
session 1 closed
session 2 opened
session 2 call 4 at MOMENT: rmdir "/d" -> No such file
session 2 closed
sessions 2 calls 4
"""


def test_what_it_prints() -> None:
    with running("--log", "-") as (process, words):
        sftp(words, "mkdir /d\nmkdir /d/ä\nrename -l /d /e\n")
        sftp(words, "-rmdir /d\n")
        told = ends(process)
    assert re.sub(r"at 1[0-9]{9}:", "at MOMENT:", told) == LOG


def test_it_tells_how_many_there_were() -> None:
    with running() as (process, words):
        assert ends(process) == "sessions 0 calls 0\n"
    with running() as (process, words):
        sftp(words, "mkdir /d\n")
        sftp(words, "ls /d\n")
        told = ends(process, signal.SIGTERM)
    assert re.fullmatch("sessions 2 calls [0-9]+\n", told)


def test_a_user_and_a_key(tmp_path: Path) -> None:
    key = asyncssh.generate_private_key("ssh-ed25519")
    key.write_private_key(str(tmp_path / "key"))
    key.write_public_key(str(tmp_path / "key.pub"))
    with running("--user", "ann:a:b", "--key", str(tmp_path / "key.pub")) as (process, words):
        port = int(words[words.index("-P") + 1])
        assert words[-1] == "ann@127.0.0.1"
        for login in ({"password": "a:b"}, {"key_filename": str(tmp_path / "key")}):
            with paramiko.SSHClient() as client:
                client.set_missing_host_key_policy(paramiko.AutoAddPolicy())
                words = {"look_for_keys": False, "allow_agent": False, **login}
                words |= {"banner_timeout": LIMIT, "auth_timeout": LIMIT}
                client.connect("127.0.0.1", port, "ann", **words)
                assert client.open_sftp().listdir("/") == []
        assert ends(process).startswith("sessions 2 calls ")


def test_a_tree_at_the_start_and_at_the_end(tmp_path: Path) -> None:
    (tmp_path / "shelf" / "d").mkdir(parents=True)
    (tmp_path / "shelf" / "d" / "f").write_bytes(b"1")
    shelf, left, log = (str(tmp_path / name) for name in ("shelf", "left", "log"))
    with running("--tree", shelf, "--save", left, "--log", log) as (process, reaches):
        sftp(reaches, "rename -l /d/f /g\n")
        ends(process)
    assert (tmp_path / "left" / "g").read_bytes() == b"1"
    assert (tmp_path / "shelf" / "d" / "f").read_bytes() == b"1"
    assert not list((tmp_path / "left" / "d").iterdir())
    told = Path(log).read_text().splitlines()
    assert told[0].endswith(" opened") and told[-1].endswith(" closed")
    assert [line.partition(": ")[2] for line in told if "rename" in line] == [
        'rename "/d/f" "/g" -> Success'
    ]


@pytest.mark.parametrize(
    ("words", "code", "says"),
    [
        (["--user", "ann"], 2, "argument --user: it must be NAME:PASSWORD[:ROOT[:UID:GID]]"),
        (["--user", "ann:1:/:5000000000:1"], 2, "argument --user: a user's uid must be from 0 to"),
        (["--port", "x"], 2, "argument --port: it must be from 0 to 65535, not 'x'"),
        (["--port", "99999"], 2, "argument --port: it must be from 0 to 65535, not '99999'"),
        (["--control", "99999"], 2, "argument --control: it must be from 0 to 65535"),
        (["--control", ""], 2, "argument --control: it must not be empty"),
        (["--keep", "0"], 2, "argument --keep: it must be from 1 to 1000000, not '0'"),
        (["--save", ""], 2, "argument --save: it must not be empty"),
        (["--tree", ""], 2, "argument --tree: it must not be empty"),
        (["--password-file", "/none"], 2, "--password-file: /none: No such file or directory"),
        (["--host-key", "/none"], 1, "No such file or directory: '/none'"),
        (["--tree", "/none"], 1, "No such file or directory: '/none'"),
        (["--key", "/none"], 1, "No such file or directory: '/none'"),
        (["--port", "TAKEN"], 1, "address already in use"),
        (["--save", "/etc"], 1, "Directory not empty: '/etc'"),
    ],
)
def test_words_that_it_cannot_follow(words: list[str], code: int, says: str) -> None:
    with socket.create_server(("127.0.0.1", 0)) as taken:
        words = [word.replace("TAKEN", str(taken.getsockname()[1])) for word in words]
        begins = [sys.executable, "-m", "lucernetick", *words]
        told = subprocess.run(begins, capture_output=True, text=True, timeout=LIMIT)
    assert told.returncode == code and told.stdout == ""
    assert says in told.stderr and "Traceback" not in told.stderr


def test_its_version() -> None:
    words = [sys.executable, "-m", "lucernetick", "--version"]
    told = subprocess.run(words, capture_output=True, text=True, timeout=LIMIT)
    assert told.stdout == f"lucernetick {__version__}\n"


def test_a_folder_keeps_its_attributes(tmp_path: Path) -> None:
    """As with `sftpd --tree`. What is neither a file nor a directory is skipped, with a line."""
    shelf = tmp_path / "shelf"
    shelf.mkdir()
    (shelf / "f").write_bytes(b"1")
    os.chmod(shelf / "f", 0o600)
    os.utime(shelf / "f", (5, 6))
    (shelf / "link").symlink_to("f")
    begins = [sys.executable, "-m", "lucernetick", "--port", "0"]
    words = [*begins, "--tree", str(shelf), "--save", str(tmp_path / "left")]
    with subprocess.Popen(
        words, stdout=subprocess.PIPE, stderr=subprocess.PIPE, text=True
    ) as process:
        assert process.stdout is not None
        key = ssh_words(shlex.split(process.stdout.readline()))["client_key"]
        assert os.path.exists(key)
        process.send_signal(signal.SIGHUP)
        _, wrong = process.communicate(timeout=LIMIT)
    assert not os.path.exists(os.path.dirname(key))
    assert wrong == f"python -m lucernetick: skipped: '{shelf}/link' is a symbolic link\n"
    status = (tmp_path / "left" / "f").stat()
    assert (status.st_mode & 0o777, status.st_atime, status.st_mtime) == (0o600, 5, 6)
    assert os.listdir(tmp_path / "left") == ["f"]


def test_a_tree_that_cannot_be_saved_whole(tmp_path: Path) -> None:
    """By renames clients make a path that is longer than the system's. The rest is saved."""
    deep = ("/" + "x" * 255) * 15
    with running("--save", str(tmp_path / "left")) as (process, words):
        sftp(words, "mkdir /precious\nmkdir /z\n")
        config = ssh_words(words)
        with log_in(config) as client:
            files = client.open_sftp()
            for name in "ab":
                make_deep(files, "/" + name, deep)
            files.rename("/b", "/a" + deep[:2560] + "/b")
        process.send_signal(signal.SIGTERM)
        _, wrong = process.communicate(timeout=LIMIT)
    assert process.returncode == 1
    assert re.match("python -m lucernetick: not saved: '/a/xxx.*: File name too long\n", wrong)
    assert {"a", "precious", "z"} <= set(os.listdir(tmp_path / "left"))


def make_deep(files: paramiko.SFTPClient, top: str, deep: str) -> None:
    files.mkdir(top)
    for end in range(256, len(deep) + 1, 256):
        files.mkdir(top + deep[:end])


def ssh_words(words: list[str]) -> dict[str, Any]:
    """How to connect by the command that was printed."""
    option = dict(zip(words[1:-1:2], words[2:-1:2]))
    return {"port": int(option["-P"]), "client_key": option["-i"], "user": "user"}


def log_in(reached: dict[str, Any], password: Optional[str] = None) -> paramiko.SSHClient:
    client = paramiko.SSHClient()
    client.set_missing_host_key_policy(paramiko.AutoAddPolicy())
    words: dict[str, Any] = {"look_for_keys": False, "allow_agent": False}
    words |= {"banner_timeout": LIMIT, "auth_timeout": LIMIT, "username": reached["user"]}
    words |= {"password": password} if password else {"key_filename": reached["client_key"]}
    client.connect("127.0.0.1", reached["port"], **words)
    return client


def test_how_it_tells_that_it_is_ready(tmp_path: Path) -> None:
    ready, config = tmp_path / "ready", tmp_path / "config"
    words = ["--json", "--ready-file", str(ready), "--write-ssh-config", str(config)]
    begins = [sys.executable, "-m", "lucernetick", "--port", "0", *words]
    with subprocess.Popen(begins, stdout=subprocess.PIPE, text=True) as process:
        try:
            assert process.stdout is not None
            found = json.loads(process.stdout.readline())
            assert json.loads(ready.read_text()) == found
            assert ready.stat().st_mode & 0o777 == 0o600
            assert found["pid"] == process.pid and found["control"] is None
            with log_in(found, found["password"]) as client:
                assert client.open_sftp().listdir("/") == []
            batch = ["sftp", "-q", "-b", "-", "-F", str(config / "ssh_config"), "lucernetick"]
            subprocess.run(batch, input="mkdir /a\n", text=True, check=True, timeout=LIMIT)
        finally:
            process.kill()


def test_users_of_a_file(tmp_path: Path) -> None:
    (tmp_path / "users").write_text("ann:a:b:/home/ann:1000:100\n\nbob:c\n")
    with running("--password-file", str(tmp_path / "users"), "--user", "eve:d") as (_, words):
        assert words[-1] == "eve@127.0.0.1"
        reached = ssh_words(words)
        for user, password, names in (("ann", "a:b", []), ("bob", "c", ["home"])):
            with log_in({**reached, "user": user}, password) as client:
                assert client.open_sftp().listdir("/") == names
        with log_in({**reached, "user": "bob"}, "c") as client:
            files = client.open_sftp()
            assert files.stat("/home/ann").st_uid == 1000
            files.mkdir("/home/ann/d", 0o700)
        with log_in({**reached, "user": "ann"}, "a:b") as client:
            files = client.open_sftp()
            with pytest.raises(PermissionError):
                files.listdir("/d")
            files.rmdir("/d")


def test_read_only(tmp_path: Path) -> None:
    (tmp_path / "f").write_bytes(b"1")
    with running("--read-only", "--tree", str(tmp_path)) as (_, words):
        with log_in(ssh_words(words)) as client:
            files = client.open_sftp()
            with pytest.raises(PermissionError):
                files.remove("/f")
            with files.open("/f") as file:
                assert file.read() == b"1"


class Control:
    """A client of --control."""

    def __init__(self, address: str) -> None:
        self.address = address

    def raw(self, method: str, path: str, body: bytes = b"") -> tuple[int, bytes]:
        if self.address.startswith("http://"):
            connection = http.client.HTTPConnection(self.address[7:], timeout=LIMIT)
        else:
            connection = http.client.HTTPConnection("unix", timeout=LIMIT)
            connection.sock = socket.socket(socket.AF_UNIX)
            connection.sock.connect(self.address)
        with contextlib.closing(connection):
            connection.request(method, path, body)
            reply = connection.getresponse()
            return reply.status, reply.read()

    def ask(self, method: str, path: str, words: Optional[dict[str, Any]] = None) -> Any:
        status, body = self.raw(method, path, json.dumps(words or {}).encode())
        assert status == 200, body
        return json.loads(body)


@contextlib.contextmanager
def controlled(address: str, *more: str) -> Iterator[tuple[Control, dict[str, Any]]]:
    words = ["--port", "0", "--json", "--control", address, *more]
    begins = [sys.executable, "-m", "lucernetick", *words]
    with subprocess.Popen(begins, stdout=subprocess.PIPE, text=True) as process:
        try:
            assert process.stdout is not None
            found = json.loads(process.stdout.readline())
            yield Control(found["control"]), found
        finally:
            process.terminate()
            process.communicate(timeout=LIMIT)


def test_a_limit_of_calls() -> None:
    """As with `sftpd --keep`. The number of those that are gone is not hidden."""
    with controlled("0", "--keep", "2") as (control, reached), log_in(reached) as client:
        files = client.open_sftp()
        for path in ("/a", "/b", "/c"):
            files.mkdir(path)
        found = control.ask("GET", "/calls")
        assert [call["path"] for call in found["calls"]] == ["/b", "/c"]
        assert found["dropped"] == 1


def test_control_at_a_port() -> None:
    """Files, calls, rules, faults, the clock and the reset, beside a client."""
    with controlled("0") as (control, reached), log_in(reached) as client:
        assert control.address.startswith("http://127.0.0.1:")
        files = client.open_sftp()
        contents = {"base64": base64.b64encode(bytes(range(256))).decode()}
        control.ask("PUT", "/tree", {"/a/b": "text", "/c": contents, "/d": {"link": "/c"}})
        control.ask("PUT", "/tree", {"/e": None})
        assert control.raw("PUT", "/files/with%20space", b"\0\1") == (200, b"{}\n")
        assert control.raw("GET", "/files/c") == (200, bytes(range(256)))
        assert files.listdir("/") == ["a", "c", "d", "e", "with space"]
        tree = control.ask("GET", "/tree?contents=1")
        assert tree["/c"]["file"] == tree["/d"]["file"] and tree["/e"]["type"] == "directory"
        assert base64.b64decode(tree["/with space"]["base64"]) == b"\0\1"
        assert tree["/a/b"]["size"] == 4 and "base64" not in control.ask("GET", "/tree")["/a/b"]

        rule = control.ask("POST", "/rules", {"kind": "mkdir", "path": "/x*", "times": None})
        with pytest.raises(OSError):
            files.mkdir("/x1")
        files.mkdir("/y")
        assert control.ask("GET", f"/rules/{rule['rule']}") == {"refused": 1}
        control.ask("DELETE", f"/rules/{rule['rule']}")
        files.mkdir("/x1")
        for kinds in ("rmdir|stat", ["STAT", "RMDIR"]):
            rule = control.ask("POST", "/rules", {"kind": kinds, "times": None})
            for action in (files.stat, files.rmdir):
                with pytest.raises(OSError):
                    action("/x1")
            assert control.ask("DELETE", f"/rules/{rule['rule']}") == {"refused": 2}
        control.ask("POST", "/rules", {"flags": "write|create", "status": "PERMISSION_DENIED"})
        with pytest.raises(PermissionError):
            files.open("/z", "w")

        assert control.ask("PUT", "/clock", {"set": 1000}) == {"now": 1000}
        assert control.ask("PUT", "/clock", {"advance": 5}) == {"now": 1005}
        files.mkdir("/late")
        assert files.stat("/late").st_mtime == 1005
        assert control.ask("PUT", "/clock", {"wall": True})["now"] > 1_700_000_000
        calls = control.ask("GET", "/calls")
        assert calls["dropped"] == 0 and calls["calls"][-1]["kind"] == "STAT"
        assert 'mkdir "/late"' in calls["calls"][-2]["text"]
        assert control.ask("GET", "/clock")["now"] > 1_700_000_000

        control.ask("PUT", "/faults", {"delay": 0.4})
        begin = time.monotonic()
        client.open_sftp().listdir("/")
        assert time.monotonic() - begin >= 0.8
        control.ask("POST", "/rules", {"times": None})
        control.ask("POST", "/reset")
        assert files.listdir("/") == []
        begin = time.monotonic()
        client.open_sftp().listdir("/")
        assert time.monotonic() - begin < 0.8
        kinds = {call["kind"] for call in control.ask("GET", "/calls")["calls"]}
        assert kinds == {"OPENDIR", "READDIR", "CLOSE"}


def test_control_waits() -> None:
    """For a file that its client has closed, and for a call. Other requests are served."""
    with controlled("0") as (control, reached), log_in(reached) as client:
        files = client.open_sftp()
        file = files.open("/f", "w")
        file.write(b"123")
        with ThreadPoolExecutor() as threads:
            waits = threads.submit(control.ask, "POST", "/wait", {"path": "/f", "timeout": LIMIT})
            moves = {"kind": "rename", "path": "/g*"}
            renames = threads.submit(
                control.ask, "POST", "/wait", {"call": moves, "timeout": LIMIT}
            )
            status, told = control.raw("POST", "/wait", b'{"path": "/f", "timeout": 0.2}')
            assert status == 504
            assert "no complete file at /f within 0.2 seconds" in json.loads(told)["error"]
            assert not waits.done() and not renames.done()
            file.close()
            assert waits.result()["size"] == 3
            files.rename("/f", "/g1")
            found = renames.result()
            assert (found["path"], found["new_path"]) == ("/f", "/g1")
        # Earlier calls count, but none before a reset.
        assert control.ask("POST", "/wait", {"call": moves})["number"] == found["number"]
        control.ask("POST", "/reset")
        words = json.dumps({"call": moves, "timeout": 0}).encode()
        assert control.raw("POST", "/wait", words)[0] == 504


def test_control_shows_calls() -> None:
    with controlled("0") as (control, reached), log_in(reached) as client:
        files = client.open_sftp()
        files.mkdir("/d", 0o700)
        with files.open("/f", "w") as file:
            file.write(b"123")
        assert files.listdir("/") == ["d", "f"] and files.stat("/f").st_size == 3
        calls = {call["kind"]: call for call in control.ask("GET", "/calls?contents=1")["calls"]}
        assert calls["MKDIR"]["attributes"] == {"mode": 0o700}
        assert calls["MKDIR"]["reply"]["status"] == 0
        assert calls["OPEN"]["reply"]["handle"] == calls["WRITE"]["handle"]
        assert base64.b64decode(calls["WRITE"]["base64"]) == b"123"
        assert calls["STAT"]["reply"]["attributes"]["size"] == 3
        names = [one["reply"]["names"] for one in control.ask("GET", "/calls")["calls"]]
        assert ["d", "f"] in names and "base64" not in control.ask("GET", "/calls")["calls"][0]


def test_control_of_permissions_and_rules() -> None:
    with controlled("0") as (control, reached), log_in(reached) as client:
        files = client.open_sftp()
        control.ask("PUT", "/tree", {"/home/ann": None, "/in/f": "1"})
        given = {"mode": 0o700, "uid": 1000, "gid": 100, "mtime": 7}
        control.ask("PUT", "/attributes", {"/home/ann": given})
        assert control.ask("GET", "/tree")["/home/ann"]["mode"] == 0o700
        words = {"rule": "enforce_permissions", "uid": 2000, "gid": 100}
        rule = control.ask("POST", "/rules", words)["rule"]
        with pytest.raises(PermissionError):
            files.listdir("/home/ann")
        assert control.ask("DELETE", f"/rules/{rule}") == {"refused": 1}
        assert (files.stat("/home/ann").st_uid, files.stat("/home/ann").st_mtime) == (1000, 7)

        control.ask("POST", "/rules", {"rule": "read_only", "path": "/in/**"})
        with pytest.raises(PermissionError):
            files.remove("/in/f")
        words = {"kind": "WRITE", "path": "/f", "after_bytes": 10, "times": None}
        control.ask("POST", "/rules", words)
        with files.open("/f", "w") as file:
            file.write(bytes(10))
            with pytest.raises(OSError, match="Failure"):
                file.write(b"1")
        control.ask("POST", "/rules", {"rule": "disk_full", "after": 10})
        with files.open("/g", "w") as file:
            file.write(bytes(10))
            with pytest.raises(OSError, match="Failure"):
                file.write(b"1")


@pytest.mark.parametrize(
    ("method", "path", "body", "status", "says"),
    [
        ("GET", "/none", b"", 404, "not found"),
        ("GET", "/files/none", b"", 404, "not found"),
        ("GET", "/rules/7", b"", 404, "not found"),
        ("DELETE", "/tree", b"", 404, "not found"),
        ("PUT", "/tree", b"{", 400, "Expecting property name"),
        ("PUT", "/tree", b"[]", 400, "the body must be a JSON object"),
        ("PUT", "/tree", b'{"/a": 3}', 400, "/a must be a text"),
        ("PUT", "/tree", b'{"/a": {"link": "/none"}}', 400, "No such file"),
        ("POST", "/rules", b'{"kind": "x"}', 400, "kind must be one of OPEN, CLOSE"),
        ("POST", "/rules", b'{"kind": []}', 400, "kind must be a Kind or some Kinds, not []"),
        ("POST", "/rules", b'{"status": "OK|EOF"}', 400, "status must be one of OK, EOF"),
        ("POST", "/rules", b'{"flags": []}', 400, "flags must be an int, not list"),
        ("POST", "/rules", b'{"when": 1}', 400, "a rule has no when"),
        ("POST", "/rules", b'{"rule": "x"}', 400, "rule must be one of refuse, disk_full"),
        ("POST", "/rules", b'{"rule": "disk_full", "uid": 1}', 400, "disk_full has no uid"),
        ("POST", "/rules", b'{"rule": "enforce_permissions"}', 400, "'uid' and 'gid'"),
        ("POST", "/wait", b"{}", 400, "wait takes"),
        ("POST", "/wait", b'{"call": 1}', 400, "wait takes"),
        ("POST", "/wait", b'{"call": {"when": 1}}', 400, "a call has no when"),
        ("POST", "/wait", b'{"call": {"kind": "x"}}', 400, "kind must be one of OPEN, CLOSE"),
        ("POST", "/wait", b'{"path": "/a", "timeout": -1}', 400, "timeout must be at least 0"),
        ("POST", "/wait", b'{"path": "/a", "timeout": 0}', 504, "no complete file at /a"),
        ("PUT", "/attributes", b'{"/": {"mode": 1}}', 400, "SETSTAT /: Failure"),
        ("PUT", "/attributes", b'{"/f": 5}', 400, "/f must have a JSON object"),
        ("PUT", "/attributes", b'{"/f": {"x": 5}}', 400, "/f has no x"),
        ("PUT", "/attributes", b'{"/f": {"mode": "x"}}', 400, "mode must be an int, not str"),
        ("PUT", "/faults", b'{"delay": -1}', 400, "delay must be at least 0"),
        ("PUT", "/faults", b'{"cut": 5}', 400, "a fault has no cut"),
        ("PUT", "/clock", b'{"set": -1}', 400, "moment must be from 0"),
        ("PUT", "/clock", b"{}", 400, "the clock takes"),
    ],
)
def test_control_at_a_socket_rejects(
    control: Control, method: str, path: str, body: bytes, status: int, says: str
) -> None:
    found, told = control.raw(method, path, body)
    assert found == status and says in json.loads(told)["error"]


@pytest.fixture(scope="module")
def control(tmp_path_factory: pytest.TempPathFactory) -> Iterator[Control]:
    path = tmp_path_factory.mktemp("control") / "socket"
    with controlled(str(path)) as (found, _):
        assert path.stat().st_mode & 0o777 == 0o600
        yield found
    assert not path.exists()


def test_a_log_that_cannot_be_written(tmp_path: Path) -> None:
    """It ends, and reports why. The tree is saved."""
    left = tmp_path / "left"
    with running("--log", "/dev/full", "--save", str(left)) as (process, words):
        with log_in(ssh_words(words)) as client, contextlib.suppress(Exception):
            client.open_sftp().mkdir("/a")
        _, wrong = process.communicate(timeout=LIMIT)
    assert process.returncode == 1 and "No space left on device" in wrong
    assert left.is_dir()
