"""An SSH server, with clients of OpenSSH, paramiko and asyncssh. tests/clients/python_ssh has more
of them, with files of 100 MB."""

from __future__ import annotations

import asyncio
import os
import random
import signal
import socket
import subprocess
import sys
import threading
import time
from pathlib import Path
from typing import Callable, Iterator, Optional

import asyncssh
import paramiko
import pytest

from lucernetick import Engine, Faults, Kind, Server, SshServer, Status, User, VirtualTime

from packets import INIT, MAKES, OPEN, READ, VERSION, packet, string, u32

LARGE = random.Random(1).randbytes(10_000_000)
LIMIT = 300
ENDLESS = 2**30
"""More than any client sends before it is killed."""


@pytest.fixture
def client(sftp_ssh: SshServer) -> Iterator[paramiko.SSHClient]:
    with connected(sftp_ssh, key_filename=sftp_ssh.client_key) as found:
        yield found


def connected(ssh: SshServer, **words: object) -> paramiko.SSHClient:
    """A client of paramiko that knows the host's key."""
    client = paramiko.SSHClient()
    client.load_host_keys(ssh.known_hosts)
    words = {
        "username": ssh.user,
        "look_for_keys": False,
        "allow_agent": False,
        "timeout": LIMIT,
        "banner_timeout": LIMIT,
        "auth_timeout": LIMIT,
        **words,
    }
    client.connect(ssh.host, ssh.port, **words)
    return client


def sftp(ssh: SshServer, commands: str) -> str:
    """Runs OpenSSH's client."""
    words = ssh.sftp_command("-q", "-b", "-")
    return subprocess.run(
        words, input=commands, text=True, check=True, timeout=LIMIT, stdout=subprocess.PIPE
    ).stdout


def wait_for(is_so: Callable[[], bool]) -> None:
    """For what comes about by itself."""
    end = time.monotonic() + LIMIT
    while not is_so():
        assert time.monotonic() < end
        time.sleep(0.01)


def sessions() -> list[threading.Thread]:
    """The threads of sessions that go on."""
    return [
        thread for thread in threading.enumerate() if thread.name.startswith("<lucernetick session")
    ]


def test_openssh_puts_and_gets(
    sftp_ssh: SshServer, sftp_tree: Server, tmp_path: Path
) -> None:
    (tmp_path / "large").write_bytes(LARGE)
    sftp(sftp_ssh, f"put {tmp_path}/large /there\n")
    assert sftp_tree.snapshot()["/there"].contents == LARGE
    sftp(sftp_ssh, f"get /there {tmp_path}/back\n")
    assert (tmp_path / "back").read_bytes() == LARGE


def test_paramiko_puts_and_gets(
    client: paramiko.SSHClient, sftp_tree: Server, tmp_path: Path
) -> None:
    (tmp_path / "large").write_bytes(LARGE)
    files = client.open_sftp()
    files.get_channel().settimeout(LIMIT)
    files.put(str(tmp_path / "large"), "/there")
    assert sftp_tree.snapshot()["/there"].contents == LARGE
    files.get("/there", str(tmp_path / "back"))
    assert (tmp_path / "back").read_bytes() == LARGE


def test_a_client_of_asyncssh(sftp_ssh: SshServer, sftp_tree: Server) -> None:
    async def main() -> None:
        words = {"known_hosts": sftp_ssh.known_hosts, "client_keys": [sftp_ssh.client_key]}
        async with asyncssh.connect(
            sftp_ssh.host, sftp_ssh.port, username=sftp_ssh.user, **words
        ) as connection:
            async with connection.start_sftp_client() as files:
                await files.mkdir("/d")
                async with files.open("/d/f", "wb") as file:
                    await file.write(LARGE[:1_000_000])
                async with files.open("/d/f", "rb") as file:
                    assert await file.read() == LARGE[:1_000_000]

    asyncio.run(asyncio.wait_for(main(), LIMIT))
    assert sftp_tree.snapshot()["/d/f"].contents == LARGE[:1_000_000]


def test_openssh_lists_at_the_test_s_time(sftp_ssh: SshServer, virtual_time: VirtualTime) -> None:
    virtual_time.set(1_700_000_000)
    listed = sftp(sftp_ssh, "mkdir /d\nls -l /\n").splitlines()[-1]
    assert listed == "drwxrwxrwx   1 0        0               0   1700000000 d"


def test_50_connections_at_once(sftp_ssh: SshServer, sftp_tree: Server) -> None:
    async def work(name: str) -> None:
        words = {
            "known_hosts": sftp_ssh.known_hosts,
            "username": sftp_ssh.user,
            "password": sftp_ssh.password,
        }
        async with asyncssh.connect(
            sftp_ssh.host, sftp_ssh.port, client_keys=None, **words
        ) as connection:
            async with connection.start_sftp_client() as files:
                together.append(name)
                while len(together) < 50:
                    await asyncio.sleep(0.01)
                await files.mkdir(name)
                async with files.open(f"{name}/f", "wb") as file:
                    await file.write(name.encode() * 10_000)

    async def main() -> None:
        await asyncio.gather(*map(work, names))

    together: list[str] = []
    names = [f"/d{number:02}" for number in range(50)]
    asyncio.run(asyncio.wait_for(main(), LIMIT))
    tree = sftp_tree.snapshot()
    assert [path for path, entry in tree.items() if entry.is_directory] == ["/", *names]
    assert all(tree[f"{name}/f"].contents == name.encode() * 10_000 for name in names)


def test_channels_of_one_connection_share_the_tree(client: paramiko.SSHClient) -> None:
    first, second = client.open_sftp(), client.open_sftp()
    first.mkdir("/d")
    assert second.listdir("/") == ["d"]
    first.close()
    second.rmdir("/d")
    assert second.listdir("/") == []


def test_sessions_that_have_ended_make_room(client: paramiko.SSHClient) -> None:
    """There is room for 256 at a time."""
    for _ in range(300):
        client.open_sftp().close()


def test_a_wrong_password_is_refused(sftp_ssh: SshServer, sftp_tree: Server) -> None:
    with pytest.raises(paramiko.AuthenticationException):
        connected(sftp_ssh, password=sftp_ssh.password + "x")
    with pytest.raises(paramiko.AuthenticationException):
        connected(sftp_ssh, password="")
    with pytest.raises(paramiko.AuthenticationException):
        connected(sftp_ssh, username="root", password=sftp_ssh.password)
    connected(sftp_ssh, password=sftp_ssh.password).close()
    assert sftp_tree.engine.open().number == 1


def test_a_wrong_key_is_refused(sftp_ssh: SshServer, sftp_tree: Server, tmp_path: Path) -> None:
    asyncssh.generate_private_key("ssh-ed25519").write_private_key(str(tmp_path / "key"))
    with pytest.raises(paramiko.AuthenticationException):
        connected(sftp_ssh, key_filename=str(tmp_path / "key"))
    with pytest.raises(paramiko.AuthenticationException):
        connected(sftp_ssh, username="root", key_filename=sftp_ssh.client_key)
    assert sftp_tree.engine.open().number == 1


def test_a_key_of_the_caller_s(sftp_tree: Server, tmp_path: Path) -> None:
    key = asyncssh.generate_private_key("ssh-ed25519")
    key.write_private_key(str(tmp_path / "key"))
    key.write_public_key(str(tmp_path / "key.pub"))
    with SshServer(
        sftp_tree, user="ann", password="secret", public_keys=[tmp_path / "key.pub"]
    ) as ssh:
        for words in ({"key_filename": str(tmp_path / "key")}, {"password": "secret"}):
            with connected(ssh, **words) as client:
                assert client.open_sftp().listdir("/") == []


def test_another_host_s_key_is_noticed(sftp_ssh: SshServer, sftp_tree: Server) -> None:
    """The keys of two servers differ."""
    with SshServer(sftp_tree, password=sftp_ssh.password) as other:
        named = Path(other.known_hosts).read_text().replace(str(other.port), str(sftp_ssh.port))
        Path(other.known_hosts).write_text(named)
        client = paramiko.SSHClient()
        client.load_host_keys(other.known_hosts)
        with pytest.raises(paramiko.BadHostKeyException):
            client.connect(
                sftp_ssh.host, sftp_ssh.port, "user", sftp_ssh.password, allow_agent=False
            )


def test_there_is_nothing_but_sftp(client: paramiko.SSHClient, sftp_tree: Server) -> None:
    transport = client.get_transport()
    assert transport is not None
    with pytest.raises(paramiko.SSHException):
        client.exec_command("true", timeout=LIMIT)
    with pytest.raises(paramiko.SSHException):
        transport.open_session().invoke_shell()
    with pytest.raises(paramiko.SSHException):
        transport.open_session().invoke_subsystem("netconf")
    with pytest.raises(paramiko.SSHException):
        transport.open_session().get_pty()
    with pytest.raises(paramiko.SSHException):
        transport.open_session().request_x11()
    with pytest.raises(paramiko.ChannelException):
        transport.open_channel("direct-tcpip", ("127.0.0.1", 22), ("127.0.0.1", 1))
    with pytest.raises(paramiko.SSHException):
        transport.request_port_forward("127.0.0.1", 0)
    assert client.open_sftp().listdir("/") == []
    assert sftp_tree.engine.open().number == 2


def test_openssh_is_refused_a_shell_and_forwarding(sftp_ssh: SshServer, tmp_path: Path) -> None:
    reaches = sftp_ssh.sftp_command()[3:]
    for words in ([], ["true"]):
        ran = subprocess.run(
            ["ssh", "-p", str(sftp_ssh.port), *reaches, *words],
            stdin=subprocess.DEVNULL,
            capture_output=True,
            text=True,
            timeout=LIMIT,
        )
        assert ran.returncode == 255 and "request failed on channel 0" in ran.stderr
    forwards = ("-R", f"{tmp_path}/socket:127.0.0.1:22"), ("-R", "0:127.0.0.1:22")
    for option in forwards:
        ran = subprocess.run(
            [
                "ssh",
                "-p",
                str(sftp_ssh.port),
                "-N",
                "-o",
                "ExitOnForwardFailure=yes",
                *option,
                *reaches,
            ],
            capture_output=True,
            text=True,
            timeout=LIMIT,
        )
        assert ran.returncode == 255 and "remote port forwarding failed" in ran.stderr


def test_a_connection_that_is_cut_in_the_middle(sftp_ssh: SshServer, sftp_tree: Server) -> None:
    """What came before is carried out, the session ends, and others go on."""
    with connected(sftp_ssh, password=sftp_ssh.password) as client:
        transport = client.get_transport()
        assert transport is not None
        file = client.open_sftp().open("/f", "w")
        file.set_pipelined(True)
        file.write(LARGE[:1_000_000])
        file.stat()
        transport.sock.shutdown(socket.SHUT_RDWR)
    assert sftp_tree.snapshot()["/f"].contents == LARGE[:1_000_000]
    wait_for(lambda: not sessions())
    with connected(sftp_ssh, password=sftp_ssh.password) as client:
        assert client.open_sftp().stat("/f").st_size == 1_000_000


def test_openssh_is_killed_in_the_middle(
    sftp_ssh: SshServer, sftp_tree: Server, tmp_path: Path
) -> None:
    (tmp_path / "large").touch()
    os.truncate(tmp_path / "large", ENDLESS)
    words = sftp_ssh.sftp_command("-q", "-b", "-")
    with subprocess.Popen(words, stdin=subprocess.PIPE, start_new_session=True) as running:
        assert running.stdin is not None
        running.stdin.write(f"put {tmp_path}/large /there\n".encode())
        running.stdin.flush()
        wait_for(lambda: Kind.WRITE in {call.kind for call in sftp_tree.calls()})
        os.killpg(running.pid, signal.SIGKILL)
        running.wait()
    wait_for(lambda: not sessions())
    part = sftp_tree.snapshot()["/there"].contents
    assert part is not None and len(part) < ENDLESS
    (tmp_path / "small").write_bytes(LARGE[:1_000_000])
    sftp(sftp_ssh, f"put {tmp_path}/small /there\n")
    assert sftp_tree.snapshot()["/there"].contents == LARGE[:1_000_000]


def test_a_cut_connection_leaves_no_session(sftp_ssh: SshServer) -> None:
    """200 channels twice: at most 256 sessions are open at a time."""
    for _ in range(2):
        with connected(sftp_ssh, password=sftp_ssh.password) as client:
            files = [client.open_sftp() for _ in range(200)]
            transport = client.get_transport()
            assert transport is not None and files[-1].listdir("/") == []
            transport.sock.shutdown(socket.SHUT_RDWR)
        wait_for(lambda: not sessions())


def test_the_257th_session_is_refused(client: paramiko.SSHClient, sftp_tree: Server) -> None:
    opened = [sftp_tree.engine.open() for _ in range(256)]
    with pytest.raises(paramiko.SSHException):
        client.open_sftp()
    opened[0].close()
    assert client.open_sftp().listdir("/") == []


def test_a_client_that_is_slow_to_read_keeps_nobody_waiting(
    client: paramiko.SSHClient, sftp_tree: Server
) -> None:
    """It asks for far more than a channel's window, which waits until it reads on."""
    sftp_tree.engine.write_files({"/f": LARGE[:1_000_000]})
    with client.open_sftp().open("/f") as file:
        parts = file.readv([(offset, 20_000) for offset in range(0, 1_000_000, 20_000)] * 10)
        first = next(parts)
        assert client.open_sftp().listdir("/") == ["f"]
        assert first + b"".join(parts) == LARGE[:1_000_000] * 10


def test_a_session_that_ends_closes_its_channel(client: paramiko.SSHClient) -> None:
    """By a packet of length 0: the client receives an exit status. There is no EOF before the
    channel is closed: Go's pkg/sftp would reply to it with a second EOF."""
    transport = client.get_transport()
    assert transport is not None
    channel = transport.open_session(timeout=LIMIT)
    channel.invoke_subsystem("sftp")
    channel.sendall(MAKES[:9] + bytes(4))
    assert channel.recv_exit_status() == 1
    channel = transport.open_session(timeout=LIMIT)
    channel.invoke_subsystem("sftp")
    channel.sendall(MAKES)
    channel.shutdown_write()
    with channel.makefile("rb") as replies:
        assert len(replies.read()) == VERSION + 28
    assert channel.recv_exit_status() == 0
    assert channel.closed and not channel.eof_received


def test_where_it_is_left_its_connections_are_cut(sftp_tree: Server) -> None:
    with SshServer(sftp_tree) as ssh:
        assert os.stat(ssh.client_key).st_mode & 0o777 == 0o600
        client = connected(ssh, password=ssh.password)
        client.open_sftp().mkdir("/d")
    assert not os.path.exists(ssh.client_key) and not os.path.exists(ssh.known_hosts)
    transport = client.get_transport()
    assert transport is not None
    wait_for(lambda: not transport.is_active())
    with pytest.raises(OSError):
        socket.create_connection((ssh.host, ssh.port))
    ssh.close()
    assert list(sftp_tree.snapshot()) == ["/", "/d"]


def test_a_port_that_is_taken(sftp_ssh: SshServer, sftp_tree: Server) -> None:
    before = set(threading.enumerate())
    with pytest.raises(OSError):
        SshServer(sftp_tree, port=sftp_ssh.port)
    assert set(threading.enumerate()) <= before


def test_without_asyncssh_it_says_what_it_needs(
    sftp_tree: Server, monkeypatch: pytest.MonkeyPatch
) -> None:
    monkeypatch.delitem(sys.modules, "lucernetick._asyncssh", raising=False)
    monkeypatch.setitem(sys.modules, "asyncssh", None)
    with pytest.raises(ImportError, match="SshServer needs asyncssh: pip install asyncssh"):
        SshServer(sftp_tree)


def test_several_at_one_tree() -> None:
    with Engine.from_files({"/f": b"1"}) as engine, Server(engine) as server:
        with SshServer(server, user="ann") as one, SshServer(server, user="bob") as other:
            with connected(one, password=one.password) as ann, connected(
                other, password=other.password
            ) as bob:
                ann.open_sftp().remove("/f")
                assert bob.open_sftp().listdir("/") == []


def test_openssh_s_open_and_write_are_refused(
    sftp_ssh: SshServer, sftp_tree: Server, tmp_path: Path
) -> None:
    """The OPEN once, and then the WRITE twice, each of another `put`; the fourth one is served."""
    opens = sftp_tree.refuse(kind=Kind.OPEN, path="/f", status=Status.PERMISSION_DENIED)
    writes = sftp_tree.refuse(kind=Kind.WRITE, times=2)
    (tmp_path / "f").write_bytes(b"1,2,3\n")
    put = f"put {tmp_path}/f /f\n"
    with pytest.raises(subprocess.CalledProcessError):
        sftp(sftp_ssh, put)
    assert (opens.refused, writes.refused) == (1, 0)
    assert list(sftp_tree.snapshot()) == ["/"]
    for count in (1, 2):
        with pytest.raises(subprocess.CalledProcessError):
            sftp(sftp_ssh, put)
        assert (opens.refused, writes.refused) == (1, count)
        assert sftp_tree.snapshot()["/f"].contents == b""
    sftp(sftp_ssh, put)
    assert sftp_tree.snapshot()["/f"].contents == b"1,2,3\n"


def test_paramiko_s_open_and_write_are_refused(
    client: paramiko.SSHClient, sftp_tree: Server
) -> None:
    opens = sftp_tree.refuse(kind=Kind.OPEN, status=Status.PERMISSION_DENIED)
    writes = sftp_tree.refuse(kind=Kind.WRITE, times=2)
    files = client.open_sftp()
    with pytest.raises(PermissionError):
        files.open("/f", "w")
    with files.open("/f", "w") as file:
        for _ in range(2):
            with pytest.raises(OSError, match="Failure"):
                file.write(b"1")
        file.write(b"1")
    assert (opens.refused, writes.refused) == (1, 2)
    assert sftp_tree.snapshot()["/f"].contents == b"1"


def test_a_cut_connection(sftp_tree: Server) -> None:
    """Its client loses the whole connection. What came of the file is the same each time: 15 WRITEs
    of 32768 bytes are complete."""
    for _ in range(3):
        with SshServer(sftp_tree, cut_after=500_000) as ssh:
            with connected(ssh, password=ssh.password) as client:
                with pytest.raises((OSError, EOFError, paramiko.SSHException)):
                    with client.open_sftp().open("/f", "w") as file:
                        file.write(LARGE[:1_000_000])
                transport = client.get_transport()
                assert transport is not None
                wait_for(lambda: not transport.is_active())
        assert sftp_tree.snapshot()["/f"].contents == LARGE[: 15 * 32768]


def test_openssh_is_cut(sftp_tree: Server, tmp_path: Path) -> None:
    (tmp_path / "f").write_bytes(LARGE)
    with SshServer(sftp_tree, cut_after=1_000_000) as ssh:
        with pytest.raises(subprocess.CalledProcessError):
            sftp(ssh, f"put {tmp_path}/f /f\n")
    size = sftp_tree.snapshot()["/f"].size
    assert 0 < size < 1_000_000


def test_faults_by_session(sftp_tree: Server) -> None:
    """The second session is cut, and the third one isn't."""

    def faults(session: int) -> Faults:
        return Faults(cut_after=0) if session == 2 else Faults()

    with SshServer(sftp_tree, faults=faults) as ssh:
        for is_cut in (False, True, False):
            with connected(ssh, password=ssh.password) as client:
                if is_cut:
                    with pytest.raises((OSError, EOFError, paramiko.SSHException)):
                        client.open_sftp().listdir("/")
                else:
                    assert client.open_sftp().listdir("/") == []


def test_faults_from_now_on(sftp_ssh: SshServer) -> None:
    with connected(sftp_ssh, password=sftp_ssh.password) as client:
        assert client.open_sftp().listdir("/") == []
        sftp_ssh.faults = Faults(delay=0.3)
        late = client.open_sftp()
        begin = time.monotonic()
        assert late.listdir("/") == []
        # OPENDIR, READDIR and CLOSE, one after the other.
        assert time.monotonic() - begin >= 0.6


def test_latency_of_pipelined_requests(sftp_tree: Server) -> None:
    """30 READs, which paramiko sends ahead, wait once."""
    sftp_tree.write_files({"/f": LARGE[:1_000_000]})
    with SshServer(sftp_tree, delay=0.4) as ssh, connected(ssh, password=ssh.password) as client:
        with client.open_sftp().open("/f") as file:
            begin = time.monotonic()
            file.prefetch(1_000_000)
            assert file.read() == LARGE[:1_000_000]
            assert 0.4 <= time.monotonic() - begin < 0.4 * 20


def test_bandwidth_over_ssh(sftp_tree: Server) -> None:
    with SshServer(sftp_tree, bandwidth=1_000_000) as ssh:
        with connected(ssh, password=ssh.password) as client:
            begin = time.monotonic()
            with client.open_sftp().open("/f", "w") as file:
                file.write(LARGE[:400_000])
            assert time.monotonic() - begin >= 0.4
    assert sftp_tree.snapshot()["/f"].contents == LARGE[:400_000]


def test_chunks_over_ssh(sftp_tree: Server) -> None:
    """The client receives at most 7 bytes in each SSH packet."""
    sftp_tree.write_files({"/f": LARGE[:10_000]})
    with SshServer(sftp_tree, chunk=7) as ssh, connected(ssh, password=ssh.password) as client:
        transport = client.get_transport()
        assert transport is not None
        channel = transport.open_session(timeout=LIMIT)
        channel.invoke_subsystem("sftp")
        channel.sendall(MAKES)
        assert len(channel.recv(1)) == 1
        with client.open_sftp().open("/f") as file:
            assert file.read() == LARGE[:10_000]


def test_users_and_their_roots(sftp_tree: Server) -> None:
    """Each sees its own directory as /, and nothing else."""
    ann, bob = User("ann", "1", "/home/ann"), User("bob", "2", "/home/bob")
    with SshServer(sftp_tree, user=ann, users=[bob, User("root", "3")]) as ssh:
        with connected(ssh, username="ann", password="1") as client:
            files = client.open_sftp()
            files.mkdir("/d")
            with files.open("d/../../f", "w") as file:
                file.write(b"1")
            files.chdir("/d")
            assert files.normalize("..") == "/" and files.normalize(".") == "/d"
            files.rename("/f", "/d/g")
            files.posix_rename("/d/g", "/d/h")
            assert files.listdir("/") == ["d"] and files.listdir("/d") == ["h"]
            for change in (files.rmdir, files.remove, lambda path: files.rename(path, "/d/x")):
                with pytest.raises(OSError):
                    change("/")
        with connected(ssh, username="bob", password="2") as client:
            files = client.open_sftp()
            assert files.listdir("/") == [] and files.stat("/").st_mode
            with pytest.raises(FileNotFoundError):
                files.stat("/home/ann/d")
        with connected(ssh, username="root", password="3") as client:
            assert client.open_sftp().listdir("/home") == ["ann", "bob"]
        with pytest.raises(paramiko.AuthenticationException):
            connected(ssh, username="bob", password="1")
    assert list(sftp_tree.snapshot()) == [
        "/", "/home", "/home/ann", "/home/ann/d", "/home/ann/d/h", "/home/bob"
    ]


def test_a_password_that_is_asked_for(sftp_ssh: SshServer) -> None:
    """By keyboard-interactive login."""

    def answer(_title: str, _text: str, prompts: list[tuple[str, bool]]) -> list[str]:
        asked.extend(prompts)
        return passwords[: len(prompts)]

    for password, is_right in ((sftp_ssh.password, True), ("x", False)):
        asked: list[tuple[str, bool]] = []
        passwords = [password]
        with paramiko.Transport((sftp_ssh.host, sftp_ssh.port)) as transport:
            transport.start_client(timeout=LIMIT)
            if is_right:
                transport.auth_interactive(sftp_ssh.user, answer)
                files = paramiko.SFTPClient.from_transport(transport)
                assert files is not None and files.listdir("/") == []
            else:
                with pytest.raises(paramiko.AuthenticationException):
                    transport.auth_interactive(sftp_ssh.user, answer)
        assert asked == [("Password:", False)]


@pytest.mark.parametrize("is_asked", [False, True])
def test_six_wrong_passwords_close_the_connection(sftp_ssh: SshServer, is_asked: bool) -> None:
    """After a delay. Other connections can log in."""

    class Guesses(asyncssh.SSHClient):
        count = 0

        def guess(self) -> str:
            self.count += 1
            return f"wrong{self.count}"

        def password_auth_requested(self) -> Optional[str]:
            return None if is_asked else self.guess()

        def kbdint_auth_requested(self) -> Optional[str]:
            return "" if is_asked else None

        def kbdint_challenge_received(self, *_words: object) -> list[str]:
            return [self.guess()]

    client = Guesses()

    async def main() -> None:
        words = {"known_hosts": sftp_ssh.known_hosts, "username": "user", "client_keys": None}
        await asyncssh.create_connection(lambda: client, sftp_ssh.host, sftp_ssh.port, **words)

    begin = time.monotonic()
    with pytest.raises((asyncssh.Error, OSError)):
        asyncio.run(asyncio.wait_for(main(), LIMIT))
    assert client.count == 6
    assert time.monotonic() - begin >= 2
    with connected(sftp_ssh, password=sftp_ssh.password) as other:
        assert other.open_sftp().listdir("/") == []


def test_a_fixed_host_key(sftp_tree: Server, tmp_path: Path) -> None:
    key = asyncssh.generate_private_key("ssh-ed25519")
    key.write_private_key(str(tmp_path / "key"))
    with SshServer(sftp_tree, host_key=tmp_path / "key") as ssh:
        assert Path(ssh.known_hosts).read_bytes().split()[2] == key.export_public_key().split()[1]
        with connected(ssh, password=ssh.password) as client:
            assert client.open_sftp().listdir("/") == []


def test_an_ssh_config(sftp_ssh: SshServer, tmp_path: Path) -> None:
    config = sftp_ssh.write_ssh_config(tmp_path / "with space")
    assert sftp_ssh.write_ssh_config(tmp_path / "with space") == config
    words = ["sftp", "-q", "-b", "-", "-F", config, "lucernetick"]
    ran = subprocess.run(
        words, input="mkdir /a\nls\n", capture_output=True, text=True, timeout=LIMIT, check=True
    )
    assert "a" in ran.stdout.split()
    for name in ("ssh_config", "client_key", "known_hosts"):
        assert os.stat(tmp_path / "with space" / name).st_mode & 0o777 == 0o600


def test_clients_that_read_nothing_take_little_memory(tmp_path: Path) -> None:
    """10 of them ask for 60 MB each, by READs of 256 KB, in a process of its own."""
    code = (
        "import lucernetick, resource, sys\n"
        "with lucernetick.Server() as server, lucernetick.SshServer(server) as ssh:\n"
        "    server.write_files({'/f': bytes(range(256)) * 240_000})\n"
        "    before = resource.getrusage(resource.RUSAGE_SELF).ru_maxrss\n"
        "    print(ssh.port, ssh.password, flush=True)\n"
        "    sys.stdin.readline()\n"
        "    print(resource.getrusage(resource.RUSAGE_SELF).ru_maxrss - before)\n"
    )
    words = [sys.executable, "-c", code]
    with subprocess.Popen(
        words, stdin=subprocess.PIPE, stdout=subprocess.PIPE, text=True
    ) as process:
        assert process.stdin is not None and process.stdout is not None
        port, password = process.stdout.readline().split()
        clients = [reads_nothing(int(port), password) for _ in range(10)]
        time.sleep(3)
        process.stdin.write("\n")
        process.stdin.flush()
        grown = int(process.stdout.readline())
        for client in clients:
            client.close()
    print(f"{grown // 10} KB for each")
    assert grown < 10 * 12_000


def reads_nothing(port: int, password: str) -> paramiko.SSHClient:
    client = paramiko.SSHClient()
    client.set_missing_host_key_policy(paramiko.AutoAddPolicy())
    words = {"look_for_keys": False, "allow_agent": False, "banner_timeout": LIMIT}
    client.connect("127.0.0.1", port, "user", password, auth_timeout=LIMIT, **words)
    transport = client.get_transport()
    assert transport is not None
    channel = transport.open_session(timeout=LIMIT)
    channel.invoke_subsystem("sftp")
    channel.sendall(packet(INIT, u32(3)) + packet(OPEN, u32(0), string(b"/f"), u32(1), u32(0)))
    opened = channel.makefile("rb").read(VERSION + 21)
    reads = (
        packet(READ, u32(0), opened[-12:], (offset << 18).to_bytes(8, "big"), u32(262_000))
        for offset in range(234)
    )
    channel.sendall(b"".join(reads))
    return client
