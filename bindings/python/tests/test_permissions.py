"""Permission bits, enforced as POSIX does. The cases are in permissions.txt."""

from __future__ import annotations

import stat
from pathlib import Path

import paramiko
import pytest

from lucernetick import (
    Attributes,
    Engine,
    Kind,
    OpenFlag,
    Races,
    Server,
    SshServer,
    StatusError,
    User,
)

from packets import HANDLE, INIT, STATUS, packet, replies, string, u32

LINES = Path(__file__).with_name("permissions.txt").read_text("utf-8").splitlines()
WORDS = [line.split() for line in LINES if line and not line.startswith("#")]
TREE = [words[1:] for words in WORDS if words[0] == "tree"]
CHANGES = [words[1:] for words in WORDS if words[0] == "change"]
CASES = [words for words in WORDS if words[0].isdigit()]
CODES = {"ok": 0, "missing": 2, "denied": 3, "failure": 4}
FLAGS = dict(zip("rwactx", (1, 2, 4, 8, 16, 32)))
EXTENSIONS = {"POSIX_RENAME": b"posix-rename@openssh.com", "HARDLINK": b"hardlink@openssh.com"}


def tree() -> Engine:
    files = {path: None if kind == "d" else b"1" for path, kind, *_ in TREE}
    engine = Engine.from_files(files)
    for path, _, mode, uid, gid in TREE:
        set_to = Attributes(uid=int(uid), gid=int(gid), permissions=int(mode, 8))
        engine.set_attributes(path, set_to)
    return engine


def attributes(words: str) -> bytes:
    """As SETSTAT has them."""
    flags, fields = 0, b""
    for word in words.split(",") if words != "-" else []:
        name, value = word.split("=")
        if name == "size":
            flags, fields = flags | 1, int(value).to_bytes(8, "big") + fields
        elif name == "ids":
            flags |= 2
            fields += b"".join(u32(int(number) % 2**32) for number in value.split(":"))
        elif name == "mode":
            flags, fields = flags | 4, fields + u32(int(value, 8))
        else:
            flags, fields = flags | 8, fields + u32(int(value)) * 2
    return u32(flags) + fields


def pflags(letters: str) -> bytes:
    return u32(sum(FLAGS[letter] for letter in letters if letter != "-"))


class Client:
    """A session that makes one request after the other."""

    def __init__(self, engine: Engine) -> None:
        self.session = engine.open()
        self.session.feed(packet(INIT, u32(3)))
        self.session.settle(0)
        self.session.take()

    def ask(self, kind: int, *fields: bytes) -> bytes:
        """The body of the reply."""
        self.session.feed(packet(kind, u32(1), *fields))
        self.session.settle(0)
        [reply] = replies(self.session.take())
        return reply

    def request(self, kind: str, *words: str) -> int:
        """The status of a request of the table."""
        if kind == "FSETSTAT":
            opened = self.ask(Kind.OPEN, string(words[1].encode()), pflags(words[0]), u32(0))
            assert opened[0] == HANDLE
            return code(self.ask(Kind.FSETSTAT, opened[5:], attributes(words[2])))
        if kind == "OPEN":
            return code(self.ask(Kind.OPEN, string(words[1].encode()), pflags(words[0]), u32(0)))
        if kind == "SETSTAT":
            path, given = words
            return code(self.ask(Kind.SETSTAT, string(path.encode()), attributes(given)))
        paths = [string(path.encode()) for path in words]
        if kind in EXTENSIONS:
            return code(self.ask(200, string(EXTENSIONS[kind]), *paths))
        return code(self.ask(Kind[kind], *paths, u32(0)))


def code(reply: bytes) -> int:
    return int.from_bytes(reply[5:9], "big") if reply[0] == STATUS else 0


@pytest.mark.parametrize("words", CASES, ids=" ".join)
def test_the_table(words: list[str]) -> None:
    uid, gid, *request, wanted = words
    with tree() as engine:
        client = Client(engine)
        before = engine.snapshot()
        rule = engine.enforce_permissions(uid=int(uid), gid=int(gid))
        found = client.request(*request)
        assert found == CODES[wanted]
        assert rule.refused == (wanted == "denied")
        if found and request[0] != "FSETSTAT":
            assert engine.snapshot() == before
        rule.end()


def test_permissions_follow_each_change() -> None:
    with tree() as engine:
        other, client = Client(engine), Client(engine)
        engine.enforce_permissions(uid=1000, gid=100, session=client.session)
        for words in CHANGES:
            at = words.index(":")
            assert other.request(*words[:at]) == 0
            *request, wanted = words[at + 1 :]
            assert client.request(*request) == CODES[wanted], words
    assert len(CHANGES) > 10


def test_what_a_client_creates_is_its_own() -> None:
    """Whatever ids it sends. The other attributes stay."""
    with tree() as engine:
        client = Client(engine)
        engine.enforce_permissions(uid=1000, gid=100)
        for given in (u32(0), u32(2) + u32(5) + u32(6), u32(7) + bytes(8) + u32(0) + u32(0)):
            rest = u32(0o600) if given[3] == 7 else b""
            for kind, flags in ((Kind.MKDIR, b""), (Kind.OPEN, u32(OpenFlag.CREATE | 2))):
                assert code(client.ask(kind, string(b"/pub/new"), flags, given + rest)) == 0
                entry = engine.snapshot()["/pub/new"]
                assert (entry.uid, entry.gid) == (1000, 100)
                mode = 0o755 if kind == Kind.MKDIR else 0o644
                assert entry.permissions == (0o600 if rest else mode)
                remove = Kind.RMDIR if kind == Kind.MKDIR else Kind.REMOVE
                assert code(client.ask(remove, string(b"/pub/new"))) == 0


def test_a_handle_keeps_its_permissions() -> None:
    with tree() as engine:
        client = Client(engine)
        with engine.enforce_permissions(uid=1000, gid=100):
            opened = client.ask(Kind.OPEN, string(b"/home/ann/f"), u32(3), u32(0))
            engine.set_attributes("/home/ann/f", Attributes(permissions=0))
            engine.set_attributes("/home/ann", Attributes(permissions=0))
            assert code(client.ask(Kind.WRITE, opened[5:], bytes(8), string(b"22"))) == 0
            assert client.ask(Kind.READ, opened[5:], bytes(8), u32(9))[5:] == string(b"22")
            assert client.request("OPEN", "r", "/home/ann/f") == 3


def test_sessions_of_different_users() -> None:
    """The rule of each ends with its session."""
    with tree() as engine:
        ann, bob, root = Client(engine), Client(engine), Client(engine)
        engine.enforce_permissions(uid=1000, gid=100, session=ann.session)
        engine.enforce_permissions(uid=2000, gid=100, session=bob.session)
        found = [one.request("REMOVE", "/home/ann/f") for one in (bob, root, ann)]
        assert found == [3, 0, 2]
        bob.session.close()
        assert ann.request("STAT", "/home") == 0
        assert len(engine._rules) == 1


def test_directories_above_a_root_need_no_permission() -> None:
    """The client's root is where it begins. That itself is searched."""
    with tree() as engine:
        session = engine.open(root="/home/ann")
        client = Client.__new__(Client)
        client.session = session
        session.feed(packet(INIT, u32(3)))
        session.settle(0)
        session.take()
        engine.set_attributes("/home", Attributes(permissions=0))
        with engine.enforce_permissions(uid=1000, gid=100):
            assert client.request("OPEN", "r", "/f") == 0
            assert client.request("MKDIR", "/new") == 0
            assert client.request("REMOVE", "/") == 4
        with engine.enforce_permissions(uid=2000, gid=100):
            assert client.request("OPEN", "r", "/f") == 3


def test_attributes_of_a_path() -> None:
    with Engine.from_files({"/f": b"123"}, moment=5) as engine:
        engine.set_attributes("f", Attributes(gid=7, mtime=9))
        engine.set_attributes("/f", Attributes(permissions=0o600))
        engine.set_attributes("/f", Attributes())
        entry = engine.snapshot()["/f"]
        assert (entry.uid, entry.gid, entry.atime, entry.mtime) == (0, 7, 5, 9)
        assert entry.mode == stat.S_IFREG | 0o600
        engine.set_attributes("/f", Attributes(size=2), moment=11)
        entry = engine.snapshot()["/f"]
        assert (entry.contents, entry.mtime, entry.gid) == (b"12", 11, 7)
        with pytest.raises(StatusError, match="SETSTAT /none: No such file"):
            engine.set_attributes("/none", Attributes(size=2))
        with pytest.raises(StatusError, match="SETSTAT /: Failure"):
            engine.set_attributes("/", Attributes(uid=2))


@pytest.mark.parametrize(
    ("words", "error", "says"),
    [
        ({"uid": -1, "gid": 0}, ValueError, "uid must be from 0 to 4294967294, not -1"),
        ({"uid": 0, "gid": 2**32 - 1}, ValueError, "gid must be from 0 to 4294967294"),
        ({"uid": "ann", "gid": 0}, TypeError, "uid must be an int, not str"),
        ({"uid": 0, "gid": 0, "session": "x"}, TypeError, "session must be an int, not str"),
    ],
)
def test_users_that_are_rejected(
    words: dict[str, object], error: type[Exception], says: str
) -> None:
    with Engine() as engine, pytest.raises(error, match=says):
        engine.enforce_permissions(**words)


def test_attributes_that_are_rejected() -> None:
    with Engine.from_files({"/f": b""}) as engine:
        with pytest.raises(TypeError, match="attributes must be Attributes, not int"):
            engine.set_attributes("/f", 0o600)
        with pytest.raises(ValueError, match="uid must be from 0 to 4294967295, not -1"):
            engine.set_attributes("/f", Attributes(uid=-1))
        with pytest.raises(ValueError, match="a user's uid must be from 0"):
            User("ann", "1", uid=-1)
        with pytest.raises(TypeError, match="a user's gid must be an int, not str"):
            User("ann", "1", gid="1")


def test_users_of_an_ssh_server(sftp_tree: Server) -> None:
    """Ann owns the root that was made for her. Both see each other's files by their modes."""
    ann, bob = User("ann", "1", "/home/ann", 1000, 100), User("bob", "2", "/", 2000, 100)
    with SshServer(sftp_tree, user=ann, users=[bob]) as ssh:
        with paramiko.SSHClient() as one, paramiko.SSHClient() as other:
            files = []
            for client, user in ((one, ann), (other, bob)):
                client.load_host_keys(ssh.known_hosts)
                words = {"look_for_keys": False, "allow_agent": False}
                client.connect(ssh.host, ssh.port, user.name, user.password, **words)
                files.append(client.open_sftp())
            with files[0].open("/f", "w") as file:
                file.write(b"1")
            files[0].chmod("/f", 0o600)
            with pytest.raises(PermissionError):
                files[1].open("/home/ann/f")
            with pytest.raises(PermissionError):
                files[1].mkdir("/new")
            files[0].chmod("/f", 0o640)
            with files[1].open("/home/ann/f") as file:
                assert file.read() == b"1"
            with pytest.raises(PermissionError):
                files[1].chown("/home/ann/f", 2000, 100)
    tree = sftp_tree.snapshot()
    assert [(tree[path].uid, tree[path].gid) for path in ("/home", "/home/ann", "/home/ann/f")] == [
        (0, 0), (1000, 100), (1000, 100)
    ]


def test_users_of_races() -> None:
    with Races(1, clients=1) as races:
        with pytest.raises(ValueError, match="the users of a race can't have roots or uids"):
            SshServer(races, user=User("ann", "1", "/", 1000, 100))
    with Races(1, clients=1, engine=tree()) as races:
        line = races.connect()
        races.enforce_permissions(uid=3000, gid=300, session=line)
        line.sendall(packet(INIT, u32(3)) + packet(Kind.MKDIR, u32(1), string(b"/home/x"), u32(0)))
        line.close()
        assert "/home/x" not in races.snapshot() and not races.calls()[-1].path == "/home/x"
