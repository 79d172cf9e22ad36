"""Commands of `sftpd client` in which an allocation fails."""

import subprocess

from checks import same
from serving import PROGRAM

SECONDS = 20
OUT_OF_MEMORY = b"sftpd: out of memory\n"
DATA = bytes(range(256)) * 300


def client(server, *words, data=b"", surroundings=None):
    """The exit status of a command, what it printed, and its line of a fault."""
    command = [PROGRAM, "client", "--socket", server.path, *words]
    options = {"input": data, "capture_output": True, "timeout": SECONDS, "env": surroundings}
    done = subprocess.run(command, **options)
    return done.returncode, done.stdout, done.stderr


def is_done(server, *words, data=b""):
    """A command that ends well, and what it printed."""
    status, printed, told = client(server, *words, data=data)
    same((status, told), (0, b""))
    return printed


def is_there(server, path):
    status, _, told = client(server, "stat", path)
    if (status, told) != (1, f"sftpd: status 2: No such file: {path}\n".encode()):
        same((status, told), (0, b""))
    return status == 0


def each_growth(server, growths, words, prepare, look, data=b""):
    """Refuses each growth of a command in turn, and gives how many there are: it is done, or says
    that memory was wanting, and then `look` tells whether it has left what it may."""
    for left in range(10000):
        wanted = prepare()
        growths.forget()
        growths.refuse(left)
        status, printed, told = client(server, *words, data=data, surroundings=growths.surroundings)
        if growths.refused() == 0:
            same((status, printed, told), (0, wanted, b""))
            look(True)
            return left
        if status == 0:
            same((printed, told), (wanted, b""))
        else:
            same((status, wanted[: len(printed)], told), (1, printed, OUT_OF_MEMORY))
        look(status == 0)
    raise AssertionError("each run has more growths than the one before")


class Commands:
    """The commands of a client, on a server that goes on after each."""

    def __init__(self, server, growths):
        self.server = server
        self.growths = growths
        is_done(server, "mkdir", "/d")
        is_done(server, "put", "/d/f", data=DATA)

    def reads(self, *words):
        """A command that changes nothing: each time it prints the same, or the beginning of it."""
        prepare = lambda: is_done(self.server, *words)
        return each_growth(self.server, self.growths, words, prepare, lambda _: None)

    def changes(self, *words, before=(), after=(), gone=()):
        """A command after which some paths are there, and others aren't; where it isn't done, all
        may be as before. `before` are paths of files that it finds."""
        server = self.server

        def prepare():
            for path in {*before, *after, *gone}:
                if is_there(server, path):
                    is_done(server, "rmdir" if path in DIRECTORIES else "remove", path)
            for path in before:
                is_done(server, *(["mkdir", path] if path in DIRECTORIES else ["put", path]))
            return b""

        def look(is_whole):
            found = {path for path in {*before, *after, *gone} if is_there(server, path)}
            whole = ({*before, *after}) - {*gone}
            if found != whole and (is_whole or found != {*before}):
                raise AssertionError(f"after {words} there are {found}")

        return each_growth(server, self.growths, words, prepare, look)

    def puts(self):
        """A file is written whole, or up to some byte, or isn't there."""
        server = self.server

        def prepare():
            if is_there(server, "/put"):
                is_done(server, "remove", "/put")
            return b""

        def look(is_whole):
            if is_whole or is_there(server, "/put"):
                found = is_done(server, "get", "/put")
                same(found, DATA if is_whole else DATA[: len(found)])

        return each_growth(server, self.growths, ("put", "/put"), prepare, look, data=DATA)


# The paths that are made as directories.
DIRECTORIES = ("/made", "/left")


def refused_commands(server, growths):
    """Refuses each growth of each command in turn, and gives how many there are of each."""
    commands = Commands(server, growths)
    moves = {"before": ["/old"], "after": ["/new"], "gone": ["/old"]}
    return {
        "stat": commands.reads("stat", "/d/f"),
        "list": commands.reads("list", "/d"),
        "get": commands.reads("get", "/d/f"),
        "put": commands.puts(),
        "mkdir": commands.changes("mkdir", "/made", after=["/made"]),
        "rmdir": commands.changes("rmdir", "/left", before=["/left"], gone=["/left"]),
        "remove": commands.changes("remove", "/old", before=["/old"], gone=["/old"]),
        "rename": commands.changes("rename", "/old", "/new", **moves),
        "posix-rename": commands.changes("posix-rename", "/old", "/new", **moves),
        "hardlink": commands.changes("hardlink", "/old", "/new", before=["/old"], after=["/new"]),
    }
