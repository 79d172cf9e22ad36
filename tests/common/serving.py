"""`sftpd serve`, and what its clients need."""

import contextlib
import importlib
import os
import re
import shutil
import socket
import subprocess
import sys
import tempfile
import time

from checks import same

TOP = os.path.dirname(os.path.dirname(os.path.dirname(os.path.abspath(__file__))))
PROGRAM = (
    os.path.abspath(sys.argv[1])
    if len(sys.argv) > 1
    else os.path.join(TOP, "crates/sftpd/out/sftpd")
)
SECONDS = 60
WORKERS = 8


def install(command, *packages):
    """Installs packages of Debian where a command is missing. Whether the command is there."""
    if not shutil.which(command):
        install_packages(*packages)
    return shutil.which(command) is not None


def install_packages(*packages):
    subprocess.run(["bash", os.path.join(TOP, "tests/common/install.sh"), *packages], check=False)


def find_paramiko():
    """The module, installed where it is missing; None where it can't be had."""
    with contextlib.suppress(ImportError):
        return importlib.import_module("paramiko")
    install_packages("python3-paramiko")
    importlib.invalidate_caches()
    with contextlib.suppress(ImportError):
        return importlib.import_module("paramiko")
    return None


class Server:
    """`sftpd serve` with so many workers, which ends after so many clients, where they are
    counted."""

    def __init__(
        self, room, sessions=None, words=("--keep", "1000000"), surroundings=None, workers=WORKERS
    ):
        self.path = os.path.join(room, "socket")
        self.sessions = sessions
        count = [] if sessions is None else ["--sessions", str(sessions)]
        self.process = subprocess.Popen(
            [PROGRAM, "serve", "--socket", self.path, "--workers", str(workers), *count, *words],
            stdout=subprocess.PIPE,
            stderr=subprocess.PIPE,
            text=True,
            env=surroundings,
        )
        same(self.process.stderr.readline(), f"sftpd: listening at {self.path}\n")

    def __enter__(self):
        return self

    def __exit__(self, *_):
        if self.process.poll() is None:
            self.process.kill()
        self.process.communicate()

    def connect(self):
        connection = socket.socket(socket.AF_UNIX)
        connection.settimeout(SECONDS)
        connection.connect(self.path)
        return connection

    def end(self, seconds=SECONDS, reported=()):
        """The server has ended well, and its file is gone. Returns its count of calls. `reported`
        has the lines that it may have written to standard error."""
        printed, told = self.process.communicate(timeout=seconds)
        same((self.process.returncode, {*told.splitlines()} - {*reported}), (0, set()))
        found = re.fullmatch(rf"sessions {self.sessions} calls ([0-9]+)\naudit ok\n", printed)
        if not found:
            raise AssertionError(f"the server printed {printed!r}")
        same(os.path.exists(self.path), False)
        return int(found[1])

    def end_after_the_rest(self, *reported):
        """As `end`, if clients chose how many sessions to open: the others send nothing."""
        while self.process.poll() is None:
            with contextlib.suppress(OSError):
                self.connect().close()
            time.sleep(0.01)
        return self.end(reported=reported)


def processor_time(process):
    """In seconds."""
    with open(f"/proc/{process.pid}/stat", encoding="ascii") as stat:
        fields = stat.read().rpartition(")")[2].split()
    return (int(fields[11]) + int(fields[12])) / os.sysconf("SC_CLK_TCK")


def bridge(room, path):
    """A command that clients start in the place of `ssh`. It takes no notice of their words. Each
    has a file of its own: a client may be about to start the one before."""
    number, command = tempfile.mkstemp(prefix="bridge.", dir=room)
    with open(number, "w", encoding="utf-8") as file:
        file.write(f"#!/bin/sh\nexec '{PROGRAM}' connect --socket '{path}'\n")
    os.chmod(command, 0o755)
    return command


def run(*words, seconds=SECONDS, **options):
    """Runs a command, which must end well, and gives what it printed."""
    streams = {"stdin": subprocess.DEVNULL, "stdout": subprocess.PIPE, "stderr": subprocess.STDOUT}
    done = subprocess.run(words, text=True, timeout=seconds, **streams, **options)
    if done.returncode != 0:
        raise AssertionError(f"{' '.join(words)} ended with {done.returncode}: {done.stdout}")
    return done.stdout


def fresh(room, name):
    """A folder that isn't there."""
    folder = os.path.join(room, name)
    shutil.rmtree(folder, ignore_errors=True)
    return folder


def make_tree(folder):
    """Folders in folders, an empty one, files of 0 to 300000 bytes, a name with spaces."""
    os.makedirs(os.path.join(folder, "a/b/c"))
    os.mkdir(os.path.join(folder, "empty"))
    sizes = {
        "large": 300000,
        "a/lines": 4000,
        "a/b/c/deep": 10,
        "a/a name with spaces": 11,
        "a/b/nothing": 0,
    }
    for name, size in sizes.items():
        with open(os.path.join(folder, name), "wb") as file:
            file.write(os.urandom(size))


def same_trees(one, other):
    same(run("diff", "-r", one, other), "")
