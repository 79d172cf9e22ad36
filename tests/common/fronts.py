"""`sftpd-over-ssh` in front of `sftpd serve`, run without root if possible."""

import contextlib
import os
import pwd
import shutil
import subprocess
from typing import NamedTuple

from checks import same
from serving import PROGRAM, SECONDS, TOP

SCRIPT = os.path.join(TOP, "scripts/sftpd-over-ssh")
LONG = 900
"""Seconds for what moves a large file, while others have the processors."""
# Who runs the server where root runs this.
USER, NUMBER = "lucernetick", 65532


class Reach(NamedTuple):
    """How a server on this machine is reached: its port, a user, and files with the user's private
    key and with the host's key."""

    port: int
    user: str
    key: str
    known_hosts: str


def run_with(text, *words, **options):
    """Runs a command that reads this text, which must end well, and gives what it prints."""
    done = subprocess.run(
        words, input=text, capture_output=True, text=True, timeout=LONG, **options
    )
    if done.returncode != 0:
        raise AssertionError(f"{words} ended with {done.returncode}: {done.stdout}{done.stderr}")
    return done.stdout


def without_root(folder):
    """The words by which root runs a command as a user who has a shell and `folder` for a home, or
    none where that can't be done: in a view of the files that the command alone has, /etc/passwd
    has one line more."""
    if os.getuid() != 0:
        return []
    view = ["unshare", "--mount", "sh", "-c", 'mount --bind "$0" /etc/passwd && exec "$@"']
    users = os.path.join(folder, "passwd")
    shutil.copy("/etc/passwd", users)
    with open(users, "a", encoding="utf-8") as file:
        file.write(f"{USER}:x:{NUMBER}:{NUMBER}::{folder}:/bin/sh\n")
    os.chown(folder, NUMBER, NUMBER)
    number = ["--reuid", str(NUMBER), "--regid", str(NUMBER), "--clear-groups"]
    words = [*view, users, "setpriv", *number, "--"]
    if subprocess.run([*words, "true"], capture_output=True).returncode != 0:
        print("sshd: no other user can be had: as root", flush=True)
        return []
    return words


def processes():
    """The parents of all processes, by their numbers, but for those that nobody has waited for."""
    parents = {}
    for name in filter(str.isdigit, os.listdir("/proc")):
        with contextlib.suppress(OSError), open(f"/proc/{name}/stat", "rb") as file:
            state, parent = file.read().rpartition(b")")[2].split()[:2]
            if state != b"Z":
                parents[int(name)] = int(parent)
    return parents


def begun_by(first):
    """The processes that this one has begun, those that these have begun, and so on."""
    parents, found = processes(), {first}
    while more := {child for child, parent in parents.items() if parent in found} - found:
        found |= more
    return found


def write_users(folder, lines):
    """A file of users that anybody may read. Returns its path."""
    path = os.path.join(folder, "users")
    with open(path, "w", encoding="utf-8") as file:
        file.write("".join(line + "\n" for line in lines))
    return path


class Front:
    """`sftpd-over-ssh` in front of the server that listens at a path, at a port that is free, with
    the users of a file, if there are any."""

    def __init__(self, room, path, name="front", users=None):
        here = os.path.join(room, name)
        os.mkdir(here)
        shutil.copy(PROGRAM, os.path.join(here, "sftpd"))
        shutil.copy(SCRIPT, here)
        os.chmod(path, 0o777)
        self.folder = os.path.join(here, "folder")
        other = without_root(here)
        self.user = USER if other else pwd.getpwuid(os.getuid()).pw_name
        words = [*other, os.path.join(here, "sftpd-over-ssh")]
        if users is not None:
            words += ["--password-file", write_users(here, users)]
        words += [path, "0", self.folder]
        streams = {"stdout": subprocess.PIPE, "stderr": subprocess.PIPE}
        self.process = subprocess.Popen(words, text=True, umask=0, **streams)

    def __enter__(self):
        return self

    def __exit__(self, *_):
        if self.process.poll() is None:
            left = begun_by(self.process.pid)
            self.process.terminate()
            with contextlib.suppress(subprocess.TimeoutExpired):
                self.process.wait(SECONDS)
            for process in left & processes().keys():
                with contextlib.suppress(OSError):
                    os.kill(process, 9)
        self.process.communicate()

    def listens(self):
        """It has told how it is reached, which is the first line that it prints."""
        line = self.process.stdout.readline()
        if not line:
            raise AssertionError(self.process.communicate())
        same(line, f"sftp -F {self.folder}/ssh_config tree\n")

    def file(self, name):
        return os.path.join(self.folder, name)

    def reach(self):
        with open(self.file("ssh_config"), encoding="utf-8") as file:
            [port] = [int(line.split()[1]) for line in file if line.split()[0] == "Port"]
        return Reach(port, self.user, self.file("client_key"), self.file("known_hosts"))

    def words(self, command, *more):
        """A command of OpenSSH's, with what it is to read."""
        return [command, "-F", self.file("ssh_config"), *more, "tree"]

    def sftp(self, commands):
        """What OpenSSH's client prints by the words of the first line, which must do all of the
        commands."""
        return run_with(commands, *self.words("sftp", "-q", "-b", "-"))

    def sessions(self):
        """How many connections are served: each has one `sftpd connect`."""
        count = 0
        for process in begun_by(self.process.pid):
            with contextlib.suppress(OSError), open(f"/proc/{process}/cmdline", "rb") as file:
                count += file.read().split(b"\0")[1:2] == [b"connect"]
        return count
