"""Clients over SSH. Each puts and gets a large file, opens many connections at once, is rejected
with another key, and is disconnected during a transfer."""

import asyncio
import contextlib
import errno
import filecmp
import importlib
import logging
import os
import shutil
import signal
import socket
import subprocess
import threading
import time
import warnings

from checks import same
from fronts import LONG, run_with
from serving import TOP, fresh, install_packages, make_tree, run, same_trees

PACKAGES = "openssh-client python3-paramiko python3-asyncssh rclone golang-go".split()
PACKAGES += ["golang-github-pkg-sftp-dev", "golang-golang-x-crypto-dev"]
COMMANDS = ["ssh", "sftp", "ssh-keygen", "rclone", "go"]
SIZE = 100_000_000
ENDLESS = 2**33
"""More bytes than any client puts before it is cut."""
MANY = 64
"""As many as the program serves at once."""
TRANSFERS = 32
"""Those of rclone, which has a connection for each, and some more."""


def find(name):
    with contextlib.suppress(ImportError):
        return importlib.import_module(name)
    return None


install_packages(*PACKAGES)
importlib.invalidate_caches()
# What these modules tell besides their faults.
warnings.simplefilter("ignore")
logging.disable(logging.CRITICAL)
paramiko, asyncssh = find("paramiko"), find("asyncssh")


def missing():
    """What can't be had."""
    found = [name for name in COMMANDS if not shutil.which(name)]
    return found + [name for name in ("paramiko", "asyncssh") if not globals()[name]]


class Place:
    """A server that is reached, and a folder with files to be put."""

    def __init__(self, room, reach, sessions):
        """`sessions` tells how many sessions there are."""
        self.room, self.reach, self.sessions = room, reach, sessions
        self.sent = self.file("sent")
        with open(self.sent, "wb") as file:
            file.write(os.urandom(SIZE))
        self.endless = self.file("endless")
        with open(self.endless, "wb") as file:
            file.truncate(ENDLESS)
        self.small = []
        for number in range(MANY):
            self.small.append(self.file(f"sent{number}"))
            with open(self.small[-1], "wb") as file:
                file.write(os.urandom(100_000 + number))
        self.other_key = self.file("other_key")
        run("ssh-keygen", "-q", "-t", "ed25519", "-N", "", "-f", self.other_key)

    def file(self, name):
        return os.path.join(self.room, name)

    def got(self):
        """Where a client is to get a file."""
        path = self.file("got")
        with contextlib.suppress(FileNotFoundError):
            os.remove(path)
        return path

    def has_sessions(self, count):
        """Waits until there are so many."""
        until(lambda: self.sessions() == count)

    def with_key(self, key):
        return self.reach._replace(key=key)


def until(holds):
    """Waits for what comes about by itself."""
    end = time.monotonic() + LONG
    while not holds():
        if time.monotonic() > end:
            raise AssertionError("it didn't come")
        time.sleep(0.05)


def same_files(one, other):
    same(filecmp.cmp(one, other, shallow=False), True)


def fails(*words):
    """What a command tells, which must end badly."""
    done = subprocess.run(words, input="", capture_output=True, text=True, timeout=LONG)
    if done.returncode == 0:
        raise AssertionError(f"{words} ended well: {done.stdout}")
    return done.stderr


def killed(words, text=""):
    """Starts a command, and gives what kills it with all that it began."""
    streams = {"stdin": subprocess.PIPE, "stdout": subprocess.DEVNULL, "stderr": subprocess.DEVNULL}
    process = subprocess.Popen(words, start_new_session=True, text=True, **streams)
    process.stdin.write(text)
    process.stdin.flush()

    def cut():
        os.killpg(process.pid, signal.SIGKILL)
        process.communicate()

    return cut


class OpenSSH:
    """OpenSSH's `sftp`. As each client here it puts a file and gets it, has many connections at
    once, and puts a file without an end until what `puts_without_end` gives is called."""

    name = "OpenSSH"

    def words(self, command, reach, *more):
        port = "-P" if command == "sftp" else "-p"
        return [
            *(command, port, str(reach.port), "-F", "none", "-i", reach.key),
            *("-o", f"UserKnownHostsFile={reach.known_hosts}", "-o", "IdentitiesOnly=yes"),
            *("-o", "BatchMode=yes", *more, f"{reach.user}@127.0.0.1"),
        ]

    def batch(self, reach):
        return self.words("sftp", reach, "-q", "-b", "-")

    def put_and_get(self, place, path, got):
        run_with(f"put {place.sent} {path}\nget {path} {got}\n", *self.batch(place.reach))

    def many_at_once(self, place):
        """Each client puts a file, and once all have gets what the next one put."""
        clients = []
        try:
            for number in range(MANY):
                streams = {"stdin": subprocess.PIPE, "stdout": subprocess.PIPE}
                words = self.batch(place.reach)
                client = subprocess.Popen(words, cwd=place.room, text=True, **streams)
                clients.append(client)
                client.stdin.write(f"put sent{number} /{number}\npwd\n")
                client.stdin.flush()
            for client in clients:
                while (line := client.stdout.readline()) != "Remote working directory: /\n":
                    same(line.startswith("sftp> "), True)
            place.has_sessions(MANY)
            for number, client in enumerate(clients):
                other = (number + 1) % MANY
                client.communicate(f"get /{other} got{number}\nrm /{other}\n", LONG)
                same(client.returncode, 0)
                same_files(place.file(f"got{number}"), place.small[other])
        finally:
            for client in clients:
                client.kill()
                client.communicate()

    def is_refused(self, place, reach):
        told = fails(*self.words("sftp", reach, "-b", "-"))
        same("Permission denied (publickey" in told, True)

    def puts_without_end(self, place, path):
        return killed(self.batch(place.reach), f"put {place.endless} {path}\n")


class Paramiko:
    """paramiko's client, which knows the host."""

    name = "paramiko"

    def log_in(self, reach):
        client = paramiko.SSHClient()
        client.load_host_keys(reach.known_hosts)
        limits = {"timeout": LONG, "banner_timeout": LONG, "auth_timeout": LONG}
        words = {"look_for_keys": False, "allow_agent": False, "key_filename": reach.key, **limits}
        try:
            client.connect("127.0.0.1", reach.port, reach.user, **words)
        except paramiko.SSHException:
            client.close()
            raise
        return client

    def put_and_get(self, place, path, got):
        with self.log_in(place.reach) as client:
            tree = client.open_sftp()
            tree.put(place.sent, path)
            tree.get(path, got)

    def many_at_once(self, place):
        all_have_put, told = threading.Barrier(MANY), []

        def work(number):
            try:
                with self.log_in(place.reach) as client:
                    tree, other = client.open_sftp(), (number + 1) % MANY
                    tree.put(place.small[number], f"/{number}")
                    all_have_put.wait(LONG)
                    tree.get(f"/{other}", place.file(f"got{number}"))
                    same_files(place.file(f"got{number}"), place.small[other])
                    tree.remove(f"/{other}")
            except Exception as fault:
                all_have_put.abort()
                told.append(fault)

        threads = [threading.Thread(target=work, args=(n,), daemon=True) for n in range(MANY)]
        for thread in threads:
            thread.start()
        for thread in threads:
            thread.join(LONG)
        same(told, [])

    def is_refused(self, place, reach):
        try:
            self.log_in(reach)
        except paramiko.AuthenticationException:
            return
        raise AssertionError("was let in")

    def puts_without_end(self, place, path):
        client = self.log_in(place.reach)
        file, ended = client.open_sftp().open(path, "w"), threading.Event()
        file.set_pipelined(True)

        def write():
            with contextlib.suppress(OSError, EOFError, paramiko.SSHException):
                for _ in range(ENDLESS // 32768):
                    file.write(bytes(32768))
            ended.set()

        def cut():
            client.get_transport().sock.shutdown(socket.SHUT_RDWR)
            same(ended.wait(LONG), True)
            client.close()

        threading.Thread(target=write, daemon=True).start()
        return cut


class Asyncssh:
    """asyncssh's client."""

    name = "asyncssh"

    def connect(self, reach):
        words = {"username": reach.user, "client_keys": [reach.key], "login_timeout": LONG}
        words |= {"known_hosts": reach.known_hosts, "config": None, "agent_path": None}
        # The cipher that it likes best takes minutes here.
        words["encryption_algs"] = ["aes128-gcm@openssh.com"]
        return asyncssh.connect("127.0.0.1", reach.port, **words)

    def put_and_get(self, place, path, got):
        async def work():
            async with self.connect(place.reach) as client:
                async with client.start_sftp_client() as tree:
                    await tree.put(place.sent, path)
                    await tree.get(path, got)

        asyncio.run(work())

    def many_at_once(self, place):
        have_put = set()

        async def work(number):
            got, other = place.file(f"got{number}"), (number + 1) % MANY
            async with self.connect(place.reach) as client:
                async with client.start_sftp_client() as tree:
                    await tree.put(place.small[number], f"/{number}")
                    have_put.add(number)
                    while len(have_put) < MANY:
                        await asyncio.sleep(0.02)
                    await tree.get(f"/{other}", got)
                    same_files(got, place.small[other])
                    await tree.remove(f"/{other}")

        async def all_work():
            await asyncio.gather(*map(work, range(MANY)))

        asyncio.run(asyncio.wait_for(all_work(), LONG))

    def is_refused(self, place, reach):
        async def work():
            async with self.connect(reach):
                pass

        try:
            asyncio.run(work())
        except asyncssh.PermissionDenied:
            return
        raise AssertionError("was let in")

    def puts_without_end(self, place, path):
        """In a thread that has a loop of its own."""
        begun, ended, found = threading.Event(), threading.Event(), {}

        async def work():
            async with self.connect(place.reach) as client:
                found.update(client=client, loop=asyncio.get_running_loop())
                async with client.start_sftp_client() as tree:
                    begun.set()
                    await tree.put(place.endless, path)

        def write():
            with contextlib.suppress(asyncssh.Error, OSError):
                asyncio.run(work())
            ended.set()

        def cut():
            found["loop"].call_soon_threadsafe(found["client"].abort)
            same(ended.wait(LONG), True)

        threading.Thread(target=write, daemon=True).start()
        same(begun.wait(LONG), True)
        return cut


class Rclone:
    """rclone, which has as many connections as there are transfers."""

    name = "rclone"

    def words(self, place, reach, *words):
        config = place.file("rclone.conf")
        with open(config, "w", encoding="utf-8") as file:
            file.write(
                f"[tree]\ntype = sftp\nhost = 127.0.0.1\nport = {reach.port}\nuser = {reach.user}\n"
                f"key_file = {reach.key}\nknown_hosts_file = {reach.known_hosts}\n"
                "shell_type = none\n"
            )
        once = ["--retries", "1", "--low-level-retries", "1", "--contimeout", f"{LONG}s"]
        return ["rclone", "--config", config, *once, *words]

    def run(self, place, *words):
        return run(*self.words(place, place.reach, *words), seconds=LONG)

    def put_and_get(self, place, path, got):
        self.run(place, "copyto", place.sent, "tree:" + path)
        self.run(place, "copyto", "tree:" + path, got)
        here, back = fresh(place.room, "here"), fresh(place.room, "back")
        make_tree(here)
        self.run(place, "sync", "--create-empty-src-dirs", here, "tree:/trees/one")
        self.run(place, "sync", "--create-empty-src-dirs", "tree:/trees/one", back)
        same_trees(here, back)
        self.run(place, "purge", "tree:/trees")

    def many_at_once(self, place):
        here, back = fresh(place.room, "here"), fresh(place.room, "back")
        os.mkdir(here)
        for path in place.small:
            shutil.copy(path, here)
        at_once = ["--transfers", str(TRANSFERS), "--checkers", str(TRANSFERS)]
        self.run(place, "copy", *at_once, here, "tree:/many")
        self.run(place, "copy", *at_once, "tree:/many", back)
        same_trees(here, back)
        self.run(place, "purge", "tree:/many")

    def is_refused(self, place, reach):
        told = fails(*self.words(place, reach, "lsf", "tree:/"))
        same("unable to authenticate" in told, True)

    def puts_without_end(self, place, path):
        return killed(self.words(place, place.reach, "copyto", place.endless, "tree:" + path))


class PkgSftp:
    """Go's github.com/pkg/sftp, in a program that is built first."""

    name = "pkg/sftp"

    def built(self, place):
        program = place.file("client")
        if not os.path.exists(program):
            caches = {"GOCACHE": place.file("cache"), "GOPATH": "/usr/share/gocode"}
            environment = {**os.environ, **caches, "GO111MODULE": "off", "GOFLAGS": ""}
            source = os.path.join(TOP, "tests/go/client.go")
            run("go", "build", "-o", program, source, seconds=LONG, env=environment)
        return program

    def words(self, place, reach, *words):
        reached = [f"127.0.0.1:{reach.port}", reach.user, reach.key, reach.known_hosts]
        return [self.built(place), *reached, *words]

    def put_and_get(self, place, path, got):
        words = self.words(place, place.reach, "put-and-get", place.sent, path, got)
        run(*words, seconds=LONG)

    def many_at_once(self, place):
        words = self.words(place, place.reach, "at-once", str(MANY), place.small[0])
        run(*words, seconds=LONG)

    def is_refused(self, place, reach):
        words = ["put-and-get", place.small[0], "/f", place.got()]
        same("unable to authenticate" in fails(*self.words(place, reach, *words)), True)

    def puts_without_end(self, place, path):
        words = ["put-and-get", place.endless, path, place.got()]
        return killed(self.words(place, place.reach, *words))


CLIENTS = [OpenSSH(), Paramiko(), Asyncssh(), Rclone(), PkgSftp()]


def log_in(place):
    return Paramiko().log_in(place.reach)


def size(tree, path):
    try:
        return tree.stat(path).st_size
    except OSError as fault:
        same(fault.errno, errno.ENOENT)
        return 0


def puts_and_gets(place, client, path):
    """The file comes back as it was."""
    got = place.got()
    client.put_and_get(place, path, got)
    same_files(place.sent, got)


def many_at_once(place, client):
    """Of what they put nothing is left, and no session."""
    client.many_at_once(place)
    with log_in(place) as other:
        same([name for name in other.open_sftp().listdir("/") if name.isdigit()], [])
    place.has_sessions(0)


def wrong_key(place, client):
    """It isn't let in by another one."""
    client.is_refused(place, place.with_key(place.other_key))
    same(place.sessions(), 0)


def cut_in_the_middle(place, client):
    """One that is cut while it writes takes no other connection with it, and leaves no session."""
    with log_in(place) as stays:
        tree = stays.open_sftp()
        cut = client.puts_without_end(place, "/cut")
        try:
            until(lambda: size(tree, "/cut") > 1_000_000)
        finally:
            cut()
        place.has_sessions(1)
        same(1_000_000 < size(tree, "/cut") < ENDLESS, True)
        tree.remove("/cut")
    place.has_sessions(0)


def large_files(checks, place):
    """Each client puts and gets a large file, which stays. Gives the names of these, but for those
    of a check that failed."""
    names = []
    for client in CLIENTS:
        name, passed = client.name.replace("/", "-"), checks.passed
        told = f"{client.name} puts and gets 100 MB"
        checks.run(told, puts_and_gets, place, client, "/" + name, seconds=LONG)
        names += [name] * (checks.passed - passed)
    place.has_sessions(0)
    return names


def connections(checks, place):
    """Many at once, a wrong key, and one that is cut in the middle: of each client."""
    for client in CLIENTS:
        told = f"{client.name}: {MANY} at once"
        checks.run(told, many_at_once, place, client, seconds=LONG)
        checks.run(f"{client.name}: a wrong key", wrong_key, place, client, seconds=LONG)
        told = f"{client.name}: cut in the middle"
        checks.run(told, cut_in_the_middle, place, client, seconds=LONG)
