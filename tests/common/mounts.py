"""Mounts by sshfs, which end whatever happens."""

import contextlib
import os
import signal
import subprocess
import tempfile
import time

from checks import same

SECONDS = 60
# How many seconds sshfs has to end after it is unmounted, and after a signal.
PATIENCE = 10


def can_mount():
    """Whether there is a /dev/fuse that opens."""
    with contextlib.suppress(OSError):
        os.close(os.open("/dev/fuse", os.O_RDWR))
        return True
    return False


def device_of_mount(folder):
    """The number of the device that is mounted at this folder, as `stat` prints it. None if
    nothing is. The kernel lists it: sshfs may be too busy to reply."""
    found = None
    with open("/proc/self/mountinfo", encoding="utf-8") as mounts:
        for fields in map(str.split, mounts):
            if fields[4] == folder:
                found = str(os.makedev(*map(int, fields[2].split(":"))))
    return found


class Mount:
    """A tree that sshfs mounts, by these words, at a new folder in `room`."""

    def __init__(self, room, source, *words):
        self.folder = os.path.realpath(tempfile.mkdtemp(prefix="mount.", dir=room))
        words = ["sshfs", source, self.folder, "-f", *words]
        self.process = subprocess.Popen(words, stderr=subprocess.PIPE, text=True)

    def __enter__(self):
        try:
            self.wait_until_mounted()
        except BaseException:
            self.end()
            raise
        return self

    def wait_until_mounted(self):
        end = time.monotonic() + SECONDS
        while not self.is_mounted():
            if self.process.poll() is not None:
                raise AssertionError(f"nothing is mounted: {self.process.stderr.read()}")
            if time.monotonic() > end:
                raise TimeoutError("nothing is mounted")
            time.sleep(0.05)

    def is_mounted(self):
        """Has the server replied through the mount? sshfs mounts before it connects, and unmounts
        if it can't. Then a file that a check makes here would be a local one."""
        device = device_of_mount(self.folder)
        if device is None:
            return False
        words = ["stat", "-c", "%d", self.folder]
        done = subprocess.run(words, capture_output=True, text=True, check=False, timeout=SECONDS)
        return done.stdout == device + "\n"

    def __exit__(self, fault, *_):
        ended_early = self.process.poll() is not None
        signalled = self.end()
        text = self.process.stderr.read()
        if ended_early:
            raise AssertionError(f"sshfs ended during the check: {text}")
        if fault is None and not signalled:
            # sshfs may end before it reads its last reply, and then its command reports that.
            quiet = text == "" or text.startswith("sftpd: stream: ")
            same((self.process.returncode, quiet), (0, True))

    def end(self):
        """Unmounts, and ends sshfs by signals if it does not end. Has it got a signal? Afterwards
        nothing is mounted at the folder."""
        try:
            for sent in (None, signal.SIGTERM, signal.SIGKILL):
                if sent:
                    print(f"  sshfs did not end, and is sent {sent.name}", flush=True)
                    self.process.send_signal(sent)
                self.unmount()
                with contextlib.suppress(subprocess.TimeoutExpired):
                    self.process.wait(PATIENCE)
                    return sent is not None
        finally:
            # If sshfs was killed, its mount is still there.
            self.process.kill()
            self.unmount()
            same(device_of_mount(self.folder), None)
        return True

    def unmount(self):
        """Tries to, until nothing is mounted at the folder or the time is over."""
        words = ["fusermount3", "-u", "-z", self.folder]
        end = time.monotonic() + PATIENCE
        while device_of_mount(self.folder) is not None and time.monotonic() < end:
            subprocess.run(words, capture_output=True, check=False, timeout=SECONDS)

    def __call__(self, *names):
        return os.path.join(self.folder, *names)
