"""Counts the allocations of a program, and lets some fail."""

import mmap
import os
import struct
import subprocess

from serving import TOP, install

COMPILE = ["gcc", "-std=c11", "-O2", "-Wall", "-Wextra", "-Werror"]
PRELOADED = os.path.join(TOP, "out/refuse.so")
NUMBERS = 6


def build_preloaded():
    """Builds what is preloaded to the program."""
    install("gcc", "gcc", "libc6-dev")
    os.makedirs(os.path.dirname(PRELOADED), exist_ok=True)
    # Another script may be using the one that is there.
    made = f"{PRELOADED}.{os.getpid()}"
    words = [*COMPILE, "-fPIC", "-shared", "-o", made, "tests/c/refuse.c"]
    subprocess.run(words, cwd=TOP, check=True)
    os.replace(made, PRELOADED)


class Growths:
    """A file that a program with out/refuse.so shares: which of its growths are refused, what came
    of it, and what it holds."""

    def __init__(self, path):
        with open(path, "w+b") as file:
            file.write(bytes(8 * NUMBERS))
            file.flush()
            self.room = mmap.mmap(file.fileno(), 8 * NUMBERS)
        self.surroundings = {**os.environ, "LD_PRELOAD": PRELOADED, "GROWTHS": path}

    def refuse(self, left, count=1):
        """Of the growths from now on, so many go by, and the next ones are refused."""
        struct.pack_into("=qqqq", self.room, 0, left, count, 0, 0)

    def forget(self):
        """None is refused, as before the program began. It may be running: the count comes
        first."""
        struct.pack_into("=q", self.room, 8, 0)
        struct.pack_into(f"={NUMBERS}q", self.room, 0, *[0] * NUMBERS)

    def number(self, at):
        return struct.unpack_from("=q", self.room, 8 * at)[0]

    def seen(self):
        return self.number(2)

    def refused(self):
        return self.number(3)

    def held(self):
        """How many blocks the program holds."""
        return self.number(4)

    def bytes(self):
        """How many bytes these have."""
        return self.number(5)
