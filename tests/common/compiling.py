"""Builds the C programs in tests/c."""

import os
import subprocess

TOP = os.path.dirname(os.path.dirname(os.path.dirname(os.path.abspath(__file__))))
WORDS = ["-std=gnu11", "-O2", "-Wall", "-Wextra", "-Werror", "-pthread"]


def compiled(room, name, *words):
    """The program of `c/NAME.c`, which is built in a folder, with more words of gcc's."""
    installs = ["bash", os.path.join(TOP, "tests/common/install.sh"), "gcc", "libc6-dev"]
    subprocess.run(installs, check=False)
    program, source = os.path.join(room, name), os.path.join(TOP, f"tests/c/{name}.c")
    subprocess.run(["gcc", *WORDS, "-o", program, source, *words], check=True)
    return program
