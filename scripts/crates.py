"""The crates of this repository, for the scripts beside this one."""

import shutil
import sys
from pathlib import Path

TOP = Path(__file__).resolve().parent.parent
SOURCES = ("src", "specs", "proofs")


def read_lines():
    """The line of each crate in crates.txt."""
    lines = (TOP / "crates.txt").read_text(encoding="utf-8").splitlines()
    return {it.split(":")[0].split()[0]: it for it in lines if ":" in it and it[0] != "#"}


LINES = read_lines()
# The libraries that each crate uses, of this repository and of the kit.
USED = {name: line.partition(":")[2].split() for name, line in LINES.items()}


def is_static(name):
    return "staticlib" in LINES[name].partition(":")[0].split()


def under(name):
    """The crates of this repository that a crate uses."""
    return [it for it in USED[name] if it in USED]


def below(name):
    """All crates of this repository below a crate, each after those that it uses."""
    found = {}
    for each in under(name):
        found.update(dict.fromkeys([*below(each), each]))
    return list(found)


def files_of(name):
    """The sources of a crate, with its proofs."""
    folders = [TOP / "crates" / name / part for part in SOURCES]
    return sorted(it for folder in folders for it in folder.rglob("*") if it.is_file())


def library_of(name):
    return TOP / f"crates/{name}/out/rlib/{name}.rlib"


def is_built(name):
    """Whether a crate's library exists, and none of its sources is newer. If `rt ci` kept it, its
    files are older than its folder."""
    made = library_of(name)
    if not made.is_dir():
        return False
    return all(it.stat().st_mtime <= made.stat().st_mtime for it in files_of(name))


def need_kit(script):
    """Ends the script if Rattle's kit is missing."""
    if not shutil.which("rt"):
        sys.exit(f"{script}: Rattle's kit is missing: rt is not on PATH (see README.md)")
