"""Files of cases in rows, for the scripts that run them. A file has

    # a comment
    NAME = words                    a name for bytes; INIT and VERSION are defined
    == name_of_case                 a case, whose rows are the lines that follow
    each 01..33                     the indented lines after it are repeated once for each n:
        ask 1 OPEN /n{n} wc > HANDLE {2*n+1}

There {n} is the number as it is written, {2*n+1} is computed, and {n:016x} has a format of Python.
A line that ends with a backslash continues in the next one."""

import re
from collections import deque
from pathlib import Path

from packets import INIT, packet, u32
from reading import VERSION_REPLY
from spelling import bytes_of, words_of

BUILT_IN = {"INIT": packet(INIT, u32(3)), "VERSION": VERSION_REPLY}
NUMBER = re.compile(r"\{(?:(\d+)\*)?n(?:([+-])(\d+))?(?::(\w+))?\}")


def number_in(text, found):
    """A number as rows under `each` have it: {n} as it stands there, {2*n+1} and {n:x} reckoned."""
    factor, plus, more, form = found.groups()
    if not (factor or plus or form):
        return text
    number = int(text) * int(factor or 1) + int((plus or "+") + (more or "0"))
    return format(number, form or "")


def repeated(span, rows):
    """Rows that stand once for each number of a span."""
    first, last = span.split("..")
    for number in range(int(first), int(last) + 1):
        text = f"{number:0{len(first)}}"
        for row in rows:
            yield NUMBER.sub(lambda found, text=text: number_in(text, found), row)


def whole_lines(text):
    """The lines of a text but for comments. One that ends with a backslash goes on in the next."""
    for line in text.replace("\\\n", " ").splitlines():
        if line.strip() and not line.startswith("#"):
            yield line.rstrip()


def spread(lines):
    """The lines of a file, those under an `each` for each of its numbers."""
    lines = deque(lines)
    while lines:
        line = lines.popleft()
        if not line.startswith("each "):
            yield line
            continue
        rows = []
        while lines and lines[0].startswith(" "):
            rows.append(lines.popleft().strip())
        yield from repeated(line.split()[1], rows)


def cases(text, named):
    """The cases of a file, by name, each with its rows. Its names for bytes come to those that are
    there."""
    found, rows = {}, None
    for line in spread(whole_lines(text)):
        name = re.fullmatch(r"(\w+) = (.*)", line)
        if line.startswith("== "):
            if line[3:] in found:
                raise ValueError(f"two cases: {line[3:]}")
            rows = found[line[3:]] = []
        elif name:
            named[name[1]] = bytes_of(words_of(name[2]), named)
        else:
            rows.append(line)
    return found


def run_cases(checks, folder, check_case, **names):
    """Runs all cases of a folder: `check_case` is given a case's rows and the names for bytes."""
    for file in sorted(Path(folder).iterdir()):
        named = {**BUILT_IN, **names}
        for name, rows in cases(file.read_text(encoding="utf-8"), named).items():
            checks.run(f"{file.name}/{name}", check_case, named, rows)


def sides(row):
    """A row's words, and those behind `>`."""
    words = words_of(row)
    at = words.index(">") if ">" in words else len(words)
    return words[:at], words[at + 1 :]
