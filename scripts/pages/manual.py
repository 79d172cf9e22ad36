"""docs/generated/sftpd.1: the manual page, from the marked parts of docs/CLIENTS.md.

A part begins with a line `<!-- man: SECTION -->` and ends with `<!-- /man -->`. Parts with the same
section are joined."""

import re

from sources import TOP

PATH = "docs/generated/sftpd.1"

SOURCE = TOP / "docs/CLIENTS.md"
PART = re.compile(r"^<!-- man: ([A-Z ]+) -->\n(.*?)^<!-- /man -->$", re.MULTILINE | re.DOTALL)
SECTIONS = (
    ["SYNOPSIS", "DESCRIPTION", "COMMANDS", "OPTIONS", "EXIT STATUS", "FILES", "SIGNALS"]
    + ["LIMITS", "EXAMPLES"]
)
HEAD = r""".\" Written by scripts/generate from docs/CLIENTS.md.
.TH SFTPD 1 "" "Lucernetick" "User Commands"
.SH NAME
sftpd \- an SFTP server, version 3, with its file system in memory
"""
TAIL = """.SH SEE ALSO
.BR sftp (1),
.BR sshfs (1)
"""


def escaped(text):
    """Plain text as troff shows it."""
    return text.replace("\\", r"\e").replace("-", r"\-").replace("'", r"\(aq").replace('"', r"\(dq")


def inline(text):
    """A line of Markdown: `code` becomes bold."""
    parts = re.split(r"`([^`]*)`", text)
    return "".join(
        rf"\fB{escaped(part)}\fP" if number % 2 else escaped(part)
        for number, part in enumerate(parts)
    )


def row(line):
    """A tagged paragraph from a table row with two cells."""
    tag, text = (cell.strip() for cell in line.strip("|").split("|"))
    return f".TP\n{inline(tag)}\n{inline(text)}\n"


def block(text):
    """A table, indented code, or a paragraph."""
    lines = text.split("\n")
    if text.startswith("|"):
        return "".join(row(line) for line in lines[2:])
    if text.startswith("    "):
        code = "\n".join(escaped(line[4:]) for line in lines)
        return f".PP\n.nf\n.RS\n{code}\n.RE\n.fi\n"
    return f".PP\n{inline(' '.join(lines))}\n"


def page():
    """The text of the manual page."""
    parts = {}
    for name, text in PART.findall(SOURCE.read_text(encoding="utf-8")):
        parts.setdefault(name, []).extend(text.strip("\n").split("\n\n"))
    if sorted(parts) != sorted(SECTIONS):
        raise LookupError(f"{SOURCE} has the sections {sorted(parts)}, not {sorted(SECTIONS)}")
    body = "".join(
        f".SH {name}\n" + "".join(block(text) for text in parts[name]) for name in SECTIONS
    )
    return HEAD + body + TAIL
