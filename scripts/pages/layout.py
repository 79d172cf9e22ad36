"""How a page's lines are laid out: paragraphs, tables, numbers."""

import re

WIDTH = 100


def wrapped(text):
    """The lines of a paragraph. Code between backticks is not broken."""
    lines, line = [], ""
    for word in re.findall(r"(?:`[^`]*`|\S)+", text):
        if line and len(line) + len(word) >= WIDTH:
            lines.append(line)
            line = word
        else:
            line = (line + " " + word).strip()
    return [*lines, line]


def table(head, rows):
    """The lines of a table."""
    lines = ["| " + " | ".join(row) + " |" for row in [head, *rows]]
    return [lines[0], "|" + "---|" * len(head), *lines[1:]]


def number(n, one, more):
    """A number with its noun."""
    return f"{n:,} {one if n == 1 else more}"


def listed(names):
    """Names as code, one after the other."""
    return ", ".join(f"`{name}`" for name in names)
