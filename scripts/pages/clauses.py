"""docs/generated/clauses.md: the contract of each public function."""

import re

from pages.layout import WIDTH, wrapped
from pages.reach import exported
from sources import contract, is_in_trait

PATH = "docs/generated/clauses.md"

OUTER = re.compile(r"^(?:pub )?(?:impl(?:<.*?>)?|trait) (?:[\w:]+(?:<.*?>)? for )?(\w+)")
FUNCTION = re.compile(r'^( *)(pub )?(?:extern "C" )?fn (\w+)')
# A long line is broken before one of these.
OPERATOR = re.compile(r"(?<=\S) [→×≡∷] ")


class Function:
    """A public function: the first line of the item that it is in, its name, and its lines."""

    def __init__(self, outer, owner, name, lines):
        self.outer, self.owner, self.name, self.lines = outer, owner, name, lines


def functions(source):
    """The functions of a file that are public in it: `pub`, or of a public trait."""
    outer, owner = None, None
    for at, line in enumerate(source.lines):
        found, start = OUTER.match(line), FUNCTION.match(line)
        if found:
            outer, owner = line, found[1]
        elif line.startswith("}"):
            outer, owner = None, None
        if start and (start[2] or is_declared(source.lines, at, outer)):
            yield Function(outer, owner, start[3], list(described(source.lines, at, start[1])))


def is_declared(lines, at, outer):
    """Whether a line is in the declaration of a public trait."""
    return bool(outer) and outer.startswith("pub trait") and is_in_trait(lines, at)


def described(lines, at, indent):
    """The comment, the signature and the clauses of a function."""
    above = at
    while above > 0 and lines[above - 1].strip().startswith(("///", "#[")):
        above -= 1
    yield from comment(it for it in lines[above:at] if it.strip().startswith("///"))
    text = list(contract(lines, at, indent))
    if not text:
        text = [lines[at]]
    text[-1] = re.sub(r" ?\{(\}|.*\})?$", "", text[-1]) if is_opened(text, indent) else text[-1]
    for line in text:
        yield from broken(line)


def comment(lines):
    """A comment's lines. Words that do not fit in one go to the next."""
    fitting, lines = [], list(lines)
    while lines:
        line = lines.pop(0)
        slashes = line[: line.index("///") + 3]
        if len(line) > WIDTH:
            end = line.rindex(" ", 0, WIDTH + 1)
            line, rest = line[:end], slashes + line[end:]
            if lines and lines[0] != slashes:
                rest += lines.pop(0).removeprefix(slashes)
            lines.insert(0, rest)
        fitting.append(line)
    return fitting


def broken(line):
    """The parts of a clause's line that is too long."""
    ends = [it.start() for it in OPERATOR.finditer(line) if it.start() <= WIDTH]
    if len(line) <= WIDTH or not ends:
        return [line]
    indent = re.match(" *", line)[0] + "    "
    return [line[: ends[-1]], *broken(indent + line[ends[-1] + 1 :])]


def is_opened(text, indent):
    """Whether the last line of a signature without clauses opens the body."""
    return bool(re.match(rf"^{indent}(\)|pub |fn )", text[-1])) and text[-1].endswith(("{", "}"))


def block(source, names):
    """The lines of a file's exported functions, in the items that they are in."""
    outer, lines = None, []
    for function in functions(source):
        if (function.owner or function.name) not in names:
            continue
        if function.outer != outer:
            lines += ["}"] if outer else []
            lines += [""] if lines else []
            lines += [function.outer] if function.outer else []
            outer = function.outer
        elif lines:
            lines.append("")
        lines += function.lines
    return lines + (["}"] if outer else [])


def first_sentence(source):
    """The first sentence of a file's head comment."""
    head = []
    for line in source.lines:
        if not line.startswith("//!") or line == "//!":
            break
        head.append(line[3:].strip())
    return re.split(r"(?<=[.:]) ", " ".join(head))[0].rstrip(".:") + "."


def section(sources, crate):
    """The lines of a crate."""
    files = [(file, source) for (owner, file), source in sources.rust.items() if owner == crate]
    names = exported(sources, crate)
    blocks = [(file, block(source, names)) for file, source in files]
    blocks = [(file, lines) for file, lines in blocks if lines]
    if not blocks:
        return
    roots = [source for file, source in files if file in ("src/lib.rt", "src/main.rt")]
    yield from [f"## {crate}", "", *wrapped(first_sentence(roots[0])), ""]
    for file, lines in blocks:
        yield from [f"### {crate}/{file}", "", "```rust", *lines, "```", ""]


def page(sources):
    head = (
        "This page has the contract of each public function, in the order of `crates.txt`. "
        "`requires` is what a caller owes, `ensures` is what is proved. A function with the body "
        "`{}` and clauses alone is a law. Crates of tests are left out. Definitions that clauses "
        "name are in the crates' `specs`."
    )
    lines = ["# Clauses", "", *wrapped(head), ""]
    for crate in sources.crates:
        if not crate.endswith("_cases"):
            lines += section(sources, crate)
    return lines[:-1]
