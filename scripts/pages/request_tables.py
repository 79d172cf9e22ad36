"""docs/generated/request-tables.md: the places that distinguish operations.

A table is a `match` in Rust, or a definition by cases in a crate's specs, over the operations of
requests (`PathOp`, `PairOp` and `HandleOp`)."""

import re

from pages.layout import table, wrapped
from sources import WORD

PATH = "docs/generated/request-tables.md"

# Each enum of operations, and the variant of a request that has one.
ENUMS = {"PathOp": "OnPath", "PairOp": "OnPaths", "HandleOp": "ByHandle"}


class Table:
    """A table of operations of one enum: the variants that it names, and whether it has a default
    case."""

    def __init__(self, source, name, enum, variants, has_default):
        self.crate, self.file = source.crate, source.file()
        self.name, self.enum = name, enum
        self.variants, self.has_default = variants, has_default

    def cell(self, count):
        if len(self.variants) == count:
            return "all"
        return f"{len(self.variants)} of {count}{', default' if self.has_default else ''}"


def variants_of(sources, enum):
    """The variants of an enum."""
    text = sources.rust_item("sf_field", enum).text
    return re.findall(r"^    ([A-Z]\w*)", text, re.M)


def arms(lines, at):
    """The patterns of a `match` that begins at a line, those of its own arms alone."""
    indent = len(lines[at]) - len(lines[at].lstrip())
    pattern = None
    for line in lines[at + 1 :]:
        words = line.strip()
        depth = len(line) - len(line.lstrip())
        if words and depth <= indent:
            return
        if pattern is None and depth == indent + 4 and not words.startswith(("//", "}")):
            pattern = ""
        if pattern is not None:
            pattern += " " + words.split("=>")[0]
            if "=>" in words:
                yield pattern.strip()
                pattern = None


def rust_tables(source):
    """The tables of a Rust file."""
    function = None
    for at, line in enumerate(source.lines):
        start = re.match(r"^ *(?:pub(?:\(\w+\))? )?(?:extern \"C\" )?fn (\w+)", line)
        function = start[1] if start else function
        if not re.search(r"\bmatch\b.*\{$", line) or line.strip().startswith("//"):
            continue
        patterns = list(arms(source.lines, at))
        for enum, shape in ENUMS.items():
            variants = set(re.findall(rf"\b{enum}::(\w+)", " ".join(patterns)))
            if variants:
                others = rf"^(_|[a-z]\w*)( if .*)?$|\b{shape}\((_|[a-z]\w*),"
                has_default = any(re.search(others, pattern) for pattern in patterns)
                yield Table(source, function, enum, variants, has_default)


def spec_tables(sources, source):
    """The tables of a spec file."""
    scope = sources.scope_of(source)
    for definition in source.own.values():
        sides = re.findall(rf"^{re.escape(definition.name)} ([^=]*)=", definition.text, re.M)
        named = [list(operations_in(side, scope)) for side in sides]
        for enum, shape in ENUMS.items():
            variants = {variant for names in named for kind, variant in names if kind == enum}
            if variants:
                other = re.compile(rf"\b{shape} [a-z_]\w* ")
                pairs = zip(sides, named)
                has_default = any(not names or other.search(side) for side, names in pairs)
                yield Table(source, definition.name, enum, variants, has_default)


def operations_in(side, scope):
    """The operations that the left side of a row names."""
    for word in WORD.findall(side):
        meaning = scope.get(word.split(".")[0])
        if not callable(meaning) and meaning and meaning.kind == "enum" and meaning.name in ENUMS:
            variant = word.split(".")[-1]
            if variant[0].isupper():
                yield meaning.name, variant


def tables(sources):
    """All tables outside the crates of tests, the crates in the order of crates.txt."""
    for crate in sources.crates:
        if crate.endswith("_cases"):
            continue
        for (owner, _), source in sources.specs.items():
            if owner == crate:
                yield from spec_tables(sources, source)
        for (owner, file), source in sources.rust.items():
            if owner == crate and "/tests" not in file:
                yield from rust_tables(source)


def page(sources):
    counts = {enum: len(variants_of(sources, enum)) for enum in ENUMS}
    rows = {}
    for made in tables(sources):
        row = rows.setdefault((f"`{made.crate}/{made.file}`", f"`{made.name}`"), {})
        row[made.enum] = made.cell(counts[made.enum])
    head = (
        "This page lists each `match` and each definition by cases that distinguishes operations, "
        "and how many operations of each enum it names. A new operation falls silently through "
        "the tables with a default case: look at each of them."
    )
    head = ["# Tables of requests", "", *wrapped(head), ""]
    titles = ["File", "Table", *(f"`{enum}`" for enum in ENUMS)]
    cells = [(*key, *(row.get(enum, "") for enum in ENUMS)) for key, row in rows.items()]
    return head + table(titles, cells)
