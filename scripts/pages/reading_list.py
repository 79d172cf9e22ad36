"""docs/generated/reading-list.md: the definitions to read for each main guarantee."""

import re

from pages.layout import listed, number, table, wrapped
from pages.reach import Reach, start

PATH = "docs/generated/reading-list.md"

ENGINE_CALLS = ["new", "with_keep", "apply", "run", "output"]

# Each list: its title, and the names of the contracts, by crate. After a colon the clauses, if not
# all belong to the list.
LISTS = [
    ("The engine: `Sftp` and `apply_all`", {"sf_engine": ["Sftp", "apply_all"]}),
    ("One session by itself, as in `sftpd stdio`", {"sf_alone": ["serve_alone"]}),
    (
        "Many sessions by threads, as in `sftpd serve`",
        {
            "sf_workers": ["serve_lines: order, kept", "end_session: talk, seen, between"],
            "sf_noted": ["in_real_time"],
        },
    ),
    (
        "How such a session and its server end",
        {
            "sf_workers": [
                "serve_lines: each, served, calls, parts",
                "end_session: session, transcript, part, calls",
                "one_promise",
            ],
        },
    ),
    ("The core that such a server leaves", {"sf_workers": ["serve_lines: history"]}),
    (
        "A session that its caller advances beside others",
        {"sf_workers": ["advance_session", "end_session"]},
    ),
    ("The steps of a call, at the core", {"sf_core": ["Core::step"]}),
    (
        "The engine's steps and their work",
        {"sf_engine": [*(f"Engine::{name}" for name in ENGINE_CALLS), "determinism"]},
    ),
    ("A session over a stream, on an engine with other sessions", {"sf_alone": ["serve_one"]}),
]


def parted(name):
    """The name of a contract and its clauses, if only some belong to a list."""
    name, _, clauses = name.partition(": ")
    return name, clauses


def named(names):
    """Each contract of a list: crate, name and clauses."""
    for crate, those in names.items():
        for name, clauses in map(parted, those):
            yield crate, name, clauses.split(", ") if clauses else None


class List:
    """What the contracts of a list reach, and what of it no list before has."""

    def __init__(self, sources, item, before):
        self.title, self.names = item
        reach = Reach(sources)
        reach.follow([start(sources, *names) for names in named(self.names)])
        self.all = list(reach.found.values())
        self.more = [definition for key, definition in reach.found.items() if key not in before]


def lists(sources):
    """The lists, in order."""
    before = set()
    for item in LISTS:
        made = List(sources, item, before)
        before |= {definition.key() for definition in made.all}
        yield made


def specs_in(definitions):
    return [d for d in definitions if d.file.suffix == ".antt"]


def by_file(sources, definitions, suffix):
    """The definitions of each file, the crates from the top down."""
    files = {}
    for definition in definitions:
        if definition.file.suffix == suffix:
            files.setdefault((definition.crate, definition.file), []).append(definition)
    order = {crate: -at for at, crate in enumerate(sources.crates)}
    return sorted(files.items(), key=lambda pair: order[pair[0][0]])


def share(source, definitions):
    """Which definitions of a file are to be read."""
    wanted = {d.name for d in definitions}
    others = [name for name in source.own if name not in wanted]
    if not others:
        return "all"
    some = [name for name in source.own if name in wanted]
    return listed(some) if len(some) <= len(others) else f"all but {listed(others)}"


def rows(sources, definitions):
    for (crate, file), those in by_file(sources, definitions, ".antt"):
        source = sources.specs[crate, file.stem]
        says = re.split(r"(?<=[.:]) ", source.head)[0].rstrip(".:")
        yield f"`{crate}/{file}`", says, share(source, those)


def rust_items(sources, definitions):
    """The Rust declarations, by crate."""
    crates = {}
    for (crate, _), those in by_file(sources, definitions, ".rt"):
        crates.setdefault(crate, []).extend(d.name for d in those)
    return " ".join(f"In `{crate}`: {listed(sorted(names))}." for crate, names in crates.items())


def size(definitions):
    """How much there is to read."""
    specs = specs_in(definitions)
    lines = sum(d.lines() for d in specs)
    return (
        f"{number(len(specs), 'definition', 'definitions')}, {number(lines, 'line', 'lines')} "
        f"without comments"
    )


def contracts(names):
    return ", ".join(f"{contracts_of(those)} of `{crate}`" for crate, those in names.items())


def contracts_of(names):
    if not any(": " in name for name in names):
        return listed(names)
    return ", ".join(
        f"`{name}` (clauses {clauses})" if clauses else f"`{name}`"
        for name, clauses in map(parted, names)
    )


def section(sources, made, is_first):
    """The lines of one list."""
    rust = len(made.all) - len(specs_in(made.all))
    reaches = (
        f"Contracts: {contracts(made.names)}. In all {size(made.all)}, and "
        f"{number(rust, 'Rust declaration', 'Rust declarations')}."
    )
    if not is_first:
        reaches += f" Not in a list above: {size(made.more)}."
    yield from ["## " + made.title, "", *wrapped(reaches), ""]
    yield from [*table(["File", "Contents", "Read"], rows(sources, made.more)), ""]
    if rust_items(sources, made.more):
        yield from [*wrapped(f"Rust declarations. {rust_items(sources, made.more)}"), ""]


def page(sources):
    head = (
        "This page lists the definitions that the main contracts name, directly or through other "
        "definitions. To know what a contract says, read these and no others. Bodies and proofs "
        "are not among them. Definitions of Rattle's standard library are taken as known."
    )
    lines = ["# Reading list", "", *wrapped(head), ""]
    for at, made in enumerate(lists(sources)):
        lines += section(sources, made, at == 0)
    return lines[:-1]
