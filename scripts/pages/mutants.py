"""docs/generated/mutants.md: the wrong bodies that the prover must reject."""

from mutants import mutants_of
from pages.layout import listed, number, table, wrapped
from sources import TOP

PATH = "docs/generated/mutants.md"


def row(mutant):
    """A mutant, the function that must be rejected, and the files that it changes."""
    link = f"[{mutant.name}](../../{mutant.path.relative_to(TOP)})"
    function = mutant.function.removeprefix(mutant.crate.name + "::")
    return link, f"`{function}`", listed(dict.fromkeys(file for file, _, _ in mutant.changes))


def page(sources):
    found = {crate: mutants_of(TOP / "crates" / crate) for crate in sources.crates}
    found = {crate: mutants for crate, mutants in found.items() if mutants}
    count = number(sum(map(len, found.values())), "mutant", "mutants")
    head = (
        f"A mutant is a wrong body that the prover must reject. There are {count}, in "
        f"{number(len(found), 'crate', 'crates')}. Each changes code, never a type or a contract, "
        "and names the function that must be rejected. `make mutants` tries them."
    )
    lines = ["# Mutants", "", *wrapped(head), ""]
    for crate, mutants in found.items():
        rows = map(row, mutants)
        lines += [f"## {crate}", "", *table(["Mutant", "Rejected function", "Changes"], rows), ""]
    return lines[:-1]
