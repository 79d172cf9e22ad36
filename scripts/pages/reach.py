"""What a contract reaches: the definitions that it names, and those that these name.

Names are followed by `use` and `ghost use`, to definitions in the crates' specs, to Rust types, and
to the contracts of a trait. Names are compared as text, without those that a definition binds.
Definitions of the standard library are taken as known."""

import re

from sources import WORD, Definition, functions


def bound_names(text):
    """The names that a definition binds by its binders, its lambdas and its `let`s."""
    bound = set()
    for names in re.findall(r"[({]([^(){}:]*?) : ", text):
        bound.update(names.split())
    for names in re.findall(r"λ ([^.]*)\.", text):
        bound.update(WORD.findall(names))
    bound.update(re.findall(r"\blet (\w+) =", text))
    return bound


def words_of(definition):
    """The words of a definition that may name others."""
    text = definition.text
    text = re.sub(r"\b(ensures|requires) \w+ \{", "{", text)
    text = re.sub(r"\bpub [\w' ]+ : ", " ", text)
    text = re.sub(r"([{;]\s*)\w+ = ", r"\1", text)
    bound = bound_names(text)
    words = [word for word in re.findall(r"[^\W\d][\w']*(?:\.[\w']+)*|[^\w\s.'(){}]+", text)]
    patterns = set()
    for line in text.split("\n"):
        side = re.match(rf"^{re.escape(definition.name)} ([^=]*)=", line)
        if side:
            patterns.update(w for w in WORD.findall(side[1]) if w[0].islower() and "." not in w)
    return [word for word in words if word not in bound and word not in patterns]


def meanings(word, scope):
    """The definition that a word stands for, if there is one."""
    first, _, rest = word.partition(".")
    for name in [word, first]:
        meaning = scope.get(name)
        if callable(meaning):
            meaning = meaning(rest.split(".")[0])
        if meaning:
            yield meaning
            return


class Reach:
    """What is reached from some contracts, in the order in which it is found."""

    def __init__(self, sources):
        self.sources = sources
        self.scopes = {}
        self.found = {}

    def scope(self, source):
        if source.path not in self.scopes:
            scope = self.sources.scope_of(source)
            for name, meaning in list(scope.items()):
                if name.startswith("◌"):
                    for sign in filter(None, name.split("◌")):
                        scope[sign] = meaning
            self.scopes[source.path] = scope
        return self.scopes[source.path]

    def follow(self, definitions):
        waiting = list(definitions)
        while waiting:
            definition = waiting.pop(0)
            scope = self.scope(definition.source)
            for word in words_of(definition):
                for meaning in meanings(word, scope):
                    if meaning.key() not in self.found:
                        self.found[meaning.key()] = meaning
                        waiting.append(meaning)


def contract_of(sources, crate, name):
    """The contract of a public function, as a definition to begin from."""
    kind, _, method = name.rpartition("::")
    for (owner, _), source in sources.rust.items():
        if owner != crate:
            continue
        for inside, function, is_public, text in functions(source):
            if is_public and function == method and (inside or "") == kind:
                return Definition(crate, source.file(), name, "fn", text + (" " + kind), source)
    raise LookupError(f"no public function {crate}::{name}")


def start(sources, crate, name, clauses=None):
    """A trait, or the contract of a function, or some of its clauses."""
    item = sources.rust_item(crate, name)
    if item and item.kind == "trait":
        return item
    contract = contract_of(sources, crate, name)
    return with_clauses(contract, clauses) if clauses else contract


def with_clauses(contract, clauses):
    """The contract with its signature and these of its clauses, each of which it must have."""
    signature, *parts = re.split(r"\n\s+(?=(?:ensures|requires) )", contract.text)
    found = {part.split()[1]: part for part in parts}
    text = "\n".join([signature, *(found[name] for name in clauses)])
    return Definition(contract.crate, contract.file, contract.name, "fn", text, contract.source)


def exported(sources, crate):
    """The names that a crate exports; of a program, all public ones."""
    files = {file: source for (owner, file), source in sources.rust.items() if owner == crate}
    lib = files.get("src/lib.rt")
    open_files = list(files.values())
    names = set()
    if lib:
        modules = [re.match(r"^pub mod (\w+);", line) for line in lib.lines]
        open_files = [lib] + [files[f"src/{found[1]}.rt"] for found in modules if found]
        given = [line for line in lib.imports if line.startswith("pub use")]
        names.update(re.findall(r"\w+", " ".join(given)))
    for source in open_files:
        names.update(inside or name for inside, name, _, _ in functions(source))
    return names


def unreached(sources):
    """The spec files that no contract of a public function reaches."""
    starts = []
    for (crate, _), source in sources.rust.items():
        names = exported(sources, crate)
        for inside, function, is_public, text in functions(source):
            if is_public and (inside or function) in names:
                starts.append(Definition(crate, source.file(), function, "fn", text, source))
        starts += [d for d in source.own.values() if d.name in names]
    reach = Reach(sources)
    reach.follow(starts)
    reached_files = {(d.crate, d.file) for d in reach.found.values()}
    return [
        f"crates/{crate}/{source.file()}"
        for (crate, _), source in sources.specs.items()
        if source.own and (crate, source.file()) not in reached_files
    ]
