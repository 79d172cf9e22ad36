"""The definitions in the crates' specs and the items of their Rust files, as text, and what their
names mean by `use` and `ghost use`. Names of the standard library mean nothing here."""

import re
from pathlib import Path

TOP = Path(__file__).resolve().parents[2]

WORD = re.compile(r"[^\W\d][\w']*(?:\.[\w']+)*")
START = re.compile(r"^(?:(?:abbrev|unfoldable) pub|pub record|pub data|pub) (?!use |mod )(\S+)")
RUST = re.compile(r"^(?:pub(?:\(\w+\))? )?(struct|enum|trait|const|type) (\w+)")


class Definition:
    """A definition of a spec file, or an item of Rust. Its text has no comments."""

    def __init__(self, crate, file, name, kind, text, source):
        self.crate = crate
        self.file = file
        self.name = name
        self.kind = kind
        self.text = text
        self.source = source

    def key(self):
        return (self.crate, str(self.file), self.name)

    def lines(self):
        return sum(1 for line in self.text.split("\n") if line.strip())


class Source:
    """A file: its definitions by name, the names that stand for them, and what it imports."""

    def __init__(self, crate, path):
        self.crate = crate
        self.path = path
        self.lines = path.read_text(encoding="utf-8").split("\n")
        self.head = " ".join(head_comment(self.lines))
        self.own = {}
        self.makers = {}
        self.imports = []

    def file(self):
        return self.path.relative_to(TOP / "crates" / self.crate)


def head_comment(lines):
    """The comment at the head of a spec file, line by line."""
    for line in lines:
        if not line.startswith("-- "):
            return
        yield line[3:]


def bare(line):
    """A line of specs or Rust without its comment, its attribute and its strings."""
    line = re.sub(r'"(?:[^"\\]|\\.)*"', '""', line)
    line = re.sub(r"(^|\s)--(\s.*|$)", "", line)
    line = re.sub(r"//.*", "", line)
    return "" if line.strip().startswith("#[") else line


def joined_uses(lines):
    """The lines of `use`, each as one line."""
    held = ""
    for line in lines:
        line = re.sub(r"\s+//.*", "", line)
        if held or re.match(r"^ *((unfoldable )?pub )?(ghost )?use ", line):
            held = (held + " " + line.strip()) if held else line
            if held.count("{") == held.count("}"):
                yield held
                held = ""


def named(text):
    """The names in the braces of a `use`, as pairs of the name there and the name here."""
    for part in text.split(","):
        words = part.split()
        if words:
            yield words[0], words[-1]


class Sources:
    """All spec files and all Rust files of the crates."""

    def __init__(self):
        self.crates = [
            line.split(":")[0].split()[0]
            for line in (TOP / "crates.txt").read_text(encoding="utf-8").split("\n")
            if ":" in line and not line.startswith("#")
        ]
        self.specs = {}
        self.rust = {}
        for crate in self.crates:
            for path in sorted((TOP / "crates" / crate / "specs").glob("*.antt")):
                self.specs[crate, path.stem] = read_spec(Source(crate, path))
            for path in sorted((TOP / "crates" / crate / "src").rglob("*.rt")):
                self.rust[crate, str(path.relative_to(TOP / "crates" / crate))] = read_rust(
                    Source(crate, path)
                )
        self.missing = []

    def rust_item(self, crate, name, seen=()):
        """The Rust item of a name that a crate has, or hands on from another one."""
        for (owner, _), source in self.rust.items():
            if owner == crate and name in source.own:
                return source.own[name]
        for (owner, file), source in self.rust.items():
            if owner != crate or not file.endswith("lib.rt") or crate in seen:
                continue
            for line in source.imports:
                found = re.match(r"^pub use (\w+)::", line)
                if found and found[1] in self.crates and re.search(rf"\b{name}\b", line):
                    return self.rust_item(found[1], name, (*seen, crate))
        return None

    def spec_name(self, crate, file, name):
        """The definition of a name that a spec file has, or hands on from another one."""
        source = self.specs.get((crate, file))
        if source is None:
            return None
        found = source.own.get(name) or source.makers.get(name)
        if found:
            return found
        for line in source.imports:
            if " pub use" in " " + line:
                meaning = self.spec_imports(source, [line]).get(name)
                if meaning:
                    return meaning
        return None

    def spec_imports(self, source, lines):
        """What the names that these lines import mean: a definition, or what finds one."""
        scope = {}
        for line in lines:
            found = re.match(r"[ \w]*?\buse Rattle\.(\w+)\.specs\.(.*?);?$", line)
            if not found or found[1] == "std" or found[1] not in self.crates:
                continue
            crate, rest = found[1], found[2]
            if rest.startswith("contracts."):
                continue
            alias = re.search(r" as (\w+)$", rest) if "{" not in rest else None
            rest = rest[: alias.start()] if alias else rest
            names = re.search(r"\{(.*)\}", rest)
            parts = [p for p in rest.split("{")[0].strip(" .").split(".") if p]
            for there, here in named(names[1] if names else ""):
                scope[here] = self.imported(source, crate, parts, there)
            if not names:
                scope[alias[1] if alias else parts[-1]] = self.module(source, crate, parts)
        return scope

    def imported(self, source, crate, parts, name):
        """The definition of a name that is imported from a module of specs."""
        if parts[0] == "declared":
            kind = next(p for p in parts[1:] if p[0].isupper())
            found = self.rust_item(crate, name if kind == "TheConstants" else kind)
        elif len(parts) > 1:
            found = self.spec_name(crate, parts[0], parts[1])
        else:
            found = self.spec_name(crate, parts[0], name)
        if found is None:
            self.missing.append(f"{source.path}: {crate} {'.'.join(parts)} {name}")
        return found

    def module(self, source, crate, parts):
        """What an alias stands for: a type, or a spec file whose names stand behind a dot."""
        if parts[0] == "declared" or len(parts) > 1:
            return self.imported(source, crate, parts, parts[-1])
        return lambda name: self.spec_name(crate, parts[0], name)

    def rust_imports(self, source):
        """What the names mean that a Rust file has by `use`, and its own."""
        scope = {}
        for line in source.imports:
            found = re.match(r"^(?:pub )?use (\w+)::(.*);$", line.strip())
            owner = found[1] if found else None
            owner = source.crate if owner in ("crate", "self", "super") else owner
            if owner in self.crates:
                for name in re.findall(r"\b[A-Z]\w*\b", found[2]):
                    scope[name] = self.rust_item(owner, name)
        scope.update(source.own)
        return scope

    def scope_of(self, source):
        """All that a name of this file may mean."""
        scope = self.rust_imports(source) if source.path.suffix == ".rt" else {}
        scope.update(self.spec_imports(source, source.imports))
        if source.path.suffix == ".antt":
            scope.update(source.makers)
            scope.update(source.own)
        return {name: meaning for name, meaning in scope.items() if meaning}


def moved_out(lines):
    """The lines of a spec file, those of a module over parameters moved out of it."""
    inside = False
    for line in lines:
        if line and not line.startswith(" "):
            inside = line.startswith("module ")
        yield line[2:] if inside and line.startswith("  ") else line


def read_spec(source):
    """A spec file's definitions."""
    source.imports = list(joined_uses(source.lines))
    name, kind, held = None, None, []
    for line in [*moved_out(source.lines), "pub record"]:
        start = START.match(line)
        if start or line == "pub record" or line.startswith("infix"):
            if name:
                put_spec(source, name, kind, held)
            name, kind, held = (start[1], line.split()[1], []) if start else (None, None, [])
        if name and not re.match(r"((unfoldable )?pub )?use ", line):
            held.append(bare(line))
    return source


def put_spec(source, name, kind, held):
    text = "\n".join(line for line in held if line.strip())
    made = Definition(source.crate, source.file(), name, kind, text, source)
    source.own[name] = made
    if kind == "data":
        for maker in re.findall(r"^  ([^\s:]+(?: [^\s:]+)*) :", text, re.M):
            for word in maker.split():
                source.makers.setdefault(word, made)


def read_rust(source):
    """A Rust file's types, traits and constants, each with its model's value."""
    source.imports = list(joined_uses(source.lines))
    for at, line in enumerate(source.lines):
        item = RUST.match(line)
        if item:
            text = "\n".join(map(bare, block(source.lines, at)))
            source.own[item[2]] = Definition(
                source.crate, source.file(), item[2], item[1], text, source
            )
    for at, line in enumerate(source.lines):
        model = re.match(r"^impl(?:<.*?>)? Model for (\w+)", line)
        if model and model[1] in source.own:
            value = re.search(r"ghost Value = \{.*?\};", "\n".join(block(source.lines, at)), re.S)
            if value:
                source.own[model[1]].text = value[0]
    return source


def block(lines, at):
    """From a line of Rust to the end of its item."""
    for end in range(at, len(lines)):
        if lines[end].startswith("}") or (end == at and lines[end].rstrip().endswith((";", "}"))):
            return lines[at : end + 1]
        if lines[end].endswith(";") and not any("{" in line for line in lines[at : end + 1]):
            return lines[at : end + 1]
    return lines[at:]


def functions(source):
    """Each function of a Rust file with its contract: the item that it stands in, its name, whether
    it is public there, and the text of its signature and clauses."""
    owner = None
    for at, line in enumerate(source.lines):
        outer = re.match(
            r"^(?:pub )?(?:impl(?:<.*?>)?|trait) (?:[\w:]+(?:<.*?>)? for )?(\w+)", line
        )
        if outer:
            owner = outer[1]
        elif line.startswith("}"):
            owner = None
        start = re.match(r'^( *)(pub )?(?:extern "C" )?fn (\w+)', line)
        if start:
            text = "\n".join(map(bare, contract(source.lines, at, start[1])))
            is_public = bool(start[2]) or (owner is not None and is_in_trait(source.lines, at))
            yield owner, start[3], is_public, text


def is_in_trait(lines, at):
    """Whether the item that a line stands in is a trait, or a trait's implementation."""
    for line in reversed(lines[:at]):
        if re.match(r"^(pub )?(impl|trait)\b", line):
            return "trait " in line or " for " in line
        if line.startswith("}"):
            return False
    return False


def contract(lines, at, indent):
    """The lines of a function from its name to its body."""
    for end in range(at, len(lines)):
        line = lines[end]
        if line in (indent + "{", indent + "{}") or (end == at and line.endswith(("{", ";", "}"))):
            break
        if end > at and re.match(rf"^{indent}\)", line) and line.endswith("{"):
            yield line
            break
        yield line
        if line.endswith(";") and are_closed(lines[at : end + 1]):
            break


def are_closed(lines):
    """Whether all braces in these lines are closed."""
    text = "".join(lines)
    return text.count("{") == text.count("}")
