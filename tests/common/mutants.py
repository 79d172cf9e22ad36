"""The crates' mutants: wrong bodies, written as changes of the sources; and what a check of the
prover says of them.

A mutant is a file NAME.edit in a crate's `mutants/`, or in `must-fail/`, which `rt ci` tries too.
It has a line `refuses: FUNCTION`, which names the function that the prover must reject, a line
`file: PATH`, and then pairs of lines `old: TEXT` and `new: TEXT`. Each old text occurs once in its
file when it is replaced. In `must-fail/` the line `refuses` begins with `# `, since `rt` doesn't
know it."""

import re

FOLDERS = ("mutants", "must-fail")

COMPILE_ERROR = re.compile(r"^.*\berror\[.*$", re.M)
PROVED = re.compile(r"^fn (\S+): proved", re.M)
OPEN = re.compile(r"^fn (\S+): no proof: .*did not prove (`[^;\n]*`)", re.M)
ANSWER = re.compile(r"^(?:\./)?proofs/(\S+)/\w+\.antt:\d+:\d+: error: `([^`]*)`: (.*)$", re.M)
TAKEN_AWAY = re.compile(r"has no field|is not in scope|has no `|was not admitted")


class CannotApply(Exception):
    """Says why a mutant can't be made."""


class Mutant:
    """The function that must be rejected; and, in order, each file, its old and its new text."""

    def __init__(self, path):
        self.path, self.crate, self.name = path, path.parent.parent, path.stem
        self.function, self.changes = None, []
        file, old = None, None
        for line in path.read_text(encoding="utf-8").splitlines():
            word, _, text = line.removeprefix("# ").partition(": ")
            if word == "refuses":
                self.function = text
            elif word == "file":
                file = text
            elif word == "old":
                old = text
            elif word == "new":
                self.changes.append((file, old, text))

    def applied(self, texts):
        """These texts of the crate's files, and those that the mutant changes, with its changes."""
        if self.function is None or not self.changes:
            raise CannotApply("it names no function, or changes nothing")
        texts = dict(texts)
        for file, old, new in self.changes:
            text = texts.get(file) or self.text_of(file)
            if text.count(old) != 1 or old == new:
                raise CannotApply(f"{text.count(old)} times in {file}: {old}")
            texts[file] = text.replace(old, new)
        return texts

    def text_of(self, file):
        """The text of a file of its crate."""
        path = self.crate / file
        if not path.is_file():
            raise CannotApply(f"there is no file {file}")
        return path.read_text(encoding="utf-8")


def mutants_of(crate):
    """The mutants in a crate's folder, by their names."""
    paths = [path for folder in FOLDERS for path in (crate / folder).glob("*.edit")]
    return [Mutant(path) for path in sorted(paths, key=lambda path: path.stem)]


class Verdict:
    """Whether a mutant was rejected as it must be, and what is reported of it."""

    def __init__(self, mutant, is_rejected, report):
        self.mutant, self.is_rejected, self.report = mutant, is_rejected, report


def not_tried(mutant, why):
    return Verdict(mutant, False, "NOT TRIED: " + why)


def verdict_on(mutant, printed):
    """What a check says of a mutant, or None if it doesn't judge the mutant's function."""
    goals = open_goals(printed, mutant.function)
    if goals:
        return Verdict(mutant, True, "rejected: " + ", ".join(goals))
    if mutant.function in PROVED.findall(printed):
        return Verdict(mutant, False, f"NOT REJECTED: {mutant.function} is proved")
    return None


def open_goals(printed, function):
    """The goals that a function leaves open: those that the search didn't prove, and those whose
    answer doesn't fit. An answer that names what the mutant took away says nothing of a
    contract."""
    open_ones = [goals for name, goals in OPEN.findall(printed) if name == function]
    found = re.findall(r"`([^`]*)`", " ".join(open_ones))
    for goal, why in wrong_answers(printed, function):
        if not TAKEN_AWAY.search(why):
            found.append(goal)
    return list(dict.fromkeys(found))


def wrong_answers(printed, function):
    """The goals in a function's proof files whose answers don't fit, and why."""
    folder = function.partition("::")[2].replace("::", "/")
    return [(goal, why) for at, goal, why in ANSWER.findall(printed) if at == folder]


def why_not_judged(mutant, printed):
    """What is reported of a mutant whose function isn't judged by a check of this mutant alone."""
    error = COMPILE_ERROR.search(printed)
    if error:
        return not_tried(mutant, f"it does not compile: {error[0]}")
    line = re.search(rf"^fn {re.escape(mutant.function)}: .*$", printed, re.M)
    report = line[0] if line else f"nothing is said of {mutant.function}"
    if wrong_answers(printed, mutant.function):
        report = "a proof names what it took away, which says nothing of the contract"
    return Verdict(mutant, False, "NOT REJECTED for what it does itself: " + report)
