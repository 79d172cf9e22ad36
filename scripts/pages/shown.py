"""Definitions that hand-written pages show, cut from the crates' specs.

A page marks each by a comment before a fenced block, and the block is replaced:

    <!-- shown: sf_engine/specs/Promise.antt IsKept -->
"""

import re
from functools import partial

from sources import TOP

MARK = re.compile(r"(<!-- shown: (\w+)/specs/(\w+)\.antt (\S+) -->\n```\n).*?(```\n)", re.S)


def text_of(sources, crate, file, name):
    """The text of a definition, without the words that make it public."""
    source = sources.specs.get((crate, file))
    if source is None or name not in source.own:
        raise LookupError(f"{crate}/specs/{file}.antt does not define {name}, which a page shows")
    text = re.sub(r"^(?:abbrev |unfoldable )?pub ", "", source.own[name].text, flags=re.M)
    return re.sub(r"^  pub ", "  ", text, flags=re.M) + "\n"


def replaced(sources, mark):
    """A marked block, as the sources have it."""
    return mark[1] + text_of(sources, mark[2], mark[3], mark[4]) + mark[5]


def pages(sources):
    """The pages with marked blocks, by path, and what they must have."""
    for path in [TOP / "README.md", *sorted((TOP / "docs").glob("**/*.md"))]:
        text = path.read_text(encoding="utf-8")
        if MARK.search(text):
            yield str(path.relative_to(TOP)), MARK.sub(partial(replaced, sources), text)
