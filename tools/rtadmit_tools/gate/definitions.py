"""Tells which definitions docs/proof/model.md lacks in a row under their own crate, and which names of its rows are no definitions.

A part of the page is of the crates that its head names (`CRATE/specs`), else of `slot_model`; in a table with a column for the crate, a
row is of the crate that it or the last row above it names. The status is 1 where something is missing."""
import re

from .. import sources

NAME = re.compile(r"[A-Za-z_][A-Za-z0-9_-]*")
SPAN = re.compile(r"`([^`]+)`")


def rows_of(page):
    """The rows of the page: the crates that each is of, the words that it names, and the first word of each name of its first cell."""
    here, own_column = ["slot_model"], 0
    for line in page.split("\n"):
        if line.startswith("## "):
            here, own_column = re.findall(r"`([a-z_]+)/specs`", line) or ["slot_model"], 0
        elif re.match(r"\| *Crate", line):
            own_column = 1
        elif line.startswith("| " if own_column else "| `"):
            cells = line.strip("|").split("|")
            here = own_column and re.findall(r"`([a-z_]+)`", cells[0]) or here
            words = {word for span in SPAN.findall(line) for word in NAME.findall(span)}
            yield here, words, {span.split()[0] for span in SPAN.findall(cells[own_column])}


def run(given):
    found = {crate: {} for crate in sources.crates()}
    for crate in found:
        for file in sources.files(crate, "specs"):
            found[crate] |= {name: line for name, (line, _) in sources.definitions(file.text).items()}
    rows = list(rows_of(sources.page("docs/proof/model.md")))
    named = {crate: {word for here, words, _ in rows if crate in here for word in words} for crate in found}
    lacking = [(name, crate) for crate, names in found.items() for name in sorted(names) if names[name] and name not in named[crate]]
    first = {name for _, _, names in rows for name in names if NAME.fullmatch(name)}
    known = {*found, *(name for names in found.values() for name in names)}
    return sources.told([
        *(f"docs/proof/model.md lacks {name} of {crate}" for name, crate in lacking),
        *(f"docs/proof/model.md names {name}, which is no definition" for name in sorted(first - known)),
    ])
