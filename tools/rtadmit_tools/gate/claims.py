"""Tells which names of crates/NAME/README.md and of docs/proof/claims.md stand nowhere in the sources.

Below "Proved", each name in backquotes is a function, a type, a trait or a ghost item of some crate, a definition of some specs/, or the
label of an `ensures`; a label has to be one of the crate, and of the functions of it that its entry names, where it names one. And each
function that a crate hands out has to be named there. Of docs/proof/claims.md the same for the rows that begin with a command.
Ends with 1 where something is wrong."""
import re

from .. import sources
from ..sources import FUNCTION, NAME


def labels_of(crate):
    """The labels of the clauses of each function of a crate, and its other names."""
    labels, others = {}, set()
    for file in sources.files(crate, "src"):
        kept = set()
        for line in file.lines:
            if found := FUNCTION.match(line):
                kept = labels.setdefault(found[3], set())
            kept.update(re.findall(rf"^\s*ensures ({NAME}) \{{", line))
            others.update(re.findall(rf"\b(?:struct|enum|trait|const) ({NAME})", line), re.findall(rf"^\s*ghost ({NAME})", line))
    return labels, others


def entries(page):
    """The entries below "Proved", each with the lines that it goes on over."""
    part = page.split("\n## Proved", 1)[1].split("\n## ", 1)[0]
    return [" ".join(entry.split()) for entry in part.split("\n- ")[1:]]


def unknown(entry, labels, anywhere):
    """The names of an entry that stand nowhere."""
    names = [span.split("::")[-1] for span in re.findall(r"`([^`]+)`", entry) if re.fullmatch(rf"({NAME}::)*{NAME}", span)]
    known = set().union(*(labels[word] for word in [word for word in names if word in labels] or labels))
    return [word for word in names if word not in known | anywhere]


def of_crate(crate, labels, anywhere):
    name = f"crates/{crate}/README.md"
    if not (sources.TOP / name).exists():
        return [f"{crate} has no README.md"]
    page, root = sources.page(name), sources.TOP / "crates" / crate / "src/lib.rt"
    wrong = [f"{name}: `{word}` is no name of {entry[:60]}.." for entry in entries(page) for word in unknown(entry, labels, anywhere)]
    lists = re.findall(r"^pub use (?:\w+::)+\{?([^;}]*)", root.read_text(), re.M) if root.exists() else []
    handed_out = sorted({word for words in lists for word in re.findall(NAME, words) if word in labels})
    return wrong + [f"{name} does not name {word}" for word in handed_out if not re.search(rf"`({NAME}::)*{word}`", page)]


def of_claims(anywhere):
    rows = re.findall(r"^\| `(\w+)(?: [A-Z]+)*` (\|.*)$", sources.page("docs/proof/claims.md"), re.M)
    known = anywhere | {command for command, _ in rows}
    spans = [span for _, row in rows for span in re.findall(r"`([^`]+)`", row)]
    return [f"docs/proof/claims.md: `{span}` stands nowhere" for span in spans if re.fullmatch(NAME, span) and span not in known]


def run(given):
    found = {crate: labels_of(crate) for crate in sources.crates()}
    specs = [sources.definitions(file.text) for crate in found for file in sources.files(crate, "specs")]
    defined = {name for names in specs for name, (line, _) in names.items() if line}
    anywhere = defined.union(re.findall(NAME, sources.page("crates.txt")), *(set(labels) | others for labels, others in found.values()))
    wrong = [line for crate, (labels, _) in found.items() for line in of_crate(crate, labels, anywhere)]
    labels_anywhere = set().union(*(kept for labels, _ in found.values() for kept in labels.values()))
    return sources.told(wrong + of_claims(anywhere | labels_anywhere))
