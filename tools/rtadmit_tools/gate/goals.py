"""Lists each goal that a proof cites by a number that only counts, as FILE:LINE: NAME.

Where two steps of a function would have one name, the toolchain counts them, as in `take-requires-2` or `After-cores-2`, so an edit
elsewhere in the function makes of such a goal another one. A value that is named by a `let`, or a smaller function, has a goal without a
number. A number behind `in`, as in `returns-in-100`, is a literal of the source, and counts nothing. The status is 1 where there is one.

--values lists the values that are cited so, as `c.deref-2`, in place of goals; the place in a variant, as `c.in-Some.field-0`, counts
none."""
import re

from .. import sources

ALIAS = re.compile(r"^use Rattle\.[^{}]*\.(?:Goals|Given) as (\w+)$", re.M)
CITED = re.compile(r"(\w*)\.([A-Za-z_+]\w*(?:-\w+)+)")
NO_CODE = re.compile(r"(?:pub )?use\b|\s*--")


def is_counted(name):
    """Whether a part of a name is a number that is no literal."""
    parts = name.split("-")
    return any(part.isdigit() and before != "in" for before, part in zip(parts, parts[1:]))


def cited(text):
    """What a proof cites by a number that only counts: on which line, whether it is a goal, and its name."""
    aliases = set(ALIAS.findall(text))
    for number, line in enumerate(text.split("\n"), 1):
        for before, name in () if NO_CODE.match(line) else CITED.findall(line):
            if is_counted(name) and (before or not name.startswith("field-")):
                yield number, before in aliases, name


def add_words(parser):
    parser.add_argument("crates", nargs="*", metavar="CRATE", help="the crates to look at, in place of all")
    parser.add_argument("--values", action="store_true", help="list values in place of goals")


def run(given):
    files = [file for crate in given.crates or sources.crates() for file in sources.files(crate, "proofs")]
    found = [(file.path, *one) for file in files for one in cited(file.text)]
    return sources.told(dict.fromkeys(f"{path}:{line}: {name}" for path, line, is_goal, name in found if is_goal != given.values))
