"""Tells whether docs/work/architecture.md ("What no command calls") names just the functions that no command reaches.

It reads crates/*/src and goes by names. From the program's `main` on, a function is reached where the code of one that is reached has its
name: a free function where it stands in the same file, is imported from its crate or stands behind `::`; a method behind a point, or
behind `::` and its type. A method of a trait on a type is reached where the code that is reached has the name of the type and, of a trait
of this repository, that of the method. Contracts, invariants, proofs and the crates of tests call nothing. What it finds is reached by no
command. Of two methods of one name it may take one for the other, and then finds less.

A row of that table names functions of its crates, methods as `Type::method`, or types with all their methods; what only those call need
not be named. Told is what is reached by no command and not named, and what is named and is reached or not there; the status is 1 where
something is. --list lists all that no command reaches, with how many lines it has, and `tests` where a crate of tests has its name."""
import re
from collections import namedtuple

from .. import sources

PAGE = "docs/work/architecture.md"
IMPORT = re.compile(r"^(pub )?use (\w+)::([^;]*)", re.M)
NAME = re.compile(r"(?:(\w+)(?:::<[^()]*>)?::|(\.))?\b([A-Za-z_]\w*)\b")


class Used(namedtuple("Used", "crate path line about lines imports names")):
    """A function, where it stands and how many lines it has, from which crates its file imports names, and each name of its head and body
    with what stands before it: a type, a crate or a module, a point, or nothing."""

    @property
    def place(self):
        return f"{self.path}:{self.line}"

    @property
    def name(self):
        return self.about.name

    def may_call(self, before, other, handed_on):
        """Whether a name of it, with what stands before that, may be that of another function."""
        if other.about.owner:
            return before == "." or len(before) == 1 or other.about.owner == (self.about.owner if before == "Self" else before)
        if before == "" and other.path == self.path:
            return True
        if before == "." or before[:1].isupper():
            return False
        crates = self.imports.get(before or other.name, before and self.crate), before
        return any(other.crate in (crate, handed_on.get((crate, other.name))) for crate in crates)


def functions_of(crate, file):
    line, imports = 1, {}
    for _, first, rest in IMPORT.findall(file.text):
        imports.update(dict.fromkeys(re.findall(r"\w+", rest), crate if first in ("crate", "super", "self") else first))
    for piece in sources.pieces(file.module, file.text):
        if piece.function:
            found = [name for _, code in sources.code(piece.lines) for name in NAME.findall(code)]
            names = {("." if point else before, name) for before, point, name in found}
            yield Used(crate, file.path, line, piece.function, len(piece.lines) + 1, imports, names)
        line += len(piece.lines)


class Program:
    """All functions but those of the crates of tests, and what calls what."""

    def __init__(self):
        files = [(crate, file) for crate in sources.used_crates() for file in sources.files(crate, "src")]
        every = [function for crate, file in files for function in functions_of(crate, file)]
        self.tested = {name for one in every if one.crate.endswith("_tests") for _, name in one.names}
        self.functions = [one for one in every if not one.crate.endswith("_tests")]
        self.traits = {name for _, file in files for name in re.findall(r"^(?:pub )?trait (\w+)", file.text, re.M)}
        imports = [(crate, *found) for crate, file in files for found in IMPORT.findall(file.text)]
        self.handed_on = {(crate, word): first for crate, pub, first, rest in imports if pub for word in re.findall(r"\w+", rest)}
        self.by_name = {}
        for one in self.functions:
            self.by_name.setdefault(one.name, []).append(one)
        self.reached = self.reached_from(one for one in self.functions if (one.crate, one.name) == ("rtadmit", "main"))

    def reached_from(self, starts):
        reached, todo, seen = set(), list(starts), set()
        while todo:
            reached.update(one.place for one in todo)
            seen.update(word for one in todo for pair in one.names for word in (*pair, one.about.owner))
            called = [other for one in todo for before, name in one.names for other in self.by_name.get(name, ())
                      if not other.about.trait and one.may_call(before, other, self.handed_on)]
            called += [other for other in self.functions if other.about.trait and other.about.owner in seen
                       and (other.about.trait not in self.traits or other.name in seen)]
            todo = list({other.place: other for other in called if other.place not in reached}.values())
        return reached


def add_words(parser):
    parser.add_argument("--list", action="store_true", help="list all that no command reaches")


def run(given):
    program, told, named = Program(), [], []
    unused = [one for one in program.functions if one.place not in program.reached]
    for one in unused if given.list else ():
        name = f"{'pub ' * one.about.is_public}{one.name}{' tests' * (one.name in program.tested)}"
        told.append(f"{one.crate:18} {one.place} {one.lines} {name}")
    listed = len(told)
    for crates, names in re.findall(r"^\| (`.*?) \| (.*?) \|", sources.part_of(sources.page(PAGE), "What no command calls"), re.M):
        for name in re.findall(r"[\w:]+", names):
            found = [one for one in program.functions
                     if f"`{one.crate}`" in crates and name in (one.name, one.about.owner, f"{one.about.owner}::{one.name}")]
            named += found
            told += [f"{PAGE} names {name}, which {crates} does not have"] * (not found)
            told += [f"{PAGE} names {name}, and a command reaches {one.place}" for one in found if one.place in program.reached]
    theirs = program.reached_from(named)
    told += [f"{one.place}: no command reaches {one.name}, and {PAGE} does not name it" for one in unused if one.place not in theirs]
    return sources.told(told)[0], int(len(told) > listed)
