"""Tells whether the definitions that only private functions use stand in specs/inner/.

A reader meets a definition of specs/ where a contract of a public item names it, or a definition that the reader meets, or src/ or specs/
of another crate. Public items are what lib.rt hands out: functions, traits, and types with their ghost fields, their invariants and their
public methods. What no reader meets is to stand in specs/inner/. What only proofs of other crates name may stay outside, where
docs/work/architecture.md ("Inside a crate") names its file as `CRATE/FILE`.

Listed are the definitions outside inner that no reader meets, as FILE:LINE: NAME, first those that no other crate names, then those that
only proofs of other crates name, and the status is 1 where there are any. It goes by names, and takes a field for a definition of its
name, so it may find less. --files lists the files in place of the definitions, with how many of theirs they are."""
import re
from collections import Counter, defaultdict

from .. import sources

IMPORT = re.compile(r"\buse Rattle\.(\w+)\.specs\.([\w.+-]+?)(?:\.\{([^}]*)\}| as (\w+))")
NAME = re.compile(r"(?<![\w.'-])(?:(\w+)\.)?([A-Za-z_][\w'-]*)")
HANDED_OUT = re.compile(r"^pub use (\w+)::(?:\{([^}]*)\}|(\w+));", re.M)
ITEM = re.compile(r"(?P<pub>pub )?(?:pub\(\w+\) )?(?:const |unsafe )*"
                  r"(?P<kind>fn|struct|enum|trait|impl|const|static|type|mod|use|ghost|macro_rules!)(?:<[^{]*?>)? "
                  r"(?:(?:\w+::)*(?P<trait>\w+)(?:<.*>)? for )?(?P<name>\w+)")


def imports_of(text):
    """What a file imports, by its name here: a definition as crate, module and name, or a module under another name as crate and module."""
    found = {}
    for crate, module, names, alias in IMPORT.findall(text):
        found.update({alias: (crate, module)} if alias else {})
        for meant, here in re.findall(r"([\w'-]+)(?: as ([\w'-]+))?", names):
            found[here or meant] = crate, module, meant
    return found


def named_in(text, imports):
    """The definitions that a text names, by what its file imports."""
    for before, name in NAME.findall(text):
        meant = imports.get(before or name)
        if meant:
            yield meant if len(meant) == 3 else (*meant, name)


def named_of_others(text, crate):
    """The definitions of other crates that a text names. What is imported by itself is named, since `rt tidy` drops other imports."""
    imports = imports_of(text)
    named = imports.values() if all(len(one) == 3 for one in imports.values()) else named_in(text, imports)
    return {one for one in named if one[0] != crate}


def public_text(file, handed_out, hidden, own):
    """The contracts of a file's public items: their lines but for comments, bodies and, in an `impl` of no trait, private functions."""
    told, is_told, is_whole = [], False, False
    for piece in sources.pieces(file.module, file.text):
        for line in piece.head:
            if begun := ITEM.match(line):
                homes, is_whole = handed_out[begun["name"]], begun["kind"] != "impl" or begun["trait"]
                is_met = begun["pub"] and file.module.split(".")[0] in ("lib", *homes)
                is_told = (homes or begun["name"] not in own) and begun["trait"] not in hidden if begun["kind"] == "impl" else is_met
            if is_told and (is_whole or not piece.function or piece.function.is_public) and not line.lstrip().startswith("//"):
                told.append(line)
    return "\n".join(told)


class House:
    """All definitions, what is named where, and so what a reader meets."""

    def __init__(self):
        self.definitions, self.imports, self.places = {}, {}, {}
        self.met, self.in_proofs = set(), set()
        for crate in sources.crates():
            self.read_specs(crate)
            self.read_sources(crate)
            self.in_proofs = self.in_proofs.union(*(named_of_others(file.text, crate) for file in sources.files(crate, "proofs")))
        self.go_on()

    def read_specs(self, crate):
        """Notes the definitions of a crate, and that a reader meets those of other crates that they name."""
        for file in sources.files(crate, "specs"):
            here, place = sources.definitions(file.text), (crate, file.module)
            self.places[place] = file.path
            self.definitions.update({(*place, name): one for name, one in here.items()})
            self.imports[place] = imports_of(file.text) | {name: (*place, name) for name in here}
            self.met |= named_of_others(file.text, crate)

    def read_sources(self, crate):
        """Notes that a reader meets what public contracts name, and what src/ names of other crates."""
        files, handed_out, named = list(sources.files(crate, "src")), defaultdict(set), defaultdict(set)
        for module, names, name in (found for file in files if file.module == "lib" for found in HANDED_OUT.findall(file.text)):
            for word in re.findall(r"\w+", names or name):
                handed_out[word].add(module)
        for begun in filter(None, (ITEM.match(line) for file in files for line in file.lines)):
            named[begun["kind"]].add(begun["name"])
        hidden = named["trait"] - set(handed_out)
        for file in files:
            told = public_text(file, handed_out, hidden, named["struct"] | named["enum"])
            self.met.update(named_in(told, imports_of(file.text)))
            self.met |= named_of_others(file.text, crate)

    def go_on(self):
        """Notes what the definitions name that a reader meets."""
        todo = [one for one in self.met if one in self.definitions]
        while todo:
            one = todo.pop()
            named = set(named_in(self.definitions[one][1], self.imports[one[:2]])) - self.met
            self.met |= named
            todo += [other for other in named if other in self.definitions]

    def not_met(self):
        for one, (line, _) in self.definitions.items():
            if line and one not in self.met and not one[1].startswith("inner."):
                yield one


def lines_of(found, house, by_file):
    """What is said of definitions that were found: a line each, or one for each of their files."""
    if not by_file:
        return [f"{house.places[one[:2]]}:{house.definitions[one][0]}: {one[2]}" for one in found]
    all_of = Counter(one[:2] for one, (line, _) in house.definitions.items() if line)
    return [f"{house.places[file]}: {count} of {all_of[file]}" for file, count in Counter(one[:2] for one in found).items()]


def add_words(parser):
    parser.add_argument("--files", action="store_true", help="list files in place of definitions")


def run(given):
    house, told = House(), []
    stay = set(re.findall(r"`(\w+)/(\w+)`", sources.part_of(sources.page("docs/work/architecture.md"), "Inside a crate")))
    found = list(house.not_met())
    private = [one for one in found if one not in house.in_proofs]
    proved_with = [one for one in found if one in house.in_proofs and one[:2] not in stay]
    for head, some in (("Only private functions use:", private), ("Only proofs of other crates name:", proved_with)):
        told += [head, *lines_of(some, house, given.files)] if some else []
    return sources.told(told)
