"""How the checks of sources read a repository: the files of its crates, definitions, functions as `rt fmt` lays them out, pages."""
import re
from collections import namedtuple

from . import command_line

TOP = command_line.TOP
ROOMS = {"src": ".rt", "specs": ".antt", "proofs": ".antt"}
NAME = r"[A-Za-z_][A-Za-z0-9_]*"
DEFINITION = re.compile(r"(?:(?:abbrev|unfoldable) )?pub (?:(record|data) )?(?!mod |use )([A-Za-z_][\w'-]*)")
CONSTRUCTORS = re.compile(r"  ([A-Za-z_][\w' -]*?)(?: : |$)")
FUNCTION = re.compile(r"( *)(?:#\[.*\] )?(pub(?:\(\w+\))? )?(?:const |unsafe )*fn (\w+)")
BLOCK = re.compile(r"(?:pub )?(?:trait (\w+)|impl(?:<[^{]*?>)? (?:(?:\w+::)*(\w+)(?:<.*>)? for )?(\w+))")
NO_CODE = re.compile(r"\s*(?:invariant|decreases|requires|ensures|measure|prove!|assert!|ghost\b|use\b|//)")
CLAUSE = re.compile(r" *(?:requires|ensures|ghost)\b")


class File(namedtuple("File", "path module text")):
    @property
    def lines(self):
        return self.text.split("\n")


def crates():
    return sorted(path.name for path in (TOP / "crates").iterdir() if path.is_dir())


def files(crate, *rooms):
    """The files of rooms of a crate."""
    for room in rooms:
        folder = TOP / "crates" / crate / room
        for path in sorted(folder.rglob(f"*{ROOMS[room]}")):
            yield File(path.relative_to(TOP), ".".join(path.relative_to(folder).with_suffix("").parts), path.read_text(encoding="utf-8"))


def page(name):
    return (TOP / name).read_text(encoding="utf-8")


def part_of(text, head):
    """The part of a page below a head."""
    return text.partition(f"\n## {head}\n")[2].partition("\n## ")[0]


def told(lines):
    return "".join(f"{line}\n" for line in lines), int(bool(lines))


def definitions(text):
    """Each definition of a file of specs/: its name, its line and its text; a constructor has no line, and its text is its type's name."""
    found, at, kind = {}, None, None
    for number, line in enumerate(text.split("\n"), 1):
        if begun := DEFINITION.match(line):
            kind, at = begun.groups()
            found[at] = (number, [])
        elif kind == "data" and (made := CONSTRUCTORS.match(line)):
            found.update((name, (None, [at])) for name in made[1].split())
        if at and not line.startswith("--"):
            found[at][1].append(line)
    return {name: (number, "\n".join(lines)) for name, (number, lines) in found.items()}


def used_crates():
    """The crates of crates.txt, lowest first, each with those that it stands on."""
    rows = [line.partition("#")[0].partition(":") for line in page("crates.txt").split("\n")]
    uses, found = {name.split()[0]: used.split() for name, colon, used in rows if colon}, {}

    def add(name):
        for below in uses[name]:
            if below in uses and below not in found:
                add(below)
        found[name] = uses[name]

    for name in uses:
        if name not in found:
            add(name)
    return found


# a function: its module's path, the type or the trait around it, the trait on that type, its name, and whether it is public
Function = namedtuple("Function", "module owner trait name is_public")


class Piece(namedtuple("Piece", "function head body", defaults=[()])):
    """Some lines of a source: the head and the body of a function, or, of what stands between functions, a head alone."""

    @property
    def lines(self):
        return self.head + self.body


def code(lines):
    """The lines that are code, without contracts, invariants and what is only for proofs, each with its place."""
    left_out = ""
    for place, line in enumerate(lines):
        if not left_out and not NO_CODE.match(line):
            yield place, line.split("//")[0]
            continue
        left_out += line
        if line.lstrip().startswith("//") or left_out.count("{") + left_out.count("(") <= left_out.count("}") + left_out.count(")"):
            left_out = ""


def body_at(lines, at):
    """The line behind the one that opens the body of the function at a line, or None where it has no body."""
    space, in_clauses = FUNCTION.match(lines[at])[1], False
    for line in range(at, len(lines)):
        text = lines[line]
        in_clauses = in_clauses or bool(CLAUSE.match(text))
        if text == f"{space}{{" or (text.endswith(" {") and not in_clauses):
            return line + 1
        if text == "}" or line > at and FUNCTION.match(text) or text.endswith(";") and not in_clauses:
            return None
    return None


def pieces(module, text):
    """The pieces of a source, whose lines together are its own. The `}` of a function stands at the front of the next piece."""
    lines, found, between, block, at = text.split("\n"), [], [], (None, None, None), 0
    while at < len(lines):
        if begun := BLOCK.match(lines[at]):
            block = begun.groups()
        fn = FUNCTION.match(lines[at])
        body = body_at(lines, at) if fn else None
        if body is None or f"{fn[1]}}}" not in lines[body:]:
            between.append(lines[at])
            at += 1
            continue
        end = lines.index(f"{fn[1]}}}", body)
        own, trait, owner = block if fn[1] else (None, None, None)
        function = Function(module, owner or own or "", trait, fn[3], fn[2] == "pub ")
        found += [Piece(None, tuple(between)), Piece(function, tuple(lines[at:body]), tuple(lines[body:end]))]
        between, at = [], end
    return [*found, Piece(None, tuple(between))]
