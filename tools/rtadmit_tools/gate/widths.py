"""Lists each line of a contract, a definition or a comment that is wider than 100 columns, and each of a proof that is wider than 120.

Looked at are the lines of clauses and of ghost items in src/, every line in specs/ and proofs/, and comments in all three; never an
import. A text between quotes in a proof counts as one of no letter, since it can't go on on the next line. A line is told as FILE:LINE:
COLUMNS columns, and the status is 1 where there is one."""
import re

from .. import sources
from ..command_line import Refused
from ..sources import CLAUSE

WIDEST, WIDEST_PROOF = 100, 120
IMPORT = re.compile(r"\s*(pub\s+)?(ghost\s+)?use\b")
QUOTED = r'"(\\.|[^"\\])*"'


def of_source(lines):
    """The lines of a source that have to be narrow: clauses and ghost items, with those that each goes on over, and comments."""
    depth = 0
    for number, line in enumerate(lines, 1):
        if is_told := depth > 0 or bool(CLAUSE.match(line) and not IMPORT.match(line)):
            code = re.sub(rf"{QUOTED}|//.*", "", line)
            depth += sum(map(code.count, "({[")) - sum(map(code.count, ")}]"))
        if is_told or re.match(r"\s*//", line):
            yield number, WIDEST, len(line)


def of_logic(lines, is_proof):
    """The lines of specs/ or of proofs/ that have to be narrow."""
    for number, line in enumerate(lines, 1):
        if is_proof and not re.match(r"\s*--", line):
            yield number, WIDEST_PROOF, 0 if IMPORT.match(line) else len(re.sub(QUOTED, '""', line))
        else:
            yield number, WIDEST, 0 if IMPORT.match(line) else len(line)


def add_words(parser):
    parser.add_argument("crates", nargs="*", metavar="CRATE", help="the crates to look at, in place of all")


def run(given):
    wide = []
    for crate in given.crates or sources.crates():
        for room in sources.ROOMS:
            for file in sources.files(crate, room):
                found = of_source(file.lines) if room == "src" else of_logic(file.lines, room == "proofs")
                wide += [f"{file.path}:{line}: {columns} columns, and may have {most}" for line, most, columns in found if columns > most]
    if wide:
        print("\n".join(wide))
        raise Refused(None, None, f"{len(wide)} lines are too wide")
