"""Audits the pieces of a long recording side by side, and says of them what `tally` says of one trace.

    tools/host split - PIECES --system FILE --seconds N <RECORDING | tools/host audit-all FILE -
    tools/host audit-all FILE PIECES --parallel | parallel
    tools/host audit-all FILE PIECES --told

FILE is the system file and PIECES the folder of tools/host split, with its table. With `-` the pieces are those whose names come on
standard input, and each is asked about as its name comes. It prints

    verdict=yes                                        verdict=no
    periods=N                                          short NAME from_ns=X got_ns=G of_ns=B, or over with the same,
                                                           for each broken period, by its moment in the recording
    vcpu NAME begun=N judged=N short=N over=N least_ns=X most_ns=Y, for each part on a core

Each period counts once; docs/use/audit.md says what is counted by whom. A program without `tally` is asked `audit`: then the first
broken period of each piece is told, and no counts. --parallel prints for each piece a line that asks about it, and keeps the answer
beside it, as PIECE.told. GNU parallel runs such lines, also on other machines that have the folder. --told takes these answers.

The status is 0 on yes, 1 on no, and 3 where there is no answer: a piece that is missing or that the program does not judge, or of which
other periods are found broken here than it tells; a table that breaks its form. A recording that was cut off, whose table has no last
row, is no yes: `verdict=unknown` where no period of its pieces is broken, and 3."""
import concurrent.futures
import csv
import os
import pathlib
import re
import shlex
import sys
from collections import namedtuple
from dataclasses import dataclass, field

from ..command_line import Refused, counted
from ..program import BROKEN_LINE, TALLY_LINE, Answer, add_program, program_of
from ..system_file import budget_of, read_system
from ..trace import Host, Reader, Server, judged, opened
from .split import TABLE

REFUSED = 3
COUNTS = {"begun": sum, "judged": sum, "short": sum, "over": sum, "least_ns": min, "most_ns": max}
STATUS_LINE = re.compile(r"status (\d+)\n\Z")


@dataclass
class Piece:
    """A piece: where its moment 0 is in the recording, and how many periods of each VCPU are its own."""

    path: pathlib.Path
    from_ns: int = 0
    periods: dict = field(default_factory=dict)


def pieces_of(folder):
    """The pieces of a folder by name, and whether the recording was cut to its end."""
    pieces, whole, path = {}, False, folder / "table.csv"
    with open(path, newline="") as file:
        rows = csv.reader(file)
        if next(rows, None) != TABLE:
            raise Refused(path, 1, "no table of tools/host split, by its header")
        for row in rows:
            numbers = [3] if row[:1] == ["end"] else [1, 2, 3, 5, 6]
            if len(row) != 7 or not all(row[at].isascii() and row[at].isdecimal() for at in numbers):
                raise Refused(path, rows.line_num, "no row of a table of tools/host split")
            if whole:
                raise Refused(path, rows.line_num, "a row behind the last one")
            whole = row[0] == "end"
            if whole:
                continue
            piece = pieces.setdefault(row[0], Piece(folder / row[0], int(row[1])))
            if row[4] in piece.periods or int(row[1]) != piece.from_ns:
                raise Refused(path, rows.line_num, f"another row of {row[4]} in {row[0]}, or another beginning of it")
            piece.periods[row[4]] = int(row[6])
    return pieces, whole


class Broken(namedtuple("Broken", "from_ns place what name got_ns of_ns")):
    """A broken period: where it begins in the recording, and what is told of it. Its order is that in which `audit` tells."""

    def __str__(self):
        return f"{self.what} {self.name} from_ns={self.from_ns} got_ns={self.got_ns} of_ns={self.of_ns}"


def broken_in(piece, servers):
    """Each broken period of a piece that the program has judged. Servers count microseconds."""
    found, places = [], list(servers)
    with opened(piece.path) as file:
        reader = Reader(piece.path, file)
        unit, scale = reader.unit, 1000 // reader.unit

        def told(name, begin, _, got, verdict, __):
            if verdict:
                at = piece.from_ns + begin * unit
                found.append(Broken(at, places.index(name), verdict, name, got * unit, servers[name].budget * 1000))

        scaled = {name: Server(server.period * scale, server.budget * scale, server.extra) for name, server in servers.items()}
        for _ in judged(reader, Host(), scaled, told):
            pass
    return sorted(found)


class Audit:
    """The answers about pieces, summed up."""

    def __init__(self, path, program):
        self.path, self.program, self.system = path, program, read_system(path)
        self.nodes = [part for part in self.system.parts() if self.system.nodes[part.parent].kind == "core"]
        self.counts = {node.name: {key: [] for key in COUNTS} for node in self.nodes}
        self.command = "audit" if program.ask("tally", path, os.devnull).status == 2 else "tally"
        self.broken, self.periods, self.known = [], 0, None

    def servers(self):
        """The servers with their budgets, asked of the program once they are needed."""
        if self.known is None:
            budgets = [budget_of(self.system, node.name, self.program) for node in self.nodes]
            self.known = {node.name: Server(node.period, budget, node.extra) for node, budget in zip(self.nodes, budgets)}
        return self.known

    def ask(self, piece):
        return self.program.ask(self.command, self.path, piece.path)

    def add(self, piece, answer):
        """Takes the answer about a piece."""
        first = BROKEN_LINE.fullmatch(answer.lines[1]) if answer.status == 1 and len(answer.lines) > 1 else None
        if not (answer.is_yes or first):
            raise Refused(piece.path, None, f"the program does not judge it: {answer.shown} (status {answer.status})")
        lines = [found for found in map(TALLY_LINE.fullmatch, answer.lines) if found]
        if self.command == "tally":
            self.count(piece, lines)
        if answer.is_yes:
            self.periods += int(answer.lines[1].removeprefix("periods="))
            return
        told = Broken(piece.from_ns + int(first[3]), list(self.counts).index(first[2]), first[1], first[2], int(first[4]), int(first[5]))
        self.broken += self.looked_up(piece, lines, told) if self.command == "tally" else [told]

    def count(self, piece, lines):
        """Adds the lines of `tally`; of the periods that begin, the piece's own count."""
        if [found[1] for found in lines] != list(self.counts):
            raise Refused(piece.path, None, "the program does not count each part that stands on a core")
        for found in lines:
            own = piece.periods.get(found[1], 0)
            if int(found[2]) < own or (own == 0) != (int(found[2]) == 0):
                raise Refused(piece.path, None, f"the program counts {found[2]} periods of {found[1]}, and the table has {own}")
            for key, text in zip(COUNTS, [str(own), *found.groups()[2:]]):
                self.counts[found[1]][key] += [int(text)] if text != "-" else []

    def looked_up(self, piece, lines, told):
        """The broken periods of a piece, where they are those that the program counts and tells."""
        broken = broken_in(piece, self.servers())
        kinds = [(period.name, period.what) for period in broken]
        fits = all(kinds.count((line[1], what)) == int(line[place]) for line in lines for place, what in ((4, "short"), (5, "over")))
        if not fits or broken[0] != told:
            cause = f"{told.what} {told.name} from_ns={told.from_ns - piece.from_ns} got_ns={told.got_ns} of_ns={told.of_ns}"
            raise Refused(piece.path, None, f"the broken periods that are found in it are not those that the program tells: {cause}")
        return broken

    def text(self, whole):
        told = ["verdict=no", *map(str, sorted(self.broken))]
        if not self.broken:
            told = [f"verdict={'yes' if whole else 'unknown'}", f"periods={self.periods}"]
        for name, counts in self.counts.items() if self.command == "tally" else ():
            numbers = (f"{key}={how(counts[key]) if counts[key] or how is sum else '-'}" for key, how in COUNTS.items())
            told.append(f"vcpu {name} {' '.join(numbers)}")
        return "".join(f"{line}\n" for line in told)


def told_answer(piece):
    path = piece.path.with_name(piece.path.name + ".told")
    text = path.read_text()
    found = STATUS_LINE.search(text)
    if not found or path.stat().st_mtime < piece.path.stat().st_mtime:
        raise Refused(path, None, "no whole answer about the piece as it stands")
    return Answer(int(found[1]), text[:found.start()])


def parallel_line(audit, piece):
    """A line that asks about a piece and keeps the answer."""
    path, kept = shlex.quote(str(piece.path)), shlex.quote(f"{piece.path}.told")
    return f"{shlex.join([*audit.program.words, audit.command, audit.path])} {path} >{kept}; echo \"status $?\" >>{kept}\n"


def asked(audit, folder, names, jobs):
    """Asks about all pieces, so many at a time: those whose names come, as they come, and then those of the table. Answers each with
    its answer, and whether the recording was cut to its end."""
    with concurrent.futures.ThreadPoolExecutor(jobs) as pool:
        going = {}
        for line in names:
            path = pathlib.Path(line.rstrip("\n"))
            folder, going[path.name] = path.parent, pool.submit(audit.ask, Piece(path))
        if folder is None:
            raise Refused("standard input", None, "no name of a piece came")
        pieces, whole = pieces_of(folder)
        going.update({name: pool.submit(audit.ask, piece) for name, piece in pieces.items() if name not in going})
        return [(piece, going[name].result()) for name, piece in counted(pieces.items(), "pieces")], whole


def add_words(parser):
    parser.add_argument("file", metavar="FILE", help="the system file")
    parser.add_argument("pieces", metavar="PIECES", help="the folder of tools/host split; - for names of pieces on standard input")
    parser.add_argument("--jobs", type=int, default=os.cpu_count(), metavar="N", help="so many pieces at a time; else one a processor")
    parser.add_argument("--parallel", action="store_true", help="prints the work as lines for GNU parallel, and asks nothing")
    parser.add_argument("--told", action="store_true", help="takes the answers that such lines kept")
    add_program(parser)


def run(given):
    if given.jobs < 1:
        given.refuse("--jobs is at least 1")
    if given.parallel and given.told or given.pieces == "-" and (given.parallel or given.told):
        given.refuse("--parallel and --told are each of a folder that is whole")
    audit = Audit(given.file, program_of(given.program))
    folder = None if given.pieces == "-" else pathlib.Path(given.pieces)
    if given.parallel:
        return "".join(parallel_line(audit, piece) for piece in pieces_of(folder)[0].values())
    if given.told:
        pieces, whole = pieces_of(folder)
        answers = [(piece, told_answer(piece)) for piece in pieces.values()]
    else:
        answers, whole = asked(audit, folder, sys.stdin if folder is None else (), given.jobs)
    for piece, answer in answers:
        audit.add(piece, answer)
    if audit.command == "audit":
        print("not asked: this program has no `tally`: of each piece the first broken period is told", file=sys.stderr)
    if not whole:
        print(f"{given.pieces}: its table has no last row: the recording was cut off, or is still being cut", file=sys.stderr)
    return audit.text(whole), 1 if audit.broken else 0 if whole else 3
