"""A trace of docs/use/formats.md: its rows, which keep its rules, the host that they leave, and the periods of its VCPUs."""
import csv
import functools
import math
from collections import namedtuple
from dataclasses import dataclass, field

from .command_line import Refused
from .system_file import read_system

LONGEST_NS, LAST_NS = 1_000_000_000_000, 1_000_000_000_000_000_000
LONGEST_LINE = 8_192
UNITS = {"at": 1000, "at_ns": 1}
OF_VCPU = ("start", "wake", "block", "run")


def opened(path, newline=None):
    """A file as text, or standard input where the path is -."""
    return open(0 if path == "-" else path, encoding="utf-8-sig", errors="surrogateescape", newline=newline, closefd=path != "-")


def lines_of(path, file):
    """The lines of a file that are not empty, each with its number."""
    number = 0
    while line := file.readline(LONGEST_LINE):
        number += 1
        if len(line) == LONGEST_LINE:
            raise Refused(path, number, f"BadRow: a line of more than {LONGEST_LINE - 1} bytes")
        if line := line.rstrip("\r\n"):
            yield number, line


# A host, as the rows so far leave it
@dataclass(eq=False)
class Core:
    name: str
    holder: "Vcpu | None" = None


@dataclass(eq=False)
class Vcpu:
    """A VCPU: its period and its start, in the trace's unit, and whether it is blocked."""

    name: str
    place: int
    core: Core
    period: int | None = None
    start: int | None = None
    blocked: bool = False


class Host:
    """Cores by name, and VCPUs by name: each as name, core and period. Where there are none it has what a trace names."""

    def __init__(self, cores=(), parts=()):
        self.is_open = not cores
        self.cores, self.vcpus = {name: Core(name) for name in cores}, {}
        for name, core, period in parts:
            self.vcpus[name] = Vcpu(name, len(self.vcpus), self.cores[core], period)

    def meet(self, core, name):
        """Takes in what an open host does not know yet."""
        if self.is_open and core and core not in self.cores:
            self.cores[core] = Core(core)
        if self.is_open and name and name not in self.vcpus:
            self.vcpus[name] = Vcpu(name, len(self.vcpus), self.cores[core])

    @staticmethod
    def act(at, row):
        if row.what == "run":
            row.core.holder = row.vcpu
        elif row.what == "stop":
            row.core.holder = None
        elif row.what == "start":
            row.vcpu.start = at
        elif row.what != "end":
            row.vcpu.blocked = row.what == "block"


# The rows
# what a row says behind its moment; where it breaks a rule by that alone, `fault` tells so
Row = namedtuple("Row", "what core vcpu fault", defaults=[None])


class Reader:
    """The rows of a trace, by the lines of its file. Each is given out before it acts on the host. Where the file may have several traces,
    one behind another, the rows of one end at the header of the next, and `more` says so."""

    def __init__(self, path, file, several=False):
        self.path, self.lines, self.several, self.more = path, lines_of(path, file), several, False
        self.moment = 0
        self.line, line = next(self.lines, (1, ""))
        self.header = ",".join(self.fields(line))
        self.unit = UNITS.get(self.header.partition(",")[0])
        if self.unit is None or not self.header.endswith(",core,what,vcpu") or self.header.count(",") != 3:
            self.refuse("BadHeader: the header is `at,core,what,vcpu` or `at_ns,core,what,vcpu`")

    def refuse(self, cause):
        raise Refused(self.path, self.line, cause)

    def fields(self, line):
        if '"' not in line:
            return line.split(",")
        told = next(csv.reader([line + "\n"]))
        if any("\n" in text for text in told):
            self.refuse("BadRow: a quote that is not closed on its line")
        return told

    def rows(self, host):
        """The moment of each row, and what it says. The end is the last."""
        self.host, self.known, self.ended, self.more = host, {}, False, False
        for self.line, line in self.lines:
            if self.several and line == self.header:
                self.more = True
                return
            if self.ended:
                self.refuse("AfterEnd: an end came before")
            at, row = self.row(line)
            if at < self.moment:
                self.refuse(f"TimeFalls: the moment is less than {self.moment}, that of the row before")
            cause = row.fault or self.breach(row)
            if cause:
                self.refuse(cause)
            self.moment, self.ended = at, row.what == "end"
            yield at, row
        if not self.ended:
            self.line += 1
            self.refuse("NoEnd: no end came: the recording is cut off")

    def row(self, line):
        """The moment of a line, and what it says. What lines say behind their moments comes again and again, and is kept."""
        at, _, rest = line.partition(",")
        row = self.known.get(rest)
        if row is None:
            at, *fields = self.fields(line)
            row = self.spelt(fields)
            if row.fault is None and '"' not in rest:
                self.known[rest] = row
        elif '"' in at:
            at = self.fields(line)[0]
        if not (at.isascii() and at.isdigit()) or at[0] == "0" and len(at) > 1:
            self.refuse(f"BadRow: {at[:40]!r} is no plain number")
        if len(at) > 19 or int(at) * self.unit > LAST_NS:
            self.refuse("OutOfRange: the moment passes what a recording may have")
        return int(at), row

    def spelt(self, fields):
        """What the fields behind a moment say."""
        if len(fields) != 3:
            self.refuse("BadRow: a row has four fields")
        core_name, what, name = fields
        if what not in (*OF_VCPU, "stop", "end"):
            self.refuse(f"BadRow: {what[:40]!r} is no word of a trace")
        if bool(core_name) != (what != "end") or bool(name) != (what in OF_VCPU):
            self.refuse(f"BadRow: a field of `{what}` is empty, or is not")
        self.host.meet(core_name, name)
        core, vcpu = self.host.cores.get(core_name), self.host.vcpus.get(name)
        if core_name and core is None:
            return Row(what, None, None, f"Unknown: {core_name} is no core")
        if name and vcpu is None:
            return Row(what, None, None, f"Unknown: {name} is no part that stands on a core")
        if vcpu and vcpu.core is not core:
            return Row(what, None, None, f"WrongCore: {name} stands on {vcpu.core.name}")
        return Row(what, core, vcpu)

    @staticmethod
    def breach(row):
        what, vcpu = row.what, row.vcpu
        if what == "end":
            return None
        if what == "stop":
            return None if row.core.holder else "CoreIdle: nothing has the core"
        if what == "start":
            return None if vcpu.start is None else f"StartedTwice: a second start of {vcpu.name}"
        if vcpu.start is None:
            return f"NotStarted: {vcpu.name} was not started"
        if what == "wake":
            return None if vcpu.blocked else f"NotBlocked: {vcpu.name} is not blocked"
        if vcpu.blocked:
            return f"NotRunnable: {vcpu.name} is blocked"
        return f"StillRunning: {vcpu.name} has the core" if what == "block" and vcpu.core.holder is vcpu else None


def spans(reader, host, horizon=math.inf):
    """For each time in which a VCPU had its core or was blocked, in the order in which these end: the VCPU, whether it ran, and from when
    until when. What goes on at the end or at the horizon ends there; the reader has that moment then."""
    since = {}
    for at, row in reader.rows(host):
        if row.what == "end" or at > horizon:
            break
        core, vcpu, what = row.core, row.vcpu, row.what
        if (what == "stop" or what == "run" and core.holder is not vcpu) and core.holder:
            yield core.holder, True, since.pop(core), at
        elif what == "wake":
            yield vcpu, False, since.pop(vcpu), at
        if what == "block":
            since[vcpu] = at
        elif what == "run" and core.holder is not vcpu:
            since[core] = at
        host.act(at, row)
    reader.moment = min(at, horizon)
    for key, begun in since.items():
        yield (key.holder, True, begun, reader.moment) if isinstance(key, Core) else (key, False, begun, reader.moment)


# Periods
# what a system file gives a VCPU, in the unit of a trace; the budget may not be known
Server = namedtuple("Server", "period budget extra", defaults=[False])


def parts_of(path):
    """The names of a system file's cores, and its parts that stand on them."""
    system = read_system(path)
    cores = [core.name for core in system.cores()]
    parts = [part for part in system.parts() if part.parent in cores]
    for part in parts:
        if not isinstance(part.period, int) or part.period < 1:
            raise Refused(path, None, f"no system file, by what it has: the period of {part.name} is {part.period}")
    return cores, parts


@dataclass
class Periods:
    """The periods of a VCPU from its start on. Each that ends behind `first` and begins before `last` is told, once time has come to
    its end: when it begins and ends, what the VCPU got, whether it was short or over, or None, and whether it is whole."""

    server: Server
    start: int
    tell: object
    first: float = 0
    last: float = math.inf
    got: int = field(default=0, init=False)
    blocked: bool = field(default=False, init=False)

    def until(self, at):
        """Ends the periods that are over at a moment."""
        period = self.server.period
        while self.start + period <= at:
            before = (min(at, self.first) - self.start) // period
            if before > 1 and self.got == 0:
                self.start += (before - 1) * period
            self.close(self.start + period)
            self.start, self.got, self.blocked = self.start + period, 0, False

    def take(self, runs, start, stop):
        """Takes a time in which the VCPU had its core, or else was blocked; of what is far from those that are told only the rim."""
        period = self.server.period
        start, stop = max(start, min(stop, self.first) - 2 * period), min(stop, self.last + period)
        while start < stop:
            self.until(start)
            until = min(stop, self.start + period)
            if runs:
                self.got += until - start
            else:
                self.blocked = True
            start = until

    def close(self, stop, whole=True):
        budget = self.server.budget
        if stop > self.first and self.start < self.last:
            short = budget is not None and whole and not self.blocked and self.got < budget
            over = budget is not None and not self.server.extra and self.got > budget
            self.tell(self.start, stop, self.got, "short" if short else "over" if over else None, whole)

    def end(self, at):
        """The trace ends, and may cut a period."""
        self.until(min(at, self.last + self.server.period))
        if self.start < at:
            self.close(self.start + self.server.period, whole=False)


def judged(reader, host, servers, tell, first=0, last=math.inf):
    """The spans of a trace, as they come, up to where no period is told any more. Meanwhile the periods of the VCPUs that are in `servers`
    are told, behind the VCPU's name: those that end behind `first` and begin before `last`."""
    periods = {}

    def of(vcpu):
        if vcpu not in periods and vcpu.name in servers:
            periods[vcpu] = Periods(servers[vcpu.name], vcpu.start, functools.partial(tell, vcpu.name), first, last)
        return periods.get(vcpu)

    for span in spans(reader, host, last + max((server.period for server in servers.values()), default=0)):
        if of(span[0]):
            of(span[0]).take(*span[1:])
        yield span
    for vcpu in host.vcpus.values():
        if vcpu.start is not None and of(vcpu):
            of(vcpu).end(reader.moment)
