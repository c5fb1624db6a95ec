"""Draws a recorded trace as an SVG: one row a core and one a VCPU.

TRACE is a trace (docs/use/formats.md); `-` is standard input. The picture's scale has the trace's unit, and so have --from and --until, the
moments between which it is drawn. --around draws a period of a VCPU and two before and behind it: NAME and FROM_NS are those of the
answer of `audit`, `over NAME from_ns=FROM_NS ..`. Without OUT the picture goes to standard output.

With the system file, whose periods and budgets count microseconds, each period of a VCPU is a box that tells the time that it got and
its budget. A period is short where it is over before the end, the VCPU is blocked nowhere in it, and it got less than its
budget; and over where the VCPU has no extra time and got more. A budget that the system file leaves out is given by --budget, or else is
asked of the program, if there is one.

Where the periods of a VCPU are less than 3 pixels wide, they are a band in place of boxes: for each column of 2 pixels the least
and the most that a period of it got, with a line at the middle one (the median), a dashed line at the budget, and below it a mark
where one is short or over. Where a row has more spans than columns, each column is filled by the share of time: a core by which
VCPU had it, a VCPU by the time that it ran, from below, and was blocked, from above.

A trace that breaks the rules of docs/use/formats.md is refused with its line, as far as it is read."""
import argparse
import io
import pathlib
import statistics
import sys
from collections import defaultdict, namedtuple
from dataclasses import dataclass, field

from ..command_line import Refused
from ..program import add_program, program_of
from ..svg import FAINT, GREY, INK, Canvas, marks
from ..system_file import read_system
from ..trace import Host, Reader, Server, judged, opened

PLOT, RIGHT, TOP, LEAST_LEFT = 880, 24, 36, 96
CORE_ROW, VCPU_ROW, BAND, BAR, GAP = 30, 46, 34, 22, 12
COLUMN, LEAST_PERIOD, NARROW, MOST_PERIODS = 2, 3, 12, 3_000_000
COLUMNS = PLOT // COLUMN
# told apart by those who do not see red or green: a test measures it
COLOURS = ["#b0d0f0", "#705070", "#d0f010", "#905030", "#b0f090", "#5030f0", "#90b090", "#d070f0"]
COLOUR_OF = {"short": "#d55e00", "over": "#0072b2", "blocked": "#d9d9d9"}
NOTES = {"short": "short: less than the budget", "over": "over: more than the budget", "blocked": "blocked"}
HATCHES = "\n".join(["<defs>", *(
    f'<pattern id="{what}" width="6" height="6" patternUnits="userSpaceOnUse" patternTransform="rotate({angle})">'
    f'<rect width="2.4" height="6" fill="{COLOUR_OF[what]}" fill-opacity="0.55"/></pattern>'
    for what, angle in (("short", 45), ("over", -45))
), "</defs>"])
WORDS = {1000: "µs", 1: "ns"}


class View(namedtuple("View", "begin end")):
    def x(self, at):
        """The distance of a moment from the left side of the plot."""
        return PLOT * (at - self.begin) / max(self.end - self.begin, 1)

    def column(self, at):
        return min(COLUMNS - 1, (at - self.begin) * COLUMNS // max(self.end - self.begin, 1))

    def edge(self, column):
        """The first moment that belongs to a column."""
        return self.begin + -(-column * (self.end - self.begin) // COLUMNS)


class Spans:
    """Spans of time, each with a key: a list of them, or, where there are more than columns, the time of each key in each column."""

    def __init__(self, view):
        self.view, self.spans, self.shares = view, [], None

    def add(self, start, stop, key):
        start, stop = max(start, self.view.begin), min(stop, self.view.end)
        self.spans += [(start, stop, key)] * (start < stop)
        if len(self.spans) > COLUMNS and self.shares is None:
            self.shares = {}
        while self.spans and self.shares is not None:
            self.share(*self.spans.pop())

    def share(self, start, stop, key):
        columns = self.shares.setdefault(key, [0] * COLUMNS)
        for column in range(self.view.column(start), self.view.column(stop - 1) + 1):
            columns[column] += min(stop, self.view.edge(column + 1)) - max(start, self.view.edge(column))


@dataclass
class Drawn:
    """What is drawn of the periods of a VCPU: boxes, as long as they are wide enough, or else a band."""

    view: View
    server: Server
    boxes: list = field(default_factory=list)
    counts: dict = field(default_factory=lambda: {"short": 0, "over": 0})

    def __post_init__(self):
        self.width = self.view.x(self.view.begin + self.server.period)
        self.is_band = self.width < LEAST_PERIOD
        self.columns, self.broken = ([kind() for _ in range(COLUMNS * self.is_band)] for kind in (list, set))

    def tell(self, start, stop, got, verdict, whole):
        if verdict:
            self.counts[verdict] += 1
        if not self.is_band:
            self.boxes.append((start, stop, got, verdict, whole))
            return
        column = self.view.column(max(start, self.view.begin))
        if whole:
            self.columns[column].append(got)
        if verdict:
            self.broken[column].add(verdict)

    @property
    def amounts(self):
        return [amount for column in self.columns for amount in column]

    def notes(self):
        """What stands below the name of the VCPU: its budget and its period, and where its periods are a band, what they got."""
        server = self.server
        told = [f"{'?' if server.budget is None else server.budget} of {server.period}{' +' if server.extra else ''}"]
        if self.is_band:
            told.append(f"got {min(self.amounts)} to {max(self.amounts)}" if self.amounts else "no whole period")
            told.append("{short} short, {over} over".format(**self.counts))
        return told

    def levels(self):
        """The amounts at the lower and the upper side of a band: a tenth of the most apart at the least."""
        amounts = self.amounts + [self.server.budget or 0]
        least, most = min(amounts), max(amounts)
        spare = max(0, most / 10 - (most - least)) / 2
        return least - spare, max(most + spare, least + 1)


def servers_of(path, given, program, scale):
    """The servers of a system file, by name, in units of which so many are a microsecond."""
    parts = {part.name: part for part in read_system(path).parts()}
    if unknown := [name for name in given if name not in parts]:
        raise Refused(path, None, f"it has no part {unknown[0]}")
    missing, asked = [name for name, part in parts.items() if part.budget is None and name not in given], {}
    try:
        answer = missing and program_of(program).ask("admit", path)
        if answer and answer.status == 0:
            asked = {name: budget for name, (budget, _) in answer.budgets().items()}
        elif answer:
            print(f"{path}: admit gives no budgets: {answer.shown} (status {answer.status})", file=sys.stderr)
    except Refused as refused:
        print(f"{path}: the budget of {missing[0]} is left out, and --budget does not give it: {refused}", file=sys.stderr)
    budgets = {name: given.get(name, part.budget or asked.get(name)) for name, part in parts.items()}
    return {name: Server(part.period * scale, budgets[name] and budgets[name] * scale, part.extra) for name, part in parts.items()}


class Picture(Canvas):
    def __init__(self, view, unit, framed, vcpus, spans, drawn):
        super().__init__()
        self.view, self.unit, self.framed, self.vcpus, self.spans, self.drawn = view, unit, framed, vcpus, spans, drawn
        self.cores, self.colours = list(dict.fromkeys(vcpu.core.name for vcpu in vcpus)), {}
        for core in self.cores:
            names = [vcpu.name for vcpu in vcpus if vcpu.core.name == core]
            self.colours.update({name: COLOURS[place % len(COLOURS)] for place, name in enumerate(names)})
        texts = [(name, 7.3) for name in (*self.cores, *self.colours)]
        texts += [(text, 6.1) for periods in drawn.values() for text in periods.notes()]
        self.left = max([LEAST_LEFT, *(22 + round(len(text) * size) for text, size in texts)])

    def x(self, at):
        return self.left + self.view.x(min(max(at, self.view.begin), self.view.end))

    def box(self, start, stop, y, height, fill, more=""):
        self.rect(self.x(start), y, self.x(stop) - self.x(start), height, fill, more)

    def boxes(self, boxes, fill):
        """Boxes of one colour: x, y, width and height of each."""
        told = "".join(f"M{x:g} {y:.2f}h{width:g}v{height:.2f}h{-width:g}z" for x, y, width, height in boxes if height > 0)
        if told:
            self.path(told, f'fill="{fill}"')

    def label(self, start, stop, y, text, size=11, fill="white"):
        """A text inside a span, where it fits."""
        left, right = self.x(start), self.x(stop)
        if right - left > 0.62 * size * len(text) + 2:
            self.text((left + right) / 2, y, text, "middle", fill, size)

    def name(self, y, name):
        self.text(self.left - 10, y, name, "end", more='font-weight="bold" font-family="monospace"')

    def scale(self, bottom):
        digits = len(str(self.view.end))
        for at in marks(self.view.begin, self.view.end, PLOT // (8 * digits + 12)):
            self.line(self.x(at), TOP - 6, self.x(at), bottom, "#eeeeee")
            self.text(self.x(at), TOP - 12, str(at), "middle", size=11)
        self.text(self.left - 4 * digits - 8, TOP - 12, self.unit, "end", size=11, more='font-weight="bold"')

    def shares(self, spans, fills, y, height, from_above=()):
        """The columns of a row: the shares of the keys, one on the other from below, or from above down."""
        below = [0.0] * COLUMNS
        for key, fill in fills.items():
            boxes = []
            for column, time in enumerate(spans.shares.get(key, ())):
                whole = self.view.edge(column + 1) - self.view.edge(column)
                part = height * time / whole if whole else 0
                top = y if key in from_above else y + height - below[column] - part
                below[column] += 0 if key in from_above else part
                boxes.append((self.left + column * COLUMN, top, COLUMN, part))
            self.boxes(boxes, fill)

    def core(self, name, y):
        self.name(y + 20, name)
        self.rect(self.left, y, PLOT, CORE_ROW, "#f7f7f7", f'stroke="{FAINT}"')
        spans = self.spans["core", name]
        if spans.shares is not None:
            self.shares(spans, self.colours, y, CORE_ROW)
        for start, stop, vcpu in spans.spans:
            colour = self.colours[vcpu]
            self.box(start, stop, y, CORE_ROW, colour, 'stroke="white" stroke-width="0.5"' if self.x(stop) - self.x(start) > 3 else "")
            red, green, blue = (int(colour[place:place + 2], 16) for place in (1, 3, 5))
            self.label(start, stop, y + 20, vcpu, 12, INK if 0.299 * red + 0.587 * green + 0.114 * blue > 140 else "white")

    def vcpu(self, vcpu, y):
        base, fills = y + BAR + 2, {"run": self.colours[vcpu.name], "blocked": COLOUR_OF["blocked"]}
        spans, drawn = self.spans["vcpu", vcpu.name], self.drawn.get(vcpu.name)
        self.rect(self.left - 7, y, 5, BAR, fills["run"])
        self.name(y + 14, vcpu.name)
        for place, note in enumerate(drawn.notes() if drawn else ()):
            self.text(self.left - 10, y + 28 + 12 * place, note, "end", GREY, 10)
        if spans.shares is not None:
            self.shares(spans, fills, y, BAR, ("blocked",))
        for start, stop, what in spans.spans:
            self.box(start, stop, y, BAR, fills[what])
            if what == "blocked":
                self.label(start, stop, y + 15, what, 10, GREY)
        self.line(self.left, base, self.left + PLOT, base, FAINT)
        if self.view.begin <= vcpu.start <= self.view.end:
            self.line(self.x(vcpu.start), y - 3, self.x(vcpu.start), base + 4, INK, 2)
        if drawn and drawn.is_band:
            self.band(drawn, base + 4, fills["run"])
        for period in drawn.boxes if drawn else ():
            self.period(drawn, *period, y, base)
        if self.framed and self.framed[0] == vcpu.name:
            more = f'stroke="{INK}" stroke-width="2" stroke-dasharray="5 3"'
            self.box(self.framed[1], self.framed[1] + drawn.server.period, y - 5, base - y + 26, "none", more)

    def period(self, drawn, start, stop, got, verdict, whole, y, base):
        colour, narrow = COLOUR_OF.get(verdict, INK), drawn.width < NARROW
        top, width = (base, 0.6) if narrow else (y - 3, 1)
        if start >= self.view.begin:
            self.line(self.x(start), top, self.x(start), base + 18, colour, width)
        if stop <= self.view.end and whole:
            self.line(self.x(stop), top, self.x(stop), base + 18, INK, width)
        if verdict:
            self.box(start, stop, base + 2, 16, f"url(#{verdict})")
        if verdict and not narrow:
            self.box(start, stop, y - 2, base - y + 20, "none", f'stroke="{colour}" stroke-width="1.5"')
        budget = "?" if drawn.server.budget is None else drawn.server.budget
        told = f"{got}/{budget}{f' {verdict}' if verdict else ''}{'' if whole else ' so far'}"
        left, right = self.x(start), self.x(stop)
        if verdict and right - left > 6.9 * len(told) + 2:
            self.rect((left + right) / 2 - 3.4 * len(told), base + 3, 6.8 * len(told), 14, "white", 'fill-opacity="0.8"')
        self.label(start, stop, base + 14, told, 11, colour if verdict else GREY)

    def band(self, drawn, y, colour):
        """For each column the least, the middle and the most of what its periods got."""
        budget, height = drawn.server.budget, BAND - 8
        lowest, highest = drawn.levels()
        level = lambda amount: y + height * (highest - amount) / (highest - lowest)
        column_x = lambda place: self.left + place * COLUMN
        spreads, middles = [], []
        for place, column in enumerate(drawn.columns):
            if column:
                spreads.append((column_x(place), level(max(column)), COLUMN, max(1, level(min(column)) - level(max(column)))))
                middles.append((column_x(place), level(statistics.median(column)) - 0.5, COLUMN, 1.5))
        self.rect(self.left, y, PLOT, height, "#f7f7f7")
        self.boxes(spreads, colour)
        self.boxes(middles, INK)
        if budget is not None:
            self.line(self.left, level(budget), self.left + PLOT, level(budget), INK, 1, 'stroke-dasharray="6 4"')
        for verdict, top in (("short", y + height + 1), ("over", y + height + 5)):
            places = [place for place, broken in enumerate(drawn.broken) if verdict in broken]
            self.boxes([(column_x(place), top, COLUMN, 4) for place in places], COLOUR_OF[verdict])

    def legend(self, y):
        x = 10
        for what in ("blocked", "short", "over"):
            self.rect(x, y, 14, 12, COLOUR_OF[what] if what == "blocked" else f"url(#{what})", f'stroke="{COLOUR_OF[what]}"')
            self.text(x + 20, y + 10, NOTES[what], size=11)
            x += 40 + 6.6 * len(NOTES[what])
        bands = any(drawn.is_band for drawn in self.drawn.values())
        told = "band: least to most that periods got, line: the middle, dashes: the budget"
        self.text(x, y + 10, f"{told if bands else 'below each period: time got / budget'}; + has extra time", size=11, fill=GREY)

    def all(self):
        bands = {name for name, drawn in self.drawn.items() if drawn.is_band}
        rows = [(self.core, name, CORE_ROW + GAP) for name in self.cores]
        rows += [(self.vcpu, vcpu, VCPU_ROW + GAP + (BAND - 18 if vcpu.name in bands else 0)) for vcpu in self.vcpus]
        bottom = TOP + sum(height for *_, height in rows)
        self.scale(bottom)
        y = TOP + 4
        for draw, what, height in rows:
            draw(what, y)
            y += height
        self.line(self.left + PLOT, TOP - 6, self.left + PLOT, bottom, INK, 1.5)
        self.legend(bottom + 8)
        return self.whole(self.left + PLOT + max(RIGHT, 4 * len(str(self.view.end))), bottom + 32, HATCHES)


def at_sign(text, sign="@", what="NAME@FROM_NS"):
    name, found, number = text.rpartition(sign)
    if not found or not name or not number.isdecimal():
        raise argparse.ArgumentTypeError(f"{text!r} is not {what}")
    return name, int(number)


def view_of(given, servers, end, scale):
    """What is drawn, and the framed period as its VCPU and its start where one is asked for."""
    view, framed = View(given.since or 0, end if given.until is None else min(end, given.until)), None
    if given.around:
        name, at = given.around
        if name not in servers:
            cause = f"it has no part {name}, whose period is drawn: --around needs the system file"
            raise Refused(given.system or given.trace, None, cause)
        at, period = at * scale // 1000, servers[name].period
        view, framed = View(max(0, at - 2 * period), min(end, at + 3 * period)), (name, at)
    if view.begin >= view.end:
        raise Refused(given.trace, None, f"nothing is between {view.begin} and {view.end}, and the trace ends at {end}")
    for name, server in servers.items():
        if (view.end - view.begin) // server.period > MOST_PERIODS:
            raise Refused(given.trace, None, f"it has more than {MOST_PERIODS} periods of {name}: draw a part of it, by --from and --until")
    return view, framed


def end_of(path, file):
    """The moment of the last row, which must be the end. The file is at its front again then."""
    last = ""
    for line in file:
        last = line.strip() or last
    file.seek(0)
    at, _, rest = last.partition(",")
    if rest.replace('"', "") != ",end," or not at.isdecimal() or len(at) > 19:
        raise Refused(path, None, "its last row is no `end`")
    return int(at)


def picture_of(given):
    with opened(given.trace) as file:
        file = file if file.seekable() else io.StringIO(file.read())
        end = end_of(given.trace, file)
        reader, host = Reader(given.trace, file), Host()
        scale = 1000 // reader.unit
        servers = servers_of(given.system, dict(given.budget), given.program, scale) if given.system else {}
        view, framed = view_of(given, servers, end, scale)
        spans, drawn = defaultdict(lambda: Spans(view)), {name: Drawn(view, server) for name, server in servers.items()}
        tell = lambda name, *period: drawn[name].tell(*period)
        for vcpu, runs, since, until in judged(reader, host, servers, tell, view.begin, view.end):
            spans["vcpu", vcpu.name].add(since, until, "run" if runs else "blocked")
            if runs:
                spans["core", vcpu.core.name].add(since, until, vcpu.name)
    vcpus = [vcpu for vcpu in host.vcpus.values() if vcpu.start is not None]
    if framed and framed[0] not in [vcpu.name for vcpu in vcpus]:
        raise Refused(given.trace, None, f"it has no VCPU {framed[0]} up to {view.end}")
    drawn = {vcpu.name: drawn[vcpu.name] for vcpu in vcpus if vcpu.name in drawn}
    return Picture(view, WORDS[reader.unit], framed, vcpus, spans, drawn).all()


def add_words(parser):
    parser.add_argument("trace", metavar="TRACE", help="the trace; - for standard input")
    parser.add_argument("out", metavar="OUT", nargs="?", help="gets the picture")
    parser.add_argument("--system", metavar="FILE", help="the system file, for periods and budgets")
    parser.add_argument("--budget", action="append", default=[], type=lambda text: at_sign(text, "=", "NAME=SLOTS"), metavar="NAME=SLOTS",
                        help="a budget in place of the system file's")
    parser.add_argument("--from", dest="since", type=int, metavar="AT", help="draws from this moment of the trace on")
    parser.add_argument("--until", type=int, metavar="AT", help="draws up to this moment of the trace")
    parser.add_argument("--around", type=at_sign, metavar="NAME@FROM_NS", help="draws the period of NAME that `audit` tells so")
    add_program(parser)


def run(given):
    if given.around and (given.since is not None or given.until is not None):
        given.refuse("--around says itself from where and until when")
    if given.budget and not given.system:
        given.refuse("--budget is of a system file: --system")
    picture = picture_of(given)
    if given.out is None:
        return picture
    pathlib.Path(given.out).write_text(picture)
