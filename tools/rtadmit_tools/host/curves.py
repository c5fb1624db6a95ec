"""A picture of why a budget is the least that will do, as an SVG: what a leaf asks for, and what its budget supplies.

FILE is a system file and PART one of its parts with tasks. Over the length of a window, in slots (microseconds), the picture has
what must be done within any window of that length, and the least that the budget gives in one, with the budget and with one slot
less. Under earliest deadline first the first is the demand of all tasks. Under a fixed priority it is the request of one task, its
work and that of all which rank above it, up to the window in which it must be done: of the task that would be short; or of
TASK; or of the one that ranks last.

The budget and the window that is short are those of `admit FILE`, and they are marked. The curves are computed here, by the formulas
of docs/use/certificate.md; where they do not say the same of the marked window, there is no picture. Where the part itself is refused,
its curve is that of the budget that is too small, or of all slots. Where something else is refused, no budget is told, and there is no
picture of it. A second plot is close around the marked window, where the first does not show what is missing."""
import math
import pathlib
import re
from collections import namedtuple
from dataclasses import dataclass

from ..command_line import Refused
from ..formulas import SCHEDS, demand, first_enough, ranks, request, supply
from ..program import PART_LINE, add_program, program_of
from ..svg import GREY, Canvas, Plot, marks
from ..system_file import read_system

# what a curve is of windows from a first one on, how it is drawn, and its text
Curve = namedtuple("Curve", "of first colour dashes width text")
PLOT, HEIGHT, CLOSE_HEIGHT, TOP = 880, 360, 200, 64
SAMPLES, VISIBLE = 2 * PLOT, 10
# told apart by those who do not see red or green, and by their dashes
ASKED, ENOUGH, LESS = "#000000", "#0072b2", "#d55e00"
DASHES = 'stroke-dasharray="7 4"'
WITNESS_LINE = re.compile(r"witness (\S+) budget=(\d+) start=\d+ span=(\d+) task=(\S+) .*")


def read_leaf(path, name):
    node = read_system(path).nodes.get(name)
    if node is None or node.kind != "part":
        raise Refused(path, None, f"it has no part {name}")
    if not node.tasks:
        raise Refused(path, None, f"{name} has no tasks; the picture is of a part with tasks")
    return node


def task_called(leaf, name):
    names = [task.name for task in leaf.tasks]
    if name not in names:
        raise Refused(None, None, f"{leaf.name} has no task {name}; it has {', '.join(names)}")
    return names.index(name)


# The program
@dataclass
class Told:
    """What the program tells of a leaf: its budget, and the window that is short, of which task, and with which budget."""

    budget: int
    is_computed: bool
    window: int | None = None
    task: str | None = None
    short_budget: int | None = None

    @property
    def passes(self):
        return self.short_budget != self.budget


def told_by(answer, program, path, leaf):
    if answer.status == 1 and answer.lines[:1] == ["verdict=no"]:
        return told_on_no(path, leaf, answer)
    if not answer.is_yes:
        raise Refused(path, None, f"{program} admit tells no budget: {' '.join(answer.lines[:2])} (status {answer.status})")
    told = None
    for line in answer.lines:
        if (found := PART_LINE.fullmatch(line)) and found[1] == leaf.name:
            if int(found[2]) != leaf.period:
                raise Refused(path, None, f"{program} tells a period of {found[2]} of {leaf.name}, and the file {leaf.period}")
            told = Told(int(found[3]), found[4] == "computed")
        elif told and (found := WITNESS_LINE.fullmatch(line)) and found[1] == leaf.name:
            told.short_budget, told.window = int(found[2]), int(found[3])
            told.task = None if found[4] == "-" else found[4]
    if told is None:
        raise Refused(path, None, f"{program} admit tells nothing of {leaf.name}")
    return told


def told_on_no(path, leaf, answer):
    """What a no tells of the leaf: the window of the budget that is given, or of all slots, where it is the leaf that is refused."""
    found = answer.refused_node()
    if not found or found[1] != "part" or found[2] != leaf.name:
        raise Refused(path, None, f"the answer is no, `{' '.join(answer.lines[1:2])}`, and tells no budget of {leaf.name}")
    budget = leaf.period if leaf.budget is None else leaf.budget
    window = int(found[3]) if found[3] else leaf.tasks[task_called(leaf, found[4])].room
    return Told(budget, leaf.budget is None, window, found[4], budget)


# What is drawn
class Curves:
    """The curves of a leaf, checked against what the program tells."""

    def __init__(self, leaf, told, task):
        self.leaf, self.told = leaf, told
        self.task, self.enough = None, None
        if told.passes and told.is_computed and (told.short_budget != told.budget - 1 or told.window is None):
            raise Refused(None, None, f"the program tells no window that is short with {told.budget - 1} slots of {leaf.name}")
        if leaf.sched == "edf":
            if task or told.task:
                raise Refused(None, None, f"{leaf.name} is under edf, and its curve is of all tasks, not of {task or told.task}")
            self.asked = lambda window: demand(leaf.tasks, window)
        else:
            self.rank(task)
        self.check()

    def rank(self, task):
        leaf, told, order = self.leaf, self.told, ranks(self.leaf.sched, self.leaf.tasks)
        place = task_called(leaf, task or told.task or leaf.tasks[order[-1]].name)
        above = [leaf.tasks[other] for other in order[:order.index(place)]]
        self.task = leaf.tasks[place]
        self.asked = lambda window: request(self.task, above, window)
        if told.window is not None and told.task != self.task.name:
            told.window = None
        if told.window is not None and told.window != self.task.room:
            self.differ(f"{self.task.name} must be done within {self.task.room} slots, and the program marks {told.window}")
        if told.passes:
            self.enough = first_enough(self.asked, leaf.period, told.budget, self.task.room)
            if self.enough == 0:
                self.differ(f"no window up to {self.task.room} is enough for {self.task.name} with {told.budget} slots")

    def differ(self, cause):
        raise Refused(None, None, f"{self.leaf.name}: the curves are not those of the program's answer: {cause}")

    def given(self, budget, window):
        return supply(self.leaf.period, budget, window)

    def check(self):
        """Refuses where the marked window is not short with the budget that the program says is too small, or is with the other."""
        told = self.told
        if told.window is None:
            return
        asked = self.asked(told.window)
        for budget, is_short in [(told.short_budget, True), *([(told.budget, False)] if told.passes and self.task is None else [])]:
            got = self.given(budget, told.window)
            if told.window < 1 or (asked > got) != is_short:
                self.differ(f"in {told.window} slots {asked} are asked for, and {budget} slots a period give {got}")

    def levels(self, window):
        """What the smaller budget gives in a window, what is asked for, and what the budget gives."""
        less = self.told.budget - 1 if self.told.passes else self.told.budget
        return self.given(less, window), self.asked(window), self.given(self.told.budget, window)

    def until(self):
        leaf, told = self.leaf, self.told
        if self.task:
            return self.task.room + max(2, self.task.room // 8)
        if told.window is not None:
            return told.window + max(2, told.window // 4)
        horizon = math.lcm(leaf.period, *(task.period for task in leaf.tasks)) + leaf.period
        return min(horizon, 2 * max(task.period for task in leaf.tasks) + leaf.period)

    def curves(self):
        """The curves in the order in which they are drawn."""
        budget = self.told.budget
        what = "demand: work that must be done within a window"
        what = f"request of {self.task.name}: its work and what ranks above it" if self.task else what
        word = "" if self.told.passes else ": too small" if not self.told.is_computed else ": all slots, and too small"
        found = [Curve(lambda window: self.given(budget, window), 0, ENOUGH, "", 3.2, f"least supply with a budget of {budget}{word}")]
        if self.told.passes:
            less = f"least supply with one slot less, {budget - 1}"
            found.append(Curve(lambda window: self.given(budget - 1, window), 0, LESS, DASHES, 1.8, less))
        return [*found, Curve(self.asked, 1 if self.task else 0, ASKED, "", 1.6, what)]


def has(plot, window):
    return window is not None and plot.begin < window < plot.end


def windows(plot, first, exact):
    """The windows at which a curve is computed: all, or those at every half column and some that have to be exact."""
    begin, length = max(first, plot.begin), plot.end - max(first, plot.begin)
    if length <= SAMPLES:
        return range(begin, plot.end)
    near = {window - less for window in exact if has(plot, window) for less in (0, 1)}
    return sorted(near.union(begin + length * place // SAMPLES for place in range(SAMPLES)))


def steps(plot, curve, exact):
    at, *others = windows(plot, curve.first, exact)
    last = plot.y(curve.of(at))
    told = [f"M{plot.x(at):.2f} {last:.2f}"]
    for window in others:
        level = plot.y(curve.of(window))
        if level != last:
            told.append(f"H{plot.x(window):.2f}V{level:.2f}")
            last = level
    return "".join(told) + f"H{plot.x(plot.end):.2f}"


class Picture:
    def __init__(self, curves):
        self.curves, self.drawn, self.canvas = curves, curves.curves(), Canvas()
        self.marked, self.enough = curves.told.window, curves.enough
        until = curves.until()
        highest = max(curve.of(until) for curve in self.drawn)
        left = 44 + 7 * len(str(highest))
        self.plots = [Plot(self.canvas, left, TOP, PLOT, HEIGHT, (0, until), (0, max(1, highest + highest // 20)))]
        self.around = next((window for window in (self.marked, self.enough) if window and self.hides(window)), None)
        if self.around:
            self.plots.append(Plot(self.canvas, left, TOP + HEIGHT + 78, PLOT, CLOSE_HEIGHT, *self.close_range(self.around)))

    def hides(self, window):
        """Whether the first plot is too coarse to see what the smaller budget lacks in a window."""
        less, asked, _ = self.curves.levels(window)
        return self.plots[0].y(less) - self.plots[0].y(asked) < VISIBLE

    def close_range(self, window):
        """The windows and the slots of the second plot, so that what is missing can be seen."""
        less, asked, enough = self.curves.levels(window)
        pad = max(2, asked - less)
        near = less <= enough <= less + 14 * pad
        low, high = max(0, less - pad), pad + (max(asked, enough) if near else asked + pad)
        half = max(6, 2 * (high - low))
        return (max(0, window - half), window + half), (low, high)

    def title(self):
        leaf, told, task = self.curves.leaf, self.curves.told, self.curves.task
        how = "computed" if told.is_computed else "given" if told.passes else "given, and too small"
        budget = "no budget is enough" if told.is_computed and not told.passes else f"budget {told.budget} µs ({how})"
        order = SCHEDS[leaf.sched] + (f", task {task.name}" if task else "")
        self.canvas.title(leaf.name, f"period {leaf.period} µs, {budget}; {order}")

    def mark(self, plot):
        less, asked, _ = self.curves.levels(self.marked)
        left = plot.x(self.marked)
        width = max(2, plot.x(self.marked + 1) - left)
        self.canvas.rect(left, plot.top, width, plot.height, LESS, 'fill-opacity="0.18"')
        self.canvas.rect(left, plot.y(asked), width, max(1, plot.y(less) - plot.y(asked)), LESS, 'fill-opacity="0.6"')

    def draw(self, number, plot):
        canvas, middle = self.canvas, plot.top + plot.height / 2
        if number:
            which = "marked window" if self.around == self.marked else "first window that is enough"
            canvas.text(plot.left, plot.top - 8, f"the same, close around the {which}", fill=GREY, size=11)
        frame = f'<rect x="{plot.left}" y="{plot.top}" width="{PLOT}" height="{plot.height}"/>'
        canvas.lines.append(f'<clipPath id="plot{number}">{frame}</clipPath>')
        plot.scales(((slots, str(slots)) for slots in marks(plot.low, plot.high, plot.height // 24)), "length of the window in slots (µs)")
        canvas.text(16, middle, "slots (µs)", "middle", GREY, 11, f'transform="rotate(-90 16 {middle:g})"')
        canvas.lines.append(f'<g clip-path="url(#plot{number})">')
        if has(plot, self.marked):
            self.mark(plot)
        for curve in self.drawn:
            stroke = f'stroke="{curve.colour}" stroke-width="{curve.width}" {curve.dashes}'
            canvas.path(steps(plot, curve, (self.marked, self.enough)), f'fill="none" {stroke}')
        if has(plot, self.enough):
            canvas.ring(plot.x(self.enough), plot.y(self.curves.asked(self.enough)), ENOUGH)
        canvas.lines.append("</g>")
        plot.frame()

    def legend(self, y):
        """A line for each curve, with its level in the marked window, and one for each mark. Answers where it ends."""
        canvas, told = self.canvas, self.curves.told
        for curve in self.drawn:
            canvas.line(12, y, 44, y, curve.colour, curve.width, curve.dashes)
            canvas.text(52, y + 4, curve.text + (f"; {curve.of(self.marked)} in the marked window" if self.marked else ""))
            y += 20
        if self.marked:
            less, asked, _ = self.curves.levels(self.marked)
            canvas.rect(20, y - 6, 16, 12, LESS, 'fill-opacity="0.4"')
            by_then = ", by which the task must be done" if self.curves.task else ""
            lacks = f"{asked - less} missing with a budget of {told.short_budget}"
            canvas.text(52, y + 4, f"marked window of {self.marked} slots{by_then}: {lacks}")
        else:
            why = "another task is the one that is short" if told.short_budget is not None else "the budget is given"
            canvas.text(52, y + 4, f"no window is marked: {why}", fill=GREY)
        if self.enough:
            y += 20
            canvas.ring(28, y, ENOUGH)
            canvas.text(52, y + 4, f"first window in which a budget of {told.budget} is enough: {self.enough} slots")
        return y + 20

    def text_of(self):
        self.title()
        for number, plot in enumerate(self.plots):
            self.draw(number, plot)
        height = self.legend(self.plots[-1].bottom + 56)
        return self.canvas.whole(round(max(self.canvas.reach + 12, self.plots[-1].right)), height)


def add_words(parser):
    parser.add_argument("file", metavar="FILE", help="the system file")
    parser.add_argument("part", metavar="PART", help="the name of a part with tasks")
    parser.add_argument("out", metavar="OUT", help="gets the picture")
    parser.add_argument("--task", help="under a fixed priority: the task whose request is drawn")
    add_program(parser)


def run(given):
    leaf, program = read_leaf(given.file, given.part), program_of(given.program)
    told = told_by(program.ask("admit", given.file), program.path, given.file, leaf)
    pathlib.Path(given.out).write_text(Picture(Curves(leaf, told, given.task)).text_of())
