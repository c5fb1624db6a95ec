"""Which share of the processor a leaf needs at each period of a range: printed, and drawn as an SVG.

FILE is a system file and PART one of its parts with tasks. For each period from LOW to HIGH, or for N of them (200) where there are
more, it prints the least budget and its share of the period, rounded to millionths of a processor:

    period=10 budget=3 share=0.300000
    period=11 budget=4 share=0.363636

At a period at which no budget passes the line ends with `nothing`. The last line has the best period of the whole range, also where
not all of its periods are printed. The budgets are those of `choose FILE PART PERIOD PERIOD` and the best is that of `choose FILE PART LOW
HIGH`. OUT gets a picture of the lines, with the best marked, and with what the tasks ask for in the long run, which no share can be below.
Where the program tells no periods, its answer is the refusal."""
import concurrent.futures
import os
import pathlib
import re
from collections import namedtuple

from ..command_line import Refused, counted
from ..formulas import SCHEDS
from ..program import add_program, program_of
from ..svg import Canvas, Plot
from .curves import ASKED, DASHES, ENOUGH, HEIGHT, LESS, PLOT, TOP, read_leaf

BEST_LINE = re.compile(r"verdict=yes\nchoose \S+ period=(\d+) budget=(\d+)\n")
NOTHING_LINE = re.compile(r"verdict=no\nnothing over=\d+ wide=\d+\n")


class Need(namedtuple("Need", "period budget")):
    """What a leaf needs at a period: its least budget, or None where none passes."""

    @property
    def share(self):
        return self.budget / self.period

    def line(self):
        return f"period={self.period} " + ("nothing" if self.budget is None else f"budget={self.budget} share={self.share:.6f}")


def choose(program, path, name, low, high):
    """The best period of a range with its budget, or None where none passes at any."""
    answer = program.ask("choose", path, name, low, high)
    if answer.status == 0 and (best := BEST_LINE.fullmatch(answer.text)):
        return Need(int(best[1]), int(best[2]))
    if answer.status == 1 and NOTHING_LINE.fullmatch(answer.text):
        return None
    told = " ".join(answer.text.split()) or "no answer"
    raise Refused(None, None, f"{program.path} choose {path} {name} {low} {high}: {told} (status {answer.status})")


def sample(low, high, most):
    """All periods of a range, or so many of them, evenly apart, the first and the last among them."""
    count = high - low + 1
    return list(range(low, high + 1)) if count <= most else [low + (count - 1) * place // (most - 1) for place in range(most)]


def needs_of(program, path, name, low, high, most):
    """What the leaf needs at the periods of the range, and the best of the whole range, which is among them."""
    best = choose(program, path, name, low, high)
    periods = sorted({*sample(low, high, most), *([best.period] if best else [])})
    with concurrent.futures.ThreadPoolExecutor(os.cpu_count()) as pool:
        found = pool.map(lambda period: choose(program, path, name, period, period) or Need(period, None), periods)
        needs = list(counted(found, "periods", len(periods)))
    for need in needs:
        if best and need.period == best.period and need.budget != best.budget:
            cause = f"at period {best.period} it tells a budget of {need.budget}, and of {best.budget} for the range"
            raise Refused(program.path, None, cause)
    return needs, best


def picture_of(leaf, needs, best):
    asked = sum(task.work / task.period for task in leaf.tasks)
    twentieths = int(max([need.share for need in needs if need.budget is not None] + [asked]) * 20) + 2
    canvas, low = Canvas(), needs[0].period
    plot = Plot(canvas, 72, TOP, PLOT, HEIGHT, (low, max(needs[-1].period, low + 1)), (0, twentieths / 20))
    canvas.title(leaf.name, f"least share of the processor by period; {SCHEDS[leaf.sched]}")
    plot.scales(((part / 20, f"{part / 20:.2f}") for part in range(twentieths + 1)), "period in slots (µs)")
    canvas.line(plot.left, plot.y(asked), plot.left + PLOT, plot.y(asked), ASKED, 1.6, DASHES)
    for need in needs:
        if need.budget is not None:
            canvas.circle(plot.x(need.period), plot.y(need.share), 2, ENOUGH)
        else:
            canvas.line(plot.x(need.period), plot.top, plot.x(need.period), plot.top + 8, LESS, 2)
    if best:
        canvas.ring(plot.x(best.period), plot.y(best.share), ENOUGH)
    plot.frame()
    y = plot.bottom + 56
    if any(need.budget is None for need in needs):
        canvas.line(12, y, 44, y, LESS, 2)
        canvas.text(52, y + 4, "no budget passes at a period with a mark above")
        y += 20
    canvas.line(12, y, 44, y, ASKED, 2, DASHES)
    canvas.text(52, y + 4, f"what the tasks ask for in the long run: {asked:.6f}")
    if best:
        y += 20
        canvas.ring(28, y, ENOUGH)
        canvas.text(52, y + 4, f"best: a budget of {best.budget} in a period of {best.period}, {best.share:.6f}")
    return canvas.whole(round(max(canvas.reach + 12, plot.right)), y + 20)


def at_least_two(word):
    if int(word) < 2:
        raise ValueError(word)
    return int(word)


def add_words(parser):
    parser.add_argument("file", metavar="FILE", help="the system file")
    parser.add_argument("part", metavar="PART", help="the name of a part with tasks")
    parser.add_argument("low", metavar="LOW", type=int, help="the shortest period")
    parser.add_argument("high", metavar="HIGH", type=int, help="the longest period")
    parser.add_argument("out", metavar="OUT", nargs="?", help="gets the picture")
    parser.add_argument("--most", metavar="N", type=at_least_two, default=200, help="how many periods are printed at the most (200)")
    add_program(parser)


def run(given):
    needs, best = needs_of(program_of(given.program), given.file, given.part, given.low, given.high, given.most)
    if given.out:
        pathlib.Path(given.out).write_text(picture_of(read_leaf(given.file, given.part), needs, best))
    return "\n".join([*(need.line() for need in needs), f"best {best.line()}" if best else "best nothing", ""])
