"""Why a system is not admitted, in words and numbers, and the smallest changes that help; and where a refused file has its fault.

It asks the program (`admit FILE`). On a no it tells of the node that is told what it serves: for each of its tasks, or of the parts that
stand on it, what is asked for in the window that is told and how large its share is, and what the supply is sure to give in that
window. The numbers are of the formulas of docs/use/certificate.md; where they do not say the same of the window, there is no answer.

Then it looks for changes that make the answer a yes, each by itself, by asking the program about changed copies of the file:

    PART.budget=open      a budget that is given is left out, and the program computes it
    NODE.sched=WORD       a part or a core that goes by a fixed priority goes by another one (dm or rm), or by edf
    PART.TASK.work=N      less work of one task, the most that helps: with one slot more the program does not say yes
    PART.period=N         a shorter period of one part; of the periods that were tried the longest that helps
    PART.parent=CORE      a part that stands on a core is moved to another core: of those that help, that with the least load

`--copy CHANGE` writes the file with a change, with its comments, so that anyone can ask again. Of a stand-in, whose one task is that of
from-xl and from-linux, the budget and the period stay as they are. Where no change helps by itself, those are told with which the program
goes on to a node behind the one that is told. Of each kind the smallest five are told, and with --all all. Of more than 24 tasks, or
parts, those with the greatest shares are tried.

Where the program refuses FILE, or SECOND behind it, it tells the line, the table and the key, or the field of the row, what is wrong there
and the rule of docs/use/formats.md. SECOND is a trace, a workload, a release file, a script, guests for `place` or a certificate, as its
first line says, or --as. The program names the fault, and the place is found by reading the file here once more; where that reading finds
no such fault there, or does not take the file (Python's reader of TOML is one of TOML 1.0), it says so.

The status is that of the program's answer: 0 on yes, 1 on no, 4 on wide, 3 where a file is refused; and 3 where there is no answer."""
import fractions
import math
import pathlib
import shlex
import tomllib
from collections import namedtuple

from .. import faults
from ..command_line import TOP, Refused, counted
from ..formulas import SCHEDS, Task, first_enough, ranks, request, supply, task_of
from ..places import rewritten
from ..program import add_program, program_of
from ..system_file import STAND_IN, budget_of, read_admitted, read_system

# a change that helps: of which kind, how large it is beside others of that kind, and what it is
Offer = namedtuple("Offer", "kind size change text")
REFUSED = 3
MOST_TRIED, MOST_TOLD = 24, 5
INVENTED = [task_of(table) for table in tomllib.loads("[[part]]\n" + STAND_IN)["part"][0]["task"]]
KINDS = {
    "budget": "Leave out a budget that is given:",
    "sched": "Another order of the tasks of a part, or of the parts of a core or a part:",
    "work": "Less work of one task:",
    "period": "A shorter period of one part:",
    "parent": "A part moved to another core:",
}


# Why: what the node that is told serves, and what it gets
def slots(count):
    return f"{count} slot{'s' * (count != 1)}"


def missing(count):
    return f"{count} {'is' if count == 1 else 'are'} missing"


def percent(share):
    return f"{float(100 * share):.2f}%"


def columns(rows):
    """Rows of texts as lines: the first text of each set to the left, the others to the right."""
    widths = [max(map(len, column)) for column in zip(*rows)]
    return ["    " + "  ".join([row[0].ljust(widths[0]), *(text.rjust(width) for text, width in zip(row[1:], widths[1:]))]) for row in rows]


class Told:
    """The node that a no tells, with what it serves as tasks, and its window or its task."""

    def __init__(self, system, answer, program):
        found = answer.refused_node()
        if not found or found[2] not in system.nodes or system.nodes[found[2]].kind != found[1]:
            raise Refused(system.path, None, f"the program's answer tells no node of the file: {answer.shown}")
        self.system, self.node = system, system.nodes[found[2]]
        self.window, self.task = found[3] and int(found[3]), found[4]
        self.budget = self.node.period if self.node.budget is None else self.node.budget
        self.tasks = self.node.tasks or [self.child(name, program) for name in self.node.children]

    def child(self, name, program):
        period = self.system.nodes[name].period
        return Task(name, period, period, budget_of(self.system, name, program), 0)

    def differ(self, cause):
        raise Refused(self.system.path, None, f"{self.node.name}: the formulas do not say what the program does: {cause}")

    def counted(self):
        """The window, and the tasks that count in it, each with its number of jobs and what they ask for."""
        if self.window is not None:
            return self.window, [(task, task.due(self.window), task.due(self.window) * task.work) for task in self.tasks]
        order = [self.tasks[place] for place in ranks(self.node.sched, self.tasks)]
        last = next((place for place, task in enumerate(order) if task.name == self.task), None)
        if last is None:
            self.differ(f"it serves no {self.task}")
        task, above, window = order[last], order[:last], order[last].room
        enough = first_enough(lambda window: request(task, above, window), self.node.period, self.budget, window)
        if enough:
            self.differ(f"{self.task} is served within {slots(enough)}")
        jobs = [(other, other.before(window)) for other in above] + [(task, 1)]
        return window, [(other, count, count * other.work) for other, count in jobs]

    def supplied(self):
        """What the node is, and what its supply is."""
        node = self.node
        order = SCHEDS[node.sched] if node.sched == "listed" else f"under {SCHEDS[node.sched]}"
        if node.kind == "core" and node.budget == node.period:
            gets = "has every slot"
        elif node.budget is None:
            gets = f"has no budget that is enough, not all {slots(node.period)} of every {node.period}"
        else:
            gets = f"has {slots(node.budget)} of every {node.period}"
        return f"The {node.kind} {node.name}, {order}, {gets}."

    def said(self):
        """What the node has, what is asked for, and what is missing."""
        window, rows = self.counted()
        asked, sure = sum(work for _, _, work in rows), supply(self.node.period, self.budget, window)
        if asked <= sure:
            self.differ(f"{slots(asked)} are asked for in {slots(window)}, and {sure} are sure")
        if self.task is None:
            within = f"In a window of {slots(window)} up to {slots(asked)} of work must be done"
            case = f"{within}, and {sure} are sure to come: {missing(asked - sure)}."
        else:
            within = f"{self.task} must be done within {slots(window)}, in which it and what ranks above it ask for up to {asked}."
            case = f"{within} {sure} are sure to come: {missing(asked - sure)}, and no shorter window is enough."
        return [self.supplied(), case]

    def table(self):
        """A row for each task, or part that is served, that counts in the window, and one of all."""
        what = ["task", "period", "deadline", "jitter", "work"] if self.node.tasks else ["part", "period", "budget"]
        told, rows = [[*what, "share", "jobs", "asked for"]], self.counted()[1]
        for task, count, work in rows:
            own = [task.period, task.deadline, task.jitter, task.work] if self.node.tasks else [task.period, task.work]
            told.append([task.name, *map(str, own), percent(share_of(task)), str(count), str(work)])
        total = percent(sum(share_of(task) for task, _, _ in rows))
        return [*told, ["all", *[""] * (len(what) - 1), total, "", str(sum(work for _, _, work in rows))]]


def share_of(task):
    return fractions.Fraction(task.work, task.period)


def is_stand_in(part):
    """Whether a part has the one task that from-xl and from-linux give a part of which only the budget is known."""
    return part.tasks == INVENTED and part.budget is not None


# What helps
class Search:
    """Looks for changes of a system that help, by asking the program about changed copies. It asks about the core in question alone, and
    about the one to which a part is moved, since what stands on other cores has no part in it."""

    def __init__(self, system, told, program, helps):
        self.system, self.told, self.program, self.helps_in = system, told, program, helps
        self.core = system.root(told.node.name)
        self.own = system.only([self.core])
        self.cut = False

    def answer(self, change):
        return self.program.admit(self.own.changed(change))

    def helps(self, change):
        return self.helps_in(self.answer(change))

    def most(self, change, low, high):
        """The greatest of low to high - 1 that helps, by halving, where low does and high does not."""
        while high - low > 1:
            middle = (low + high) // 2
            if self.helps(change + str(middle)):
                low = middle
            else:
                high = middle
        return low

    def parts(self):
        """The parts whose change may help: the one that is told, and those that stand on the node."""
        own = [self.told.node.name] if self.told.node.kind == "part" else []
        return [self.system.nodes[name] for name in [*own, *self.system.below(self.told.node.name)]]

    def largest(self, found, share):
        """Those with the greatest shares, where there are many."""
        self.cut = self.cut or len(found) > MOST_TRIED
        return sorted(found, key=share, reverse=True)[:MOST_TRIED]

    def offers(self):
        searches = (self.budgets, self.orders, self.works, self.periods, self.moves)
        return [offer for search in counted(searches, "kinds of changes that were tried") for offer in search()]

    def known(self):
        """The parts whose change may help, but for stand-ins."""
        return [part for part in self.parts() if not is_stand_in(part)]

    def budgets(self):
        for part in self.known():
            change = f"{part.name}.budget=open"
            if part.budget is None or not self.helps(change):
                continue
            computed = self.answer(change).budgets().get(part.name, (None,))[0]
            now = "another is computed" if computed is None else f"{computed} of every {part.period} is computed"
            size = fractions.Fraction(abs((computed or part.budget) - part.budget), part.period)
            yield Offer("budget", size, change, f"{part.name}: {now}, where {part.budget} was given")

    def orders(self):
        """For each node that goes by a fixed priority the first other one that helps, and earliest deadline first where that does. What
        goes by earliest deadline first passes with no other where it does not pass."""
        cores = [self.told.node] if self.told.node.kind == "core" else []
        for node in self.largest([node for node in cores + self.known() if node.sched != "edf"], self.load):
            helping = [sched for sched in ("dm", "rm", "edf") if sched != node.sched and self.helps(f"{node.name}.sched={sched}")]
            for place, sched in enumerate(dict.fromkeys([*helping[:1], *helping[-1:]])):
                text = f"{node.name}: {SCHEDS[sched]}, where it was {SCHEDS[node.sched]}"
                yield Offer("sched", fractions.Fraction(place), f"{node.name}.sched={sched}", text)

    def works(self):
        tasks = [(part, task) for part in self.parts() for task in part.tasks if task.work > 1]
        for part, task in self.largest(tasks, lambda pair: share_of(pair[1])):
            change = f"{part.name}.{task.name}.work="
            if self.helps(change + "1"):
                most = self.most(change, 1, task.work)
                size = fractions.Fraction(task.work - most, task.period)
                yield Offer("work", size, change + str(most), f"{task.name} of {part.name}: {most}, where it was {task.work}")

    def periods(self):
        """For each part a shorter period that helps: the first of some, each shorter than the one before, and from there on by halving."""
        for part in self.largest(self.known(), self.load):
            change, longer = f"{part.name}.period=", part.period
            for shorter in shorter_periods(part.period):
                if self.helps(change + str(shorter)):
                    most = self.most(change, shorter, longer)
                    size = 1 - fractions.Fraction(most, part.period)
                    yield Offer("period", size, change + str(most), f"{part.name}: {most}, where it was {part.period}")
                    break
                longer = shorter

    def load(self, node):
        """The share that a part has, or of a core what its parts have, as far as the file tells it."""
        if node.kind == "core":
            return sum(self.load(self.system.nodes[name]) for name in node.children) / fractions.Fraction(node.budget, node.period)
        return fractions.Fraction(node.budget, node.period) if node.budget else sum(map(share_of, node.tasks))

    def moves(self):
        """For each part on a core that is told the least loaded other core that takes it."""
        if self.told.node.kind != "core" or len(self.system.cores()) == 1:
            return
        loads = {core.name: self.load(core) for core in self.system.cores() if core is not self.told.node}
        for child in self.largest(self.told.tasks, share_of):
            for core in sorted(loads, key=loads.get):
                change = f"{child.name}.parent={core}"
                if self.helps_in(self.program.admit(self.system.only([self.core, core]).changed(change))):
                    yield Offer("parent", share_of(child), change, f"{child.name}, {percent(share_of(child))} of a core, to {core}")
                    break


def shorter_periods(period):
    """Some shorter periods, from the longest on."""
    some = {period * place // 16 for place in range(1, 16)} | {period // 32, period // 64, period // 128}
    return sorted((shorter for shorter in some if 1 <= shorter < period), reverse=True)


def confirmed(path, program, offers, helps):
    """What the program answers to each change of the whole file, as it is read anew."""
    for offer in offers:
        answer = program.admit(read_system(path).changed(offer.change))
        if not helps(answer):
            raise Refused(path, None, f"{offer.change} helped on its core, and in the whole file it does not: {answer.shown}")
        yield offer, answer


def helping(system, told, program):
    """What is said of the changes that help, and those with what the program answers: such that make it a yes; or else such with
    which it comes to a node behind the one that is told."""
    visited = system.visited()
    behind = set(visited[visited.index(told.node.name) + 1:])
    goes_on = lambda answer: answer.is_yes or bool((found := answer.refused_node()) and found[2] in behind)
    for helps in (lambda answer: answer.is_yes, goes_on):
        search = Search(system, told, program, helps)
        offers = list(confirmed(system.path, program, search.offers(), goes_on))
        if offers:
            break
    yes = [(offer, answer) for offer, answer in offers if answer.is_yes]
    head = "No change that was tried helps by itself."
    if offers:
        head = "No change that was tried makes it a yes by itself. With any one of these the program comes to another node:"
    if yes:
        head = "With any one of these changes the program answers yes:"
    kept = ", ".join(part.name for part in search.parts() if is_stand_in(part))
    notes = [f"({kept}: the task is invented, so budget and period stay as they are.)"] * bool(kept)
    notes += [f"(Of the tasks and parts the {MOST_TRIED} with the greatest shares were tried.)"] * search.cut
    return [head, *notes], yes or offers


def by_kind(offers):
    """What is said of each kind of which there are changes, and those, the smallest first."""
    for kind, head in KINDS.items():
        found = sorted((pair for pair in offers if pair[0].kind == kind), key=lambda pair: pair[0].size)
        if found:
            yield head, found


def words_of(path, offer, why="tools/host why", program="./rtadmit"):
    """The words that show what a change does, from the top of the checkout where no others are given for the tool and the program."""
    return f"{why} {shlex.quote(path)} --copy {shlex.quote(offer.change)} | {program} admit /dev/stdin"


def offer_lines(path, offers, most, asked):
    """The changes by kind, the smallest first, each with the words that show it."""
    why = f"{called('tools/host')} why"
    for head, found in by_kind(offers):
        yield from ("", head)
        for offer, answer in found[:most]:
            then = "" if answer.is_yes else f" (then: {answer.shown})"
            yield f"    {offer.text}{then}"
            yield f"        {words_of(path, offer, why, asked)}"
        if more := len(found) - len(found[:most]):
            yield f"    and {more} more (--all)"


# The words
def called(name):
    """The words by which a file of this checkout is called from where one stands."""
    return shlex.quote(str(TOP / name)) if pathlib.Path.cwd() != TOP else name if "/" in name else f"./{name}"


def judged(path, program, most, asked=None):
    """The status, and what is told. `asked` are the words by which the program is called; without them it is that of this checkout."""
    answer = program.ask("admit", path)
    if answer.status == 3:
        return refused(path, None, None, answer)
    system, answer = read_admitted(path, program, answer)
    if answer.is_yes:
        return 0, [f"{path}: yes. There is nothing to explain."]
    if answer.status == 4:
        return 4, [f"{path}: {answer.shown}", "", *wide_lines(system, answer)]
    told = Told(system, answer, program)
    head, offers = helping(system, told, program)
    offered = offer_lines(path, offers, most, asked or called("rtadmit"))
    return 1, [f"{path}: {answer.shown}", "", *told.said(), "", *columns(told.table()), "", *head, *offered]


def refused(path, second, kind, answer):
    told = faults.lines_of(path, second, kind, answer)
    return 3, [f"{second or path}{f', read as {kind}' if kind else ''}: {answer.shown}", "", *told]


def judged_second(path, second, kind, program):
    """The same of a second file, as what it is or is said to be."""
    kind = kind or faults.kind_of_second(pathlib.Path(second).read_bytes().decode(errors="surrogateescape"))
    answer = program.ask(*faults.words_of(kind, path, second))
    if answer.status == 3:
        return refused(path, second, kind, answer)
    if answer.status not in (0, 1, 4):
        raise Refused(second, None, f"the program does not judge it: {answer.shown} (status {answer.status})")
    rows = faults.refused_rows(path, second, answer) if kind == "script" else []
    return answer.status, [f"{second}, read as {kind}: {answer.shown}. It is taken.", *rows]


def wide_lines(system, answer):
    node = system.nodes.get(answer.lines[1].split()[-1]) if len(answer.lines) > 1 else None
    if node is None:
        raise Refused(system.path, None, f"the program's answer tells no node of the file: {answer.shown}")
    periods = [task.period for task in node.tasks] or [system.nodes[name].period for name in node.children]
    common = math.lcm(node.period, *periods)
    digits = f"The least common multiple of the {len(periods) + 1} periods in it has {len(str(common))} digits"
    yield f"{node.kind} {node.name}: nothing is claimed. {digits}, and the test would have to go up to it."
    yield "Round the periods down to multiples of a few numbers."


def add_words(parser):
    parser.add_argument("file", metavar="FILE", help="the system file")
    parser.add_argument("second", nargs="?", metavar="SECOND", help="a second file that the program refuses")
    parser.add_argument("--as", dest="kind", choices=faults.KINDS_OF_SECOND, help="what SECOND is")
    parser.add_argument("--all", action="store_true", help="tells all changes that help")
    parser.add_argument("--copy", metavar="CHANGE", help="writes the file with this change, and asks nothing")
    add_program(parser)


def run(given):
    if given.copy:
        system = read_system(given.file)
        return rewritten(pathlib.Path(given.file).read_bytes().decode(), system, system.changed(given.copy))
    program = program_of(given.program)
    if given.second:
        status, lines = judged_second(given.file, given.second, given.kind, program)
    else:
        asked = shlex.join(shlex.split(given.program)) if given.program else None
        status, lines = judged(given.file, program, None if given.all else MOST_TOLD, asked)
    return "\n".join(lines) + "\n", status
