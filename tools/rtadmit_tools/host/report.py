"""One page that shows what the program says of a host, and of a recording of it. The page needs nothing else.

FILE is a system file. The page has the verdict in a sentence, which is of VCPUs that do not sleep, and beside it what `isolate` says of
those that do, and of the deadlines of guests that sleep only while they have nothing to do; the cores, with the shares of what stands on
them; a table of the guests, with how much their work may grow (`slack`), their worst response (`responses`) and whether they keep their
budget when others block; and of each guest with tasks the picture of tools/host curves. On a no it has what tools/host why says, and the
budgets that the program computes for each guest by itself. With TRACE it has the verdict of `audit`, of which guests that says nothing,
what `tally` counted, what `steal` says of guests that slept, and the picture of tools/host timeline, around the broken period where there
is one.

Every verdict, budget and number of these columns is the program's; a command that it does not have is told as not asked. The foot has the
words that were asked, the sums of the program and the files, and the commit and the logic that the gate's line of the program's sum tells,
or that no such line is known. The same answers give the same page. Refused is a gate that tells another sum, and a program that says of
itself that it is unproved; that is taken by --unproved, and the page begins with it. The status is 0 also where the verdict is a no."""
import pathlib
import re
from fractions import Fraction
from html import escape

from .. import svg
from ..command_line import Refused, counted, parser_of
from ..formulas import SCHEDS
from ..page import Cell, banner, bars, chips, code, figure, listed, name_of, number, section, soft, table_of, whole
from ..program import add_program, program_of
from ..sealed import add_origin, origin_of, sum_of
from ..system_file import read_admitted
from . import curves, timeline, why

FROM_LINUX = re.compile(r"\s*(?:#.*\n\s*)*#.*\bfrom-linux\b")
YES = """No deadline is missed on any level, in the guests or between them, whenever the periods of each guest begin, with the
budgets below."""
ISOLATED = """Each VCPU keeps its budget, whatever the others do, in every period in whose last slots it does not sleep itself; how many
these are is told below. And each guest keeps its deadlines that sleeps only while it has nothing to do."""
ABOUT = {
    "slack": "Slack: the task that may grow the least, its work, and the most with which all is still admitted.",
    "response": "Response: the task that comes closest to its limit, its worst response, and that limit.",
    "when others block": """When others block: whether the guest keeps its budget all the same. Isolated (T of P): it does in each of its
periods, of P slots, in whose last T it does not block itself. Exposed: others that block and wake at the right moments can take from it
what it was promised; by ties: only where, of periods that end at once, theirs goes first.""",
}
STAND_IN = "Stand-in: nothing is known of its tasks. One slot a second stands for them, and its budget is as it is given."
TALLIED = """Periods that begin in the recording, those that were judged, and the least and the most that a period got: the least of
those that were judged, the most of all."""
STOLEN = """ Stolen is the time in which a guest did not sleep and did not have its core; a period is denied where more of it was stolen
than its length less the budget."""
LINUX = """<b>A host of Linux.</b> Its kernel lets a period begin anew at a wake-up, and the audit counts each guest's periods from its
start. So behind a sleep `over` or `short` may be told of a kernel that kept its own rule (docs/use/audit.md)."""
RTDS_ONLY = "That is of Xen's RTDS; this is a host of Linux, whose kernel goes by another rule (docs/use/guide.md)."
CURVES = """For each length of a window what the guest asks for, and the least that its budget gives; computed by the formulas of
docs/use/certificate.md and compared with the program's answer at the marked window."""
CLAIMS = "What the words mean, what is proved of them and what is not claimed stands in docs/proof/claims.md of rtadmit."
PAPER = {"white": "paper", svg.INK: "ink", svg.GREY: "soft", svg.FAINT: "line", curves.ASKED: "asked"}


def marked(text):
    """A text in which words between backquotes are words of the program."""
    return re.sub("`(.*?)`", r"<code>\1</code>", text)


def names_of(names):
    return ", ".join(map(name_of, names))


class Asked:
    """What the program answers of a file and of a trace: each command is asked once, and one that it does not have is noted."""

    def __init__(self, path, trace, program):
        self.path, self.trace, self.program = path, trace, program
        self.system, self.admit = read_admitted(path, program)
        self.is_linux = bool(FROM_LINUX.match(pathlib.Path(path).read_text(errors="replace")))
        self.answers, self.notes, self.budgets, self.of_part = [(f"admit {path}", self.admit)], [], {}, {}
        self.vcpus = [part for core in self.system.cores() for part in core.children]
        for name in self.vcpus:
            self.take(name)
        self.stand_ins = [part.name for part in self.system.parts() if why.is_stand_in(part)]
        self.leaves = [part.name for part in self.system.parts() if part.tasks and part.name not in self.stand_ins]
        self.responses = [line for line in self.lines("response", "responses", path) if line["name"] not in self.stand_ins]
        self.slacks = [line for name in counted(self.leaves, "slack") for line in self.lines("slack", "slack", path, name)]
        told = self.lines("isolated exposed core", "isolate", path)
        self.isolated = {line["name"]: line for line in told if line["kind"] != "core"}
        self.full = [line for line in told if line["kind"] == "core" and line["budgets"] > line["shortest"]]
        self.audit, self.broken, self.tally, self.stolen = None, None, [], []
        if trace:
            self.audit = self.program.ask("audit", path, trace)
            self.answers.append((f"audit {path} {trace}", self.audit))
            self.broken = next(iter(self.audit.told("short", "over")), None)
            self.tally = self.lines("vcpu", "tally", path, trace, always=True)
            self.stolen = self.lines("vcpu", "steal", path, trace, always=True)

    def take(self, name):
        """Takes the budgets of a guest and of all that stands on it: as admitted, or as the program answers for it by itself."""
        answer = self.admit if self.admit.is_yes else self.program.admit(self.system.alone(name))
        if answer.is_yes or not self.system.nodes[name].children:
            kept = [name, *self.system.below(name)]
            self.budgets.update({part: told for part, told in answer.budgets().items() if part in kept})
            self.of_part.update({part: answer for part in kept})
        else:
            for child in self.system.nodes[name].children:
                self.take(child)

    def ask(self, command, *words, always=False):
        """The answer to a command that a program may not have, or that says nothing where the system is not admitted; or None."""
        if f"`{command}`" in "".join(self.notes):
            return None
        if not always and not self.admit.is_yes:
            self.notes.append(f"not asked: `{command}`, since the answer to `admit` is no yes")
            return None
        answer = self.program.ask(command, *words)
        if answer.status == 2:
            self.notes.append(f"not asked: this program has no `{command}`")
            return None
        self.answers.append((" ".join([command, *words]), answer))
        if answer.status > 1:
            self.notes.append(f"`{command}` is refused: {answer.shown} (status {answer.status})")
        return answer

    def lines(self, kinds, command, *words, always=False):
        answer = self.ask(command, *words, always=always)
        return answer.told(*kinds.split()) if answer else []

    def share(self, name):
        given = self.system.nodes[name].budget
        budget = self.budgets[name][0] if name in self.budgets else given
        return None if budget is None else Fraction(budget, self.system.nodes[name].period)


def percent(share):
    return "–" if share is None else why.percent(share)


class Page:
    def __init__(self, asked, origin):
        self.asked, self.system, self.origin, self.colours = asked, asked.system, origin, {}
        for core in self.system.cores():
            self.colours.update({name: timeline.COLOURS[place % len(timeline.COLOURS)] for place, name in enumerate(core.children)})

    # The verdicts

    def verdict(self):
        answer = self.asked.admit
        if answer.is_yes:
            unknown = f" What runs in {names_of(self.asked.stand_ins)} is not known (stand-in)." if self.asked.stand_ins else ""
            return banner("yes", "Yes, while no VCPU sleeps.", YES + unknown)
        if answer.status == 4:
            return banner("wide", "Nothing is claimed.", f"The periods share too few factors to be judged: {code(answer.lines[1])}")
        found = answer.refused_node()
        if not found:
            return banner("no", "No.", code(answer.shown))
        where = f"in a window of {found[3]} slots more is asked for than is sure to come"
        if found[4]:
            where = f"{name_of(found[4])} is not served in time"
        return banner("no", "No.", f"The {found[1]} {name_of(found[2])} is overfull: {where}.")

    def sleeping(self):
        asked = self.asked
        if not asked.admit.is_yes or not asked.vcpus:
            return ""
        block, ties = ([name for name, line in asked.isolated.items() if line.get("by") == how] for how in ("block", "ties"))
        taken = [f"Others that sleep and wake at the right moments can take from {names_of(block)} what was promised."] if block else []
        taken += [f"{names_of(ties)}: kept only where, of periods that end at once, the first in the file goes first."] if ties else []
        if len(block + ties) < len(asked.isolated):
            taken.append("Each other guest keeps its deadlines that sleeps only while it has nothing to do.")
        taken += ["On {} the budgets come to {budgets}, more than the shortest period of {shortest}.".format(name_of(line["name"]), **line)
                  for line in asked.full]
        if not asked.isolated:
            tone, lead, told = "wide", "If VCPUs sleep: no answer.", marked("Nothing is claimed, since `isolate` did not answer.")
        elif block or ties:
            tone, lead, told = "no", f"If VCPUs sleep: {len(block + ties)} of {len(asked.isolated)} exposed.", " ".join(taken)
        else:
            tone, lead, told = "yes", "If VCPUs sleep: isolated.", ISOLATED
        return banner(tone, lead, f"{told} {RTDS_ONLY if asked.is_linux else ''}".strip())

    def audited(self):
        """What `audit` says, in a sentence, and of whom it says nothing: who never starts, or has no period that was judged."""
        answer, broken, tally = self.asked.audit, self.asked.broken, self.asked.tally
        unjudged = [line for line in tally if line["judged"] == 0]
        absent, begun = ([line["name"] for line in unjudged if (line["begun"] == 0) == never] for never in (True, False))
        without = [f"It lacks {names_of(absent)}."] * bool(absent) + [f"No period of {names_of(begun)} was judged."] * bool(begun)
        if broken:
            how = "less" if broken["kind"] == "short" else "more"
            got = "the period that begins at {from_ns} ns got {got_ns} ns, {how} than its budget of {of_ns} ns".format(how=how, **broken)
            return banner("no", "The recording: no.", f"{name_of(broken['name'])} was {broken['kind']}: {got}. {' '.join(without)}")
        if not answer.is_yes:
            return banner("wide", "The recording was not judged.", code(answer.shown))
        count = answer.told("periods")[0]["periods"]
        lead = "yes" if count and tally and not without else "not of all guests" if count and tally else "no verdict"
        told = [f"No period is short or over; {count} were judged, of all guests together.", *without]
        told += ["So it says nothing of the scheduler."] * (not count)
        told += ["Of whom is not told, since `tally` did not answer."] * (not tally)
        return banner("yes" if lead == "yes" else "wide", f"The recording: {lead}.", marked(" ".join(told)))

    def denied(self):
        """What `steal` says, in a sentence."""
        if not self.asked.stolen:
            return ""
        if denied := [line["name"] for line in self.asked.stolen if line["denied"]]:
            cause = "had so much time stolen in some period that less than the budget was left"
            return banner("no", "Guests that slept: no.", f"{names_of(denied)} {cause}.")
        kept = " Each guest without parts of its own that slept only while it had nothing to do kept its deadlines up to the end."
        kept *= self.asked.admit.is_yes
        return banner("yes", "Guests that slept: yes.", f"In no period was so much time stolen that less than the budget was left.{kept}")

    # The cores

    def core(self, core):
        """The shares of what stands on a core, one beside the other, and what there is."""
        shares = {name: self.asked.share(name) for name in core.children}
        total, full = sum(share or 0 for share in shares.values()), Fraction(core.budget, core.period)
        has = "every slot" if core.budget == core.period else f"{core.budget} of every {core.period} slots, {percent(full)}"
        of = f" of {percent(full)}" if full < 1 else ""
        head = f'<span>{name_of(core.name)}, {SCHEDS[core.sched]}, {has}</span><span>{percent(total)}{of} in use</span>'
        told = bars({name: share or 0 for name, share in shares.items()}, full, self.colours)
        below = chips({name: percent(share) for name, share in shares.items()}, self.colours)
        return f'<div class="core"><div class="head">{head}</div>{told}{below}</div>'

    # The guests

    def guests(self):
        asked = self.asked
        columns = {
            "guest": self.guest, "on": lambda part: Cell(name_of(part.parent), "where"), "period": lambda part: str(part.period),
            "budget": self.budget, "share": lambda part: Cell(percent(asked.share(part.name)), "number"),
        }
        more = {
            "slack": (asked.slacks, lambda part: self.closest(asked.slacks, part, "work", "most", "→")),
            "response": (asked.responses, lambda part: self.closest(asked.responses, part, "worst", "limit", "of")),
            "when others block": (asked.isolated, self.isolation),
        }
        columns.update({word: cell for word, (told, cell) in more.items() if told})
        rows = [[cell(part) for cell in columns.values()] for part in self.system.parts()]
        about = ["Periods and budgets are slots (µs)."]
        about += [] if asked.admit.is_yes else ["The budgets are those that the program computes for each guest by itself."]
        about += [*(ABOUT[word] for word in more if word in columns), *[STAND_IN] * bool(asked.stand_ins)]
        notes = "<br>".join(marked(escape(note)) for note in asked.notes)
        return section("Guests", table_of(list(columns), rows), *(soft(text) for text in (" ".join(about), notes) if text))

    def guest(self, part):
        return name_of(part.name) + (" (stand-in)" if part.name in self.asked.stand_ins else "")

    def budget(self, part):
        told = self.asked.budgets.get(part.name)
        if told is None:
            return Cell("none is enough" if part.budget is None else f"{part.budget} given: too small", "bad")
        return f"{told[0]} {'given' if told[1] else 'computed'}"

    @staticmethod
    def closest(lines, part, key, limit, sign):
        found = max((line for line in lines if line["name"] == part.name), key=lambda line: Fraction(line[key], line[limit]), default=None)
        return name_of(found["task"]) + " " + number(f"{found[key]} {sign} {found[limit]}") if found else "–"

    def isolation(self, part):
        found = self.asked.isolated.get(part.name)
        if not found:
            return "–"
        last = " " + number(f"({found['last']} of {found['of']})") if "last" in found else ""
        how = {None: "isolated", "ties": "exposed by ties", "block": "exposed"}[found.get("by")]
        return Cell(how + last, "bad" if "by" in found else "good")

    # Why a no

    def why(self):
        told = why.Told(self.system, self.asked.admit, self.asked.program)
        head, offers = why.helping(self.system, told, self.asked.program)
        names, *rows = told.table()
        lines = [f"<p>{escape(line)}</p>" for line in told.said()]
        lines.append(table_of(names, [[name_of(row[0]), *map(escape, row[1:])] for row in rows]))
        lines += ["<h3>What helps</h3>", *(f"<p>{escape(line)}</p>" for line in head)]
        for kind, found in why.by_kind(offers):
            lines.append(f"<p>{kind}</p>" + listed(self.offer(offer, answer) for offer, answer in found[:why.MOST_TOLD]))
        return section("Why", *lines)

    def offer(self, offer, answer):
        then = "" if answer.is_yes else f" (then: {answer.shown})"
        return escape(offer.text + then) + code(why.words_of(self.asked.path, offer))

    # The recording

    def recording(self):
        told, broken = [], lambda count: Cell(str(count), "bad" if count else "")
        if self.asked.tally:
            columns = {"guest": "name", "begun": "begun", "judged": "judged", "short": "short", "over": "over", "least (ns)": "least_ns",
                       "most (ns)": "most_ns", **({"denied": "denied", "most stolen (ns)": "stolen_ns"} if self.asked.stolen else {})}
            stolen = {line["name"]: {"denied": line["denied"], "stolen_ns": line["most_ns"]} for line in self.asked.stolen}
            shown = {"name": name_of, "short": broken, "over": broken, "denied": broken}
            plain = lambda value: "-" if value is None else str(value)
            lines = [line | stolen.get(line["name"], {}) for line in self.asked.tally]
            rows = [[shown.get(key, plain)(line.get(key)) for key in columns.values()] for line in lines]
            told = [table_of(list(columns), rows), soft(TALLIED + STOLEN * bool(self.asked.stolen))]
        return section("The recording", f"<p>{marked(LINUX)}</p>" if self.asked.is_linux else "", *told, self.timeline())

    def timeline(self):
        """The picture of the trace, around the period that is told, or of all of it."""
        asked, broken = self.asked, self.asked.broken
        if asked.audit.status > 1:
            return ""
        computed = [f"--budget={name}={budget}" for name, (budget, is_given) in asked.budgets.items() if not is_given]
        words = [asked.trace, "--system", asked.path, *computed]
        words += ["--around", f"{broken['name']}@{broken['from_ns']}"] if broken else []
        return self.drawn(lambda: timeline.picture_of(parser_of("host", "timeline", timeline).parse_args(words)), "paper")

    @staticmethod
    def drawn(picture, kind=""):
        try:
            return figure(picture(), kind)
        except Refused as refused:
            return soft(f"There is no picture of it: {escape(str(refused))}")

    # The curves

    def curves(self):
        leaves = [self.leaf(self.system.nodes[name]) for name in self.asked.leaves]
        return section("What each guest asks for, and what it gets", soft(CURVES), *leaves) if leaves else ""

    def leaf(self, node):
        of_node = lambda lines: {line["task"]: line for line in lines if line["name"] == node.name}
        slacks, responses = of_node(self.asked.slacks), of_node(self.asked.responses)
        columns = {"task": lambda task: name_of(task.name)}
        columns.update({key: lambda task, key=key: str(getattr(task, key)) for key in ("period", "deadline", "jitter", "work")})
        if slacks:
            columns["work at most"] = lambda task: str(slacks[task.name]["most"])
        if responses:
            columns["response"] = lambda task: "{worst} of {limit}".format(**responses[task.name])
        rows = [[cell(task) for cell in columns.values()] for task in node.tasks]
        return f"<h3>{name_of(node.name)}</h3>{table_of(list(columns), rows)}{self.drawn(lambda: self.picture(node))}"

    def picture(self, node):
        """The curves of a leaf, in the colours of the page."""
        told = curves.told_by(self.asked.of_part[node.name], "the program", self.asked.path, node)
        text = curves.Picture(curves.Curves(node, told, None)).text_of()
        for colour, variable in PAPER.items():
            text = text.replace(f'="{colour}"', f'="var(--{variable})"')
        return re.sub(r'( id="|url\(#)(\w+)', rf"\1\2-{node.name}", text)

    # The foot

    def foot(self):
        asked, origin = self.asked, self.origin
        files = [(pathlib.Path(origin.path).name, origin.sum), *((path, sum_of(path)) for path in (asked.path, asked.trace) if path)]
        gate = origin.gate
        left = escape(origin.mark)
        if gate:
            left = f"The gate left a program of this sum: commit {code(gate.commit)}, logic {code(gate.logic)}."
        about = [f"<p>{escape(origin.version)}</p>", f"<p>{left}</p>", listed(code(f"rtadmit {words}") for words, _ in asked.answers)]
        sums = table_of(["file", "SHA-256"], [[code(name), code(told)] for name, told in files])
        return section("What was asked", *about, sums, soft(CLAIMS))

    def text(self):
        lead, _, cause = self.origin.mark.partition(": ")
        mark = banner("no", f"{lead}:", escape(cause)) if cause and self.origin.is_asked_for else ""
        parts = [mark, self.verdict(), self.sleeping(), *([self.audited(), self.denied()] if self.asked.trace else [])]
        parts += [self.why() if self.asked.admit.status == 1 else "", section("Cores", *map(self.core, self.system.cores())), self.guests()]
        parts += [self.recording() if self.asked.trace else "", self.curves(), self.foot()]
        return whole(f"rtadmit: {self.asked.path}", f"Does {self.asked.path} keep its deadlines?", parts)


def add_files(parser):
    parser.add_argument("file", metavar="FILE", help="the system file")
    parser.add_argument("trace", metavar="TRACE", nargs="?", help="a recorded trace")


def add_words(parser):
    add_files(parser)
    parser.add_argument("out", metavar="OUT.html", help="gets the page")
    add_origin(parser)
    add_program(parser)


def run(given):
    program = program_of(given.program)
    page = Page(Asked(given.file, given.trace, program), origin_of(program, given.gate, given.unproved)).text()
    pathlib.Path(given.out).write_text(page, encoding="utf-8")
