"""A trace for the auditor, out of what `xenalyze --dump-all` prints of a host under RTDS.

Each line of DUMP has its moment in seconds with nine digits, a field in which the place of the `x` is the physical processor, what
ran there, and the event (docs/use/audit.md). These lines matter, for the VCPUs of the map; the others only move the end:

    rtds:repl_budget d1v0 ..                       its budget is replenished: its first one is its start
    runstate_change d1v0 OLD->running              it has the processor of the line: run
    runstate_change d1v0 running->NEW              it leaves it: stop, unless the next line gives it to a VCPU of the map at the same
                                                   moment, and block where it then sleeps
    runstate_change d1v0 runnable->blocked, ..     block; blocked is `blocked` or `offline`
    runstate_change d1v0 blocked->runnable         wake

Rows begin with a VCPU's start. A replenishment that comes with a wake-up may come late in a period, since RTDS gives a VCPU that slept
past the end of its period its budget when it wakes. So the start is the first replenishment of a VCPU that has run or was preempted since
it last woke; where there is none, it is the first one, and standard error says so. The trace counts nanoseconds from the first start, and
ends with the last line.

With --system the budget that each replenishment tells is compared with that of the part in FILE, the given one or else the one that the
program computes for it: an audit with another budget than the host has says nothing of the host.

Refused, with the line, and nothing written: lost records; changes of a VCPU that do not follow from the ones before; a VCPU that
runs on two processors, or on one that is not in the map; two VCPUs that have one processor; time that falls on a processor or passes
what a trace holds; a VCPU without a replenishment; a change or a replenishment in another form; with --system, a budget that is another
one than the part's, or that a line does not tell."""
import re
import sys
from dataclasses import dataclass, field

from ..command_line import Refused, WrongWords, pairs, refuse_all, several
from ..program import add_program, program_of
from ..system_file import NAME, budget_of, lines_of, read_system

LIMIT_NS = 1_000_000_000_000
LINE = re.compile(r"\]?\s*([0-9]{1,9})\.([0-9]{9}) ([^0-9A-Za-z]*)x([^0-9A-Za-z]*) d[0-9?]+v[0-9?]+\s+(\S.*?)\s*")
CHANGE = re.compile(r"runstate_change (d[0-9]+v[0-9]+) ([a-z]+)->([a-z]+)(?:\s.*)?")
REPLENISHED = re.compile(r"rtds:repl_budget (d[0-9]+v[0-9]+)(?:[\s,].*)?")
BUDGET = re.compile(r"[\s,]budget = ([0-9]{1,18})\b")
RUNNING, RUNNABLE, ASLEEP = "running", "runnable", "asleep"
STATES = {"running": RUNNING, "runnable": RUNNABLE, "blocked": ASLEEP, "offline": ASLEEP}


@dataclass(slots=True)
class Event:
    """A change or a replenishment of a VCPU of the map: its line, moment and processor, the states of a change, and of a replenishment the
    state that it finds, where that is known, and the budget that it tells."""

    line: int
    at: int
    cpu: int
    vcpu: str
    old: str | None = None
    new: str | None = None
    budget_ns: int | None = None


@dataclass
class Vcpu:
    """What the events tell of a VCPU: where it runs, its start, and its state there."""

    key: str
    name: str
    cpu: int | None = None
    state: str | None = None
    first: str | None = None
    woken: bool = False
    starts: list = field(default_factory=list)
    on_time: list = field(default_factory=list)


def event_of(path, line, text, known):
    """The moment and the processor of a line, and its event where it is one of a VCPU of the map."""
    if "lost_records" in text:
        raise Refused(path, line, "records were lost: record fewer seconds, or with larger buffers (xentrace -S)")
    found = LINE.fullmatch(text)
    if not found:
        if "runstate_change" in text or "rtds:" in text:
            raise Refused(path, line, "no line of `xenalyze --dump-all`: no moment with nine digits, or no processor")
        return None
    event = Event(line, int(found[1]) * 1_000_000_000 + int(found[2]), len(found[3]), "")
    change, replenished = CHANGE.fullmatch(found[5]), REPLENISHED.fullmatch(found[5])
    kind = next((kind for kind in ("runstate_change", "rtds:repl_budget") if found[5].startswith(kind)), None)
    if kind and not (change or replenished):
        raise Refused(path, line, f"no text of a {kind}")
    if change and change[1] in known:
        if change[2] not in STATES or change[3] not in STATES:
            raise Refused(path, line, f"{change[2]}->{change[3]} are no states of a VCPU that runs")
        event.vcpu, event.old, event.new = change[1], STATES[change[2]], STATES[change[3]]
    elif change and change[3] == "running":
        event.new = RUNNING
    elif replenished and replenished[1] in known:
        budget = BUDGET.search(found[5])
        event.vcpu, event.budget_ns = replenished[1], budget and int(budget[1])
    return event


def read(path, known):
    """The events of the map in order of time, and the moment of the last line."""
    events, times = [], {}
    for line, text in lines_of(path):
        event = event_of(path, line, text, known)
        if event and event.at < times.get(event.cpu, 0):
            raise Refused(path, line, f"time falls on processor {event.cpu}")
        if event:
            times[event.cpu] = event.at
            events += [event] * bool(event.vcpu or event.new)
    if not times:
        raise Refused(path, None, "no line of `xenalyze --dump-all`")
    return sorted(events, key=lambda event: event.at), max(times.values())


class Host:
    """The VCPUs of the map, as the events tell them, and the rows that come of that."""

    def __init__(self, path, cores, vcpus):
        self.path, self.cores, self.holders = path, cores, {}
        self.vcpus = {key: Vcpu(key, name) for key, name in vcpus.items()}
        self.events, self.end = read(path, vcpus)
        for event in self.events:
            self.learn(event, self.vcpus.get(event.vcpu), self.holders.get(event.cpu))

    def learn(self, event, vcpu, holder):
        if vcpu is None:
            if holder is not None:
                self.refuse(event, f"{holder.key} has processor {event.cpu}, and another VCPU runs on it: a line is missing")
        elif event.new is not None:
            self.learn_change(event, vcpu, holder)
        else:
            event.old = vcpu.state
            vcpu.starts.append(event)
            vcpu.on_time += [event] if not vcpu.woken and vcpu.state != ASLEEP else []

    def refuse(self, event, cause):
        raise Refused(self.path, event.line, cause)

    def learn_change(self, event, vcpu, holder):
        """A change has to follow from the state before; who runs does so on one processor of the map."""
        if vcpu.state not in (None, event.old):
            self.refuse(event, f"{vcpu.key} is {vcpu.state}, and leaves the state {event.old}: a line is missing")
        if RUNNING in (event.old, event.new):
            if event.cpu not in self.cores:
                self.refuse(event, f"processor {event.cpu} is not in the map, and {vcpu.key} runs on it")
            if vcpu.cpu not in (None, event.cpu):
                self.refuse(event, f"{vcpu.key} runs on processor {event.cpu}, and ran on {vcpu.cpu}")
            vcpu.cpu = event.cpu
        if event.old == RUNNING:
            holder = self.holders[event.cpu] = None
        if event.new == RUNNING:
            if holder not in (None, vcpu):
                self.refuse(event, f"{holder.key} has processor {event.cpu}, and {vcpu.key} runs on it: a line is missing")
            self.holders[event.cpu] = vcpu
        vcpu.first, vcpu.state, vcpu.woken = vcpu.first or event.old, event.new, event.old == ASLEEP

    def start_of(self, vcpu):
        """The replenishment from which a VCPU's periods count."""
        for is_wrong, cause in (
            (not vcpu.starts, f"no replenishment of {vcpu.key} (rtds:repl_budget), so it has no start"),
            (vcpu.first is None, f"no runstate_change of {vcpu.key}, so what it does is not known"),
            (vcpu.cpu is None and len(self.cores) > 1, f"{vcpu.key} never runs, so its processor is not known"),
        ):
            if is_wrong:
                raise Refused(self.path, None, cause)
        vcpu.cpu = next(iter(self.cores)) if vcpu.cpu is None else vcpu.cpu
        if not vcpu.on_time:
            late = f"each replenishment of {vcpu.key} comes with a wake-up, so its periods may begin earlier than its start tells"
            print(f"{self.path}: {late}", file=sys.stderr)
        return (vcpu.on_time or vcpu.starts)[0]

    def compare(self, system, program):
        """Refuses where a VCPU is given another budget than its part has."""
        refuse_all(cause for vcpu in self.vcpus.values() for cause in self.differing(vcpu, system, program))

    def differing(self, vcpu, system, program):
        """The first replenishment of a VCPU by another budget than that of its part."""
        if vcpu.name not in system.nodes or system.nodes[vcpu.name].kind != "part":
            yield Refused(system.path, None, f"no part is {vcpu.name}, which --vcpu tells")
            return
        budget = budget_of(system, vcpu.name, program)
        event = next((event for event in vcpu.starts if event.budget_ns != 1000 * budget), None)
        if event:
            told = "tells no budget" if event.budget_ns is None else f"is given {event.budget_ns} ns"
            yield Refused(self.path, event.line, f"{vcpu.key} {told}, and {vcpu.name} has {1000 * budget} in {system.path}")

    def rows(self):
        """The rows of each VCPU from its start on."""
        starts, started = {key: self.start_of(vcpu) for key, vcpu in self.vcpus.items()}, set()
        for event in self.events:
            vcpu, told = self.vcpus.get(event.vcpu), []
            if vcpu and event is starts[vcpu.key]:
                started.add(vcpu.key)
                told = ["start", *{ASLEEP: ["block"], RUNNING: ["run"]}.get(event.old or vcpu.first, [])]
            elif vcpu and event.new is not None and vcpu.key in started:
                told = words_of(event)
            for what in told:
                yield event.at, self.cores[vcpu.cpu], what, "" if what == "stop" else vcpu.name

    def text(self, system, program):
        rows = list(self.rows())
        if system:
            self.compare(system, program)
        first = rows[0][0]
        if self.end - first > LIMIT_NS:
            raise Refused(self.path, None, "a trace holds 1000 seconds, and this one is longer")
        # without each stop that the run behind it at the same moment makes idle
        needed = [row for row, behind in zip(rows, [*rows[1:], ()]) if row[2] != "stop" or behind[:3] != (*row[:2], "run")]
        told = [(at - first, *row) for at, *row in needed] + [(self.end - first, "", "end", "")]
        head, unit = ("at_ns", 1) if any(row[0] % 1000 for row in told) else ("at", 1000)
        return "\n".join([f"{head},core,what,vcpu", *(f"{at // unit},{core},{what},{name}" for at, core, what, name in told), ""])


def words_of(event):
    """The words of a change. A VCPU leaves its core before it sleeps."""
    old, new = event.old, event.new
    words = {"stop": RUNNING == old != new, "block": old != ASLEEP == new, "wake": old == ASLEEP != new, "run": old != RUNNING == new}
    return [what for what, holds in words.items() if holds]


def add_words(parser):
    parser.add_argument("dump", metavar="DUMP", help="what `xenalyze --dump-all` prints")
    several(parser, "--cpu", "N=CORE", "a physical processor and its core", required=True)
    several(parser, "--vcpu", "dDvV=PART", "a VCPU and its part, as d1v0=audio-0", required=True)
    parser.add_argument("--system", metavar="FILE", help="the system file whose budgets the dump has to tell")
    add_program(parser)


def run(given):
    cores, vcpus = pairs(given.cpu, "--cpu"), pairs(given.vcpu, "--vcpu")
    for form, what, words in (
        (NAME, "name: 1 to 32 letters, digits, _ and -, a letter first", [*cores.values(), *vcpus.values()]),
        (re.compile("0|[1-9][0-9]{0,4}"), "number of a processor", cores), (re.compile("d[0-9]+v[0-9]+"), "VCPU, as d1v0", vcpus),
    ):
        for word in words:
            if not form.fullmatch(word):
                raise WrongWords(f"{word!r} is no {what}")
    system = read_system(given.system) if given.system else None
    is_open = system and any(part.budget is None for part in system.parts())
    host = Host(given.dump, {int(number): name for number, name in cores.items()}, vcpus)
    return host.text(system, program_of(given.program) if is_open else None)
