"""Makes a trace for the auditor out of the text of a Linux kernel's trace buffer.

RECORDING is what the kernel's file `trace` holds, what `trace-cmd report` prints (with -t in nanoseconds), or what `perf script` or
`perf sched script` prints (with --ns). `-` is standard input; memory does not grow with the recording. It needs the events sched_switch
and sched_wakeup, in perf's text sched_waking in its place, and takes timer:hrtimer_start where it is; others are passed over. WHO is the
number or the name of a thread, N the number of a processor. The trace goes to standard output without --out. It counts nanoseconds where
the recording does, else microseconds, from the first `start` on. docs/use/audit.md says which events become which rows, and when a VCPU
starts. What a thread does before its start is no row.

The `end` is where a mark says that the recording was stopped, at --until, or else at the last event: then standard error says so, since
what waits to the end is not seen then. Where an event is missing the trace ends, and another one begins behind the gap, in which each VCPU
starts anew: standard error tells the gaps, from when until when nothing is missing, and who does not start there. Several traces stand one
behind another in the text, with moments that go on; tools/host split cuts it.

--from and --until take moments of the recording. What is earlier, marks and sleeps too, is as if it had not been recorded.
--as-it-comes is for a recording that goes on, as the kernel's file `trace_pipe`: rows are written while it is read, in nanoseconds. Events
are put in order first where they come up to 10 ms late. A trace that ends at a gap has no end then:

    cat trace_pipe | tools/host from-ftrace - --as-it-comes .. | tools/host split - .. | tools/host audit-all system.toml -

Refused, with the line, and nothing written (but for rows that came): fewer events than the head of the recording tells; a thread of the
map that never starts; a mark that tells another period than the system file; a processor that is not in the map; a thread that migrates;
time that falls or passes what a trace holds; two threads of one name; a line that is no event, and a file that looks like something else,
with what to do."""
import argparse
import contextlib
import heapq
import itertools
import re
import sys
import tempfile
from collections import namedtuple
from dataclasses import dataclass, field

from ..command_line import Refused, pairs
from ..system_file import NAME
from ..trace import LONGEST_NS, lines_of, opened, parts_of

# while a recording goes on: how late an event may come, and how long a row may wait to be written
LATEST_NS, WAITING_NS = 10_000_000, 100_000_000
# the longest of a kernel, in microseconds
TICK = 10_000
SECONDS = re.compile(r"(\d{1,12})(?:\.(\d{1,9}))?")
COUNTS = re.compile(r"# entries-in-buffer/entries-written: (\d{1,12})/(\d{1,12})")
LOST = re.compile(r"(?:\S+:\s+)?CPU:(\d{1,12}) (\[.*(?:LOST|DROPPED).*\])|.*\[(\d{1,12})\]\s+\d+\.\d+:\s+(PERF_RECORD_LOST.*)")
BEGUN = re.compile(r"##### CPU (\d{1,12}) buffer started ####")
NO_EVENT = re.compile(r"#.*|\s*|cpus=\d+|version = \d+|CPU \d+ is empty")
# each as the kernel and trace-cmd print it, and as perf does
EVENT = re.compile(r".+?-\d+\s+(?:\([ \d-]+\)\s+)?\[(\d{1,12})\]\s+(?:\S+\s+)?(\d{1,12})\.(\d{6}|\d{9}):\s+(\w+):\s*(.*)")
PERF = re.compile(r".+?\s\d+(?:/\d+)?\s+\[(\d{1,12})\]\s+(\d{1,12})\.(\d{6}|\d{9}):\s+(?:\d+\s+)?(\w+:\w+):\s*(.*)")
NO_CLOCK = re.compile(r".+?-\d+\s+(?:\([ \d-]+\)\s+)?\[\d+\]\s+(?:\S+\s+)?\d+:\s+\w+:.*|#.*\bclock:? +(?:counter|x86-tsc)\b.*")
# each as the kernel prints it, and as trace-cmd does
SWITCHES = (
    re.compile(r"prev_comm=(.*) prev_pid=(\d{1,12}) prev_prio=-?\d+ prev_state=(\S+) ==> "
               r"next_comm=(.*) next_pid=(\d{1,12}) next_prio=-?\d+"),
    re.compile(r"(.*):(\d{1,12}) \[-?\d+\] (\S+) ==> (.*):(\d{1,12}) \[-?\d+\]"),
)
WAKEUPS = (
    re.compile(r"comm=(.*) pid=(\d{1,12}) prio=-?\d+ (?:success=\d+ )?target_cpu=(\d{1,12})"),
    re.compile(r"(.*):(\d{1,12}) \[-?\d+\] (?:success=\d+ )?CPU:(\d{1,12})"),
)
MIGRATIONS = (re.compile(r"comm=(.*) pid=(\d{1,12}) prio=-?\d+ orig_cpu=(\d{1,12}) dest_cpu=(\d{1,12})"),)
TIMER = re.compile(r"hrtimer=(\S+) function=dl_task_timer\S* expires=(\d{1,19}) .*")
ASLEEP_MARK = re.compile(r".*\brtadmit: asleep comm=(.*) pid=(\d{1,12}) cpu=(\d{1,12}) runtime=\d+ period=(\d{1,12})")
STOPPED_MARK = re.compile(r".*\brtadmit: stopped")
KINDS = {
    "sched_switch": "switch", "sched_wakeup": "wakeup", "sched_wakeup_new": "wakeup", "sched_migrate_task": "move",
    "hrtimer_start": "timer", "tracing_mark_write": "mark", "print": "mark", "sched:sched_waking": "wakeup",
}
# how files begin that are no text of events, and what to do with them
PACKED = {"gzip": b"\x1f\x8b", "xz": b"\xfd7zXZ\0", "zstd": b"\x28\xb5\x2f\xfd", "bzip2": b"BZh"}
LOOKS = {
    **{magic: f"it is packed by {by}: unpack it, as by `{by} -dc FILE | tools/host from-ftrace - ..`" for by, magic in PACKED.items()},
    b"\x17\x08\x44tracing": "it is trace-cmd's own file: print it as text by `trace-cmd report -t FILE`",
    b"PERFILE2": "it is perf's own file: print it as text by `perf script --ns --show-lost-events -i FILE`",
    b"at,core,what,vcpu": "it is a trace already, which the auditor takes as it is",
    b"at_ns,core,what,vcpu": "it is a trace already, which the auditor takes as it is",
}


class Gap(Exception):
    """An event is missing. `sure` is the last event before the gap up to which all is known, or None where nothing is."""

    def __init__(self, line, cause, sure):
        super().__init__(cause)
        self.line, self.sure = line, sure


@dataclass(slots=True)
class Event:
    """An event of the recording: its line, its moment in nanoseconds and in what units that counts, its processor, kind and text."""

    line: int
    at: int
    cpu: int
    kind: str
    text: str
    unit: int = 1


@dataclass(slots=True)
class Vcpu:
    """What is known of a thread of the map so far. Its state is "asleep", "ready", "running", or None where it is not known. Its server has
    its period and the longest time that its deadline may be away."""

    name: str
    period: int | None = None
    owed: int | None = None
    pid: int | None = None
    cpu: int | None = None
    state: str | None = None
    since: Event | None = None
    longest_sleep: int = 0
    # where its budget comes anew, by the timer that was started when it was used up, and from when on a wake-up begins a period
    due: int | None = None
    fresh: int | None = None
    started: bool = False


# Reading
def at_of(seconds, fraction):
    """The nanoseconds of a moment whose whole seconds and whose digits behind the point are these."""
    return int(seconds) * 1_000_000_000 + int(fraction.ljust(9, "0"))


def refuse_by_looks(path, file):
    """Refuses a file that begins like something else than the text of events."""
    front = file.buffer.peek(4096)[:4096]
    advice = next((advice for magic, advice in LOOKS.items() if front.startswith(magic)), None)
    if advice or b"\0" in front:
        advice = advice or "it has zero bytes; print it as text by the tool that recorded it"
        raise Refused(path, None, f"no text of a trace buffer: {advice}")


class Reader:
    """The events of a recording, in order, from its numbered lines. Time must not fall. A loss of events is an event too, of kind
    "lost", with its cause as text: it lasted up to the event that follows, so it has that one's moment. Events that come up to
    `latest` nanoseconds late are put in order."""

    def __init__(self, path, lines, latest=0):
        self.path, self.lines, self.latest, self.promised, self.seen, self.last = path, lines, latest, 0, 0, None

    def events(self):
        since = 0
        for *_, event in self.in_order():
            if event.at < since:
                raise Refused(self.path, event.line, "time falls: this event is earlier than the one before")
            since = event.at
            yield event
        if self.last is None:
            raise Refused(self.path, None, "no event")

    def in_order(self):
        """The events, held back as long as an earlier one may come."""
        held, losses = [], []
        for line, text in self.lines:
            event = self.event(line, text)
            if event is None:
                continue
            losses.append(event)
            if event.kind == "lost":
                continue
            self.seen += 1
            if self.last is None or event.at >= self.last.at:
                self.last = event
            for lost in losses:
                lost.at = event.at
                heapq.heappush(held, (event.at, event.line, lost.line, lost))
            losses = []
            while held and held[0][0] + self.latest <= event.at:
                yield heapq.heappop(held)
        while held:
            yield heapq.heappop(held)
        yield from (((lost,) for lost in losses) if self.last else ())

    def event(self, line, text):
        found = EVENT.fullmatch(text) or PERF.fullmatch(text)
        if not found:
            return self.other(line, text)
        cpu, seconds, fraction, kind, rest = found.groups()
        kind = KINDS.get(kind) or KINDS.get(kind.partition(":")[2], "other")
        return Event(line, at_of(seconds, fraction), int(cpu), kind, rest.strip(), 1 if len(fraction) == 9 else 1000)

    def other(self, line, text):
        """What a line tells that has no event: None, or that events were lost."""
        if NO_CLOCK.fullmatch(text):
            advice = "`echo mono > trace_clock` (`trace-cmd record -C mono`), and record anew"
            raise Refused(self.path, line, f"its clock counts no time: {advice}")
        cpu, cause = None, None
        if counts := COUNTS.match(text):
            self.promised = int(counts[1])
            cause = f"{counts[2]} were written and {counts[1]} are kept" if counts[1] != counts[2] else None
        elif lost := LOST.fullmatch(text):
            cpu, cause = int(lost[1] or lost[3]), text if lost[1] else lost[4]
        elif begun := BEGUN.fullmatch(text):
            cause = f"processor {begun[1]} has none from before this line" if self.last else None
        elif not NO_EVENT.fullmatch(text):
            raise Refused(self.path, line, "no line of a trace buffer, of `trace-cmd report` or of `perf script`")
        return cause and Event(line, self.last.at if self.last else 0, cpu, "lost", f"events were lost: {cause}")


# From events to rows
# what the words say: the recording, the cores by processor, the VCPUs by thread, and their servers by name (see servers_of)
Map = namedtuple("Map", "path cores threads servers", defaults=[{}])


class Host:
    """The threads and processors of the map, as of the events so far; `write` gets the rows that come of them, each with its line."""

    def __init__(self, named, write):
        self.path, self.cores, self.write = named.path, named.cores, write
        self.threads = {who: Vcpu(name, *named.servers.get(name, ())) for who, name in named.threads.items()}
        # of each timer the name of the thread that ran whenever it was started, or None where it is not always the same
        self.holders, self.seen, self.switched, self.timers, self.event = {}, {}, {}, {}, None

    def refuse(self, cause):
        raise Refused(self.path, self.event.line, cause)

    def fields(self, forms):
        """The fields of the event's text, in the first form that it has."""
        found = next(filter(None, (form.fullmatch(self.event.text) for form in forms)), None)
        kind = "sched_switch" if forms is SWITCHES else "sched_wakeup or migration"
        return found.groups() if found else self.refuse(f"no text of a {kind}")

    def missing(self, cause, sure):
        raise Gap(self.event.line, f"{cause}: an event is missing", sure)

    def row(self, cpu, what, name="", at=None):
        self.write(self.event.line, self.event.at if at is None else at, self.cores[cpu], what, name)

    def vcpu(self, pid, name):
        """The VCPU of a thread, or None where the map does not have it."""
        vcpu = self.threads.get(pid) or self.threads.get(name)
        if vcpu and vcpu.pid not in (None, int(pid)):
            self.refuse(f"two threads are {vcpu.name}: {vcpu.pid} and {pid}; name them by their numbers")
        if vcpu:
            vcpu.pid = int(pid)
        return vcpu

    def place(self, vcpu, cpu):
        """Notes that a thread is on a processor: one of the map, and always the same."""
        if cpu not in self.cores:
            self.refuse(f"processor {cpu} is not in the map, and {vcpu.name} is on it")
        if vcpu.cpu not in (None, cpu):
            self.refuse(f"{vcpu.name} migrates from processor {vcpu.cpu} to {cpu}")
        vcpu.cpu = cpu

    def start(self, vcpu, at=None):
        vcpu.started = True
        self.row(vcpu.cpu, "start", vcpu.name, at)

    def wake(self, vcpu, cpu):
        self.place(vcpu, cpu)
        if vcpu.state != "asleep":
            return
        vcpu.state = "ready"
        if vcpu.due is not None and vcpu.due <= self.event.at:
            vcpu.due = None
        if vcpu.since:
            vcpu.longest_sleep = max(vcpu.longest_sleep, self.event.at - vcpu.since.at)
        if vcpu.started:
            self.row(cpu, "wake", vcpu.name)
        elif vcpu.fresh is not None and self.event.at >= vcpu.fresh:
            self.start(vcpu)

    def leave(self, vcpu, cpu):
        """Checks the thread that is switched out against what is known of its processor and of it."""
        holder = self.holders.get(cpu)
        if cpu not in self.holders and vcpu and vcpu.state:
            self.missing(f"{vcpu.name} is switched out of processor {cpu}, and had not been switched in", None)
        if cpu in self.holders and holder is not vcpu:
            had = f"{holder.name} has" if holder else "no thread of the map has"
            self.missing(f"{had} processor {cpu}, and another thread is switched out", self.switched.get(cpu))
        if vcpu:
            self.place(vcpu, cpu)

    def enter(self, vcpu, cpu):
        """Gives a processor to the thread that is switched in."""
        holder = self.holders.get(cpu)
        if vcpu:
            self.place(vcpu, cpu)
            if vcpu.state == "asleep":
                self.missing(f"{vcpu.name} is asleep, and is switched in: its wakeup is missing", vcpu.since)
            vcpu.state, vcpu.since, vcpu.due = "running", self.event, None
        if vcpu and vcpu.started:
            self.row(cpu, "run", vcpu.name)
        elif holder and holder.started:
            self.row(cpu, "stop")
        self.holders[cpu] = vcpu

    def switch(self, before, after, cpu, asleep):
        """One thread leaves a processor to another; each is None where the map does not have it."""
        self.leave(before, cpu)
        self.enter(after, cpu)
        self.switched[cpu] = self.event
        if before is None:
            return
        before.state, before.since = "asleep" if asleep else "ready", self.event
        if asleep and before.owed is not None:
            known = before.due or self.event.at if self.timers else self.event.at + before.owed
            before.fresh = known + before.owed
        if asleep and before.started:
            self.row(cpu, "block", before.name)

    def mark(self, text):
        """What the recorder wrote into the buffer itself."""
        found = ASLEEP_MARK.fullmatch(text)
        vcpu = self.vcpu(found[2], found[1]) if found else None
        if vcpu is None:
            return
        if vcpu.state:
            self.refuse(f"a mark says that {vcpu.name} has slept from before the recording on, and it did not")
        told, period = vcpu.period, int(found[4])
        if told not in (None, period * 1000):
            self.refuse(f"{vcpu.name} reserved time in every {period} us, and its period in the system file is {told // 1000} us")
        self.place(vcpu, int(found[3]))
        vcpu.state, vcpu.fresh = "asleep", 0

    def timer(self, found):
        """The kernel starts the timer of a thread whose budget is used up, while that thread has its processor. Another timer of this
        kind belongs to no thread, and is started in whichever has the processor."""
        if self.event.cpu not in self.holders:
            return
        holder = self.holders[self.event.cpu]
        if not holder or self.timers.setdefault(found[1], holder.name) != holder.name:
            self.timers[found[1]] = None
        elif holder.owed is not None and 0 < int(found[2]) - self.event.at <= holder.owed:
            holder.due = int(found[2])

    def renew(self):
        """Starts the threads that wait and whose budgets have come anew up to this event, by their timers."""
        waiting = [vcpu for vcpu in self.threads.values() if vcpu.due is not None and not vcpu.started and vcpu.state == "ready"]
        for vcpu in sorted(waiting, key=lambda vcpu: vcpu.due):
            if vcpu.due <= self.event.at:
                self.start(vcpu, vcpu.due - vcpu.due % self.event.unit)

    def take(self, event):
        self.event = event
        self.renew()
        if event.kind == "switch":
            name, pid, state, next_name, next_pid = self.fields(SWITCHES)
            before, after = self.vcpu(pid, name), self.vcpu(next_pid, next_name)
            if before or after or self.holders.get(event.cpu):
                self.switch(before, after, event.cpu, not state.startswith("R"))
        elif event.kind == "wakeup":
            name, pid, cpu = self.fields(WAKEUPS)
            if vcpu := self.vcpu(pid, name):
                self.wake(vcpu, int(cpu))
        elif event.kind == "move":
            name, pid, cpu, other = self.fields(MIGRATIONS)
            if (vcpu := self.vcpu(pid, name)) and vcpu.started:
                self.refuse(f"{vcpu.name} migrates from processor {cpu} to {other}")
        elif event.kind == "mark":
            self.mark(event.text)
        elif event.kind == "timer" and (found := TIMER.fullmatch(event.text)):
            self.timer(found)
        self.seen[event.cpu] = event


def why_not(vcpu):
    if vcpu.pid is None:
        return "no event is of it"
    if vcpu.fresh == 0:
        return "it slept throughout"
    cause = "no mark says where a period of it begins, and "
    if vcpu.owed is None:
        return cause + "its period or its budget is not known: give the system file by --system"
    seen = f"its longest was {vcpu.longest_sleep // 1000} us" if vcpu.longest_sleep else "it is seen to wake from none"
    return (
        f"{cause}no sleep of it is so long that one begins behind it: {2 * vcpu.owed // 1000} us are ({seen}): record with tools/host "
        "record, or with timer:hrtimer_start, or let it sleep that long while the recording is on"
    )


@dataclass
class Stretch:
    """A part of the recording in which no event is missing: its first and its last event, its end, whether no gap ends it, where its rows
    begin in the file, its first start, and for each VCPU that starts in it the line that tells so."""

    first: Event
    last: Event
    end: int = 0
    whole: bool = False
    place: int = 0
    begin: int | None = None
    starts: dict = field(default_factory=dict)

    def start(self, name, line, at):
        self.starts[name] = line
        self.begin = at if self.begin is None else self.begin

    def close(self, last, end=None, whole=False):
        self.last, self.end, self.whole = last, last.at if end is None else end, whole
        self.starts = {name: line for name, line in self.starts.items() if line <= last.line}


class Rows:
    """The rows of traces, kept in a file until they are whole and their unit is known."""

    latest = 0

    def __init__(self, path, file, any_length=False):
        self.path, self.file, self.any_length, self.residues = path, file, any_length, set()

    def open(self, stretch):
        self.file.write("\n")
        stretch.place, self.stretch = self.file.tell(), stretch

    def write(self, line, at, core, what, name):
        if what == "start":
            self.stretch.start(name, line, at)
        self.residues.add(at % 1000)
        self.file.write(f"{line} {at} ,{core},{what},{name}\n")

    def check(self, at, line):
        """Refuses a moment that a trace cannot hold."""
        if self.stretch.begin is not None and at - self.stretch.begin > LONGEST_NS and not self.any_length:
            cause = "a trace holds 1000 seconds from its first start, and this is later"
            raise Refused(self.path, line, f"{cause}: give --until, or --any-length for tools/host split")

    def told(self, stretches):
        """The lines of the traces of stretches. Moments count from the first row."""
        unit = 1000 if len(self.residues | {stretch.end % 1000 for stretch in stretches}) == 1 else 1
        for stretch in stretches:
            yield "at,core,what,vcpu\n" if unit == 1000 else "at_ns,core,what,vcpu\n"
            self.file.seek(stretch.place)
            for row in itertools.takewhile("\n".__ne__, self.file):
                line, at, rest = row.split(" ", 2)
                if int(line) <= stretch.last.line:
                    yield f"{(int(at) - stretches[0].begin) // unit}{rest}"
            yield f"{(stretch.end - stretches[0].begin) // unit},,end,\n"


class Stream:
    """The rows of traces, written as they come, in nanoseconds. Moments count from the first row. One that a gap ends has no end."""

    latest = LATEST_NS

    def __init__(self, file):
        self.file, self.first, self.written, self.bare = file, None, 0, False

    def open(self, stretch):
        if not self.bare:
            self.file.write("at_ns,core,what,vcpu\n")
        self.stretch, self.bare = stretch, True

    def write(self, line, at, core, what, name):
        if what == "start":
            self.stretch.start(name, line, at)
            self.first = at if self.first is None else self.first
        self.bare = False
        self.file.write(f"{at - self.first},{core},{what},{name}\n")

    def check(self, at, _):
        """No row waits much longer than others need to come."""
        if at - self.written >= WAITING_NS:
            self.file.flush()
            self.written = at

    def told(self, stretches):
        return [f"{self.stretch.end - self.first},,end,\n"] if self.stretch.whole else []


def translate(lines, named, rows, since=0, until=None, longest=False, missing=lambda gap: None):
    """Makes the rows that a recording's numbered lines tell, and tells each gap. Answers the stretches that have a trace, or the longest
    alone, and the last event where the last trace ends with it for want of anything that tells the end."""
    reader, stretches, host, stopped = Reader(named.path, lines, rows.latest), [], None, None

    def begin(event):
        stretches.append(Stretch(event, event))
        rows.open(stretches[-1])
        return Host(named, rows.write)

    for event in reader.events():
        if stopped is not None or event.at < since or until is not None and event.at > until:
            continue
        try:
            if event.kind == "lost":
                raise Gap(event.line, event.text, host and host.seen.get(event.cpu))
            host = host or begin(event)
            rows.check(event.at, event.line)
            host.take(event)
        except Gap as gap:
            missing(gap)
            if host and gap.sure:
                stretches[-1].close(gap.sure)
            elif host:
                stretches.pop()
            host = None
            if event.kind != "lost":
                host = begin(event)
                host.take(event)
        last = event
        stopped = event.at if event.kind == "mark" and STOPPED_MARK.fullmatch(event.text) else None
    if reader.seen < reader.promised and not longest:
        raise Refused(named.path, None, f"lines were removed: its head tells {reader.promised} events, and {reader.seen} are there")
    end = min((at for at in (stopped, until) if at is not None and at <= reader.last.at), default=None)
    if host:
        stretches[-1].close(last, end, True)
    stretches = [stretch for stretch in stretches if stretch.starts]
    stretches = [max(stretches, key=lambda stretch: stretch.last.at - stretch.first.at)] if longest and stretches else stretches
    for who, vcpu in (host or Host(named, rows.write)).threads.items():
        if not any(vcpu.name in stretch.starts for stretch in stretches):
            raise Refused(named.path, None, f"{vcpu.name} (thread {who}) has no start: {why_not(vcpu)}")
    return stretches, last if host and end is None and stretches[-1].last is last else None


# The words
def moment(text):
    found = SECONDS.fullmatch(text)
    if not found:
        raise argparse.ArgumentTypeError(f"{text!r} is no moment in seconds, as 3514.114904")
    return at_of(found[1], found[2] or "0")


def shown(at):
    seconds, fraction = divmod(at, 1_000_000_000)
    return f"{seconds}.{fraction:09d}" if fraction % 1000 else f"{seconds}.{fraction // 1000:06d}"


def map_of(given):
    try:
        cores, threads = pairs(given.cpu, "--cpu", "last"), pairs(given.thread, "--thread", "last")
    except Refused as refused:
        given.refuse(str(refused))
    for name in [*cores.values(), *threads.values()]:
        if not NAME.fullmatch(name):
            given.refuse(f"{name!r} is no name of 1 to 32 letters, digits, _ and -")
    if not all(cpu.isdecimal() for cpu in cores):
        given.refuse("N of --cpu N=CORE is the number of a processor")
    servers = servers_of(given.system, threads.values(), given.tick) if given.system else {}
    return Map(given.recording, {int(cpu): core for cpu, core in cores.items()}, threads, servers)


def server(period, budget, tick):
    """The period of a server, in nanoseconds, and how far away its deadline may be: a period, and one more for each budget that it may
    have run over at once, up to a tick; None where no budget is given. All are microseconds."""
    return period * 1000, budget and period * 1000 * (1 + tick // budget)


def servers_of(path, names, tick=TICK):
    """The server of each VCPU of these names, by a system file."""
    parts = {part.name: server(part.period, part.budget, tick) for part in parts_of(path)[1]}
    if unknown := [name for name in names if name not in parts]:
        raise Refused(path, None, f"it has no part {unknown[0]}")
    return parts


def add_words(parser):
    parser.add_argument("recording", metavar="RECORDING", help="the text of the buffer; - for standard input")
    parser.add_argument("--cpu", action="append", required=True, metavar="N=CORE", help="a processor, and its core in the system file")
    parser.add_argument("--thread", action="append", required=True, metavar="WHO=VCPU", help="a thread by number or name, and its part")
    parser.add_argument("--system", metavar="FILE", help="the system file, for the periods and the budgets of the VCPUs")
    parser.add_argument("--out", metavar="TRACE", help="gets the trace")
    parser.add_argument("--from", dest="since", type=moment, default=0, metavar="SECONDS", help="passes over what the recording has before")
    parser.add_argument("--until", type=moment, metavar="SECONDS", help="ends the trace there")
    parser.add_argument("--tick", type=int, default=TICK, metavar="US",
                        help=f"how long a thread may run over its runtime at once; {TICK} us where it is not said")
    parser.add_argument("--longest-whole", action="store_true", help="takes the longest stretch without a gap alone")
    length = parser.add_mutually_exclusive_group()
    length.add_argument("--any-length", action="store_true", help="the trace may pass 1000 seconds, for tools/host split")
    length.add_argument("--as-it-comes", action="store_true", help="writes rows while it is read, of any length, for tools/host split")


def say(given, text, line=""):
    print(f"{given.recording}:{line}{':' if line else ''} {text}", file=sys.stderr)


def run(given):
    if given.as_it_comes and given.longest_whole:
        given.refuse("--longest-whole is known once the recording has ended, and --as-it-comes writes before")
    named, gaps = map_of(given), []
    with contextlib.ExitStack() as stack:
        file, kept = stack.enter_context(opened(given.recording, "\n")), stack.enter_context(tempfile.TemporaryFile("w+"))
        write_to = lambda: sys.stdout if given.out is None else stack.enter_context(open(given.out, "w"))
        rows = Stream(write_to()) if given.as_it_comes else Rows(given.recording, kept, given.any_length)
        refuse_by_looks(given.recording, file)
        stretches, last = translate(
            lines_of(given.recording, file), named, rows, given.since, given.until, given.longest_whole,
            lambda gap: gaps.append(gap) or say(given, gap, gap.line))
        for stretch in stretches if gaps else ():
            without = "".join(f", without {name}" for name in named.threads.values() if name not in stretch.starts)
            lines = f"lines {stretch.first.line} to {stretch.last.line}"
            say(given, f"whole from {shown(stretch.first.at)} until {shown(stretch.last.at)}, {lines}{without}")
        if last is not None:
            say(given, "no mark says when the recording was stopped: the trace ends with the last event, and what waited to the end "
                "may not be seen (docs/use/audit.md)", last.line)
        if len(stretches) > 1:
            say(given, f"{len(stretches)} traces stand one behind another: tools/host split cuts them")
        out = rows.file if given.as_it_comes else write_to()
        out.writelines(rows.told(stretches))
        out.flush()
