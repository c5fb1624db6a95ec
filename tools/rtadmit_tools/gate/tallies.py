"""Counts the periods of recorded traces by a few lines of its own, and looks at whether `tally`, `audit` and `steal` tell the same.

The traces are that of examples/linux, under each of its system files, and traces that look random, the same on each run, with starts,
blocks, wakes and extra time, in nanoseconds. Each is judged from its list of moments: for each VCPU the stretches in which it has its
core and in which it is blocked, and then each period by itself. What must hold is this:

- the lines of `tally` tell what is counted here;
- its status and the lines before them are those of `audit`, which is yes exactly where no period is short or over here, and then
  tells the number of periods that are judged;
- what `steal` tells is counted here: a period is denied where the VCPU was neither blocked nor on its core for longer than its period
  less its budget.

Ends with 1 where something does not hold, and where few traces were a yes, or few a no, of `audit` or of `steal`."""
import csv
import tomllib

from ..command_line import TOP
from ..comparing import Numbers, add_words, compare, core, need, part, task, tree
from ..program import Answer
from ..system_file import tree_text

TRACES = 200


def stretches(rows, begins, ends, end):
    """The stretches between the moments of rows that begin one and of rows that end one."""
    found, since = [], None
    for row in rows:
        if since is not None and ends(row):
            found.append((since, row[0]))
            since = None
        if since is None and begins(row):
            since = row[0]
    return found + [(since, end)] * (since is not None)


def within(spans, begin, end):
    """How much of the time from `begin` to `end` lies in the stretches."""
    return sum(max(0, min(to, end) - max(since, begin)) for since, to in spans)


def watched(rows, core, name):
    """Of a VCPU of a trace the moments at which it starts, and the stretches in which it has its core and in which it is blocked."""
    end = rows[-1][0]
    starts = [at for at, _, what, vcpu in rows if (what, vcpu) == ("start", name)]
    runs = stretches([row for row in rows if row[1] == core and row[2] in ("run", "stop")],
        lambda row: row[2:] == ("run", name), lambda row: row[2:] != ("run", name), end)
    blocks = stretches([row for row in rows if row[3] == name], lambda row: row[2] == "block", lambda row: row[2] == "wake", end)
    return starts, runs, blocks


def rows_of(trace, microsecond=1):
    header, *rows = csv.reader(trace.splitlines())
    unit = microsecond if header[0] == "at" else 1
    return [(int(at) * unit, *rest) for at, *rest in rows]


def line(part, rows):
    """The line of a VCPU, and how many of its periods are judged, and how many are short or over."""
    starts, runs, blocks = watched(rows, part["parent"], part["name"])
    period, budget, end = part["period"] * 1000, part["budget"] * 1000, rows[-1][0]
    begins = range(starts[0], end, period) if starts else ()
    got = [within(runs, begin, min(begin + period, end)) for begin in begins]
    judged = [time for time, begin in zip(got, begins) if begin + period <= end and within(blocks, begin, begin + period) == 0]
    short = sum(time < budget for time in judged)
    over = 0 if part.get("extra") else sum(time > budget for time in got)
    told = f"begun={len(got)} judged={len(judged)} short={short} over={over}"
    return f"vcpu {part['name']} {told} least_ns={min(judged, default='-')} most_ns={max(got, default='-')}", len(judged), short + over


def stolen_line(part, rows):
    """The same of `steal`: the line, how many periods are kept, and of the denied ones the begin, the name, what was stolen and of what."""
    starts, runs, blocks = watched(rows, part["parent"], part["name"])
    period, end, room = part["period"] * 1000, rows[-1][0], (part["period"] - part["budget"]) * 1000
    spans = [(begin, min(begin + period, end)) for begin in (range(starts[0], end, period) if starts else ())]
    stolen = [to - since - within(runs + blocks, since, to) for since, to in spans]
    kept = sum(time <= room and to - since == period for time, (since, to) in zip(stolen, spans))
    denied = [(since, part["name"], time, room) for time, (since, _) in zip(stolen, spans) if time > room]
    told = f"begun={len(stolen)} kept={kept} denied={len(denied)} most_ns={max(stolen, default='-')}"
    return f"vcpu {part['name']} {told}", kept, denied


def each(line, system, trace):
    """What is counted of each VCPU."""
    rows, described = rows_of(trace, 1000), tomllib.loads(system)
    cores = {core["name"] for core in described["core"]}
    return [line(part, rows) for part in described["part"] if part["parent"] in cores]


def counts(system, trace):
    """The lines of the VCPUs, how many periods are judged, and how many are broken."""
    lines = each(line, system, trace)
    return [told for told, _, _ in lines], sum(judged for _, judged, _ in lines), sum(broken for _, _, broken in lines)


def stolen(system, trace):
    """What `steal` is to answer."""
    lines = each(stolen_line, system, trace)
    first = min((one for _, _, denied in lines for one in denied), key=lambda one: one[0], default=None)
    head = "verdict=no\nstolen {1} from_ns={0} got_ns={2} of_ns={3}".format(*first) if first else (
        f"verdict=yes\nperiods={sum(kept for _, kept, _ in lines)}")
    return Answer(int(first is not None), "\n".join([head, *(told for told, _, _ in lines)]) + "\n")


def some_system(numbers):
    """Two cores with two or three VCPUs each, and in one system of two with periods so long that few are judged."""
    shortest, longest = numbers.of(((2, 6), (20, 60)))
    parts = []
    for vcpu in range(4 + numbers.below(2)):
        period = shortest + numbers.below(longest)
        extra = True if numbers.below(2) else None
        budget = 1 + numbers.below(1 + period // 2)
        parts.append(part(f"v{vcpu}", f"c{vcpu % 2}", "edf", period, budget, [task("t", period * 100, 1)], extra=extra))
    return tree([core("c0"), core("c1")], parts)


def some_trace(numbers, parts):
    """A trace of those VCPUs that keeps the rules: some never start, and several rows have one moment."""
    rows, at = ["at_ns,core,what,vcpu"], 0
    standing, holders = {}, {}
    for _ in range(20 + numbers.below(60)):
        at += (0, 1, numbers.below(900), numbers.below(5000))[numbers.below(4)]
        part = numbers.of(parts)
        name, core = part["name"], part["parent"]
        choice = numbers.below(8)
        if name not in standing:
            what = "start" if choice else None
            standing.update({name: "runs"} if what else {})
        elif standing[name] == "blocked":
            what, standing[name] = "wake", "runs"
        elif holders.get(core) is not None and (choice == 0 or holders[core] == name):
            what, name = "stop", ""
            holders[core] = None
        elif choice == 1:
            what, standing[name] = "block", "blocked"
        else:
            what, holders[core] = "run", name
        if what:
            rows.append(f"{at},{core},{what},{name}")
    return "\n".join([*rows, f"{at + numbers.below(3000)},,end,"]) + "\n"


def made(seed, count):
    numbers = Numbers(seed)
    for _ in range(count):
        system = some_system(numbers)
        yield tree_text(system), some_trace(numbers, system["part"])


def told_as_counted(room, made):
    """Whether the audit is a yes or a no. What `tally` tells is what is counted here."""
    files = [room.write(name, text) for name, text in zip(("system.toml", "trace.csv"), made)]
    audit, told = (room.run(command, *files) for command in ("audit", "tally"))
    lines, judged, broken = counts(*made)
    need(told == Answer(audit.status, audit.text + "".join(f"{line}\n" for line in lines)) and audit.status in (0, 1)
         and (audit == Answer(0, f"verdict=yes\nperiods={judged}\n")) == (broken == 0),
         f"tally: {told}\naudit: {audit}\ncounted: {lines}, {judged} judged, {broken} broken")
    return ["satisfied" if audit.status == 0 else "not satisfied"]


def stolen_as_counted(room, made):
    """Whether somebody was denied. What `steal` tells is what is counted here."""
    answer, plain = room.run("steal", *(room.write(name, text) for name, text in zip(("system.toml", "trace.csv"), made))), stolen(*made)
    need(answer == plain, f"steal: {answer}\ncounted: {plain}")
    return ["denied" if answer.status else "not denied"]


def run(given):
    linux = TOP / "examples/linux"
    recorded = [((linux / f"{name}.toml").read_text(), (linux / "trace.csv").read_text()) for name in ("reserved", "overrun", "tick")]
    looks = (told_as_counted, {"satisfied": 20, "not satisfied": 20}), (stolen_as_counted, {"denied": 20, "not denied": 20})
    hold = [compare(given, "the trace of examples/linux", look, recorded) for look, _ in looks]
    return int(not all([*hold, *(compare(given, "traces", look, made(50, TRACES), least) for look, least in looks)]))
