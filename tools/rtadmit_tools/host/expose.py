"""A workload by which a guest is short although it never blocks in that period: what `exposed NAME by=block` of `isolate` means.

FILE is the system file and NAME a part that `isolate` tells as exposed by=block. OUT gets the workload (docs/use/formats.md). It is that of
the proof: let r be twice the longest period of the core. Each VCPU of the core starts in its first period, so that one of its periods ends
where the period of NAME ends that begins at r, or a slot before where it stands behind NAME in the file. It blocks a slot later, and wakes
at r. So all others wake with NAME, with whole budgets, in periods that end no later than its own. The tool then runs `rtds` over the
workload and `tally` over the trace, and prints the short period and the words that show it:

    exposed NAME by=block: OUT, SLOTS slots
    short NAME from_ns=X got_ns=G of_ns=B
    ./rtadmit rtds FILE OUT SLOTS | ./rtadmit tally FILE /dev/stdin

`audit` may tell another part, which is short from the same moment. Refused, with nothing written: a NAME that `isolate` does not tell as
exposed by=block, with what it tells; a file that it refuses; a core whose longest period is more than 333,333, since a run has at most
1,000,000 slots; a period that comes out as not short, which contradicts what is proved."""
import os
import pathlib
import shlex
from collections import namedtuple

from ..command_line import Refused
from ..program import add_program, line_object, program_of
from ..system_file import read_system
from .why import called

Vcpu = namedtuple("Vcpu", "name period budget")
# what `isolate` tells of a VCPU: "isolated", "ties" or "block", and the slots that are enough where there are some
Kept = namedtuple("Kept", "name how last", defaults=[None])
MOST_SLOTS = 1_000_000
KEYS = {"isolated": ["last", "of"], "ties": ["by", "last", "of"], "block": ["by"]}


class Workload(namedtuple("Workload", "rows slots begins")):
    """Rows of a moment, a name and a word; how many slots its run has; and where the period begins that is short in it."""

    def text(self):
        return "".join(["at,vcpu,what\n", *(f"{at},{name},{what}\n" for at, name, what in self.rows)])


def breaking(vcpus, place):
    """The workload by which the VCPU at this place of a core's VCPUs, in the order of the file, is short."""
    begins = 2 * max(vcpu.period for vcpu in vcpus)
    due = begins + vcpus[place].period
    rows = []
    for other, vcpu in enumerate(vcpus):
        first = (due - (other > place)) % vcpu.period
        rows += [(first, other, "start"), (first + 1, other, "block"), (begins, other, "wake")]
    return Workload([(at, vcpus[other].name, what) for at, other, what in sorted(rows)], due, begins)


def kept_of(answer, path):
    """What `isolate` tells of each VCPU, by name. Refused where it tells nothing of them."""
    if answer.status == 2:
        raise Refused(path, None, "this program has no `isolate`")
    if answer.status > 1 or answer.lines[:1] not in (["verdict=yes"], ["verdict=no"]) or answer.refused_node():
        raise Refused(path, None, f"`isolate` is refused: {answer.shown} (status {answer.status})")
    kept = {}
    for line in answer.lines[1:]:
        told = line_object(line) or {}
        if told.get("kind") == "core":
            continue
        how = told.get("by") or told.get("kind")
        if set(told) != {"kind", "name", *KEYS.get(how, ["?"])}:
            raise Refused(path, None, f"`isolate` tells what this tool does not know: {line}")
        kept[told["name"]] = Kept(told["name"], how, told.get("last"))
    return kept


def short_period(program, path, vcpu, workload, written, trace):
    """What the period of a VCPU got, in nanoseconds, that is short in the trace of `rtds`: the one that begins where the workload says. The
    workload stands in `written`; `trace` gets the trace, or is None."""
    ran = program.ask("rtds", path, written, str(workload.slots))
    told = program.ask("tally", path, "/dev/stdin", text=ran.text)
    if trace:
        pathlib.Path(trace).write_text(ran.text)
    found = next((line for line in told.told("vcpu") if line["name"] == vcpu.name), None)
    if ran.status or told.status == 2 or not found:
        raise Refused(path, None, f"`rtds` or `tally` does not answer: status {ran.status} and {told.status}, {told.shown}")
    # it is blocked in each earlier period
    if (found["judged"], found["short"]) != (1, 1) or found["least_ns"] >= 1000 * vcpu.budget:
        raise Refused(path, None, f"{vcpu.name} comes out as not short, against what is proved: {found}")
    return found["least_ns"]


WHY_NOT = {
    "isolated": "it is isolated by {last} of its {period} slots: nobody can take its budget from a period in whose last {last} it does not "
                "block",
    "ties": "it is exposed by ties alone: in the runs of `rtds`, where of periods that end at once the first in the file goes first, it "
            "keeps its budget in each period in whose last {last} of {period} slots it does not block",
}


def expose(path, name, out, program, trace=None):
    """Writes the workload, and answers the lines to be printed."""
    kept = kept_of(program.ask("isolate", path), path)
    system = read_system(path)
    node = system.nodes.get(name)
    if node is None or name not in kept:
        raise Refused(path, None, f"{name} is no part that stands on a core")
    if kept[name].how != "block":
        why_not = WHY_NOT[kept[name].how].format(last=kept[name].last, period=node.period)
        raise Refused(path, None, f"{name} is not exposed by=block: {why_not}")
    budgets, names = program.ask("admit", path).budgets(), system.nodes[node.parent].children
    vcpus, place = [Vcpu(each, system.nodes[each].period, budgets[each][0]) for each in names], names.index(name)
    workload = breaking(vcpus, place)
    if 3 * max(vcpu.period for vcpu in vcpus) > MOST_SLOTS:
        cause = f"is more than {MOST_SLOTS // 3}, and a run has at most {MOST_SLOTS} slots"
        raise Refused(path, None, f"the longest period of {node.parent} {cause}")
    try:
        with open(out, "x") as file:
            file.write(workload.text())
    except FileExistsError:
        raise Refused(out, None, "is there already") from None
    try:
        got = short_period(program, path, vcpus[place], workload, out, trace)
    except Refused:
        os.unlink(out)
        raise
    rtadmit, file = called("rtadmit"), shlex.quote(path)
    return [
        f"exposed {name} by=block: {out}, {workload.slots} slots",
        f"short {name} from_ns={1000 * workload.begins} got_ns={got} of_ns={1000 * vcpus[place].budget}",
        f"{rtadmit} rtds {file} {shlex.quote(out)} {workload.slots} | {rtadmit} tally {file} /dev/stdin",
    ]


def add_words(parser):
    parser.add_argument("file", metavar="FILE", help="the system file")
    parser.add_argument("name", metavar="NAME", help="a part that is exposed by=block")
    parser.add_argument("out", metavar="OUT", help="gets the workload; it must not be there yet")
    parser.add_argument("--trace", metavar="TRACE", help="gets the trace of its run")
    add_program(parser)


def run(given):
    return "\n".join(expose(given.file, given.name, given.out, program_of(given.program), given.trace)) + "\n"
