"""One period for a core on which `isolate` calls somebody exposed: a copy of the file in which its budgets fit into the shortest period.

All VCPUs of a core are isolated exactly where its budgets come to no more than its shortest period. FILE is a system file that is
admitted. For each core with a part that is exposed it looks for a common period of the parts whose budget is left open: the longest, up to
the longest period of the core, at which that is so with the least budgets. A part with a given budget keeps that and its period. It asks
`admit` of each part by itself at some periods; a budget that is enough at one is enough at each shorter one, so not all are asked, and of
5000 at the most. Then `admit` and `isolate` have to say yes of the core.

It prints the copy, with its comments, and tells on standard error of each such core the period, the parts that get it, and the share of
the core that its budgets take, before and after; or that no period serves, and what the status is then is 1. A core on which nobody is
exposed stays as it is."""
import functools
import math
import pathlib
import sys
from fractions import Fraction

from ..command_line import Refused
from ..places import rewritten
from ..program import add_program, program_of
from ..system_file import read_admitted
from .expose import kept_of
from .why import percent

MOST = 5000


def longest(high, given, shortest, need):
    """The longest period up to `high` at which the given budgets and those that are needed, which grow with the period, come to no more
    than it and the shortest period that stays. Needed is None where nothing is known, and infinite where no budget is enough."""
    spans = [(1, high)]
    while spans:
        low, high = spans.pop()
        if (asked := need(high)) is not None and given + asked <= min(high, shortest):
            return high
        if low < high:
            middle = (low + high - 1) // 2
            asked = need(middle)
            spans.append((low, middle))
            least = middle + 1 if asked is None else max(middle + 1, given + asked)
            if least < high and (asked is None or given + asked <= shortest):
                spans.append((least, high - 1))
    return None


def with_period(system, names, period):
    for name in names:
        system = system.changed(f"{name}.period={period}")
    return system


def common_period(system, core, program):
    """The period for the parts of a core whose budget is open, and these; None where none serves."""
    parts = [system.nodes[name] for name in core.children]
    names, asked = [part.name for part in parts if part.budget is None], set()
    kept = [part for part in parts if part.budget is not None]

    @functools.cache
    def need(period):
        asked.add(period)
        if len(asked) > MOST:
            raise Refused(system.path, None, f"{core.name}: {MOST} periods were asked, and none of them serves")
        total = 0
        for name in names:
            answer = program.admit(with_period(system, [name], period).alone(name))
            if not answer.is_yes:
                return None if answer.status == 4 else math.inf
            total += answer.budgets()[name][0]
        return total

    given, shortest = sum(part.budget for part in kept), min([part.period for part in kept], default=math.inf)
    return longest(max(part.period for part in parts), given, shortest, need) if names else None, names


def share(system, core, answer):
    return sum(Fraction(answer.budgets()[name][0], system.nodes[name].period) for name in core.children)


def mended(path, program, only=None):
    """The system with one period for each core that needs one, what is told of these cores, and whether some period served on each."""
    system, before = read_admitted(path, program)
    kept = kept_of(program.ask("isolate", path), path)
    cores = [core for core in system.cores() if any(kept[name].how != "isolated" for name in core.children)]
    if only is not None:
        if only not in [core.name for core in system.cores()]:
            raise Refused(path, None, f"{only} is no core")
        cores = [core for core in cores if core.name == only]
    told, found, now = [], [], system
    for core in cores:
        period, names = common_period(system, core, program)
        if period is None:
            told.append(f"{core.name}: no period serves for {', '.join(names) or 'it, as each budget is given'}")
        else:
            found.append((core, period, names))
            now = with_period(now, names, period)
    after, answer = program.admit(now), program.ask("isolate", "/dev/stdin", text=now.text())
    isolated = kept_of(answer, path) if found else {}
    for core, period, names in found:
        if not after.is_yes or any(isolated[name].how != "isolated" for name in core.children):
            raise Refused(program.path, None, f"against what is proved, the budgets of {core.name} fit and somebody is exposed")
        shares = f"{percent(share(now, core, after))} of it, and took {percent(share(system, core, before))}"
        told.append(f"{core.name}: a period of {period} for {', '.join(names)}; the budgets take {shares}")
    return system, now, told or ["nobody is exposed"], len(found) == len(cores)


def add_words(parser):
    parser.add_argument("file", metavar="FILE", help="the system file")
    parser.add_argument("--core", metavar="NAME", help="this core alone")
    add_program(parser)


def run(given):
    system, now, told, is_whole = mended(given.file, program_of(given.program), given.core)
    print("".join(f"{given.file}: {line}\n" for line in told), end="", file=sys.stderr)
    return rewritten(pathlib.Path(given.file).read_bytes().decode(), system, now), int(not is_whole)
