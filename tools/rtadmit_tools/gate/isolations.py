"""Compares what `isolate` tells with all that can happen on small cores, and with runs of `rtds` over random workloads.

Small cores: of two VCPUs each core with periods up to 6 that is admitted, and of three VCPUs each fifth, or with --all each. Every state is
visited that some workload reaches: at each slot each VCPU starts, blocks and wakes as it may, and of those that could run at once another
one has the core. No formula and no worst case stands here. What must hold is this:

- isolated by T: no period of it is short in whose last T slots it does not block, however ties are broken;
- by ties: the same where of periods that end at once the first in the file goes first; and with other ties some period is short in which
  it never blocks;
- by block: some such period is short in the order of the file;
- of each core the sum of its budgets and its shortest period are told, and all of it is isolated exactly where that is no less.

Random runs (100): a system of one to three cores with one to five VCPUs each, some with extra time and some with a part on them, and four
workloads over it, in which VCPUs start, block and wake at moments that look random, many of them together. In the trace that `rtds` writes
each period of an isolated VCPU, of one by ties too, has its budget where it ends by the end and the VCPU does not block in its last T
slots. Each VCPU that is exposed by=block, on a small core or a random one, is short by the workload of tools/host expose.

Ends with 1 where something does not hold, and where so few were isolated or exposed that this would show little."""
import itertools
import random

from .. import comparing
from ..comparing import compare, core, need, part, task, tree
from ..host import expose
from .tallies import rows_of, watched, within

LONGEST, EACH, FEW, WORKLOADS = 6, 5, 10, 4


# All that can happen on a small core
def reaches_short(vcpus, v, last, tie):
    """Whether some period of VCPU v is short in whose last slots, so many, it is not blocked. A VCPU is a period and a budget. Where `tie`
    is said, of periods that end at once the first in the list goes first; else any.

    A state has for each VCPU the slots of its period that are past and those that it had, and whether v blocked in the last ones of this
    period. One that starts at a slot is as one that started whole periods before and was blocked up to it; so at first each is anywhere
    in a period of which it had nothing. At a slot the core goes to one that has budget left and before which every other one can be
    blocked, or to none; v can be blocked, but not in its last slots, or else this period is not looked at."""
    begins = itertools.product(*([(phase, 0) for phase in range(period)] for period, _ in vcpus))
    todo = [(state, counts) for state in begins for counts in ((False, True) if state[v][0] == 0 else (False,))]
    seen = set(todo)
    period, budget = vcpus[v]
    while todo:
        state, counts = todo.pop()
        phase, had = state[v]
        due = period - phase
        # where v is not blocked and has budget left, those alone that go before it may have the core
        holds_v = counts and due <= last and had < budget
        able = [None] if not holds_v else []
        for u, (of, (past, got)) in enumerate(zip(vcpus, state)):
            ends = of[0] - past
            if got < of[1] and (not holds_v or u == v or ends < due or (ends == due and (u < v or not tie))):
                able.append(u)
        for held in able:
            if due == 1 and counts and had + (held == v) < budget:
                return True
            after = tuple(moved(of, at, u == held) for u, (of, at) in enumerate(zip(vcpus, state)))
            # a period of v that begins is looked at; and the same without that
            for still in ((True,) if due == 1 else (counts,)):
                if (after, still) not in seen:
                    seen.add((after, still))
                    todo.append((after, still))
    return False


def moved(vcpu, state, holds):
    """Where a VCPU is in its period a slot later."""
    phase, had = state
    return (0, 0) if phase + 1 == vcpu[0] else (phase + 1, had + holds)


def small_cores(count):
    choices = [(period, budget) for period in range(1, LONGEST + 1) for budget in range(1, period + 1)]
    for vcpus in itertools.product(choices, repeat=count):
        if sum(budget * 60 // period for period, budget in vcpus) <= 60:
            yield vcpus


# What is asked, and whether it holds
def system_of(cores, extra=(), inner=()):
    """A system of cores, each a list of VCPUs; those of the places in `extra` have extra time, and on those in `inner` a part stands."""
    parts = []
    for number, vcpus in enumerate(cores):
        for place, (period, budget) in enumerate(vcpus):
            name, tasks = f"c{number}v{place}", [task("t", 1000 * period, 1)]
            is_inner, has_extra = (number, place) in inner, (number, place) in extra or None
            parts.append(part(name, f"c{number}", "edf", period, budget, [] if is_inner else tasks, extra=has_extra))
            parts += [part(f"on-{name}", name, "edf", 4 * period, tasks=tasks)] * is_inner
    return tree([core(f"c{number}") for number in range(len(cores))], parts, 1)


def kept_of(room, cores, extra=(), inner=()):
    """What `isolate` tells of the VCPUs of a system: the core and the place of each, its name and that."""
    answer = room.run("isolate", room.write("system.toml", system_of(cores, extra, inner)))
    kept = expose.kept_of(answer, "system.toml")
    vcpus = {f"c{number}v{place}": (number, place) for number, on in enumerate(cores) for place in range(len(on))}
    periods = {name: cores[number][place][0] for name, (number, place) in vcpus.items()}
    wrong = [line for line in answer.lines[1:] if " of=" in line and not line.endswith(f" of={periods.get(line.split()[1])}")]
    is_yes = all(told.how == "isolated" for told in kept.values())
    need(list(kept) == list(vcpus) and not wrong and answer.is_yes == is_yes,
         f"`isolate` does not tell of each VCPU with its period, or its verdict is not that of its lines:\n{answer.text}")
    sums(answer, cores, [all(kept[name].how == "isolated" for name in vcpus if vcpus[name][0] == core) for core in range(len(cores))])
    return [(*vcpus[name], name, told) for name, told in kept.items()]


def sums(answer, cores, whole):
    """Each core has a line of its budgets and its shortest period, and these decide whether all of it is isolated."""
    told = [(line["name"], line["budgets"], line["shortest"]) for line in answer.told("core")]
    wanted = [(f"c{number}", sum(budget for _, budget in on), min(period for period, _ in on)) for number, on in enumerate(cores)]
    need(told == wanted and whole == [budgets <= shortest for _, budgets, shortest in wanted],
         f"`isolate` does not tell the budgets and the shortest period of each core, or they do not decide:\n{answer.text}")


def exposed(room, kept, cores):
    """Each that is exposed by=block is short by the workload of tools/host expose."""
    broken = [(number, place) for number, place, _, told in kept if told.how == "block"]
    for number, place in broken:
        vcpus = [expose.Vcpu(f"c{number}v{at}", *vcpu) for at, vcpu in enumerate(cores[number])]
        workload = expose.breaking(vcpus, place)
        file, written = (str(room.folder / name) for name in ("system.toml", room.write("workload.csv", workload.text())))
        expose.short_period(room.program, file, vcpus[place], workload, written, None)
    return ["short by tools/host expose"] * len(broken)


def small(room, vcpus):
    kept = kept_of(room, [vcpus])
    for _, v, name, told in kept:
        last = told.last or vcpus[v][0]
        need(reaches_short(vcpus, v, last, told.how != "isolated") == (told.how == "block"),
             f"{name} is told as {told}, and all that can happen says something else")
        need(told.how != "ties" or reaches_short(vcpus, v, vcpus[v][0], False),
             f"{name} is told as {told}, and no order of ties makes it short")
    return [told.how for *_, told in kept] + exposed(room, kept, [vcpus])


def over_workloads(room, made):
    """A random system, and runs over some workloads: none that is isolated lacks its budget in a period that counts."""
    cores, extra, inner, workloads = made
    kept = kept_of(room, cores, extra, inner)
    met = [told.how for *_, told in kept] + exposed(room, kept, cores)
    for slots, rows in workloads:
        room.write("workload.csv", "".join(["at,vcpu,what\n", *(f"{at},{name},{what}\n" for at, name, what in rows)]))
        trace = rows_of(room.want(0, "rtds", "system.toml", "workload.csv", slots))
        for number, place, name, told in kept:
            period, budget = cores[number][place]
            starts, runs, blocks = watched(trace, f"c{number}", name)
            for begin in range(starts[0], trace[-1][0] - period + 1, period) if starts and told.last else ():
                if within(blocks, begin + period - told.last, begin + period) == 0:
                    need(within(runs, begin, begin + period) >= budget, f"{name} is told as {told}, and lacks its budget from {begin} on")
                    met.append("periods of isolated VCPUs")
    return met


# What looks random
def random_core(rng):
    """A core that is admitted: the VCPUs together have at most all of it, mostly nearly so."""
    while True:
        count, longest = rng.randint(1, 5), rng.choice((6, 12, 40))
        periods = [rng.randint(1, longest) for _ in range(count)]
        if rng.random() < 0.3:
            periods = [rng.choice(periods) for _ in periods]
        vcpus = [(period, rng.randint(1, max(1, 3 * period // (2 * count)))) for period in periods]
        if all(budget <= period for period, budget in vcpus) and sum(budget / period for period, budget in vcpus) <= 1 - 1e-9:
            return vcpus


def random_rows(cores, slots, rng):
    """The rows of a workload in order: starts, and in turn blocks and wakes. Some of the moments are those of many VCPUs."""
    together = sorted(rng.randint(0, slots) for _ in range(rng.randint(1, 6)))
    rows, place = [], 0
    for number, vcpus in enumerate(cores):
        for at, (period, _) in enumerate(vcpus):
            moment, what = rng.choice((0, rng.randint(0, period), rng.randint(0, slots))), "start"
            asleep = rng.choice((0.1, 0.5, 0.9))
            while moment <= slots and rng.random() < 0.98:
                rows.append((moment, place, f"c{number}v{at}", what))
                what = "wake" if what == "block" else "block"
                later = [common for common in together if common > moment]
                if later and rng.random() < 0.5:
                    moment = rng.choice(later)
                else:
                    moment += 1 + int(rng.expovariate(1 / (period * (asleep if what == "block" else 1 - asleep) + 0.5)))
            place += 1
    return [(at, name, what) for at, _, name, what in sorted(rows, key=lambda row: (row[0], row[1]))]


def random_systems(seed, runs):
    """Random systems, each with its workloads: the slots of the run and its rows."""
    rng = random.Random(seed)
    for _ in range(0, runs, WORKLOADS):
        cores = [random_core(rng) for _ in range(rng.randint(1, 3))]
        places = [(number, place) for number, vcpus in enumerate(cores) for place in range(len(vcpus))]
        extra, inner = ({place for place in places if rng.random() < share} for share in (0.3, 0.2))
        longest = max(period for vcpus in cores for period, _ in vcpus)
        workloads = [(slots, random_rows(cores, slots, rng)) for slots in (rng.randint(1, 12) * longest for _ in range(WORKLOADS))]
        yield cores, extra, inner, workloads


def add_words(parser):
    parser.add_argument("--all", action="store_true", help="all cores of three VCPUs with periods up to 6")
    parser.add_argument("--runs", type=int, default=100, metavar="N", help="so many random runs")
    parser.add_argument("--seed", type=int, default=49, metavar="N", help="for other random systems and workloads")
    comparing.add_words(parser)


def run(given):
    cores = [*small_cores(2), *itertools.islice(small_cores(3), 0, None, 1 if given.all else EACH)]
    least = dict.fromkeys(("isolated", "ties", "block"), FEW)
    by_all = compare(given, "small cores, by all that can happen", small, cores, least, heavy=True)
    least, systems = dict.fromkeys(("isolated", "block"), min(FEW, given.runs // 10)), random_systems(given.seed, given.runs)
    by_runs = compare(given, f"systems, over {WORKLOADS} random workloads each", over_workloads, systems, least, heavy=True)
    return int(not (by_all and by_runs))
