"""Looks at whether guests that halt keep their deadlines where `isolate` says so: by all that can happen on small cores, and over runs.

Small cores: a guest of one or two tasks, under earliest deadline first or a fixed priority, with the least budget that `admit` computes,
beside one or two VCPUs. Every state is visited that some releases reach, while the guest is blocked only where none of its jobs is
pending, and the others start, block and wake as they like. No formula and no worst case stands here. What must hold is this: no job of a
guest that is isolated is late, however ties are broken; nor of one that is exposed by ties, where of periods that end at once the first
in the file goes first.

Random runs: a host of one or two cores with the least budgets, some with extra time, whose guests halt where they have nothing to do, and
its run slot by slot, by the lines of `schedules`. `rtds` over the workload of that run makes the same one. No job of an isolated guest is
late in it, and none of its periods is denied or short, as `steal`, which tells what `tallies` counts, and `tally` say.

Ends with 1 where something does not hold, and where so few guests were isolated, or of those that are exposed so few were late, that this
would show little."""
import itertools
import random
from fractions import Fraction

from .. import comparing
from ..comparing import SCHEDS, compare, core, need, part, task, tree
from ..host import expose
from . import responses, schedules, tallies
from .isolations import moved
from .schedules import Job

SMALL, RUNS, FEW = 120, 300, 10


# All that can happen on a small core
def able(vcpus, state, v, is_awake, tie):
    """Who may have the core at a slot, by places; None where nobody has to. Each other VCPU that has budget left may be blocked or not."""
    phase, had = state[v]
    due, holds = vcpus[v][0] - phase, is_awake and had < vcpus[v][1]
    found = [v] if holds else [None]
    for u, ((period, budget), (past, got)) in enumerate(zip(vcpus, state)):
        if u != v and got < budget and (not holds or period - past < due or (period - past == due and (u < v or not tie))):
            found.append(u)
    return found


def first_jobs(sched, tasks, states):
    """The places of the jobs of which one goes first, or None alone where none is pending."""
    waiting = [place for place, (_, lacks, _) in enumerate(states) if lacks]
    keys = {"edf": lambda at: tasks[at].deadline - states[at][0], "rm": lambda at: (tasks[at].period, at),
            "dm": lambda at: (tasks[at].deadline, at), "listed": lambda at: at}
    least = min(map(keys[sched], waiting), default=None)
    return [at for at in waiting if keys[sched](at) == least] or [None]


def can_be_late(vcpus, v, sched, tasks, tie):
    """Whether some job of the guest on VCPU v gets past its deadline. A VCPU is a period and a budget, and a state has for each VCPU the
    slots of its period that are past and those that it had, and of each task what `responses` has of it. A VCPU that starts at a slot is
    as one that started whole periods before, so at first each is anywhere in a period of which it had nothing."""
    rest = tuple((task.period + task.jitter, 0, 0) for task in tasks)
    begins = itertools.product(*([(at, 0) for at in range(period if u != v else 1)] for u, (period, _) in enumerate(vcpus)))
    todo = [(begin, rest) for begin in begins]
    seen = set(todo)
    while todo:
        state, before = todo.pop()
        for states in itertools.product(*map(responses.releases, tasks, before)):
            jobs = first_jobs(sched, tasks, states)
            for is_awake in ((True,) if jobs != [None] else (True, False)):
                for held in able(vcpus, state, v, is_awake, tie):
                    for runs in (jobs if held == v else [None]):
                        after = tuple(responses.later(of, at, place == runs)[0] for place, (of, at) in enumerate(zip(tasks, states)))
                        if any(lacks and since >= of.deadline for of, (since, lacks, _) in zip(tasks, after)):
                            return True
                        follows = tuple(moved(vcpu, at, u == held) for u, (vcpu, at) in enumerate(zip(vcpus, state))), after
                        if follows not in seen:
                            seen.add(follows)
                            todo.append(follows)
    return False


def kept_of(room, system):
    """The budgets with which a system is admitted, and what `isolate` tells of each VCPU; or None where it is not admitted."""
    answer = room.run("admit", room.write("system.toml", system))
    if not answer.is_yes:
        need(answer.status in (1, 4), f"`admit`: status {answer.status}: {answer.text}")
        return None, None
    kept = expose.kept_of(room.run("isolate", "system.toml"), "system.toml")
    return {name: budget for name, (budget, _) in answer.budgets().items()}, kept


def small(room, made):
    periods, less, place, period, sched, tasks = made
    tables = [task(of.name, of.period, of.work, deadline=of.deadline, jitter=of.jitter) for of in tasks]
    leaf = part("leaf", "c", sched, period, None, tables)
    alone, _ = kept_of(room, tree([core("c")], [leaf]))
    if alone is None:
        return ["not admitted"]
    share = (1 - Fraction(alone["leaf"], period)) / len(periods)
    parts = [part(f"v{at}", "c", "edf", of, max(1, int(share * of) - less), [task("t", 1000, 1)]) for at, of in enumerate(periods)]
    parts.insert(place, leaf)
    budgets, kept = kept_of(room, tree([core("c")], parts))
    if budgets is None:
        return ["not admitted"]
    how, vcpus = kept["leaf"].how, [(of["period"], budgets[of["name"]]) for of in parts]
    late = can_be_late(vcpus, place, sched, tasks, how != "isolated")
    need(how == "block" or not late, f"leaf is told as {kept['leaf']}, and a job of it can be late")
    return [how] + ["late where it is exposed"] * late


def small_guests(seed, count):
    rng = random.Random(seed)
    for number in range(count):
        periods = [rng.randint(2, 6) for _ in range(1 + number % 2)]
        tasks = []
        for _ in range(1 + (rng.random() < 0.3)):
            period = rng.randint(4, 10)
            deadline = rng.choice((period, rng.randint(4, period)))
            tasks.append((period, deadline, rng.randint(1, deadline // 4), int(rng.random() < 0.2 and deadline > 2)))
        place, sched = rng.randint(0, len(periods)), rng.choice(SCHEDS)
        yield periods, rng.choice((0, 0, 1)), place, rng.randint(2, 5), sched, responses.tasks_of(*tasks)


# Runs of hosts whose guests halt
class Guest:
    """The jobs of a guest, which blocks where none is pending, and at some such slots not at once."""

    def __init__(self, told, begins, slots, rng):
        self.name, self.sched, self.begins, self.rng, self.is_late = told["name"], told["sched"], begins, rng, False
        self.eager, self.blocked, self.jobs, self.waiting = rng.choice((1, 1, 0.5)), False, [], []
        for number, of in enumerate(told["task"]):
            arrival = begins + rng.choice((0, rng.randint(0, of["period"])))
            while arrival < slots:
                delay = rng.randint(0, of["jitter"])
                self.jobs.append(Job(number, of, arrival + delay, rng.choice((of["work"], rng.randint(1, of["work"]))), delay))
                arrival += of["period"] + rng.choice((0, 0, rng.randint(0, of["period"])))
        self.jobs.sort(key=lambda job: -job.release)

    def turn(self, x):
        """What the guest does at a slot, or None."""
        self.waiting = [job for job in self.waiting if job.got < job.work]
        while self.jobs and self.jobs[-1].release <= x:
            self.waiting.append(self.jobs.pop())
        self.is_late |= any(job.due <= x for job in self.waiting)
        was, self.blocked = self.blocked, x > self.begins and not self.waiting and (self.blocked or self.rng.random() < self.eager)
        return "start" if x == self.begins else None if self.blocked == was else "block" if self.blocked else "wake"

    def ran(self):
        for job in sorted(self.waiting, key=lambda job: job.goes(self.sched))[:1]:
            job.got += 1


def over_runs(room, made):
    system, starts, slots, seed = made
    budgets, kept = kept_of(room, system)
    if budgets is None:
        return ["not admitted"]
    rng, rows = random.Random(seed), []
    given = tree(system["core"], [of | {"budget": budgets[of["name"]]} for of in system["part"]])
    guests = {of["name"]: Guest(of, begins, slots, rng) for of, begins in zip(given["part"], starts)}

    def turns(x):
        here = [(name, what) for name, guest in guests.items() if (what := guest.turn(x))]
        rows.extend(f"{x},{name},{what}\n" for name, what in here)
        return here

    trace = schedules.run_rtds(given, turns, slots, lambda name: guests[name].ran())
    room.write("workload.csv", "".join(["at,vcpu,what\n", *rows]))
    told = room.want(0, "rtds", room.write("system.toml", given), "workload.csv", slots)
    need(told == trace, f"the run of `rtds` is not the one that is made here:\n{trace}")
    tallies.stolen_as_counted(room, ((room.folder / "system.toml").read_text(), trace))
    denied, short = ({line["name"]: line[key] for line in room.run(command, "system.toml", "trace.csv").told("vcpu")}
                     for command, key in (("steal", "denied"), ("tally", "short")))
    met = []
    for name, guest in guests.items():
        bad = [what for what, is_so in (("late", guest.is_late), ("denied", denied[name]), ("short", short[name])) if is_so]
        need(kept[name].how == "block" or not bad, f"{name} is told as {kept[name]}, and is {' and '.join(bad)}")
        met += [kept[name].how, *(f"{what} where it is exposed" for what in bad)]
    return met


def some_host(rng):
    """Cores of guests that together ask for much, each with some periods of slots for its tasks."""
    parts, cores = [], [core(f"c{number}") for number in range(rng.randint(1, 2))]
    for on in cores:
        longest, count = rng.choice((8, 20)), rng.randint(2, 4)
        shared = rng.random() < 0.4 and rng.randint(2, longest)
        for _ in range(count):
            period, tasks = shared or rng.randint(2, longest), []
            for number in range(rng.randint(1, 2)):
                every = rng.randint(2 * period, 5 * period)
                deadline = rng.choice((every, rng.randint(every // 2, every)))
                most = max(1, every // (2 * count * (1 + number)) - number)
                tasks.append(task(f"t{number}", every, rng.randint(1, most), deadline=deadline, jitter=rng.choice((0, 0, deadline // 8))))
            extra = True if rng.random() < 0.15 else None
            parts.append(part(f"v{len(parts)}", on["name"], rng.choice(SCHEDS), period, None, tasks, extra=extra))
    return tree(cores, parts)


def hosts(seed, count):
    rng = random.Random(seed)
    for number in range(count):
        host = some_host(rng)
        longest = max(of["period"] for of in host["part"])
        yield host, [rng.choice((0, rng.randint(0, longest))) for _ in host["part"]], 30 * longest, number


def add_words(parser):
    parser.add_argument("--number", type=int, default=1, metavar="N", help=f"{SMALL} small guests and {RUNS} runs so many times")
    parser.add_argument("--seed", type=int, default=51, metavar="N", help="for other guests and hosts")
    comparing.add_words(parser)


def run(given):
    least = {"isolated": 3 * FEW, "ties": 1, "block": FEW // 2, "late where it is exposed": 1}
    guests, runs = small_guests(given.seed, SMALL * given.number), hosts(given.seed, RUNS * given.number)
    by_all = compare(given, "small guests, by all that can happen", small, guests, least, heavy=True)
    least = {"isolated": RUNS // 2, "block": FEW, "denied where it is exposed": 2}
    by_runs = compare(given, "hosts whose guests halt, each over a run", over_runs, runs, least, heavy=True)
    return int(not (by_all and by_runs))
