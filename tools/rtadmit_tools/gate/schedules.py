"""Runs small systems slot by slot by a few lines of its own, and looks at whether `simulate` and `rtds` tell the same.

The program goes from event to event. Here each slot of a level goes to the first of the jobs that wait then, and each slot of a core
under RTDS to the first of the VCPUs that may have it. The systems look random, and are the same on each run: trees of up to three levels
under every scheduler, on full cores and on others by each pattern, with budgets that fit and that do not, and jobs that come late; and
cores of VCPUs that start, block and wake, with and without extra time. What must hold is this:

- the lines of `simulate`, with its first misses, and its status are those that are counted here;
- the trace of `rtds` is the one that is made here, and what `tally` and `audit` tell of it is what `tallies` counts.

Ends with 1 where something does not hold, and where few runs missed, or few did not."""
from ..comparing import SCHEDS, Numbers, add_words, compare, core, need, part, task, tree
from ..program import Answer
from . import tallies

RUNS = 300
PATTERNS = {
    "early": lambda x, period, budget: x % period < budget,
    "late": lambda x, period, budget: x % period >= period - budget,
    "worst": lambda x, period, budget: x < budget or (x >= period and x % period >= period - budget),
}


class Job:
    """A job of one of the tasks or servers of a node, which are numbered in file order."""

    def __init__(self, place, task, release, work, early=0):
        self.place, self.task, self.release, self.work = place, task, release, work
        self.due = release - early + task.get("deadline", task["period"])
        self.got = self.in_time = 0

    def goes(self, sched):
        """What says which job goes first under a scheduler; of equals the first in the list goes."""
        own = {"edf": self.due, "rm": self.task["period"], "dm": self.task.get("deadline", self.task["period"]), "listed": 0}[sched]
        return own, 0 if sched == "edf" else self.place


def scheduled(sched, jobs, given, gives_up):
    """The jobs of a level in the order of their releases, run in its slots; which has each. A server's job is given up when it is due."""
    held = {}
    for x in given:
        waiting = [job for job in jobs if job.release <= x and job.got < job.work and not (gives_up and job.due <= x)]
        if waiting:
            held[x] = job = min(waiting, key=lambda job: job.goes(sched))
            job.got += 1
            job.in_time += x < job.due
    return held


def counted(kind, node, given, jobs, slots):
    missed = [job for job in jobs if job.due <= slots and job.in_time < job.work]
    lines = [f"{kind} {node['name']} given={len(given)} jobs={len(jobs)} missed={len(missed)}"]
    for job in sorted(missed, key=lambda job: job.due)[:1]:
        lines.append(f"first {job.task['name']} release={job.release} deadline={job.due} got={job.in_time} of={job.work}")
    return lines, bool(missed)


def run_tree(system, rows, pattern, slots):
    """What `simulate` is to answer. A row is a moment, a part, a task, its work and how early it arrived."""
    told, misses = {}, False

    def run(kind, node, given):
        nonlocal misses
        children = [child for child in system["part"] if child["parent"] == node["name"]]
        if node.get("task"):
            of_name = {one["name"]: (place, one) for place, one in enumerate(node["task"])}
            jobs = [Job(*of_name[name], at, work, early) for at, leaf, name, work, early in rows if leaf == node["name"] and at < slots]
        else:
            served = ((place, child, at) for place, child in enumerate(children) for at in range(0, slots, child["period"]))
            jobs = sorted((Job(place, child, at, child["budget"]) for place, child, at in served), key=lambda job: job.release)
        held = scheduled(node["sched"], jobs, given, not node.get("task"))
        told[node["name"]], missed = counted(kind, node, given, jobs, slots)
        misses |= missed
        for child in children:
            run("part", child, [x for x in given if x in held and held[x].task is child])

    for node in system["core"]:
        period = node.get("supply_period")
        run("core", node, [x for x in range(slots) if period is None or PATTERNS[pattern](x, period, node["supply_budget"])])
    lines = [line for node in (*system["core"], *system["part"]) for line in told[node["name"]]]
    return Answer(int(misses), "\n".join([f"verdict={'no' if misses else 'yes'}", *lines]) + "\n")


def some_tree(numbers):
    """Up to two cores, and on each a few parts, of which some have parts of their own. Of three systems one asks for little."""
    cores, parts, little = [], [], 1 + 5 * (numbers.below(3) == 0)
    for c in range(1 + numbers.below(2)):
        supply = {"supply_period": 2 + numbers.below(9)} if numbers.below(2) else {}
        supply |= {"supply_budget": supply["supply_period"] - numbers.below(supply["supply_period"]) // little} if supply else {}
        cores.append(core(f"c{c}", numbers.of(SCHEDS), **supply))
    for place in range(1 + numbers.below(6)):
        above = [one["name"] for one in cores] + [one["name"] for one in parts if not one["task"]]
        period = 3 + numbers.below(12)
        tasks = [some_task(numbers, f"t{t}", little) for t in range(numbers.below(4))]
        parts.append(part(f"p{place}", numbers.of(above), numbers.of(SCHEDS), period, 1 + numbers.below(period) // little, tasks))
    childless = {one["name"] for one in parts} - {one["parent"] for one in parts}
    for one in parts:
        one["task"] = one["task"] or [some_task(numbers, "t0", little)] * (one["name"] in childless)
    return tree(cores, parts)


def some_task(numbers, name, little):
    work, jitter = 1 + numbers.below(4) // little, numbers.below(3)
    deadline = work + jitter + numbers.below(8) * little * little
    return task(name, deadline + numbers.below(6), work, deadline=deadline, jitter=jitter)


def some_rows(numbers, system, slots):
    """Jobs of the leaves, each task's at least its period apart by their arrivals, in the order of their releases."""
    rows = []
    for leaf in system["part"]:
        for one in leaf["task"]:
            arrival = numbers.below(8) - numbers.below(one["jitter"] + 1)
            while arrival < slots and numbers.below(12):
                early = max(numbers.below(one["jitter"] + 1), -arrival)
                rows.append((arrival + early, leaf["name"], one["name"], 1 + numbers.below(one["work"]), early))
                arrival += one["period"] + numbers.below(3)
    return sorted(rows, key=lambda row: row[0])


def some_runs(seed, count):
    numbers = Numbers(seed)
    for _ in range(count):
        system, slots = some_tree(numbers), 1 + numbers.below(90)
        yield system, some_rows(numbers, system, slots), numbers.of(tuple(PATTERNS)), slots


def simulated(room, made):
    """Whether a job misses, as `simulate` says and as is counted here."""
    system, rows, pattern, slots = made
    text = "at,part,task,work,early\n" + "".join(",".join(map(str, row)) + "\n" for row in rows)
    answer = room.run("simulate", room.write("system.toml", system), room.write("releases.csv", text), pattern, slots)
    plain = run_tree(*made)
    need(answer == plain, f"simulate {pattern} {slots}: {answer}\nslot by slot: {plain}")
    return ["missed" if answer.status else "not missed"]


class Vcpu:
    def __init__(self, place, told):
        self.place, self.name, self.period, self.budget = place, told["name"], told["period"], told["budget"]
        self.extra, self.start, self.blocked, self.had = bool(told.get("extra")), None, False, 0

    def begin(self, x):
        """A period that begins at a slot brings the budget back."""
        if self.start is not None and (x - self.start) % self.period == 0:
            self.had = 0

    def may(self):
        return self.start is not None and not self.blocked and (self.extra or self.had < self.budget)

    def goes(self, x):
        return self.had // self.budget, x - (x - self.start) % self.period + self.period, self.place


def run_rtds(system, rows, slots, ran=lambda name: None):
    """The trace that `rtds` is to write. A row is a moment, a VCPU and what it does; in place of rows their VCPUs and words may be found at
    each moment, by who has had a slot, which is told as it goes on."""
    vcpus = {told["name"]: Vcpu(place, told) for place, told in enumerate(system["part"])}
    on = {node["name"]: [vcpus[told["name"]] for told in system["part"] if told["parent"] == node["name"]] for node in system["core"]}
    core_of = {vcpu.name: name for name, those in on.items() for vcpu in those}
    holders, lines = dict.fromkeys(on), ["at,core,what,vcpu"]
    for x in range(slots):
        here = rows(x) if callable(rows) else [(name, what) for at, name, what in rows if at == x]
        for name, holder in holders.items():
            if holder and (holder.name, "block") in here:
                lines.append(f"{x},{name},stop,")
                holders[name] = None
        for name, what in here:
            lines.append(f"{x},{core_of[name]},{what},{name}")
            vcpus[name].blocked = what == "block"
            vcpus[name].start = x if what == "start" else vcpus[name].start
        for name, those in on.items():
            for vcpu in those:
                vcpu.begin(x)
            first = min((vcpu for vcpu in those if vcpu.may()), key=lambda vcpu: vcpu.goes(x), default=None)
            if first is not holders[name]:
                lines.append(f"{x},{name},run,{first.name}" if first else f"{x},{name},stop,")
                holders[name] = first
            if first:
                first.had += 1
                ran(first.name)
    return "\n".join([*lines, f"{slots},,end,"]) + "\n"


def some_workloads(seed, count):
    numbers = Numbers(seed)
    for _ in range(count):
        cores = [core(f"c{c}") for c in range(1 + numbers.below(2))]
        parts = []
        for place in range(1 + numbers.below(6)):
            period = 2 + numbers.below(9)
            extra = True if numbers.below(3) == 0 else None
            budget = 1 + numbers.below(1 + period // 2)
            parts.append(part(f"v{place}", numbers.of(cores)["name"], "edf", period, budget, [task("t", 1000, 1)], extra=extra))
        rows, at, stands = [], 0, {}
        for _ in range(numbers.below(30)):
            at += (0, 0, 1, numbers.below(7))[numbers.below(4)]
            name = numbers.of(parts)["name"]
            since, stood = stands.get(name, (-1, None))
            if since < at:
                stands[name] = at, {None: "start", "block": "wake"}.get(stood, "block")
                rows.append((at, name, stands[name][1]))
        yield tree(cores, parts), rows, 1 + numbers.below(90)


def as_slot_by_slot(room, made):
    """The trace of a workload is the one that is made here; whether it is satisfied, by what `tallies` counts."""
    system, rows, slots = made
    text = "at,vcpu,what\n" + "".join(",".join(map(str, row)) + "\n" for row in rows)
    answer = room.run("rtds", room.write("system.toml", system), room.write("workload.csv", text), slots)
    plain = Answer(0, run_rtds(*made))
    need(answer == plain, f"rtds {slots}: {answer}\nslot by slot: {plain}")
    return tallies.told_as_counted(room, ((room.folder / "system.toml").read_text(), answer.text))


def run(given):
    trees = compare(given, "trees", simulated, some_runs(400, RUNS), {"missed": 50, "not missed": 50})
    workloads = compare(given, "workloads", as_slot_by_slot, some_workloads(401, RUNS), {"satisfied": 30, "not satisfied": 30})
    return int(not (trees and workloads))
