"""Files of every kind, small and large: systems, releases, workloads and traces, each as text. What `bench/all`,
`bench/admit` and `tools/gate fuzz` give to the program is made here."""
import random
from dataclasses import dataclass, field


@dataclass
class Task:
    name: str
    period: int
    work: int
    deadline: int = 0
    jitter: int = 0


@dataclass
class Part:
    name: str
    parent: str
    sched: str
    period: int
    tasks: list = field(default_factory=list)
    budget: int = 0
    extra: bool = False


@dataclass
class System:
    """Cores as (name, sched, supply), where the supply is None or a period and a budget; and parts in file order."""

    cores: list
    parts: list

    def leaves(self):
        return [part for part in self.parts if part.tasks]

    def vcpus(self):
        """The parts that stand on a core."""
        cores = {name for name, _, _ in self.cores}
        return [part for part in self.parts if part.parent in cores]

    def text(self):
        late = any(task.jitter for part in self.parts for task in part.tasks)
        return f"format = {1 + late}\n" + "".join(map(core_text, self.cores)) + "".join(map(part_text, self.parts))


def core_text(core):
    name, sched, supply = core
    given = f"supply_period = {supply[0]}\nsupply_budget = {supply[1]}\n" if supply else ""
    return f'[[core]]\nname = "{name}"\nsched = "{sched}"\n{given}'


def part_text(part):
    given = (f"budget = {part.budget}\n" if part.budget else "") + ("extra = true\n" if part.extra else "")
    text = f'[[part]]\nname = "{part.name}"\nparent = "{part.parent}"\nsched = "{part.sched}"\nperiod = {part.period}\n{given}'
    return text + "".join(map(task_text, part.tasks))


def task_text(task):
    given = (f"deadline = {task.deadline}\n" if task.deadline else "") + (f"jitter = {task.jitter}\n" if task.jitter else "")
    return f'[[part.task]]\nname = "{task.name}"\nperiod = {task.period}\n{given}work = {task.work}\n'


def tasks_of(numbers):
    """Tasks t0, t1 and so on of periods and works."""
    return [Task(f"t{i}", period, work) for i, (period, work) in enumerate(numbers)]


def cores_of(count):
    return [(f"cpu{i}", "edf", None) for i in range(count)]


def one_leaf(period, budget, tasks, sched="edf"):
    return System(cores_of(1), [Part("guest", "cpu0", sched, period, tasks, budget)])


def alike(count, sched, period, tasks, budget=0):
    """So many guests of the same tasks on 64 cores."""
    return System(cores_of(64), [Part(f"p{i}", f"cpu{i % 64}", sched, period, tasks, budget) for i in range(count)])


# Systems


def small():
    return one_leaf(10, 0, tasks_of([(50, 7), (75, 9)]))


def frames():
    """Frame rates in microseconds, whose least common multiple is near 10^21."""
    tasks = tasks_of([(33333, 3000), (16667, 1500), (21333, 900), (12500, 700), (99991, 2000), (41708, 2600)])
    tasks[2].deadline = 20000
    return one_leaf(4000, 0, tasks)


def near():
    """Tasks that ask for 99.99% of what the supply gives, over the same kind of periods."""
    periods = [33333, 16667, 21333, 12500, 99991, 7919000]
    tasks = tasks_of([(period, period * 9 * 9999 // (6 * 100000)) for period in periods])
    return one_leaf(1000, 900, tasks)


def equal():
    """Tasks that ask for just what the supply gives."""
    return one_leaf(1, 1, tasks_of([(1000, 250), (1500, 375), (4500, 1125), (7000, 1750)]))


def many(seed=5):
    """384 guests of 24 tasks with open budgets on 64 cores, under three orders in turn."""
    dice = random.Random(seed)
    parts = []
    for i in range(384):
        periods = [dice.choice([11, 13, 17, 19, 23, 27, 29, 31, 37, 49]) * dice.choice([500, 750, 1200, 1600, 3000]) for _ in range(24)]
        tasks = tasks_of([(period, max(1, period * dice.randint(8, 28) // 10000)) for period in periods])
        for task in tasks[::4]:
            task.deadline = task.period * 9 // 10
        parts.append(Part(f"g{i}", f"cpu{i % 64}", ["edf", "rm", "dm"][i % 3], [250, 300, 400, 640][i % 4], tasks))
    return System(cores_of(64), parts)


def points():
    """One leaf whose test visits about 10^6 windows: eight tasks of each of five periods whose sum of rates is just below 1."""
    tasks = tasks_of([(period, 1) for period in (16, 24, 56, 344, 14456) for _ in range(8)])
    for task in tasks[:8]:
        task.deadline = 8
    return one_leaf(1, 1, tasks)


def large():
    """512 guests of 256 tasks with given budgets."""
    return alike(512, "rm", 5000, tasks_of([(20000 + 977 * i, 3) for i in range(256)]), 600)


def tree():
    """Three levels: 3 servers on a core, 4 on each of these, and 5 guests on each of those."""
    inner = [Part(f"m{i}", "cpu0", ["edf", "dm", "rm"][i], 12) for i in range(3)]
    inner += [Part(f"n{i}_{k}", f"m{i}", ["rm", "edf"][k % 2], 120) for i in range(3) for k in range(4)]
    leaves = []
    for i in range(3):
        for k in range(4):
            for j, period in enumerate([900, 1000, 1350, 1500, 2100]):
                tasks = tasks_of([(10 * period, period // 40), (15 * period, period // 30)])
                leaves.append(Part(f"l{i}_{k}_{j}", f"n{i}_{k}", ["rm", "edf"][j % 2], period, tasks))
    return System(cores_of(1), inner + leaves)


def shared(cores, each, extra=True):
    """VCPUs that share their cores in turn: each has 100 of every 100 * `each` slots, the half of them with extra time."""
    tasks = tasks_of([(10000 * each, 10)])
    count = cores * each
    return System(cores_of(cores), [Part(f"v{i}", f"cpu{i % cores}", "edf", 100 * each, tasks, 100, extra and i % 2 == 0) for i in range(count)])


def servers():
    """48 VCPUs on 3 cores, a quarter of them with extra time."""
    tasks = tasks_of([(4000, 1)])
    return System(cores_of(3), [Part(f"v{i}", f"cpu{i % 3}", "edf", 50 + 10 * (i % 6), tasks, 2 + i % 2, i % 4 == 0) for i in range(48)])


def host(guests):
    """So many guests of six tasks with open budgets, eight on a core at the most."""
    tasks = tasks_of([(20000, 150), (30000, 200), (40000, 300), (60000, 250), (80000, 400), (120000, 500)])
    cores = max(1, -(-guests // 8))
    parts = [Part(f"g{i}", f"cpu{i % cores}", ["edf", "rm"][i % 2], 1000, tasks) for i in range(guests)]
    return System(cores_of(cores), parts)


def busy(tasks, sched):
    """One guest of so many tasks, whose periods share their factors and which ask for three quarters of a core together."""
    periods = [4000, 6000, 8000, 12000, 16000, 24000, 48000]
    numbers = [(100 * periods[i % 7], max(1, 75 * periods[i % 7] // tasks)) for i in range(tasks)]
    return one_leaf(1000, 0, tasks_of(numbers), sched)


# Files beside a system


EDITS = "op,part,parent,sched,period,budget,tasks\n"


def added(name, parent, period, spelt):
    return f"add,{name},{parent},edf,{period},,{spelt}\n"


def spelt(period, work):
    """A task without jitter that is due at its period's end, as a script spells it."""
    return f"t:{period}:{period}:0:{work}"


def script(rows, guests=97, cores=16):
    """Edits of `host`: a guest is changed, one is added, and it is taken out again, in turn."""

    def row(turn, k):
        if turn == 0:
            return f"change,g{k % guests},,edf,1000,,{spelt(20000 + k % 5000, 150 + k % 50)}\n"
        if turn == 1:
            return added(f"n{k}", f"cpu{k % cores}", 2000, spelt(40000, 100 + k % 9))
        return f"remove,n{k},,,,,\n"

    return EDITS + "".join(row(i % 3, i // 3) for i in range(rows))


def guests(count):
    """Guests that look for a core, each with one task."""
    return EDITS + "".join(added(f"n{k}", "", 1000 + k % 7, spelt(20000 + k, 700 + k % 90)) for k in range(count))


def releases(system, slots, early=False):
    """Each task of each leaf releases a whole job at every multiple of its period below `slots`."""
    rows = []
    for place, part in enumerate(system.leaves()):
        for task in part.tasks:
            rows += [(at, place, part.name, task) for at in range(0, slots, task.period)]
    rows.sort(key=lambda row: row[:2])
    last = (lambda task: f",{task.jitter}") if early else (lambda task: "")
    head = "at,part,task,work" + (",early" if early else "") + "\n"
    return head + "".join(f"{at},{name},{task.name},{task.work}{last(task)}\n" for at, _, name, task in rows)


def workload(system, slots, seed=11):
    """Each VCPU starts early on, and then blocks and wakes at random distances."""
    dice = random.Random(seed)
    rows = []
    for place, part in enumerate(system.vcpus()):
        at = dice.randrange(60)
        for turn in range(slots):
            if at >= slots:
                break
            rows.append((at, place, part.name, "start" if turn == 0 else ["wake", "block"][turn % 2]))
            at += dice.randint(30, 3000)
    rows.sort(key=lambda row: row[:2])
    return "at,vcpu,what\n" + "".join(f"{at},{name},{what}\n" for at, _, name, what in rows)


def trace(system, size, unit=1, step=100):
    """A trace of about so many bytes in which the VCPUs of each core take turns of `step` slots; `unit` 1000 is one in
    nanoseconds, whose cores start and change a nanosecond apart."""
    sharing = {name: [part.name for part in system.vcpus() if part.parent == name] for name, _, _ in system.cores}
    head = "at,core,what,vcpu\n" if unit == 1 else "at_ns,core,what,vcpu\n"
    rows, told, turn = [head], 0, 0
    while told < size and turn * step < 10**9:
        for place, (core, vcpus) in enumerate(sharing.items()):
            at = turn * step * unit + (place if unit > 1 else 0)
            if turn == 0:
                rows += [f"{at},{core},start,{vcpu}\n" for vcpu in vcpus]
            if vcpus:
                rows.append(f"{at},{core},run,{vcpus[turn % len(vcpus)]}\n")
                told += len(rows[-1])
        turn += 1
    return "".join(rows) + f"{turn * step * unit},,end,\n"
