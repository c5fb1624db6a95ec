"""Runs the commands over small systems that a generator makes, and looks at whether one command bears out the other.

No text is compared with a stored one; what must hold is this:

- what `certify` writes is accepted by `check`, and with a larger budget at its first part it is not: that budget is computed, so
  nothing is short at the larger one;
- what `admit` lets pass misses in no simulation, whatever the pattern: its test is exact over all supplies and releases;
- what `rtds` writes of VCPUs that start at once and never block is satisfied, where `admit` lets the system pass.

The systems are the same on each run. Ends with 1 where something does not hold, and where so few systems were certified or let pass
that this would show little."""
from ..command_line import TOP
from ..comparing import SCHEDS, Numbers, add_words, compare, core, need, part, task, tree

STORED = ("a_host_of_two_cores_and_six_guests", "a_tree_fits_a_core_of_sixteen_in_twenty")
STARTS = "at,vcpu,what\n0,A,start\n0,B,start\n0,C,start\n"


def guest(numbers, name):
    """A guest of one or two tasks, on the core or on the middle server."""
    sched, parent, period = numbers.of(SCHEDS), numbers.of(("cpu0", "mid")), 5 + numbers.below(20)
    tasks = [task(f"t{place}", 40 + 10 * numbers.below(6), 1 + numbers.below(5)) for place in range(1 + numbers.below(2))]
    return part(name, parent, sched, period, tasks=tasks)


def four_guests(numbers):
    """A core, a middle server on it and four guests; and two jobs a task, of all its work, at 0 and at 100."""
    cores, parts = [core("cpu0", numbers.of(SCHEDS))], [part("mid", "cpu0", numbers.of(SCHEDS), 6)]
    parts += [guest(numbers, name) for name in "abc"]
    parts.append(part("last", "mid", "edf", 30, tasks=[task("t0", 90, 1)]))
    jobs = [f"{at},{leaf['name']},{one['name']},{one['work']}\n" for at in (0, 100) for leaf in parts for one in leaf["task"]]
    return tree(cores, parts), "at,part,task,work\n" + "".join(jobs)


def made(seed, count):
    numbers = Numbers(seed)
    return [four_guests(numbers) for _ in range(count)]


def three_guests(place):
    """Three guests on one core, each with a period of its own, which ask for less than all slots."""
    guests = (("A", 6 + place % 5, 2, None), ("B", 9 + place % 7, 3, place % 2 == 0), ("C", 5 + place % 4, 1, None))
    parts = [part(name, "cpu0", "edf", period, budget, [task("t", 100, 1)], extra=extra) for name, period, budget, extra in guests]
    return tree([core()], parts)


def certified(room, system):
    """Whether it is certified; then its certificate is accepted, and one with a larger first budget is not."""
    answer = room.run("certify", room.write("system.toml", system))
    if answer.status != 0:
        return []
    told = room.want(0, "check", "system.toml", room.write("certificate.json", answer.text))
    need(told == "verdict=yes\n", "check says more than yes")
    room.want(1, "check", "system.toml", room.write("larger.json", answer.text.replace('"budget":', '"budget":1', 1)))
    return ["certified"]


def never_misses(room, made):
    """Whether it is let pass; then no simulation misses."""
    system, releases = made
    if room.run("admit", room.write("system.toml", system)).status != 0:
        return []
    room.write("releases.csv", releases)
    for pattern in ("early", "late", "worst"):
        room.want(0, "simulate", "system.toml", "releases.csv", pattern, 200)
    return ["let pass"]


def satisfied(room, system):
    """Its run is satisfied, and it is let pass."""
    trace = room.want(0, "rtds", room.write("system.toml", system), room.write("workload.csv", STARTS), 300)
    room.want(0, "admit", "system.toml")
    room.want(0, "audit", "system.toml", room.write("trace.csv", trace))
    return []


def run(given):
    stored = [(TOP / "tests/cases/admit" / name / "system.toml").read_text() for name in STORED]
    certificates = compare(given, "certified and checked", certified, [*stored, *(system for system, _ in made(7, 100))], {"certified": 10})
    simulations = compare(given, "let pass and simulated", never_misses, made(11, 100), {"let pass": 20})
    audits = compare(given, "run and audited", satisfied, map(three_guests, range(100)))
    return int(not (certificates and simulations and audits))
