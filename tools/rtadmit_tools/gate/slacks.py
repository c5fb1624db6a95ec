"""Looks at whether what `slack` tells of a leaf is borne out by `admit` over copies of the system in which one task has other work.

Systems have a core, with every slot or with a budget of its own, and a middle server or none; their budgets are given or open, their
tasks have jitter or none, and their schedulers are all there are. Of each leaf of each system that is admitted, and of each task:

- with the work that is told the copy is admitted, and with one slot more it is not, unless the task's deadline leaves no more past
  its jitter;
- of the small systems the same is asked of every work from 1 to what the deadline leaves.

A system that is not admitted has just the answer of `admit`. The systems are the same on each run. Ends with 1 where something does
not hold, and where so few tasks were looked at, or so few stopped short of the room, that this would show little."""
import re

from ..comparing import SCHEDS, Numbers, add_words, compare, core, need, part, task, tree
from ..system_file import System

LINE = re.compile(r"slack (\S+) (\S+) work=(\d+) most=(\d+)")


def some_task(numbers, name, longest):
    """A task whose period is at most this long."""
    period = longest - numbers.below(longest // 2)
    jitter = numbers.below(3) if numbers.below(2) else 0
    return task(name, period, deadline=period - numbers.below(3), work=1 + numbers.below(longest // 12), jitter=jitter)


def some_system(numbers, longest, guests):
    """A core, a middle server and some guests on either, of one or two tasks."""
    parts = [part("mid", "cpu0", numbers.of(SCHEDS), 2 + numbers.below(2))]
    for place in range(guests):
        period = 3 + numbers.below(longest // 6)
        given = None if numbers.below(3) else (period + 2) // 3
        tasks = [some_task(numbers, f"t{number}", longest) for number in range(1 + numbers.below(2))]
        parent = "mid" if place == 0 else numbers.of(("cpu0", "mid"))
        parts.append(part(f"g{place}", parent, numbers.of(SCHEDS), period, given, tasks))
    sched = numbers.of(SCHEDS)
    supply = {"supply_period": 10, "supply_budget": 9} if numbers.below(2) else {}
    return System(None, tree([core("cpu0", sched, **supply)], parts))


def made(seed, count, longest, every):
    numbers = Numbers(seed)
    return [(some_system(numbers, longest, 2), every) for _ in range(count)]


def admit(room, system):
    answer = room.run("admit", room.write("system.toml", system.text()))
    need(answer.status in (0, 1, 4), f"admit: status {answer.status}: {answer.text}")
    return answer


def told_of(room, leaf):
    """The greatest work that is told of each task of a leaf."""
    answer = room.run("slack", "system.toml", leaf.name)
    rows = [LINE.fullmatch(line) for line in answer.lines[1:]]
    need(answer.is_yes and all(rows), f"slack {leaf.name}: status {answer.status}: {answer.text}")
    named = [(row[1], row[2], int(row[3])) for row in rows]
    need(named == [(leaf.name, task.name, task.work) for task in leaf.tasks], f"slack {leaf.name} does not tell its tasks: {answer.text}")
    return [int(row[4]) for row in rows]


def borne_out(room, made):
    """Looks at each task of a system, by every work or by the greatest and the next."""
    (system, every), met = made, []
    refused = admit(room, system)
    for leaf in (part for part in system.parts() if part.tasks):
        if refused.status != 0:
            need(room.run("slack", "system.toml", leaf.name) == refused, f"slack {leaf.name} is not refused as admit is")
            continue
        for task, most in zip(leaf.tasks, told_of(room, leaf)):
            where = f"{leaf.name}.{task.name}"
            need(task.work <= most <= task.room, f"{where}: most={most} is not from the work to the room")
            for work in range(1, task.room + 1) if every else range(most, min(most + 1, task.room) + 1):
                is_admitted = admit(room, system.changed(f"{where}.work={work}")).status == 0
                need(is_admitted == (work <= most), f"{where}: most={most}, but with {work} it is otherwise")
            met += ["tasks"] + ["short of the room"] * (most < task.room)
            room.write("system.toml", system.text())
    return met


def run(given):
    greatest = compare(given, "the greatest work and the next", borne_out, made(5, 200, 60, False), {"tasks": 150, "short of the room": 75})
    every = compare(given, "every work", borne_out, made(6, 60, 18, True), {"tasks": 40, "short of the room": 20})
    return int(not (greatest and every))
