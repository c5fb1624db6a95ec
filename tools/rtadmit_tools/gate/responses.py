"""Looks for the greatest response of each task of small guests by trying all that can happen, and compares with `responses`.

Of each guest, which is under a fixed priority on a full core, with a given budget, every state is visited that some list of slots with
its budget in each period and some legal release reach, in runs of any length: each slot is given or not as the period allows, and
each task releases or not as its period and its jitter allow, a job of any work up to its own. No formula and no worst pattern stands
here. What must hold is this:

- where no job gets past its limit (its deadline less its jitter), the program tells of each task just the greatest response that
  was met, that limit, and a replay that shows the same;
- where a job does, the system is refused at the first such task by its place.

The guests are the same on each run. Ends with 1 where something does not hold, and where so few guests were answered or refused
that this would show little."""
import itertools
from collections import namedtuple

from ..comparing import add_words, compare, core, need, part, task, tree
from ..formulas import Task, ranks
from ..program import Answer


# a guest under a fixed priority with a budget in every period
Guest = namedtuple("Guest", "sched period budget tasks")


def tasks_of(*numbers):
    """Tasks of a period, a deadline, a work and a jitter, which is 0 where it is not told."""
    return [Task(f"t{place}", period, deadline, work, *jitter or (0,)) for place, (period, deadline, work, *jitter) in enumerate(numbers)]


def releases(task, state):
    """The states of a task at a moment, once it has released a job or not: the slots since the last arrival, as many as the
    period and the jitter at the most, the work that its job lacks, and the slots since that was released."""
    since, lacks, _ = state
    yield state
    for early in range(0 if lacks else task.jitter + 1):
        if since - early >= task.period:
            yield from ((early, work, 0) for work in range(1, task.work + 1))


def later(task, state, runs):
    """A task after a slot, and the response of its job where that ends there."""
    since, lacks, age = state
    since = min(since + 1, task.period + task.jitter)
    if lacks <= runs:
        return (since, 0, 0), age + 1 if lacks else None
    return (since, lacks - runs, age + 1), None


def search(guest):
    """The greatest response of each task, and the places of those of which a job gets past its limit. What follows on a job that is
    past its limit is not looked at, since it may wait for ever."""
    order, tasks = ranks(guest.sched, guest.tasks), guest.tasks
    worst, late = [0] * len(tasks), set()
    begin = (0, 0, tuple((task.period + task.jitter, 0, 0) for task in tasks))
    seen, left = {begin}, [begin]
    while left:
        place, had, states = left.pop()
        # a slot may be left out where enough of the period are behind it
        gives = (True, False) if had + guest.period - place - 1 >= guest.budget else (True,)
        for here, given in itertools.product(itertools.product(*map(releases, tasks, states)), gives):
            holder = next((place for place in order if here[place][1]), None) if given else None
            after = [later(task, state, number == holder) for number, (task, state) in enumerate(zip(tasks, here))]
            made = tuple(state for state, _ in after)
            worst = [max(most, ended or 0) for most, (_, ended) in zip(worst, after)]
            past = [number for number, task in enumerate(tasks) if made[number][1] and made[number][2] >= task.room]
            late.update(past)
            follows = (0, 0, made) if place + 1 == guest.period else (place + 1, min(had + given, guest.budget), made)
            if not past and follows not in seen:
                seen.add(follows)
                left.append(follows)
    return worst, late


def system_of(guest):
    tasks = [task(of.name, of.period, of.work, deadline=of.deadline, jitter=of.jitter) for of in guest.tasks]
    return tree([core()], [part("leaf", "cpu0", guest.sched, guest.period, guest.budget, tasks)])


def expected(guest):
    worst, late = search(guest)
    if late:
        return Answer(1, f"verdict=no\noverfull part leaf task=t{min(late)}\n")
    lines = [f"response leaf {task.name} worst={most} limit={task.room} replay={most}\n" for task, most in zip(guest.tasks, worst)]
    return Answer(0, "verdict=yes\n" + "".join(lines))


def as_met(room, guest):
    wanted, answer = expected(guest), room.run("responses", room.write("system.toml", system_of(guest)))
    need(answer == wanted, f"{guest}\nwanted {wanted}, answered {answer}")
    return ["refused" if answer.status else "answered"]


def guests():
    """Small guests: each supply with each set of tasks, under each rule."""
    supplies = ((2, 1), (3, 1), (3, 2), (4, 2), (1, 1))
    sets = (
        ((5, 5, 1), (7, 7, 1)),
        ((4, 4, 1, 1), (9, 9, 2)),
        ((6, 4, 1), (5, 5, 2)),
        ((8, 7, 2, 1), (6, 6, 1, 2)),
        ((3, 3, 1), (8, 6, 2)),
        ((9, 8, 3),),
    )
    return [Guest(sched, *supply, tasks_of(*tasks)) for supply in supplies for tasks in sets for sched in ("rm", "dm", "listed")]


def run(given):
    return int(not compare(given, "guests", as_met, guests(), {"answered": 20, "refused": 10}, heavy=True))
