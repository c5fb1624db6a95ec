"""Compares what `interface` answers for short periods with all lists of slots that a resource can give in three periods.

One job: for each period up to 6, each deadline of the budget in it and each job whose own deadline is at most two periods away, the
least budget is the first with which each window of the job's length has its work, over every list of three periods that has the
budget before the deadline in each. Two jobs: for periods up to 3, each scheduler and some pairs of jobs, it is the first with which
both are done in time over every such list, whenever each is released, when the level is run slot by slot. Lists with more slots than
the budget give no less in any window, and are left out. No formula of the program's is used.

The tasks have long periods, so that each has one job in three periods of the resource. Ends with 1 where an answer differs."""
import itertools
import random

from ..comparing import SCHEDS, add_words, compare, core, need, part, task, tree

PERIODS, LONG, PAIRS = 3, 100_000, 6


def lists(period, budget, deadline):
    """Every list of three periods with just the budget before the deadline in each, as a number with a bit a slot."""
    blocks = [sum(1 << place for place in places) for places in itertools.combinations(range(deadline), budget)]
    for chosen in itertools.product(blocks, repeat=PERIODS):
        yield sum(block << (period * place) for place, block in enumerate(chosen))


def least_in_windows(period, budget, deadline):
    """For each length of a window up to two periods, the fewest slots that a window of a list has."""
    least = list(range(2 * period + 1))
    for slots in lists(period, budget, deadline):
        for length in range(1, 2 * period + 1):
            window = (1 << length) - 1
            for at in range(PERIODS * period - length + 1):
                least[length] = min(least[length], (slots >> at & window).bit_count())
    return least


def first(deadline, is_enough):
    return next(filter(is_enough, range(deadline + 1)), None)


# what the job that goes first has less of than the other: a job is its place, its release, its deadline and its work
RANKS = {"edf": lambda job: job[1] + job[2], "dm": lambda job: (job[2], job[0]), "rm": lambda job: job[0], "listed": lambda job: job[0]}


def is_in_time(sched, jobs, slots):
    """Whether both jobs have their work by their deadlines, run slot by slot."""
    left = [work for _, _, _, work in jobs]
    for at in range(max(release + deadline for _, release, deadline, _ in jobs)):
        if any(work and at >= release + deadline for work, (_, release, deadline, _) in zip(left, jobs)):
            return False
        ready = [job for job in jobs if left[job[0]] and job[1] <= at]
        if ready and slots >> at & 1:
            left[min(ready, key=RANKS[sched])[0]] -= 1
    return not any(left)


def keeps(sched, tasks, period, budget, deadline):
    """Whether both jobs are always in time: over every list, whenever each is released so that its deadline is within the list."""
    releases = [range(PERIODS * period - length + 1) for length, _ in tasks]
    return all(
        is_in_time(sched, [(place, at, *task) for place, (at, task) in enumerate(zip(released, tasks))], slots)
        for slots in lists(period, budget, deadline)
        for released in itertools.product(*releases)
    )


def rows():
    """What is asked: the scheduler, the period, the deadline, the tasks by deadline and work, and the least budget or None."""
    for period in range(1, 7):
        for deadline in range(1, period + 1):
            least = [least_in_windows(period, budget, deadline) for budget in range(deadline + 1)]
            for length in range(1, 2 * period + 1):
                for work in range(1, length + 1):
                    wanted = first(deadline, lambda budget: least[budget][length] >= work)
                    yield SCHEDS[work % 4], period, deadline, [(length, work)], wanted
    chance = random.Random(1)
    for period, sched in itertools.product(range(1, 4), SCHEDS):
        for deadline in range(1, period + 1):
            for _ in range(PAIRS):
                tasks = [(length, chance.randint(1, max(1, length // 2))) for length in (chance.randint(1, 2 * period) for _ in range(2))]
                yield sched, period, deadline, tasks, first(deadline, lambda budget: keeps(sched, tasks, period, budget, deadline))


def as_by_hand(room, row):
    """Whether there is a budget. The program tells that one, or that there is none. The periods of the tasks rise in their order."""
    sched, period, deadline, jobs, wanted = row
    tasks = [task(f"t{place}", LONG * (place + 1), work, deadline=length) for place, (length, work) in enumerate(jobs)]
    room.write("system.toml", tree([core()], [part("leaf", "cpu0", sched, period, tasks=tasks)], 1))
    answer = room.run("interface", "system.toml", "leaf", deadline)
    if wanted is None:
        is_right = answer.status == 1 and answer.text.startswith("verdict=no\noverfull part leaf ")
    else:
        is_right = (answer.status, answer.text) == (0, f"verdict=yes\ninterface leaf period={period} deadline={deadline} budget={wanted}\n")
    need(is_right, f"{answer}, and not {wanted}")
    return ["without a budget"] * (wanted is None)


def run(given):
    return int(not compare(given, "interfaces", as_by_hand, rows()))
