"""The formulas of docs/use/certificate.md: what tasks ask for in a window, and what a budget gives."""
from collections import namedtuple

MOST_STEPS = 20_000
SCHEDS = {"edf": "earliest deadline first", "rm": "rate monotonic", "dm": "deadline monotonic", "listed": "in the order of the file"}


class Task(namedtuple("Task", "name period deadline work jitter")):
    @property
    def room(self):
        return self.deadline - self.jitter

    def due(self, window):
        """The most of its jobs that arrive and must be done within a window of a length."""
        return (window - self.room) // self.period + 1 if window >= self.room else 0

    def before(self, window):
        """The most of its jobs that may come before another one's in a window of a length."""
        return -(-(window + self.jitter) // self.period)


def supply(period, budget, window):
    """The least that a budget gives in any window of a length."""
    late = window - (period - budget)
    return 0 if late < 0 else late // period * budget + max(0, late % period - (period - budget))


def demand(tasks, window):
    """The most work of jobs that arrive and must be done within a window of a length."""
    return sum(task.due(window) * task.work for task in tasks)


def request(task, above, window):
    """The work of one job and the most work that may come before it in a window of a length."""
    return task.work + sum(other.before(window) * other.work for other in above)


def ranks(sched, tasks):
    """The places of the tasks under a fixed priority, the one that ranks above all others first."""
    keys = {"rm": lambda task: task.period, "dm": lambda task: task.deadline, "listed": lambda task: 0}
    return sorted(range(len(tasks)), key=lambda place: (keys[sched](tasks[place]), place))


def first_enough(asked, period, budget, room):
    """The first window up to the room in which the budget gives what is asked; 0 where there is none, None where it takes long."""
    window = 1
    for _ in range(MOST_STEPS):
        work = asked(window)
        whole, rest = divmod(work - 1, budget)
        reached = 2 * (period - budget) + whole * period + rest + 1
        if reached <= window:
            return window
        if reached > room:
            return 0
        window = reached
    return None


def task_of(table):
    return Task(table["name"], table["period"], table.get("deadline", table["period"]), table["work"], table.get("jitter", 0))
