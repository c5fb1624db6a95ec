"""A system file: its nodes, its text with a change in it, the text of a new one, and the budgets with which the program admits one."""
import copy
import pathlib
import re
import textwrap
import tomllib
from collections import namedtuple

from .command_line import Refused
from .formulas import SCHEDS, task_of

# a core or a part: its supply, and what it serves in which order; a core without a supply has every slot
Node = namedtuple("Node", "kind name sched period budget parent extra tasks children", defaults=[None, False, (), ()])
# a part on a core of an admitted file, with its budget and the line of its name
Server = namedtuple("Server", "name core period budget extra line")
LIMIT = 1_000_000_000
NAME = re.compile(r"[A-Za-z][A-Za-z0-9_-]{0,31}")
CHANGE = re.compile(r"([^.=]+)\.(?:(period|budget|parent|sched)|([^.=]+)\.(work))=([^.=]+)")
KEYS = {"core": ("name", "sched", "supply_period", "supply_budget"), "part": ("name", "parent", "sched", "period", "budget", "extra")}
TASK_KEYS = ("name", "period", "deadline", "jitter", "work")

HEAD = """All times are microseconds. What {} does not know is open: `rtadmit admit` refuses this file until each part has its sched and a
task. Leave the budget of a part out, and the program computes the least that is enough for the tasks that you wrote down. Keep that of a
stand-in: its task is invented."""
OPEN = """\
# open: write what is below without the #, and a [[part.task]] for each thread with a deadline
# sched = "edf"        # how the guest orders them: edf, rm, dm or listed (docs/use/guide.md)
# [[part.task]]
# name = "..."
# period = ...         # the least time from one job to the next, in microseconds
# deadline = ...       # the time by which a job is to be done; left out it is the period
# jitter = ...         # the longest delay from an arrival to its release; left out it is 0
# work = ...           # the most processor time of one job
"""
STAND_IN = """\
# nothing is known of what runs in it: one slot a second stands for that. Keep the budget: what is computed is for this slot alone
[[part.task]]
name = "any"
period = 1000000
work = 1
"""


class System:
    """A system file as tables, and its nodes by name: the cores and then the parts, in file order."""

    def __init__(self, path, tree):
        self.path, self.tree, self.nodes = path, tree, {}
        try:
            for core in tree["core"]:
                period, budget = core.get("supply_period", 1), core.get("supply_budget", 1)
                self.nodes[core["name"]] = Node("core", core["name"], core["sched"], period, budget, children=[])
            for part in tree.get("part", []):
                tasks, supply = list(map(task_of, part.get("task", []))), (part["period"], part.get("budget"))
                node = Node("part", part["name"], part["sched"], *supply, part["parent"], part.get("extra", False), tasks, [])
                self.nodes[node.name] = node
                self.nodes[node.parent].children.append(node.name)
        except (KeyError, TypeError, AttributeError) as fault:
            raise Refused(path, None, f"no system file, by what it has: {fault}") from None

    def cores(self):
        return [node for node in self.nodes.values() if node.kind == "core"]

    def parts(self):
        return [node for node in self.nodes.values() if node.kind == "part"]

    def visited(self):
        """The names of the nodes in the order in which the program looks at them."""
        return [node.name for node in [*reversed(self.parts()), *self.cores()]]

    def below(self, name):
        """The names of all parts that stand on a node, directly or not, in file order."""
        found = [name]
        for part in self.parts():
            found += [part.name] * (part.parent in found)
        return found[1:]

    def root(self, name):
        """The core on which a node stands, or that it is."""
        while self.nodes[name].parent:
            name = self.nodes[name].parent
        return name

    def text(self):
        return tree_text(self.tree)

    def changed(self, change):
        """The same system with one change: `PART.TASK.work=N`, `PART.period=N`, `PART.budget=open`, `PART.parent=CORE` or
        `NODE.sched=WORD`."""
        tree = copy.deepcopy(self.tree)
        found = CHANGE.fullmatch(change)
        nodes = [*tree.get("part", []), *(tree["core"] if found and found[2] == "sched" else [])]
        table = found and next((node for node in nodes if node["name"] == found[1]), None)
        if table and found[4]:
            table = next((task for task in table.get("task", []) if task["name"] == found[3]), None)
        if not table:
            raise Refused(self.path, None, f"{change!r} is no change of a part or a task of it")
        key, value = found[2] or found[4], found[5]
        if key == "budget" and value == "open":
            table.pop("budget", None)
        elif key == "parent" or key == "sched" and value in SCHEDS:
            table[key] = value
        elif value.isascii() and value.isdecimal():
            table[key] = int(value)
        else:
            raise Refused(self.path, None, f"{change!r}: {value!r} is no {'scheduler' if key == 'sched' else 'number'}")
        return System(self.path, tree)

    def only(self, cores):
        """Some of the cores, and all that stands on them."""
        kept = [table for table in self.tree["core"] if table["name"] in cores]
        parts = [table for table in self.tree.get("part", []) if self.root(table["name"]) in cores]
        return System(self.path, {"format": self.tree["format"], "core": kept, "part": parts})

    def alone(self, name):
        """A part and all that stands on it, on a full core of its own: what it needs does not depend on what it stands on."""
        core = {"name": self.nodes[name].parent, "sched": "edf"}
        while core["name"] in [name, *self.below(name)]:
            core["name"] += "-"
        kept = {name, *self.below(name)}
        parts = [dict(part, parent=core["name"]) if part["name"] == name else part for part in self.tree["part"] if part["name"] in kept]
        return System(self.path, {"format": self.tree["format"], "core": [core], "part": parts})


def tree_text(tree):
    told = [f"format = {tree['format']}"]
    for kind, keys in KEYS.items():
        for table in tree.get(kind, []):
            told += ["", f"[[{kind}]]", *pairs_of(table, keys)]
            for task in table.get("task", []):
                told += ["[[part.task]]", *pairs_of(task, TASK_KEYS)]
    return "\n".join(told) + "\n"


def pairs_of(table, keys):
    for key in keys:
        value = table.get(key)
        if value is not None:
            yield f"{key} = " + (str(value).lower() if isinstance(value, bool) else f'"{value}"' if isinstance(value, str) else str(value))


def read_system(path):
    """The system of a file that the program has taken."""
    with open(path, "rb") as file:
        data = file.read()
    try:
        return System(path, tomllib.loads(data.removeprefix(b"\xef\xbb\xbf").decode()))
    except ValueError as fault:
        raise Refused(path, None, f"spelled in a way of TOML 1.1 that this tool does not read: {fault}") from None


def budget_of(system, name, program):
    """The budget of a part: the given one, or that which the program computes for the part by itself."""
    budget = system.nodes[name].budget or program.admit(system.alone(name)).budgets().get(name, (None,))[0]
    if budget is None:
        raise Refused(system.path, None, f"the program tells no budget of {name}")
    return budget


def read_admitted(path, program, answer=None):
    """A system, and what `admit` answers, or has answered, to its file. Refused where that is neither yes nor no nor wide."""
    answer = answer or program.ask("admit", path)
    if answer.status not in (0, 1, 4) or not answer.text.startswith("verdict="):
        raise Refused(path, None, f"the program does not judge it: {answer.shown} (status {answer.status})")
    system = read_system(path)
    again = program.admit(system)
    if again != answer:
        raise Refused(path, None, f"a copy as this tool reads it is answered {again.shown}, and the file {answer.shown}")
    return system, answer


def lines_of(path):
    """The lines of a text, each with its number."""
    with open(path, errors="surrogateescape") as file:
        for line, text in enumerate(file, 1):
            yield line, text.rstrip("\r\n")


# The text of a new file
def part_text(about, name, core, period, budget, extra=False, stand_in=False):
    """A server on a core. What runs in it is left open, or one slot a second stands for it."""
    sched = 'sched = "edf"\n' if stand_in else ""
    more = "extra = true\n" if extra else ""
    return (
        f'# {about}\n[[part]]\nname = "{name}"\nparent = "{core}"\n{sched}period = {period}\nbudget = {budget}\n{more}'
        + (STAND_IN if stand_in else OPEN)
    )


def system_text(about, host, more, processors, parts):
    """The whole file: what it is, what leaves things open, other lines of its head, a core for each processor, and the parts."""
    head = [*textwrap.wrap(f"{about}. {HEAD.format(host)}", 132), *more]
    told = "".join(f"# {line}\n" for line in head)
    cores = [f'[[core]]\nname = "cpu{processor}"\nsched = "edf"\n' for processor in sorted(set(processors))]
    return "\n".join([f"{told}format = 2\n", *cores, *parts])


# The budgets of an admitted file
def line_of(text, name):
    """The line on which a name is given, as far as it stands on one of its own."""
    form = re.compile(rf"\s*name\s*=\s*[\"']{re.escape(name)}[\"']")
    return next((line for line, told in enumerate(text.splitlines(), 1) if form.match(told)), None)


def admitted(path, program, whose):
    """The names of the cores of an admitted file, the servers on them, and its text. Refused where the program does not admit it, and where
    a core is not a whole processor under edf, as the host has it that is told."""
    text = pathlib.Path(path).read_text(errors="surrogateescape")
    answer = program.ask("admit", path)
    if answer.status != 0:
        told = "; ".join(answer.lines[:2])
        raise Refused(path, None, f"not admitted, so there is nothing to set: status {answer.status}, {told or 'no text'}")
    if not answer.is_yes:
        raise Refused(program.path, None, "this program does not answer as rtadmit does")
    system, budgets = read_system(path), answer.budgets()
    for core in system.tree["core"]:
        if core["sched"] != "edf" or "supply_period" in core:
            raise Refused(path, None, f"{core['name']} is not a whole processor under edf, as {whose} has it")
    cores = [core.name for core in system.cores()]
    return cores, [
        Server(part.name, part.parent, part.period, budgets[part.name][0], part.extra, line_of(text, part.name))
        for part in system.parts() if part.parent in cores
    ], text
