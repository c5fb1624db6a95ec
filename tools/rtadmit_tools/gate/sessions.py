"""Checks `session` over random scripts against `admit` over a plain model, and `place` against a plain first fit by `admit`.

Of a script each row's answer is looked at, and the plan in the end, against `admit` over the file as the model leaves it.

N scripts (100, as the gate does) of 4 to 10 rows, over small hosts of one or two cores and up to two levels: additions, removals and
changes, of which some are wrong in each way in which a row can be. The model keeps the parts as a list. A row that it refuses has to be
refused with the same word; of any other the edited file is judged by `admit`, and the row has to be answered by what that says. Sixty
placements of 2 to 8 guests on hosts of one to six cores: each guest is tried on the cores in order by `admit` of the file with it, and the
text of `place` has to be that file in the end, or to name the guest that is bad or fits on no core. The seed is printed.
Ends with 1 where an answer differs."""
import random
import tomllib

from .. import comparing
from ..comparing import SCHEDS, compare, core, need, part, program_to_compare, task, tree
from ..formulas import task_of
from ..system_file import TASK_KEYS, System

PLACEMENTS = 60
KEYS = ("name", "parent", "sched", "period", "budget")


def script_text(rows):
    lines = ["op,part,parent,sched,period,budget,tasks\n"]
    for row in rows:
        fields = ["" if row[key] is None else str(row[key]) for key in ("op", *KEYS)]
        tasks = ";".join(":".join(str(one[key]) for key in TASK_KEYS) for one in row["task"])
        lines.append(",".join([*fields, tasks]) + "\n")
    return "".join(lines)


# The model: a host is the tables of its file, a row the table of a part with a word
def is_bad_part(row):
    names = [one["name"] for one in row["task"]]
    good_budget = row["budget"] is None or 1 <= row["budget"] <= row["period"]
    return not (1 <= row["period"] <= 10**9 and good_budget and 1 <= len(names) <= 256 and len(set(names)) == len(names))


def fault_of(host, row):
    parts, known = {part["name"]: part for part in host["part"]}, names_of(host)
    leaf, parent = parts.get(row["name"]), parts.get(row["parent"])
    is_last = lambda: leaf["parent"] in parts and sum(part["parent"] == leaf["parent"] for part in host["part"]) == 1
    rules = {
        "add": {
            "NameTaken": lambda: row["name"] in known, "NoSuchParent": lambda: row["parent"] not in known,
            "Mixed": lambda: parent and parent["task"], "BadPart": lambda: is_bad_part(row), "TooMany": lambda: len(parts) >= 512,
        },
        "change": {"NoSuchLeaf": lambda: not (leaf and leaf["task"]), "BadPart": lambda: is_bad_part(row)},
        "remove": {"NoSuchLeaf": lambda: not (leaf and leaf["task"]), "LastChild": is_last},
    }
    return next((fault for fault, breaks in rules[row["op"]].items() if breaks()), None)


def edited(host, row):
    """The host with a row that has no fault."""
    new = {key: row[key] for key in (*KEYS, "task")}
    if row["op"] == "add":
        return host | {"part": [*host["part"], new]}
    if row["op"] == "remove":
        return host | {"part": [part for part in host["part"] if part["name"] != row["name"]]}
    return host | {"part": [new | {"parent": part["parent"]} if part["name"] == row["name"] else part for part in host["part"]]}


# What is drawn
def some_tasks(draw):
    tasks = []
    for number in range(draw.choice([1, 1, 2, 3])):
        period = draw.choice([20, 30, 50, 70, 100])
        deadline = draw.randint(period // 2, period)
        work = draw.randint(1, 4)
        tasks.append(task(f"t{number}", period, work, deadline=deadline, jitter=draw.randint(0, min(5, deadline - work))))
    return tasks + tasks[:1] * (draw.random() < 0.05)


def some_leaf(draw, name, parent):
    period = draw.choice([2, 3, 5, 8, 10])
    budget = draw.randint(1, period) if draw.random() < 0.4 else None
    return part(name, parent, draw.choice(SCHEDS), period, budget, some_tasks(draw))


def some_host(draw):
    cores = [core(f"c{number}", draw.choice(["edf", "rm"])) for number in range(draw.randint(1, 2))]
    parts = []
    for number in range(draw.randint(0, 3)):
        leaf = some_leaf(draw, f"p{number}", draw.choice(cores)["name"])
        del leaf["task"][1:]
        if draw.random() < 0.4:
            parts.append(part(f"m{number}", leaf["parent"], "edf", draw.choice([1, 2, 4])))
            leaf["parent"] = f"m{number}"
        parts.append(leaf)
    return tree(cores, parts)


def names_of(host):
    return [table["name"] for table in (*host["part"], *host["core"])]


def some_row(draw, host):
    names = names_of(host)
    op = draw.choice(["add", "add", "add", "remove", "change", "change"])
    known = draw.choice(names)
    name = f"n{draw.randint(0, 9)}" if op == "add" and draw.random() < 0.85 else known if draw.random() < 0.9 else "none"
    if op == "remove":
        return part(name, None, None, None, op=op)
    row = some_leaf(draw, name, draw.choice(names + ["none", None]) if op == "add" else None) | {"op": op}
    spoil = draw.random()
    if spoil < 0.03:
        row |= {"period": draw.choice([0, 10**9 + 1, 2**64 - 1]), "budget": None}
    elif spoil < 0.06:
        row["budget"] = row["period"] + 1
    elif spoil < 0.09:
        row["task"] = []
    return row


def some_scripts(draw, program, count):
    """Hosts that are admitted, each with the rows of its script."""
    while count:
        host = some_host(draw)
        rows = [some_row(draw, host) for _ in range(draw.randint(4, 10))]
        if program.admit(System(None, host)).is_yes:
            count -= 1
            yield host, rows


def some_placement(draw):
    """A host of a few cores and parts, and the rows of its guests, of which a few are bad."""
    host = some_host(draw)
    host["core"] += [core(f"d{number}") for number in range(draw.randint(0, 4))]
    guests = []
    for number in range(draw.randint(2, 8)):
        guest = some_leaf(draw, draw.choice(names_of(host)) if draw.random() < 0.02 else f"h{number}", None) | {"op": "add"}
        if draw.random() < 0.02:
            guest["budget"] = guest["period"] + 1
        guests.append(guest)
    return host, guests


# What has to be answered
def admitted(room, host):
    """What `admit` says of a host: yes with the lines of its parts, or the line of its refusal."""
    verdict, *lines = room.run("admit", room.write("edited.toml", host)).lines
    return (None, [line for line in lines if line.startswith("part ")]) if verdict == "verdict=yes" else (lines[0], None)


def as_admit_says(room, script):
    """A script, whose text is what the model and `admit` give."""
    host, rows = script
    files = room.write("system.toml", host), room.write("script.csv", script_text(rows))
    lines, (_, plan) = ["verdict=yes"], admitted(room, host)
    for number, row in enumerate(rows, 1):
        fault = fault_of(host, row)
        if fault:
            lines.append(f"{number} refused {fault}")
            continue
        refusal, later = admitted(room, edited(host, row))
        lines.append(f"{number} {refusal or 'yes'}")
        if not refusal:
            host, plan = edited(host, row), later
    wanted, got = [*lines, *plan], room.run("session", *files)
    need(got.text == "".join(f"{line}\n" for line in wanted), f"expected {wanted}\ngot {got}")
    return {"rows": len(rows)}


def first_fit(room, host, guests):
    """What `place` has to answer: the parts in the end as a list, or a text."""
    answer = room.run("admit", room.write("edited.toml", host)).text
    if not answer.startswith("verdict=yes"):
        return answer
    for number, guest in enumerate(guests, 2):
        if guest["name"] in names_of(host) or is_bad_part(guest):
            return f"fault=BadGuest row={number} file=2\n"
        tried = (edited(host, guest | {"parent": core["name"]}) for core in host["core"])
        host = next((trial for trial in tried if not admitted(room, trial)[0]), None)
        if host is None:
            return f"verdict=no\nunplaced {guest['name']}\n"
    return parts_of(host)


def parts_of(host):
    """The parts of a system, with each value that may be left out."""
    return [([part.get(key) for key in KEYS], list(map(task_of, part.get("task", [])))) for part in host.get("part", [])]


def as_first_fit(room, placement):
    """A placement, which is as a plain first fit by `admit`. Whether it is whole."""
    host, guests = placement
    wanted = first_fit(room, host, guests)
    got = room.run("place", room.write("system.toml", host), room.write("script.csv", script_text(guests))).text
    need(wanted == (got if isinstance(wanted, str) else parts_of(tomllib.loads(got))), f"expected {wanted}\ngot {got}")
    return ["whole"] * (not isinstance(wanted, str))


def add_words(parser):
    parser.add_argument("--scripts", type=int, default=100, metavar="N", help="so many scripts")
    parser.add_argument("--seed", type=int, default=random.SystemRandom().randrange(10**6), metavar="N", help="for the same ones again")
    comparing.add_words(parser)


def run(given):
    draw = random.Random(given.seed)
    scripts = compare(given, f"scripts (seed {given.seed})", as_admit_says, some_scripts(draw, program_to_compare(given), given.scripts))
    placements = (some_placement(draw) for _ in range(PLACEMENTS))
    return int(not (scripts and compare(given, f"placements (seed {given.seed})", as_first_fit, placements)))
