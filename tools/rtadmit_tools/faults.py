"""A fault that the program tells of a file, as a line, a table and a key or a field, with the rule that docs/use/formats.md has there.

The word and the table or row are the program's. The file is read here once more, and what is told of the place is a fault of that word;
where this reading finds none there, that is said, with the rule."""
import csv
import difflib
import functools
import io
import itertools
import json
import math
import pathlib
import re
import tomllib
from collections import namedtuple

from .command_line import TOP, Refused
from .formulas import SCHEDS
from .places import Places, spots
from .system_file import LIMIT, NAME, read_system

FAULT = re.compile(r"fault=(\w+)(?: at=(.+?))?(?: row=(\d+))?(?: core=(\S+))? file=([12])")
KINDS = {key: kind for kind, keys in ((str, "name parent sched"), (bool, "extra"), (list, "core part task")) for key in keys.split()}
CALLED = {str: "text", bool: "a truth value", int: "a whole number", float: "a number with a point", list: "an array", dict: "a table"}


# a fault that stands in a file: its word, the key or field, and what is wrong, with the line where the file as such tells none
Found = namedtuple("Found", "word key cause line", defaults=[None])


# The rules of the pages
@functools.cache
def rows_of(page, heading):
    """The rows of the tables under a heading of a page, each as its cells without marks."""
    sections = re.split(r"^#+ ", (TOP / "docs/use" / page).read_text(), flags=re.M)
    section = next(text for text in sections if text.startswith(heading + "\n"))
    return [[cell.strip().replace("`", "") for cell in line.strip("|").split("|")] for line in section.splitlines() if line[:1] == "|"]


def rule_of(page, heading, word):
    told = [cells[cells.index(word) + 1] for cells in rows_of(page, heading) if word in cells[:-1]]
    return "; or ".join(dict.fromkeys(told))


@functools.cache
def tables_of_page():
    """The keys of each table of a system file in order, with what is said of them: of the top, a core, a part and a task."""
    rows = rows_of("formats.md", "System file")
    starts = [place for place, cells in enumerate(rows) if cells == ["Key", "Value"]]
    return [dict(rows[start + 2:end]) for start, end in zip(starts, [*starts[1:], len(rows)])]


def keys_of(spot):
    """The keys of the table at a spot, with what the page says of them."""
    return tables_of_page()[3 if " task " in spot else ("top", "core", "part").index(spot.split()[0])]


# A system file
def shown(value):
    told = json.dumps(value) if isinstance(value, (str, bool)) else str(value)
    return told if isinstance(value, (str, int, float)) else CALLED.get(type(value), "a time")


def near(word, words):
    """What may have been meant."""
    meant = difflib.get_close_matches(str(word), list(words), 1, 0.7)
    return f"; {meant[0]} may be meant" if meant else ""


def bounds(key, table):
    """The least and the most that a number may be, as far as what bounds it is one."""
    number = lambda name, other: table[name] if type(table.get(name)) is int else other
    period = number("period", LIMIT)
    deadline = number("deadline", period)
    return {
        "format": (1, 2), "supply_budget": (1, number("supply_period", LIMIT)), "budget": (1, period), "deadline": (1, period),
        "jitter": (0, deadline - 1), "work": (1, deadline - number("jitter", 0)),
    }.get(key, (1, LIMIT))


def before(tree, spot):
    """The tables whose names a table may not have, behind their spots: those before it."""
    part = spot.partition(" task ")[0] + " task " if " task " in spot else None
    for other, table in spots(tree):
        if other == spot:
            return
        if isinstance(table, dict) and (other.startswith(part) if part else other != "top" and " task " not in other):
            yield other, table


def faults_of_value(key, value, table, spot, tree):
    """The faults of a value of the right kind."""
    named = {other.get("name"): (place, other) for place, other in before(tree, spot) if isinstance(other.get("name"), str)}
    if key == "name":
        if not NAME.fullmatch(value):
            yield "BadName", f"{shown(value)} is no name: 1 to 32 letters, digits, _ and -, a letter first"
        if value in named:
            yield "NameTaken", f"{named[value][0]} has the name {value} too"
    elif key == "parent":
        if value not in named:
            yield "NoSuchParent", f"{value} is no core and no part before this one{near(value, named)}"
        elif named[value][1].get("task"):
            yield "Mixed", f"{value} has tasks, and so no part may stand on it"
    elif key == "sched" and value not in SCHEDS:
        yield "OutOfRange", f"{shown(value)} is none of {', '.join(SCHEDS)}"
    elif KINDS.get(key) is list:
        most = int(re.search(r"(\d+) tables", keys_of(spot)[key])[1])
        if key == "core" and not value:
            yield "Empty", "there is no core"
        if len(value) > most:
            yield "TooMany", f"there are {len(value)}, and there may be {most}"
    elif type(value) is int and not bounds(key, table)[0] <= value <= bounds(key, table)[1]:
        yield "OutOfRange", "{} is not from {} to {}".format(value, *bounds(key, table))


def faults_of_table(spot, table, tree):
    """The faults of a table, key by key in the order of the page."""
    if not isinstance(table, dict):
        yield Found("WrongKind", None, f"{shown(table)} is no table")
        return
    keys = dict(keys_of(spot))
    if tree.get("format") == 1:
        keys.pop("jitter", None)
    for key in table:
        if key not in keys:
            late = key == "jitter" and " task " in spot
            other = f"{key} is no key here{near(key, keys)}; the keys are {', '.join(keys)}"
            yield Found("UnknownKey", key, "jitter is a key of format 2" if late else other)
    pair = {"supply_period", "supply_budget"}
    for key, rule in keys.items():
        wanted = KINDS.get(key, int)
        if key not in table:
            if rule.startswith("required") or key in pair and pair & set(table):
                yield Found("MissingKey", key, f"{key} is not there")
        elif type(table[key]) is not wanted:
            cause = f"{shown(table[key])} is {CALLED.get(type(table[key]), 'a time')}, and {CALLED[wanted]} is asked"
            yield Found("WrongKind", key, cause)
        else:
            for word, cause in faults_of_value(key, table[key], table, spot, tree):
                yield Found(word, key, cause)
    parents = [part.get("parent") for _, part in spots(tree) if isinstance(part, dict)]
    if "task" in keys and not table.get("task") and table.get("name") not in parents:
        yield Found("Empty", "task", "it has no task, and no part stands on it")


def text_fault(data):
    """The first place at which bytes are no TOML, as Python's reader of TOML 1.0 or one of the limits finds it."""
    try:
        text = data.decode("utf-8")
    except UnicodeDecodeError as fault:
        return Found("NotToml", None, f"no UTF-8: the byte 0x{data[fault.start]:02x}", data.count(b"\n", 0, fault.start) + 1)
    text, long = text.removeprefix("\ufeff"), re.compile(r"=\s*[+-]?(\d[\d_]{18,})\s*(?:#.*)?$")
    for line, told in enumerate(text.split("\n"), 1):
        number = long.search(told.rstrip("\r"))
        if number and int(number[1].replace("_", "")) >= 2**63:
            return Found("NotToml", None, "a whole number past 64 bits", line)
    try:
        tomllib.loads(text)
    except (ValueError, RecursionError) as fault:
        place = re.search(r" \(at (?:line (\d+), column (\d+)|end of document)\)", str(fault))
        line = text.count("\n") + 1 if not place or place[1] is None else int(place[1])
        return Found("NotToml", None, f"{str(fault).partition(' (at ')[0]}{f', at column {place[2]}' if place and place[2] else ''}", line)
    return None


def of_system(path, word, spot, core):
    data, rule = pathlib.Path(path).read_bytes(), rule_of("formats.md", "Faults of a system file", word)
    if word == "NotToml":
        found = text_fault(data)
        return told(path, "", found, f"{word}: {rule}. The limits stand in docs/use/formats.md, \"System file\".", found and found.line)
    try:
        text = data.decode().removeprefix("\ufeff")
        tree = tomllib.loads(text)
    except ValueError as fault:
        return [f"{path}: spelled in a way of TOML 1.1 that this tool does not read ({fault}), so it finds no line.", f"{word}: {rule}"]
    tables = dict(spots(tree))
    if word == "NotRtds":
        spot = next((other for other, table in tables.items() if other.startswith("core") and table.get("name") == core), "top")
        key = next((key for key in ("supply_period", "sched") if key in tables[spot]), None)
        found = Found(word, key, "a core under RTDS is under edf and has no supply of its own")
    else:
        candidates = faults_of_table(spot, tables[spot], tree) if spot in tables else ()
        found = next((found for found in candidates if found.word == word), None)
    key, table = found and found.key, tables.get(spot)
    name, own = table.get("name") if isinstance(table, dict) else None, keys_of(spot).get(key)
    where = f"{spot}, {name}" if name and isinstance(name, str) else "the top table" if spot == "top" else spot
    return told(path, where, found, f"{key}: {own}" if own else f"{word}: {rule}", Places(text).line(spot, key))


def told(path, where, found, rule, line):
    """The lines of a fault: where it stands, what is wrong, and the rule."""
    place, where = f"{path}:{line}: " if line else f"{path}: ", ", ".join(filter(None, [where, found and found.key]))
    cause = found.cause if found else "this tool finds no such fault there by its own reading"
    return [f"{place}{where}{': ' if where else ''}{cause}.", rule]


# A second file of rows
PLAIN = re.compile("0|[1-9][0-9]*")


class Row(namedtuple("Row", "line fields keys")):
    """A row of a file of comma-separated values: its line, and its fields by the keys of the header."""

    def __getattr__(self, key):
        return dict(zip(self.keys, self.fields)).get(key, "")


class Rows:
    """A second file up to a row, and the faults of that row in the order of the page."""

    heads, heading, limit = (), "", LIMIT

    def __init__(self, text, number, tree):
        csv.field_size_limit(len(text) + 1)
        reader, self.keys = csv.reader(io.StringIO(text.removeprefix("\ufeff"), newline="")), []
        rows = ((reader.line_num, fields) for fields in reader if fields)
        self.rows = [Row(line, fields, self.keys) for line, fields in itertools.islice(rows, number)]
        self.keys += self.rows[0].fields if self.rows else []
        self.above, self.row = self.rows[1:number - 1], self.rows[number - 1] if number <= len(self.rows) else None
        self.parts = {part["name"]: part for part in tree.get("part", [])} if tree else {}
        self.cores = [core["name"] for core in tree["core"]] if tree else []
        self.vcpus = {name: part for name, part in self.parts.items() if part["parent"] in self.cores}

    def last(self, **wanted):
        """The last row above with these values; a set stands for each of its own."""
        holds = lambda row, key, values: getattr(row, key) in (values if isinstance(values, set) else {values})
        return next((row for row in reversed(self.above) if all(holds(row, *pair) for pair in wanted.items())), None)

    def faults(self):
        if ",".join(self.keys) not in self.heads:
            header = ",".join(self.keys) or "nothing"
            yield Found("BadHeader", None, f"{header} is the header, and {' or '.join(self.heads)} is asked")
        elif self.row is None:
            yield from self.at_end()
        elif end := self.last(what="end"):
            yield Found("AfterEnd", "what", f"the trace ends on line {end.line}")
        elif len(self.row.fields) != len(self.keys):
            yield Found("BadRow", None, f"it has {len(self.row.fields)} fields, and {len(self.keys)} are asked")
        else:
            yield from self.faults_of_row(self.row)

    def at_end(self):
        return iter(())

    def plain(self, *keys):
        for key in keys:
            if not PLAIN.fullmatch(getattr(self.row, key)):
                yield Found("BadRow", key, f"{shown(getattr(self.row, key))} is no plain number: digits, and no leading zero")

    def time(self, word):
        """What is to be said of the moment of a row with a plain one."""
        at, last = int(self.row.at) if PLAIN.fullmatch(self.row.at) else 0, self.above[-1:]
        if at > self.limit:
            yield Found("OutOfRange", "at", f"{at} passes {self.limit}")
        if last and PLAIN.fullmatch(last[0].at) and at < int(last[0].at):
            yield Found(word, "at", f"{at} is less than {last[0].at} on line {last[0].line}")

    def among(self, word, key, names, what):
        value = getattr(self.row, key)
        if value not in names:
            yield Found(word, key, f"{shown(value)} is {what}{near(value, filter(None, names))}")


class Trace(Rows):
    heads, heading, words = ("at,core,what,vcpu", "at_ns,core,what,vcpu"), "Faults of a trace", ("audit",)
    FILLED = {"start": "core vcpu", "wake": "core vcpu", "block": "core vcpu", "run": "core vcpu", "stop": "core", "end": ""}

    def __init__(self, *given):
        super().__init__(*given)
        if self.keys[:1] == ["at_ns"]:
            self.keys[0], self.limit = "at", 1000 * LIMIT
            self.heads = ("at,core,what,vcpu",)

    def at_end(self):
        yield Found("NoEnd", None, "no row says end, and the file ends", self.rows[-1].line)

    def faults_of_row(self, row):
        yield from self.plain("at")
        yield from self.among("BadRow", "what", self.FILLED, f"none of {', '.join(self.FILLED)}")
        for key in ("core", "vcpu") if row.what in self.FILLED else ():
            if bool(getattr(row, key)) != (key in self.FILLED[row.what].split()):
                yield Found("BadRow", key, f"it is {'filled' if getattr(row, key) else 'empty'}, and may not be so at {row.what}")
        yield from self.time("TimeFalls")
        if row.core:
            yield from self.among("Unknown", "core", self.cores, "no core of the system file")
        if row.vcpu:
            yield from self.among("Unknown", "vcpu", self.vcpus, "no part that stands on a core")
        own = self.vcpus.get(row.vcpu, {}).get("parent", row.core)
        if own != row.core:
            yield Found("WrongCore", "core", f"{row.vcpu} stands on {own} and not on {row.core}")
        yield from self.states(row)

    def states(self, row):
        last = self.last(vcpu=row.vcpu, what={"start", "wake", "block"})
        holder = self.last(core=row.core, what={"run", "stop"})
        start = self.last(vcpu=row.vcpu, what="start")
        since = f" since line {last.line}" if last else ""
        checks = (
            ("start", start, "StartedTwice", f"{row.vcpu} was started on line {start and start.line}"),
            ("wake block run", not start, "NotStarted", f"{row.vcpu} was not started"),
            ("wake", last and last.what != "block", "NotBlocked", f"{row.vcpu} is runnable{since}"),
            ("block run", last and last.what == "block", "NotRunnable", f"{row.vcpu} is blocked{since}"),
            ("block", holder and holder.vcpu == row.vcpu, "StillRunning", f"{row.vcpu} has the core since line {holder and holder.line}"),
            ("stop", not holder or holder.what == "stop", "CoreIdle", f"nothing has {row.core}"),
        )
        yield from (Found(word, "what", cause) for whats, holds, word, cause in checks if holds and row.what in whats.split())


class Workload(Rows):
    heads, heading, words = ("at,vcpu,what",), "Workload file", ("rtds", 1)

    def faults_of_row(self, row):
        yield from self.plain("at")
        yield from self.among("BadRow", "what", ("start", "wake", "block"), "none of start, wake, block")
        yield from self.time("BadOrder")
        yield from self.among("Unknown", "vcpu", self.vcpus, "no part that stands on a core")
        last = self.last(vcpu=row.vcpu)
        told = f"its row before is {last.what} at {last.at}, on line {last.line}" if last else "it has no row before"
        after = {"start": [""], "wake": ["block"], "block": ["start", "wake"]}.get(row.what, [])
        if (last.what if last else "") not in after or last and last.at == row.at:
            key = "at" if last and last.at == row.at else "what"
            yield Found("BadOrder", key, f"{row.what} of {row.vcpu}: {told}")


class Releases(Rows):
    heads, heading, words = ("at,part,task,work", "at,part,task,work,early"), "Release file", ("simulate", "early", 1)

    def faults_of_row(self, row):
        yield from self.plain("at", "work", *(["early"] if "early" in self.keys else []))
        yield from self.time("BadOrder")
        tasks = {task["name"]: task for task in self.parts.get(row.part, {}).get("task", [])}
        leaves = [name for name, part in self.parts.items() if part.get("task")]
        yield from self.among("Unknown", "part", leaves, "no part with tasks")
        yield from self.among("Unknown", "task", tasks, f"no task of {row.part}")
        task = tasks.get(row.task)
        if not task or not all(PLAIN.fullmatch(getattr(row, key)) for key in {"at", "work", "early"} & set(self.keys)):
            return
        for key, least, most in (("work", 1, task["work"]), ("early", 0, task.get("jitter", 0))):
            if key in self.keys and not least <= int(getattr(row, key)) <= most:
                yield Found("OutOfRange", key, f"{getattr(row, key)} is not from {least} to {most}, for {row.task} of {row.part}")
        arrived = lambda row: int(row.at) - int(row.early or 0)
        for last in self.above:
            if (last.part, last.task) == (row.part, row.task) and arrived(row) < arrived(last) + task["period"]:
                when = f"it arrives at {arrived(row)}, and the job on line {last.line} at {arrived(last)}"
                yield Found("TooEarly", "at", f"{when}: {task['period']} apart is asked")


class Script(Rows):
    heads, heading, words = ("op,part,parent,sched,period,budget,tasks",), "Script file", ("session",)
    FREE = {"add": {"parent", "budget", "tasks"}, "change": {"budget", "tasks"}, "remove": set()}
    EMPTY = {"add": set(), "change": {"parent"}, "remove": {"parent", "sched", "period", "budget", "tasks"}}
    AT = {"NameTaken": "part", "NoSuchParent": "parent", "Mixed": "parent", "TooMany": "op", "NoSuchLeaf": "part", "LastChild": "part"}

    def faults_of_row(self, row):
        yield from self.among("BadRow", "op", self.FREE, "none of add, change, remove")
        for key in self.keys[1:]:
            value = getattr(row, key)
            if not value and key not in self.FREE.get(row.op, ()) and key not in self.EMPTY.get(row.op, ()):
                yield Found("BadRow", key, f"it is empty, and {row.op} asks for it")
            elif value and key in self.EMPTY.get(row.op, ()):
                yield Found("BadRow", key, f"{shown(value)} stands there, and at {row.op} it is empty")
            elif value:
                yield from self.spelled(key, value)
        yield from (Found(word, key, f"{shown(getattr(row, key))}, as the host stands at this row") for word, key in self.AT.items())
        yield from self.no_part(row)

    def spelled(self, key, value):
        if key in ("part", "parent") and not NAME.fullmatch(value):
            yield Found("BadRow", key, f"{shown(value)} is no name: 1 to 32 letters, digits, _ and -, a letter first")
        elif key == "sched" and value not in SCHEDS:
            yield Found("BadRow", key, f"{shown(value)} is none of {', '.join(SCHEDS)}")
        elif key in ("period", "budget") and not (PLAIN.fullmatch(value) and int(value) < 2**64):
            yield Found("BadRow", key, f"{shown(value)} is no plain number up to 2^64 - 1")
        elif key == "tasks":
            for told in value.split(";"):
                fields = told.split(":")
                if len(fields) != 5 or not all(map(PLAIN.fullmatch, fields[1:])):
                    yield Found("BadRow", key, f"{shown(told)} is not NAME:PERIOD:DEADLINE:JITTER:WORK")
                    continue
                task = {"name": fields[0], **dict(zip(("period", "deadline", "jitter", "work"), map(int, fields[1:])))}
                for found in faults_of_table("part 1 task 1", task, {"format": 2}):
                    yield Found("BadRow", key, f"{shown(told)}: {found.key}: {found.cause}")

    def no_part(self, row):
        """What makes the part of a row none."""
        names = [told.partition(":")[0] for told in row.tasks.split(";") if told]
        period = int(row.period) if PLAIN.fullmatch(row.period) else 1
        for key, most in (("period", LIMIT), ("budget", period)):
            if PLAIN.fullmatch(getattr(row, key)) and not 1 <= int(getattr(row, key)) <= most:
                yield Found("BadPart", key, f"{getattr(row, key)} is not from 1 to {most}")
        if not names:
            yield Found("BadPart", "tasks", "there are none")
        if len(names) > 256 or len(set(names)) < len(names):
            yield Found("BadPart", "tasks", f"there are {len(names)}, and there may be 256" if len(names) > 256 else "two have one name")


class Guests(Script):
    """The guests that `place` puts on cores."""

    words = ("place",)

    def faults_of_row(self, row):
        yield from (found for found in super().faults_of_row(row) if found.word == "BadRow")
        if row.op != "add" or row.parent:
            yield Found("BadGuest", "op" if row.op != "add" else "parent", "a guest is an add without a parent")
        if row.part in [*self.cores, *self.parts, *(other.part for other in self.above)]:
            yield Found("BadGuest", "part", f"a core, a part or an earlier guest has the name {row.part}")
        yield from (Found("BadGuest", found.key, found.cause) for found in self.no_part(row))
        if len(self.parts) + len(self.above) >= 512:
            yield Found("BadGuest", "op", "a file has at most 512 parts")


# A certificate
class Number(str):
    """A number of a JSON text, as it is spelled."""


class Certificate:
    heads, words = ("{",), ("check",)
    KEYS = {
        "budget": ("number", 64), "computed": ("truth",), "falls": ("list of number", 64), "hits": ("list of number", 64),
        "kind": ("word",), "period": ("number", 64), "place": ("number", 32), "points": ("list of text", 128),
        "witness": ("text or null", 128),
    }

    def __init__(self, text):
        self.text = text

    def faults(self):
        def number(word):
            if not math.isfinite(float(word)):
                raise ValueError(f"{word[:20]} is no number that a float of 64 bits holds")
            return Number(word)

        if self.text.startswith("\ufeff"):
            yield Found("NotJson", None, "it begins with a byte order mark", 1)
        try:
            tree = json.loads(self.text.removeprefix("\ufeff"), parse_int=number, parse_float=number, parse_constant=number)
        except (ValueError, RecursionError) as fault:
            known = isinstance(fault, json.JSONDecodeError)
            yield Found("NotJson", None, f"{fault.msg}, at column {fault.colno}" if known else str(fault), fault.lineno if known else None)
            return
        yield from self.keys_of("the top", tree, {"format", "nodes"})
        if not isinstance(tree, dict) or set(tree) != {"format", "nodes"}:
            return
        yield from self.value("format", tree["format"], "number", 64)
        if isinstance(tree["format"], Number) and tree["format"] != "1":
            yield Found("BadNumber", "format", f"{tree['format']} is not 1")
        nodes = tree["nodes"] if isinstance(tree["nodes"], list) else []
        if nodes is not tree["nodes"]:
            yield Found("WrongShape", "nodes", "no array")
        if len(nodes) > 576:
            yield Found("TooMany", "nodes", f"there are {len(nodes)}, and there may be 576")
        for place, node in enumerate(nodes, 1):
            yield from self.keys_of(f"node {place}", node, set(self.KEYS))
            for key, (kind, *bits) in self.KEYS.items() if isinstance(node, dict) else ():
                if key in node:
                    yield from self.value(f"node {place}, {key}", node[key], kind, *bits)

    @staticmethod
    def keys_of(where, value, keys):
        if not isinstance(value, dict) or set(value) != keys:
            wrong = ", ".join(sorted(keys ^ set(value))) if isinstance(value, dict) else "no object"
            yield Found("WrongShape", where, f"it is no object with its {len(keys)} keys alone: {wrong}")

    def value(self, where, value, kind, bits=0):
        """The faults of a value: a number or a text of one below a power of two, a list of such, or a word."""
        if kind.startswith("list of "):
            if not isinstance(value, list):
                yield Found("WrongShape", where, "no array")
            for place, element in enumerate(value if isinstance(value, list) else [], 1):
                yield from self.value(f"{where} {place}", element, kind.removeprefix("list of "), bits)
        elif kind in ("number", "text"):
            if not isinstance(value, str) or isinstance(value, Number) != (kind == "number"):
                yield Found("WrongShape", where, f"no {kind}")
            elif not PLAIN.fullmatch(value) or int(value) >= 2**bits:
                told = shown(str(value)) if kind == "text" else value
                yield Found("BadNumber", where, f"{told} is no plain decimal number below 2^{bits}")
        elif kind == "text or null" and value is not None:
            yield from self.value(where, value, "text", bits)
        elif kind == "truth" and not isinstance(value, bool) or kind == "word" and value not in ("part", "core"):
            yield Found("WrongShape", where, f"{shown(value)} stands there")


# The words
KINDS_OF_SECOND = {
    "trace": Trace, "workload": Workload, "releases": Releases, "script": Script, "guests": Guests, "certificate": Certificate,
}


def kind_of_second(text):
    """What a second file is, by its first line; of a script whether it has guests alone."""
    first = text.removeprefix("\ufeff").lstrip().partition("\n")[0].strip()
    if first[:1] in ("{", "["):
        return "certificate"
    heads = {head: name for name, kind in reversed(KINDS_OF_SECOND.items()) for head in kind.heads}
    name = heads[difflib.get_close_matches(first, heads, 1, 0)[0]] if first else "trace"
    rows = [line.split(",") for line in text.splitlines()[1:] if line]
    return "guests" if name == "script" and rows and all(row[0] == "add" and row[2:3] == [""] for row in rows) else name


def words_of(kind, file, second):
    """The words by which the program reads a second file."""
    command, *more = KINDS_OF_SECOND[kind].words
    return [command, file, second, *more]


def of_second(path, second, kind, word, number):
    text = pathlib.Path(second).read_bytes().decode(errors="surrogateescape")
    if kind == "certificate":
        found = next((found for found in Certificate(text).faults() if found.word == word), None)
        key = found.key.split(", ")[-1].split()[0] if found and found.key else ""
        rule = rule_of("certificate.md", "The text", key)
        rule = f"{key}: {rule}" if rule else 'docs/use/certificate.md, "The text", has the rules.'
        return told(second, "", found, rule, found and found.line)
    try:
        tree = read_system(path).tree
    except Refused:
        tree = None
    rows = KINDS_OF_SECOND[kind](text, number, tree)
    found = next((found for found in rows.faults() if found.word == word), None)
    rule = rule_of("formats.md", rows.heading, word) or 'docs/use/formats.md, "Guests\' file" and "What `place` writes", has the rules'
    row = rows.row or (rows.rows or [Row(1, [], [])])[-1]
    return told(second, f"row {number}", found, f"{word}: {rule}", row.line)


def lines_of(path, second, kind, answer):
    """What is told of an answer that names a fault; refused where it names none of a file."""
    fault = FAULT.fullmatch(answer.text.strip())
    if not fault:
        raise Refused(second or path, None, f"the program does not judge it: {answer.shown} (status {answer.status})")
    word, spot, row, core, file = fault.groups()
    return of_second(path, second, kind, word, int(row or 1)) if file == "2" else of_system(path, word, spot, core)


REFUSED_ROW = re.compile(r"(\d+) refused (\w+)")


def refused_rows(path, second, answer):
    """What is told of the rows of a script that `session` refuses."""
    for number, word in map(re.Match.groups, filter(None, map(REFUSED_ROW.fullmatch, answer.lines))):
        yield from of_second(path, second, "script", word, int(number) + 1)
