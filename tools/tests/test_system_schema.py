"""docs/use/system.schema.json beside docs/use/formats.md, and beside the program that reads a system file. Where the validator (Python's
jsonschema) or the program is missing, the comparison with the program is skipped, and standard error says so."""
import json
import re
import subprocess
import sys
import tomllib
import unittest

from support import program, top

try:
    import jsonschema
except ImportError:
    jsonschema = None

SCHEMA = json.loads((top / "docs/use/system.schema.json").read_text())
TABLES = {"": SCHEMA, **{f"{'part.' * (name == 'task')}{name}": SCHEMA["definitions"][name] for name in ("core", "part", "task")}}
HIGHEST = 1_000_000_000
CORE = "[[core]]\nname = 'c'\nsched = 'edf'\n"
PART = "[[part]]\nname = 'p'\nparent = 'c'\nsched = 'rm'\nperiod = 10\n"
TASK = "[[part.task]]\nname = 't'\nperiod = 50\nwork = 7\n"
FIRST = "format = 1\n"
FILE, LATE = FIRST + CORE + PART + TASK, "format = 2\n" + CORE + PART + TASK


def with_key(text, table, line):
    """The file with a line more in its first table of this name."""
    assert text.count(f"[[{table}]]\n") == 1
    return text.replace(f"[[{table}]]\n", f"[[{table}]]\n{line}\n")


def many(count, text):
    """So many tables with names of their own, where the name has one letter."""
    return "".join(re.sub("name = '.'", f"name = 'n{place}'", text) for place in range(count))


def inner(name, parent):
    return PART.replace("'p'", f"'{name}'").replace("'c'", f"'{parent}'")


# files that are read, by both
GOOD = (
    FILE, FIRST + CORE, FIRST + "part = []\n" + CORE, LATE, with_key(LATE, "part.task", "jitter = 43"),
    with_key(LATE, "part.task", "jitter = 0"),
    with_key(LATE, "part.task", f"jitter = {HIGHEST - 1}").replace("50\nwork = 7", f"{HIGHEST}\nwork = 1"),
    FILE.replace("50", str(HIGHEST)).replace("work = 7", f"work = {HIGHEST}").replace("10\n", f"{HIGHEST}\nbudget = {HIGHEST}\n"),
    with_key(FILE, "core", f"supply_period = {HIGHEST}\nsupply_budget = 1"), with_key(FILE, "part", "budget = 1\nextra = true"),
    with_key(FILE, "part", "extra = false"), with_key(FILE, "part.task", "deadline = 7"),
    FILE.replace("'edf'", "'listed'").replace("'rm'", "'dm'"), FILE.replace("'t'", "'" + "T" + "_-9" * 10 + "a'"),
    FILE.replace(PART, with_key(inner("q", "c"), "part", "task = []") + inner("p", "q")),
    FIRST + many(64, CORE), FIRST + CORE + many(512, PART + "budget = 1\n" + TASK.replace("'t'", "'task'")),
    FIRST + CORE + PART + "budget = 1\n" + many(256, TASK),
)
# the values of a file with all keys
FULL = {
    "": {"format": "2"},
    "core": {"name": "'c'", "sched": "'edf'", "supply_period": "5", "supply_budget": "5"},
    "part": {"name": "'p'", "parent": "'c'", "sched": "'rm'", "period": "10", "budget": "10", "extra": "true"},
    "part.task": {"name": "'t'", "period": "50", "deadline": "50", "jitter": "0", "work": "7"},
}
# values that a key of a kind, or of a name, may not have, and the program's word
WRONG = {
    "integer": [("WrongKind", "'1'"), ("WrongKind", "true"), ("WrongKind", "1.5")],
    "boolean": [("WrongKind", "1"), ("WrongKind", "'yes'")],
    "string": [("WrongKind", "7")],
    "name": [("BadName", f"'{name}'") for name in ("", "1t", "a b", "t" * 33, "t\u00e4")],
    "sched": [("OutOfRange", "'EDF'")],
    "parent": [("NoSuchParent", "'0'")],
}
# other files that both refuse, and the program's word
BROKEN = (
    ("MissingKey", FIRST), ("WrongKind", FIRST + "core = 1\n"), ("WrongKind", FIRST + "[core]\nname = 'c'\nsched = 'edf'\n"),
    ("Empty", FIRST + "core = []\n"), ("TooMany", FIRST + many(65, CORE)), ("WrongKind", FIRST + "core = [7]\n"),
    ("WrongKind", FIRST + "part = 'p'\n" + CORE), ("TooMany", FIRST + CORE + many(513, PART + TASK)),
    ("TooMany", FIRST + CORE + PART + many(257, TASK)), ("WrongKind", with_key(FIRST + CORE + PART, "part", "task = 1")),
    ("WrongKind", with_key(FIRST + CORE + PART, "part", "task = [1]")), ("UnknownKey", with_key(FILE, "part.task", "jitter = 0")),
)
# what a schema cannot say: the program refuses, and the validator does not
CANNOT_SAY = (
    # that names differ, that the parent is there and earlier, that it has no tasks, that a part without tasks is a parent
    ("NameTaken", FIRST + CORE + CORE), ("NameTaken", FILE.replace("'p'", "'c'")), ("NameTaken", FILE + TASK),
    ("NoSuchParent", FILE.replace("parent = 'c'", "parent = 'd'")),
    ("NoSuchParent", FIRST + CORE + inner("p", "q") + TASK + inner("q", "c") + TASK),
    ("Mixed", FILE + inner("q", "p") + TASK), ("Empty", FIRST + CORE + PART),
    # that a budget and a deadline are at most the period, that jitter is below the deadline, that work fits in between
    *(("OutOfRange", with_key(text, table, line)) for text, table, line in (
        (FILE, "part", "budget = 11"), (FILE, "core", "supply_period = 5\nsupply_budget = 6"), (FILE, "part.task", "deadline = 51"),
        (LATE, "part.task", "jitter = 50"), (LATE, "part.task", "jitter = 44"))),
    ("OutOfRange", FILE.replace("work = 7", "work = 51")),
    # that a number is written without a point
    ("WrongKind", FILE.replace("period = 10\n", "period = 10.0\n")),
)


def full(table, key, value):
    """The file with all keys, with another value of one of them; None leaves it out."""
    tables = FULL | {table: FULL[table] | {key: value}}
    heads = {name: [f"[[{name}]]"] if name else [] for name in tables}
    return "\n".join(line for name, keys in tables.items() for line in [*heads[name], *(f"{key} = {it}" for key, it in keys.items() if it)])


def resolved(value):
    """What the schema says of a key, with what it refers to."""
    for held in value.get("allOf", [value]):
        reference = held.get("$ref", "").removeprefix("#/definitions/")
        value = {**value, **SCHEMA["definitions"].get(reference, {}), **{k: v for k, v in value.items() if k != "allOf"}}
    return value


def wrong_values():
    """Files that have all keys but for one that is missing, unknown or of a wrong value, each with its program's word."""
    for name, keys in FULL.items():
        table = TABLES[name]
        yield "UnknownKey", full(name, "priority", "1")
        for key in keys:
            value = resolved(table["properties"][key])
            wrong = WRONG[value["type"]] + WRONG.get(key, [])
            if value["type"] == "integer":
                least, most = value.get("enum") or (value["minimum"], value["maximum"])
                wrong = wrong + [("OutOfRange", str(least - 1)), ("OutOfRange", str(most + 1))]
            wrong = wrong + [("MissingKey", None)] * (key in table["required"] or key in table.get("dependencies", ()))
            yield from ((word, full(name, key, it)) for word, it in wrong)


class Page(unittest.TestCase):
    def test_keys_kinds_ranges_and_defaults(self):
        """They are those of docs/use/formats.md. What is left out has a default where it is the same in every file."""
        text = (top / "docs/use/formats.md").read_text().split("\n## System file\n", 1)[1].split("\n### ", 1)[0]
        pages = re.split(r"^\| Key \| Value \|\n\|---\|---\|\n", text, flags=re.M)[1:]
        for page, table in zip(pages, TABLES.values(), strict=True):
            told = dict(re.findall(r"^\| `(\w+)` \| (.*) \|$", page, re.M))
            self.assertEqual(list(told), list(table["properties"]))
            self.assertEqual([key for key, text in told.items() if text.startswith("required")], table["required"])
            self.assertIs(table["additionalProperties"], False)
            for key, text in told.items():
                value = resolved(table["properties"][key])
                found = re.search(r"\b(\d+) to (?:`(\w+)`|([\d,]+))( - (?:1|`jitter`))?", text)
                if key == "format":
                    self.assertEqual((value["type"], value["enum"]), ("integer", [1, 2]))
                elif value["type"] == "array":
                    most = re.search(r"1 to (\d+)|at most (\d+)", text)
                    self.assertEqual((value["maxItems"], value.get("minItems")), (int(most[1] or most[2]), 1 if most[1] else None))
                elif value["type"] == "integer":
                    highest = int(found[3].replace(",", "")) if found[3] else HIGHEST - (found[4] == " - 1")
                    self.assertEqual((value["minimum"], value["maximum"]), (int(found[1]), highest), key)
                else:
                    self.assertIsNone(found)
                usual = re.search("else (false|0)", text)
                expected = json.loads(usual[1]) if usual else [] if value["type"] == "array" and key != "core" else None
                self.assertEqual(value.get("default"), expected, key)


class Reader(unittest.TestCase):
    """The validator and the program over the same files."""

    @classmethod
    def setUpClass(cls):
        missing = "no validator (Python's jsonschema)" if jsonschema is None else None if program() else "no program is built"
        if missing:
            print(f"docs/use/system.schema.json was not compared with the reader: {missing}", file=sys.stderr)
            raise unittest.SkipTest(missing)
        jsonschema.Draft7Validator.check_schema(SCHEMA)
        cls.validator = jsonschema.Draft7Validator(SCHEMA)

    def read(self, text):
        """The word of the program's fault, or None where it reads the file; and whether the validator takes it."""
        ran = subprocess.run([program(), "admit", "/dev/stdin"], stdout=subprocess.PIPE, text=True, input=text)
        self.assertEqual(ran.returncode == 3, ran.stdout.startswith("fault="), ran)
        self.assertIn(ran.returncode, (0, 1, 3, 4))
        return re.match("fault=(\\w+)", ran.stdout)[1] if ran.returncode == 3 else None, self.validator.is_valid(tomllib.loads(text))

    def test_files(self):
        broken = [*wrong_values(), *BROKEN]
        self.assertGreater(len(broken), 90)
        for files, is_valid in (([(None, text) for text in GOOD], True), (broken, False), (CANNOT_SAY, True)):
            for word, text in files:
                self.assertEqual(self.read(text), (word, is_valid), text[:400])
        examples = [path for folder in ("examples", "examples/linux", "docs") for path in sorted((top / folder).glob("*.toml"))]
        self.assertGreater(len(examples), 10)
        for path in examples:
            fault, is_valid = self.read(path.read_text())
            self.assertEqual(is_valid, fault is None, path)
