"""Where the tables and the keys of a system file stand in its text, and that text with other values."""
import re
import tomllib

HEAD = re.compile(r"\s*\[\[?\s*([\w.-]+)\s*\]?\]\s*(?:#.*)?")
PAIR = re.compile(r"""\s*(?:([\w-]+)|"([^"]*)"|'([^']*)')\s*=.*""")
VALUE = re.compile(r"=\s*[^#]*?(\s*(?:#.*)?)$")


def spots(tree):
    """Each table of a system file behind the place that the program tells of it, also of a file with faults."""
    yield "top", tree
    for kind in ("core", "part"):
        for number, table in enumerate(listed(tree, kind), 1):
            yield f"{kind} {number}", table
            for place, task in enumerate(listed(table, "task") if kind == "part" else [], 1):
                yield f"{kind} {number} task {place}", task


def listed(table, key):
    found = table.get(key) if isinstance(table, dict) else None
    return found if isinstance(found, list) else []


class Places:
    """The lines of tables, by their spots, and of keys, as far as each has a line of its own."""

    def __init__(self, text):
        self.lines, self.heads, self.keys = text.split("\n"), {"top": 1}, {}
        spot, counts = "top", {"core": 0, "part": 0, "part.task": 0}
        for line, told in enumerate(self.lines, 1):
            if head := HEAD.fullmatch(told.rstrip("\r")):
                counts.update({"part.task": 0} if head[1] == "part" else {})
                spot = self.begin(head[1], counts, line)
            elif pair := PAIR.fullmatch(told.rstrip("\r")):
                self.keys.setdefault((spot, next(filter(None, pair.groups()), "")), line)

    def begin(self, kind, counts, line):
        """The spot of the table that begins on a line."""
        part = f"part {counts['part']}"
        self.keys.setdefault((part, "task") if kind == "part.task" else ("top", kind.split(".")[0]), line)
        if kind not in counts:
            return kind
        counts[kind] += 1
        spot = f"{part} task {counts[kind]}" if kind == "part.task" else f"{kind} {counts[kind]}"
        self.heads[spot] = line
        return spot

    def line(self, spot, key=None):
        """The line of a key, or else of its table, or else of what the table stands in."""
        above, _, _ = spot.rpartition(" task ")
        within = (above, "task") if above else ("top", spot.split()[0])
        return self.keys.get((spot, key)) or self.heads.get(spot) or self.keys.get(within) or (self.line(above) if above else None)

    def edited(self, edits):
        """The text with other values: of a spot and a key the value, or None where the key goes; or None where one has no line."""
        lines = dict(enumerate(self.lines, 1))
        for spot, key, value in edits:
            line, told = self.keys.get((spot, key)), spelled(value)
            if line:
                lines[line] = None if value is None else VALUE.sub(lambda found: f"= {told}{found[1]}", lines[line])
            elif named := self.keys.get((spot, "name")):
                lines[named] += f"\n{key} = {told}"
            else:
                return None
        return "\n".join(told for told in lines.values() if told is not None)


def spelled(value):
    return str(value).lower() if isinstance(value, bool) else f'"{value}"' if isinstance(value, str) else str(value)


def rewritten(text, old, new):
    """The text of a system with the values of another one of the same tables: with all its comments where the values stand on lines of
    their own, else newly written, behind the comments of its front."""
    places = Places(text)
    values = []
    for (spot, table), (_, other) in zip(spots(old.tree), spots(new.tree)):
        values += [(spot, key, other.get(key)) for key in {**table, **other} if table.get(key) != other.get(key)]
    told = places.edited([edit for edit in values if not isinstance(edit[2], list)])
    if told is not None and is_spelled(told, new.tree):
        return told
    front = places.lines[:min([*list(places.heads.values())[1:], len(places.lines)]) - 1]
    return "".join(f"{line}\n" for line in front if line.startswith("#")) + new.text()


def is_spelled(text, tree):
    try:
        return tomllib.loads(text.removeprefix("\ufeff")) == tree
    except ValueError:
        return False
