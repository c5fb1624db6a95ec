"""The program that a tool asks, and the lines of its answers."""
import os
import re
import shlex
import subprocess
from collections import namedtuple

from .command_line import TOP, Refused

NO_LINE = re.compile(r"overfull (part|core) (\S+) (?:at=(\d+)|task=(\S+))")
PART_LINE = re.compile(r"part (\S+) period=(\d+) budget=(\d+) (given|computed)")
BROKEN_LINE = re.compile(r"(short|over) (\S+) from_ns=(\d+) got_ns=(\d+) of_ns=(\d+)")
TALLY_LINE = re.compile(r"vcpu (\S+) begun=(\d+) judged=(\d+) short=(\d+) over=(\d+) least_ns=(\d+|-) most_ns=(\d+|-)")
SPOT = re.compile(r"at=((?:core|part) \d+(?: task \d+)?)")
# the words that stand alone in a line, behind its first one
ALONE = {
    "part": ("name", "how"), "core": ("name",), "witness": ("name",), "overfull": ("node", "name"), "wide": ("node", "name"),
    "flaw": ("node", "name"), "first": ("task",), "short": ("name",), "over": ("name",), "stolen": ("name",), "isolated": ("name",),
    "exposed": ("name",), "vcpu": ("name",), "response": ("name", "task"), "interface": ("name",), "choose": ("name",), "nothing": (),
    "unplaced": ("name",), "slack": ("name", "task"), "yes": (), "refused": ("fault",), "fault": (), "absent": (), "toolong": (), "periods": (), "guests": (),
}


def value_of(text):
    return None if text == "-" else int(text) if text.isdecimal() else text.replace("\0", " ")


def line_object(line):
    """A line of an answer by its keys, or None where docs/use/formats.md has no such line. Its first word may be the number of a row."""
    words = SPOT.sub(lambda found: found[0].replace(" ", "\0"), line).split(" ")
    told = {"row": int(words.pop(0))} if words[0].isdecimal() else {}
    pairs = [word.partition("=")[::2] for word in words if "=" in word]
    alone = [word for word in words if "=" not in word]
    kind = alone.pop(0) if words and "=" not in words[0] else pairs[0][0] if pairs else None
    if kind not in ALONE or len(alone) > len(ALONE[kind]):
        return None
    return {"kind": kind, **told, **dict(zip(ALONE[kind], alone)), **{key: value_of(value) for key, value in pairs}}


class Answer(namedtuple("Answer", "status text")):
    """What the program printed, and its status."""

    @property
    def lines(self):
        return self.text.splitlines()

    @property
    def is_yes(self):
        return self.status == 0 and self.lines[:1] == ["verdict=yes"]

    @property
    def shown(self):
        return " ".join(self.lines[:2]) or f"status {self.status}"

    def told(self, *kinds):
        """The lines of these kinds by their keys."""
        return [line for line in map(line_object, self.lines) if line and line["kind"] in kinds]

    def refused_node(self):
        """On a no the kind and the name of the node that is told, and its window or its task."""
        return NO_LINE.fullmatch(self.lines[1]) if self.status == 1 and len(self.lines) > 1 else None

    def budgets(self):
        """The budget of each part that is told, and whether it was given."""
        found = map(PART_LINE.fullmatch, self.lines)
        return {line[1]: (int(line[3]), line[4] == "given") for line in found if line}


class Program:
    def __init__(self, words):
        self.words, self.asked = words, 0

    @property
    def path(self):
        return self.words[0]

    def ask(self, *words, text=None):
        """The answer to a command and its words; /dev/stdin as a word stands for the text."""
        self.asked += 1
        told = {"stdin": subprocess.DEVNULL} if text is None else {"input": text.encode()}
        ran = subprocess.run([*self.words, *map(str, words)], stdout=subprocess.PIPE, stderr=subprocess.DEVNULL, **told)
        return Answer(ran.returncode, ran.stdout.decode(errors="replace"))

    def admit(self, system):
        return self.ask("admit", "/dev/stdin", text=system.text())


def is_built(path):
    """Whether a program stands there, and no script that would build it first."""
    try:
        with open(path, "rb") as file:
            return file.read(4) == b"\x7fELF" and os.access(path, os.X_OK)
    except OSError:
        return False


def built_program():
    """The program that was proved in this checkout, or that this release has; or None."""
    return next((str(path) for path in (TOP / "crates/rtadmit/out/rtadmit", TOP / "rtadmit") if is_built(path)), None)


def add_program(parser):
    told = "the program to ask; where none is named, the one that RTADMIT names, or else the proved one of this folder"
    parser.add_argument("--program", metavar="WORDS", help=told)


def program_of(words=None):
    """The program that the words name, or that is there without."""
    found = shlex.split(words or os.environ.get("RTADMIT", "")) or [path for path in [built_program()] if path]
    if not found:
        raise Refused(None, None, "no program is built that could be asked: ./rtadmit builds one, or name one by --program")
    return Program(found)
